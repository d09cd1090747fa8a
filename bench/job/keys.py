"""Writes a plan and an input with one record in each window.

    keys.py PLAN INPUT RECORDS chosen|random

Chosen keys collide, all of them, in a table that hashes a start and a key by multiplying and folding with the
public numbers below, as the kit's own hasher does. Random keys have the same shape. A job over both has to cost alike.
"""

import json
import random
import sys

MASK = (1 << 64) - 1
MULTIPLIER = 0x9E3779B97F4A7C15
START = 0x243F6A8885A308D3
ROWS = 1000


def folded_product(a, b):
    product = a * b
    return (product & MASK) ^ (product >> 64)


def chosen(start):
    key = folded_product(START ^ start, MULTIPLIER ^ 16) ^ 12345
    return key - (1 << 64) if key >> 63 else key


def plan():
    aggregates = [{"fn": "count"}, {"fn": "sum", "column": 2}]
    window = {"uid": "w", "size": 1, "aggregates": aggregates}
    sources = [{"uid": "s", "partitions": 1}]
    return {"columns": 3, "maxParallelism": 128, "time": 0, "key": 1, "sources": sources, "window": window}


def main():
    plan_path, input_path, records, shape = sys.argv[1:]
    draw = random.Random(1)
    key = chosen if shape == "chosen" else lambda _: draw.getrandbits(64) - (1 << 63)
    rows = [[start, key(start), start % 97] for start in range(int(records))]
    entries = [{"rows": rows[first : first + ROWS]} for first in range(0, len(rows), ROWS)]
    with open(plan_path, "w") as out:
        json.dump(plan(), out)
    with open(input_path, "w") as out:
        json.dump({"s": [entries]}, out, separators=(",", ":"))


main()
