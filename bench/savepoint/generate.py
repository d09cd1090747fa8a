#!/usr/bin/env python3
"""Writes a savepoint with so many entries of count, sum, least and greatest, and the job that goes on from it:
generate.py FOLDER ENTRIES.

Keys are numbered from 0 and each has one window, so that an entry's group is its key's, as Flink's key groups have it.
The job has nothing left to read but a watermark, so that a leg from the savepoint prints a row for each entry.
"""
import json
import pathlib
import struct
import sys

MAX = 128
OFFSET = 10
# How many bytes the index has of a key group, and an entry of four numbers.
HEAD_SIZE = 18
ENTRY_SIZE = 24 + 16 * 4
# The canonical record of the plan: 3 columns, 128 key groups, time and key; windows of 60,000; the source `s`; no
# filter; count, and sum, least and greatest of column 2; no having condition.
RECORD = bytes.fromhex(
    "03 0080 00 01  000000000000ea60 000000000000ea60 0000000000000000  01 01 73  00  04 0000 0102 0202 0302  00"
)


def murmur_hash(code):
    code = code * 0xCC9E2D51 & 0xFFFFFFFF
    code = (code << 15 | code >> 17) & 0xFFFFFFFF
    code = code * 0x1B873593 & 0xFFFFFFFF
    code = (code << 13 | code >> 19) & 0xFFFFFFFF
    code = (code * 5 + 0xE6546B64) & 0xFFFFFFFF
    code ^= 4
    code ^= code >> 16
    code = code * 0x85EBCA6B & 0xFFFFFFFF
    code ^= code >> 13
    code = code * 0xC2B2AE35 & 0xFFFFFFFF
    code ^= code >> 16
    if code < 1 << 31:
        return code
    return 0 if code == 1 << 31 else (1 << 32) - code


def group_of(key):
    return murmur_hash((key ^ key >> 32) & 0xFFFFFFFF) % MAX


def entry(key):
    count = key % 7 + 1
    numbers = (count, key * 31 - 500, -(key % 1000), key % 100_000)
    return struct.pack(">qqQ", 60_000, key, count) + b"".join(n.to_bytes(16, "big", signed=True) for n in numbers)


def number(kind):
    return {"fn": kind} if kind == "count" else {"fn": kind, "column": 2}


def texts():
    """The plan of the record, an input with as many records before the savepoint as an entry counts, and a scale."""
    window = {"uid": "w", "size": 60_000, "aggregates": [number(kind) for kind in ("count", "sum", "least", "greatest")]}
    plan = {"columns": 3, "maxParallelism": MAX, "time": 0, "key": 1, "sources": [{"uid": "s", "partitions": 1}], "window": window}
    read = [{"rows": [[time, 0, 1]]} for time in range(OFFSET - 1)] + [{"watermark": 59_999}]
    scale = {"ring": 16, "operators": {"s": {"parallelism": 1}, "w": {"parallelism": 1}}}
    return {"plan": plan, "input": {"s": [[*read, {"watermark": 60_000}]]}, "scale": scale}


def main(folder, entries):
    for name, text in texts().items():
        (folder / f"{name}.json").write_text(json.dumps(text))
    groups = {}
    for key in range(entries):
        groups.setdefault(group_of(key), []).append(key)
    with open(folder / "savepoint", "wb") as out:
        out.write(b"WSP2" + struct.pack(">QH", 1, len(RECORD)) + RECORD + struct.pack(">H", MAX))
        out.write(b"\x01\x01s\x01" + struct.pack(">Qq", OFFSET, 59_999))
        out.write(b"\x01w\x04\x00\x01\x02\x03" + struct.pack(">H", len(groups)))
        place = out.tell() + HEAD_SIZE * len(groups)
        for group in sorted(groups):
            out.write(struct.pack(">HQQ", group, len(groups[group]), place))
            place += ENTRY_SIZE * len(groups[group])
        for group in sorted(groups):
            out.write(b"".join(entry(key) for key in groups[group]))


main(pathlib.Path(sys.argv[1]), int(sys.argv[2]))
