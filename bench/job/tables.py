"""The job of generate's plan in pandas, from a file of input.

    tables.py INPUT SIZE SLIDE
"""

import json
import sys

import numpy
import pandas


def placed(records, size, slide):
    """Each record once for each window of its time."""
    last = records["time"] - records["time"] % slide
    steps = [records.assign(start=last - back) for back in range(0, size, slide)]
    records = pandas.concat(steps)
    return records[records["start"] > records["time"] - size]


def main():
    path, size, slide = sys.argv[1], int(sys.argv[2]), int(sys.argv[3])
    with open(path) as file:
        partitions = json.load(file)["records"]
    rows = [numpy.array(entry["rows"]) for entries in partitions for entry in entries if "rows" in entry]
    records = pandas.DataFrame(numpy.concatenate(rows)[:, :3], columns=["time", "key", "number"])
    groups = placed(records, size, slide).groupby(["start", "key"])["number"]
    totals = groups.agg(["count", "sum", "min", "max"]).reset_index()
    totals.insert(1, "end", totals["start"] + size)
    totals.to_csv(sys.stdout, sep=" ", header=False, index=False, lineterminator="\n")


main()
