#!/usr/bin/env python3
"""Runs one job whole and in parts, and prints what each command took.

    bench/parts/run.py [--program PROGRAM] [--parts N] [--runs N] [name=number ..]

The input is that of `bench/job/generate.rs`, with its names and defaults (`records=1000000 keys=100000`, say), in a
folder of its own that is removed. Measured are `cuts`, which reads it and does nothing else, `check`, `run`, `split`
into N parts (4), `run` of each part, and `rows` over what they print, of which the text has to be that of the one
`run`.

For each, the least CPU time of user and system, the least wall time and the greatest peak of memory, of 3 runs or as
--runs says, in turn, and the CPU time over that of reading. `ranges` is what scripts/streamjob_dask does in place of
`rows`, by all processors (scripts/row_ranges.py); of it the wall time alone is measured. The last line has the longest
way of a job whose parts run side by side, over the one `run`: that of the slowest part, with `rows` behind it, with
`ranges` behind it, and with `split` before it and `ranges` behind. Ends with status 1 if two answers differ.
"""
import argparse
import os
import pathlib
import sys
import tempfile
import time

sys.dont_write_bytecode = True
HERE = pathlib.Path(__file__).resolve()
sys.path[:0] = [str(HERE.parents[1]), str(HERE.parents[2] / "scripts")]
from measuring import PROGRAM, Cost, generate, run_once  # noqa: E402
from row_ranges import put_together  # noqa: E402


def told(name, cost, reading):
    print(f"{name:12} CPU {cost.cpu:7.3f} s, {cost.cpu / reading:5.2f} of reading; wall {cost.wall:7.3f} s; peak {cost.peak:7.1f} MB", flush=True)


def commands_of(parts):
    """Each command's name, its words, and the file that its output goes to, each behind those whose files it reads."""
    runs = [(f"run part {part}", ["run", "plan.json", f"part.{part}"], f"{part}.rows") for part in range(parts)]
    return [
        ("cuts", ["cuts", "plan.json", "input.json"], "out"),
        ("check", ["check", "plan.json", "input.json"], "out"),
        ("run", ["run", "plan.json", "input.json"], "whole.rows"),
        ("split", ["split", "plan.json", "input.json", str(parts), "part"], "out"),
        *runs,
        ("rows", ["rows", *(out for _, _, out in runs)], "all.rows"),
    ]


def put_in_ranges(program, folder, rows):
    """How long it takes to put rows together by all processors."""
    with tempfile.TemporaryDirectory(dir=folder) as name, open(folder / "ranges.rows", "wb") as out:
        begun = time.monotonic()
        if not put_together(program, rows, out, pathlib.Path(name) / "ranges", len(os.sched_getaffinity(0))):
            sys.exit("there are too few rows, or processors, for ranges")
        return time.monotonic() - begun


def costs_of(program, folder, commands, runs):
    """What each command took, by its name, and the wall time of ranges. They run in turn, so that a slow minute is one
    for all; `split` finds no parts."""
    costs, ranges = {name: Cost() for name, _, _ in commands}, float("inf")
    rows = [folder / out for name, _, out in commands if name.startswith("run part")]
    for _ in range(runs):
        for name, words, out in commands:
            if name == "split":
                for part in folder.glob("part.*"):
                    part.unlink()
            costs[name].take(*run_once(program, folder, words, out))
        ranges = min(ranges, put_in_ranges(program, folder, rows))
    return costs, ranges


def measure(program, folder, parts, runs):
    """Prints what each command took; returns whether the parts gave what the whole gave."""
    costs, ranges = costs_of(program, folder, commands_of(parts), runs)
    for name, cost in costs.items():
        told(name, cost, costs["cuts"].cpu)
    print(f"ranges       wall {ranges:7.3f} s")
    slowest = max(cost.wall for name, cost in costs.items() if name.startswith("run part"))
    ways = {"the slowest part": slowest, "with rows": slowest + costs["rows"].wall, "with ranges": slowest + ranges, "with split and ranges": slowest + costs["split"].wall + ranges}
    whole = costs["run"].wall
    print("longest way over one run:", ", ".join(f"{name} {way / whole:.2f}" for name, way in ways.items()))
    return len({(folder / name).read_bytes() for name in ("whole.rows", "all.rows", "ranges.rows")}) == 1


def main():
    words = argparse.ArgumentParser(description=__doc__, formatter_class=argparse.RawDescriptionHelpFormatter)
    words.add_argument("--program", default=str(PROGRAM))
    words.add_argument("--parts", type=int, default=4)
    words.add_argument("--runs", type=int, default=3)
    words.add_argument("shape", nargs="*", default=[])
    said = words.parse_args()
    program = str(pathlib.Path(said.program).resolve())
    with tempfile.TemporaryDirectory() as name:
        folder = pathlib.Path(name)
        generate(folder, said.shape)
        if not measure(program, folder, said.parts, said.runs):
            print("the rows of the parts are not those of the whole")
            return 1
    return 0


if __name__ == "__main__":
    sys.exit(main())
