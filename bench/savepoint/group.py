#!/usr/bin/env python3
"""Decodes one key group of a savepoint by its index, beside all of it, and prints what each took.

    bench/savepoint/group.py PROGRAM SAVEPOINT GROUP [RUNS]

PROGRAM is that of crates/savepoint_bench or of plain.rs. What it takes to begin, to read the file and to end is taken
off, as a run tells that decodes nothing: the least CPU time and the greatest peak of RUNS runs (5) of each count. Ends
with status 1 where a key group takes over 2 % of the time or of the memory of all entries.
"""
import pathlib
import sys

sys.dont_write_bytecode = True
sys.path.insert(0, str(pathlib.Path(__file__).resolve().parents[1]))
from measuring import measured  # noqa: E402

MOST = 0.02
# How often each is decoded in a run: so often that a run takes a while beside its beginning.
TIMES = {"decode": 10, "group": 500}


def main():
    if len(sys.argv) not in (4, 5):
        sys.exit(__doc__)
    program, savepoint, group = sys.argv[1:4]
    runs = int(sys.argv[4]) if len(sys.argv) == 5 else 5
    program, savepoint = pathlib.Path(program).resolve(), pathlib.Path(savepoint).resolve()
    took = {}
    for mode, times in TIMES.items():
        words = lambda count: [mode, str(count), str(savepoint), *([group] if mode == "group" else [])]
        none, some = (measured(program, savepoint.parent, runs, words(count), "answer") for count in (0, times))
        took[mode] = 1000 * (some.cpu - none.cpu) / times, some.peak - none.peak
        print(f"{mode:7} {took[mode][0]:9.3f} ms CPU, {took[mode][1]:8.2f} MiB beside the file's {none.peak:.1f}")
    ratios = [one / all_ for one, all_ in zip(took["group"], took["decode"])]
    print(f"group {group} takes {ratios[0]:.2%} of the time and {ratios[1]:.2%} of the memory")
    return 1 if max(ratios) > MOST else 0


if __name__ == "__main__":
    sys.exit(main())
