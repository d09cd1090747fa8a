#!/usr/bin/env python3
"""What it costs to stop a job again and again, and to go on from what it left.

    bench/savepoint/lists.py [--program PROGRAM] [--legs N] [--keys K] [--runs N]

The input is that of `bench/job/generate.rs`, with ten records for each of K keys (40000), all in one window. The job
runs to its end whole, and by a list of N legs (64): each but the last stops at a cut in the second half of the input,
at even steps, and the next goes on from its savepoint. For both the least CPU time and the greatest peak of memory, of
3 runs or as --runs says, in turn, and what the legs take beyond the whole for each key and leg. Ends with status 1 if
the rows differ.
"""
import argparse
import json
import pathlib
import sys
import tempfile

sys.dont_write_bytecode = True
sys.path.insert(0, str(pathlib.Path(__file__).resolve().parents[1]))
from legs import SCALE, counts_of  # noqa: E402
from measuring import PROGRAM, Cost, generate, run_once  # noqa: E402


def legs_of(counts, number):
    """A list of so many legs, as JSON."""
    scale = json.loads(SCALE)
    cuts = [[count // 2 + count // 2 * leg // number for count in counts] for leg in range(1, number)]
    return json.dumps([*({"scale": scale, "stop": [cut]} for cut in cuts), {"scale": scale}])


def measure(program, folder, said):
    """Prints what both took; returns whether their rows are the same."""
    run_once(program, folder, ["cuts", "plan.json", "input.json"], "cuts")
    (folder / "legs.json").write_text(legs_of(counts_of(folder / "cuts"), said.legs))
    whole = ["run", "plan.json", "input.json"]
    commands = {"whole": whole, f"{said.legs} legs": [*whole, "legs.json"]}
    costs = {name: Cost() for name in commands}
    for _ in range(said.runs):
        for name, words in commands.items():
            costs[name].take(*run_once(program, folder, words, name))
    for name, cost in costs.items():
        print(f"{name:10} CPU {cost.cpu:6.3f} s; peak {cost.peak:6.1f} MB")
    first, last = costs.values()
    print(f"for each key and leg {1e6 * (last.cpu - first.cpu) / said.legs / said.keys:.2f} microseconds")
    one, other = ((folder / name).read_bytes() for name in commands)
    return one == other


def main():
    words = argparse.ArgumentParser(description=__doc__, formatter_class=argparse.RawDescriptionHelpFormatter)
    words.add_argument("--program", default=str(PROGRAM))
    words.add_argument("--legs", type=int, default=64)
    words.add_argument("--keys", type=int, default=40000)
    words.add_argument("--runs", type=int, default=3)
    said = words.parse_args()
    program = str(pathlib.Path(said.program).resolve())
    with tempfile.TemporaryDirectory() as name:
        folder = pathlib.Path(name)
        generate(folder, [f"records={10 * said.keys}", f"keys={said.keys}", "size=1000000000", "slide=1000000000"])
        if not measure(program, folder, said):
            print("the rows of the legs are not those of the whole")
            return 1
    return 0


if __name__ == "__main__":
    sys.exit(main())
