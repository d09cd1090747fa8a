#!/usr/bin/env python3
"""What a leg takes that leaves many panes, and one that begins with them.

    bench/savepoint/legs.py [--program PROGRAM] [--panes N] [--runs N]

The input is that of `bench/job/generate.rs`, with N records (1000000) and nearly as many keys, all in one window. The
first leg stops before the last entry of each partition and leaves the panes in a savepoint; the second goes on from it
by one entry and leaves them again; the third goes on from it to the end. For each, and for reading the input alone
(`cuts`), the least CPU time and the greatest peak of memory, of 3 runs or as --runs says, in turn.
"""
import argparse
import pathlib
import sys
import tempfile

sys.dont_write_bytecode = True
sys.path.insert(0, str(pathlib.Path(__file__).resolve().parents[1]))
from measuring import PROGRAM, Cost, generate, run_once  # noqa: E402

SCALE = '{"ring":16,"operators":{"records":{"parallelism":1},"totals":{"parallelism":1}}}'


def counts_of(cuts):
    """How many entries each partition has, by what `cuts` prints."""
    lines = [line.split() for line in cuts.read_text().splitlines()]
    return [int(words[3]) for words in lines if words[0] == "source"]


def legs_of(counts):
    """The words of each leg, behind its name."""
    leg = ["leg", "plan.json", "input.json", "scale.json"]
    before = [str(count - 1) for count in counts]
    later = [str(counts[0]), *before[1:]]
    return [
        ("leaves them", [*leg, "--stop", ",".join(before), "--save", "one"]),
        ("goes on, leaves them", [*leg, "--from", "one", "--stop", ",".join(later), "--save", "two"]),
        ("goes on to the end", [*leg, "--from", "one"]),
    ]


def measure(program, folder, runs):
    """Prints what each took, and the size of the savepoint."""
    reading = ("reading alone", ["cuts", "plan.json", "input.json"])
    run_once(program, folder, reading[1], "cuts")
    commands = [reading, *legs_of(counts_of(folder / "cuts"))]
    costs = {name: Cost() for name, _ in commands}
    for _ in range(runs):
        for name, words in commands:
            costs[name].take(*run_once(program, folder, words, "out"))
    for name, cost in costs.items():
        beside = cost.peak - costs[reading[0]].peak
        print(f"{name:20} CPU {cost.cpu:6.3f} s; peak {cost.peak:6.1f} MB, {beside:6.1f} beside reading")
    print(f"the savepoint has {(folder / 'one').stat().st_size} bytes")


def main():
    words = argparse.ArgumentParser(description=__doc__, formatter_class=argparse.RawDescriptionHelpFormatter)
    words.add_argument("--program", default=str(PROGRAM))
    words.add_argument("--panes", type=int, default=1000000)
    words.add_argument("--runs", type=int, default=3)
    said = words.parse_args()
    program = str(pathlib.Path(said.program).resolve())
    with tempfile.TemporaryDirectory() as name:
        folder = pathlib.Path(name)
        shape = [f"records={said.panes}", f"keys={100 * said.panes}", "size=1000000000", "slide=1000000000"]
        generate(folder, shape)
        (folder / "scale.json").write_text(SCALE)
        measure(program, folder, said.runs)
    return 0


if __name__ == "__main__":
    sys.exit(main())
