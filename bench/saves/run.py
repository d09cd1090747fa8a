#!/usr/bin/env python3
"""Runs one leg without savepoints on its way and with more and more of them, and prints what each took.

    bench/saves/run.py [--program PROGRAM] [--runs N] [name=number ..]

The input is that of `bench/job/generate.rs`, with its names and defaults (`records=1000000 keys=100000`, say), in a
folder of its own that is removed. The leg goes to the end of the input, alone, with 16 savepoints where it begins,
which hold nothing, and with 1, 4 and 16 on its way, at cuts at even steps through the input, the last of which is
always the same. How many panes and numbers stand in the windows at each of these cuts is read off a leg that stops
there.

For each, the least CPU time of user and system, the least wall time and the greatest peak of memory, of 3 runs or as
--runs says, the CPU time over that of the leg alone, and by how much the peak is over that of the leg with one
savepoint, for each number that is kept for the savepoints before the last. Ends with status 1 if two legs print other
rows.
"""
import argparse
import json
import pathlib
import re
import subprocess
import sys
import tempfile

sys.dont_write_bytecode = True
sys.path.insert(0, str(pathlib.Path(__file__).resolve().parents[1]))
from measuring import PROGRAM, generate, measured  # noqa: E402

COUNTS = [1, 4, 16]
SCALE = '{"ring": 16, "operators": %s}'


def told(program, folder, *words):
    return subprocess.run([program, *words], cwd=folder, capture_output=True, text=True, check=True).stdout


def write_scale(folder):
    """Writes a scale with one subtask for each operator of the plan."""
    plan = json.loads((folder / "plan.json").read_text())
    named = plan["sources"] + plan.get("filters", []) + [plan["window"]]
    (folder / "scale.json").write_text(SCALE % json.dumps({it["uid"]: {"parallelism": 1} for it in named}))


def cuts_at(program, folder, count):
    """So many cuts at even steps through the input."""
    ends = [line.split()[1:4] for line in told(program, folder, "cuts", "plan.json", "input.json").splitlines()]
    found = []
    for step in range(1, count + 1):
        sources = {}
        for uid, _, entries in ends:
            sources.setdefault(uid, []).append(str(int(entries) * step // (count + 1)))
        found.append("/".join(",".join(counts) for counts in sources.values()))
    return found


def numbers_at(program, folder, cut):
    """How many panes stand in the windows at a cut, and how many numbers they have together."""
    told(program, folder, "leg", "plan.json", "input.json", "scale.json", "--stop", cut, "--save", "stopped")
    entries = [line.split() for line in told(program, folder, "show", "stopped").splitlines() if line.startswith("entry")]
    return len(entries), sum(len(entry) - 5 for entry in entries)


def measure(program, folder, runs):
    """Prints what each leg took; gives whether all printed the same."""
    line = ["leg", "plan.json", "input.json", "scale.json"]
    alone = measured(program, folder, runs, line, "alone.rows")
    print(f"alone        CPU {alone.cpu:7.3f} s; wall {alone.wall:7.3f} s; peak {alone.peak:7.1f} MB", flush=True)
    cuts = cuts_at(program, folder, max(COUNTS))
    nothing = re.sub("[0-9]+", "0", "+".join(cuts))
    cost = measured(program, folder, runs, [*line, "--saves", nothing], "saved.rows")
    print(f"{len(cuts)} of nothing CPU {cost.cpu:7.3f} s, {cost.cpu / alone.cpu:.2f} of it alone; wall {cost.wall:7.3f} s; peak {cost.peak:7.1f} MB", flush=True)
    held = [numbers_at(program, folder, cut) for cut in cuts]
    last, is_same = None, True
    for count in COUNTS:
        taken = [cuts[step * len(cuts) // count - 1] for step in range(1, count + 1)]
        cost = measured(program, folder, runs, [*line, "--saves", "+".join(taken), "--save", "last"], "saved.rows")
        last = last or cost
        is_same &= (folder / "saved.rows").read_bytes() == (folder / "alone.rows").read_bytes()
        panes, numbers = map(sum, zip((0, 0), *(held[cuts.index(cut)] for cut in taken[:-1])))
        more = f"; {panes} panes and {numbers} numbers kept, {(cost.peak - last.peak) * 2**20 / numbers:.0f} bytes more for each number" if numbers else ""
        print(f"{count:2} savepoints CPU {cost.cpu:7.3f} s, {cost.cpu / alone.cpu:.2f} of it alone; wall {cost.wall:7.3f} s; peak {cost.peak:7.1f} MB{more}", flush=True)
    return is_same


def main():
    words = argparse.ArgumentParser(description=__doc__, formatter_class=argparse.RawDescriptionHelpFormatter)
    words.add_argument("--program", default=str(PROGRAM))
    words.add_argument("--runs", type=int, default=3)
    words.add_argument("shape", nargs="*")
    words = words.parse_args()
    program = str(pathlib.Path(words.program).resolve())
    with tempfile.TemporaryDirectory() as name:
        folder = pathlib.Path(name)
        generate(folder, words.shape)
        write_scale(folder)
        return 0 if measure(program, folder, words.runs) else 1


if __name__ == "__main__":
    sys.exit(main())
