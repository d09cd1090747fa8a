"""Times a leg with a thread for each task beside the same leg in one thread.

    threads.py PROGRAM [RECORDS]

RECORDS is a number of records (1000000), and RUNS how often each command runs (3). For each case it makes a plan, an
input and a list of one leg, and runs `run PLAN INPUT LEGS`, which has a thread for each task, and `simulate PLAN INPUT
LEGS CHOICES` with no choice, which makes the steps of the same tasks in one thread. It ends where their rows differ.

It prints wall and CPU seconds of both, the least of the runs, and what threads took over one thread: of the whole
command, and of the leg alone, for which the time of a leg in one thread that stops where it begins, having read the
input, is taken off both. The last cases have all but two of the processors taken away.
"""

import dataclasses
import json
import os
import pathlib
import random
import subprocess
import sys
import tempfile
import time

KEYS = 1000
DISORDER = 500
MOST_CORES = 64


@dataclasses.dataclass
class Case:
    """A job at a scale: the subtasks of each source, of a filter that passes all, if there is one, and of the
    window."""

    sources: list
    window: int
    rows: int
    filter: int = 0
    cores: int = MOST_CORES

    @property
    def tasks(self):
        return sum(self.sources) + self.filter + self.window + 1

    @property
    def name(self):
        parts = [f"{self.tasks} tasks, entries of {self.rows}"]
        return ", ".join(parts + [f"{self.cores} cores"] * (self.cores < MOST_CORES))


CASES = [
    Case([1], 1, 1000),
    Case([1], 1, 10),
    Case([4], 8, 1000),
    Case([4], 8, 10),
    Case([64, 7], 64, 1000, filter=64, cores=2),
    Case([64, 7], 64, 10, filter=64, cores=2),
]


def uid(place):
    return f"records-{place}"


def plan_of(case):
    aggregates = [{"fn": "count"}] + [{"fn": it, "column": 2} for it in ("sum", "least", "greatest")]
    plan = {"columns": 3, "maxParallelism": 128, "time": 0, "key": 1}
    plan["sources"] = [{"uid": uid(place), "partitions": max(4, it)} for place, it in enumerate(case.sources)]
    if case.filter:
        plan["filters"] = [{"uid": "all", "column": 2, "op": "ge", "value": 0}]
    plan["window"] = {"uid": "totals", "size": 10000, "aggregates": aggregates}
    return plan


def scale_of(case):
    operators = {uid(place): {"parallelism": it} for place, it in enumerate(case.sources)}
    if case.filter:
        operators["all"] = {"parallelism": case.filter, "chain": False}
    operators["totals"] = {"parallelism": case.window}
    return {"ring": 16, "operators": operators}


def entries_of(draw, records, rows):
    """Rows of one partition whose times rise but for the disorder, with a watermark behind each entry."""
    entries, latest = [], 0
    for first in range(0, records, rows):
        block = []
        for _ in range(min(rows, records - first)):
            latest += draw.randrange(3)
            block.append([latest - draw.randrange(DISORDER), draw.randrange(KEYS), draw.randrange(10000)])
        entries += [{"rows": block}, {"watermark": latest - DISORDER}]
    return entries


def write_input(path, case, records):
    draw = random.Random(1)
    counts = [max(4, it) for it in case.sources]
    share = records // sum(counts)
    job = {uid(place): [entries_of(draw, share, case.rows) for _ in range(it)] for place, it in enumerate(counts)}
    path.write_text(json.dumps(job, separators=(",", ":")))
    return [[0] * it for it in counts]


def run(command, cores, answer):
    """Wall and CPU seconds of a command, whose output goes to the file `answer`."""
    with open(answer, "wb") as out:
        began = time.monotonic()
        process = subprocess.Popen(command, stdout=out, preexec_fn=lambda: os.sched_setaffinity(0, cores))
        _, status, usage = os.wait4(process.pid, 0)
        wall = time.monotonic() - began
    process.returncode = os.waitstatus_to_exitcode(status)
    if process.returncode != 0:
        sys.exit(f"{' '.join(map(str, command))}: status {process.returncode}")
    return wall, usage.ru_utime + usage.ru_stime


def least(commands, cores, folder):
    """The least wall and CPU seconds of the runs of each command, by its name. They run in turn, so that a slow minute
    is one for all."""
    took = {name: [] for name in commands}
    for _ in range(int(os.environ.get("RUNS", "3"))):
        for name, command in commands.items():
            took[name].append(run(command, cores, folder / f"{name}.rows"))
    return {name: tuple(min(it) for it in zip(*runs)) for name, runs in took.items()}


def ratio(one, other):
    return f"{one / other:6.2f}" if one > 0 and other > 0 else f"{'-':>6}"


def measure(program, case, records, folder):
    plan, path, legs, choices = (folder / it for it in ("plan.json", "input.json", "legs.json", "choices.json"))
    plan.write_text(json.dumps(plan_of(case)))
    start = write_input(path, case, records)
    legs.write_text(json.dumps([{"scale": scale_of(case)}]))
    choices.write_text("[[]]")
    stopped = folder / "stopped.json"
    stopped.write_text(json.dumps([{"scale": scale_of(case), "stop": start}]))
    cores = sorted(os.sched_getaffinity(0))[: case.cores]
    commands = {
        "reading": [program, "simulate", plan, path, stopped, choices],
        "many": [program, "run", plan, path, legs],
        "one": [program, "simulate", plan, path, legs, choices],
    }
    took = least(commands, cores, folder)
    reading, many, one = (took[name] for name in commands)
    if (folder / "many.rows").read_bytes() != (folder / "one.rows").read_bytes():
        sys.exit(f"{case.name}: threads print other rows than one thread")
    whole = " ".join(ratio(a, b) for a, b in zip(many, one))
    leg = " ".join(ratio(a - c, b - c) for a, b, c in zip(many, one, reading))
    print(f"{case.name:38} {many[0]:8.3f} {many[1]:8.3f} {one[0]:8.3f} {one[1]:8.3f}   {whole}   {leg}", flush=True)


def main():
    if not 2 <= len(sys.argv) <= 3:
        sys.exit(__doc__)
    program, records = pathlib.Path(sys.argv[1]).resolve(), int((sys.argv[2:] or ["1000000"])[0])
    print(f"{'':38} {'threads':>17} {'one thread':>17}   {'threads over one thread':>13}")
    print(f"{'':38} {'wall s':>8} {'CPU s':>8} {'wall s':>8} {'CPU s':>8}   {'command':>13}   {'leg alone':>13}")
    for case in CASES:
        with tempfile.TemporaryDirectory() as folder:
            measure(program, case, records, pathlib.Path(folder))


main()
