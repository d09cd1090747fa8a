"""What the benchmarks of the program share: a generated job, and what a command took."""
import os
import pathlib
import subprocess
import sys
import time

HERE = pathlib.Path(__file__).resolve().parent
PROGRAM = HERE.parent / "crates/streamjob/out/streamjob"


class Cost:
    """The least time and the greatest peak of some runs of a command."""

    def __init__(self):
        self.cpu, self.wall, self.peak = float("inf"), float("inf"), 0.0

    def take(self, usage, wall):
        self.cpu = min(self.cpu, usage.ru_utime + usage.ru_stime)
        self.wall = min(self.wall, wall)
        self.peak = max(self.peak, usage.ru_maxrss / 1024)


def run_once(program, folder, words, out):
    """Runs a command with its output to a file of the folder; gives what it used, and how long it took."""
    with open(folder / out, "wb") as file:
        begun = time.monotonic()
        child = subprocess.Popen([program, *words], cwd=folder, stdout=file)
        _, status, usage = os.wait4(child.pid, 0)
        wall = time.monotonic() - begun
    child.returncode = os.waitstatus_to_exitcode(status)
    if child.returncode:
        sys.exit(f"{' '.join(words)}: status {child.returncode}")
    return usage, wall


def measured(program, folder, runs, words, out):
    cost = Cost()
    for _ in range(runs):
        cost.take(*run_once(program, folder, words, out))
    return cost


def generate(folder, shape):
    """Writes plan.json and input.json into a folder, of the shape that the words say."""
    made = folder / "generate"
    subprocess.run(["rustc", "--edition", "2024", "-O", str(HERE / "job/generate.rs"), "-o", str(made)], check=True)
    subprocess.run([str(made), "plan.json", "input.json", *shape], cwd=folder, check=True)
