"""Runs programs for one job in turn, compares what they print, and prints what each took.

    compare.py RUNS NAME COMMAND [NAME COMMAND ..]

A command is one word, split at spaces. The first program's answer and numbers are what the others
are compared with. The least time of RUNS runs counts, and the greatest peak of memory.
A peak is never below that of this script when it starts a program, about 15 MB.
"""

import filecmp
import os
import subprocess
import sys
import tempfile
import time


def run(command, answer):
    """Wall seconds, CPU seconds and peak in MB of a command, whose output goes to the file `answer`."""
    with open(answer, "wb") as out:
        began = time.monotonic()
        process = subprocess.Popen(command.split(), stdout=out)
        _, status, usage = os.wait4(process.pid, 0)
        wall = time.monotonic() - began
    process.returncode = os.waitstatus_to_exitcode(status)
    if process.returncode != 0:
        sys.exit(f"{command}: status {process.returncode}")
    return wall, usage.ru_utime + usage.ru_stime, usage.ru_maxrss * 1024 / 1e6


def measured(programs, runs, folder):
    """The numbers of each program's runs. Ends where one prints another answer than the first."""
    took = {name: [] for name in programs}
    first = None
    for _ in range(runs):
        for name, command in programs.items():
            answer = os.path.join(folder, name)
            took[name].append(run(command, answer))
            first = first or answer
            if not filecmp.cmp(first, answer, shallow=False):
                sys.exit(f"{name}: another answer than that of {os.path.basename(first)}")
    return took


def main():
    programs = dict(zip(sys.argv[2::2], sys.argv[3::2], strict=True))
    with tempfile.TemporaryDirectory() as folder:
        took = measured(programs, int(sys.argv[1]), folder)
    print(f"{'':12} {'wall s':>8} {'CPU s':>8} {'peak MB':>8}   ratios of wall, CPU and peak")
    base = None
    for name, numbers in took.items():
        walls, times, peaks = zip(*numbers)
        best = (min(walls), min(times), max(peaks))
        base = base or best
        ratios = " ".join(f"{one / other:6.2f}" for one, other in zip(best, base))
        print(f"{name:12} {best[0]:8.3f} {best[1]:8.3f} {best[2]:8.1f}   {ratios}")


main()
