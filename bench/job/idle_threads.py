"""Measures what the threads of a job burn while one of them does nothing.

    idle_threads.py PROGRAM [SECONDS]

It runs `run --parallelism 4` on an input of 1,000,000 records, and as soon as all tasks have a thread it stops one of
them by ptrace for SECONDS (10), each task in a run of its own: then no other can go on for long, since a ring fills or
stays empty. After a second, in which they come to rest, it counts what the process has of CPU time in the others,
prints it in percent of one core, and lets the thread go on: the rows have to be those of a run that nothing held.
"""

import ctypes
import json
import os
import pathlib
import random
import subprocess
import sys
import tempfile
import time

RECORDS = 1_000_000
PARALLELISM = 4
TASKS = 2 * PARALLELISM + 1
SEIZE, INTERRUPT, DETACH = 0x4206, 0x4207, 17
TICKS = os.sysconf("SC_CLK_TCK")
REST = 1.0

PLAN = {
    "columns": 3,
    "maxParallelism": 128,
    "time": 0,
    "key": 1,
    "sources": [{"uid": "records", "partitions": PARALLELISM}],
    "window": {"uid": "totals", "size": 10_000, "aggregates": [{"fn": "sum", "column": 2}]},
}

libc = ctypes.CDLL(None, use_errno=True)
libc.ptrace.argtypes = [ctypes.c_long, ctypes.c_long, ctypes.c_void_p, ctypes.c_void_p]


def ptrace(request, thread):
    if libc.ptrace(request, thread, None, None) != 0:
        number = ctypes.get_errno()
        raise OSError(number, os.strerror(number))


def entries_of(draw):
    entries, latest = [], 0
    for _ in range(RECORDS // PARALLELISM // 1000):
        rows = []
        for _ in range(1000):
            latest += draw.randrange(3)
            rows.append([latest, draw.randrange(1000), draw.randrange(10_000)])
        entries += [{"rows": rows}, {"watermark": latest - 1}]
    return entries


def threads_of(process):
    return sorted(int(it) for it in os.listdir(f"/proc/{process.pid}/task"))


def started(process):
    """The threads of the tasks, in the order in which they were made: all but the main one, once there are so many."""
    while process.poll() is None:
        threads = threads_of(process)
        if len(threads) == TASKS + 1:
            return [it for it in threads if it != process.pid]
    sys.exit("the job ended before all of its threads were seen")


def seconds_of(process):
    fields = pathlib.Path(f"/proc/{process.pid}/stat").read_text().rpartition(")")[2].split()
    return (int(fields[11]) + int(fields[12])) / TICKS


def burnt_while_held(command, place, seconds):
    """CPU seconds of the process while the thread at a place stands still, and what it prints in the end."""
    process = subprocess.Popen(command, stdout=subprocess.PIPE)
    thread = started(process)[place]
    ptrace(SEIZE, thread)
    ptrace(INTERRUPT, thread)
    os.waitpid(thread, 0x40000000)
    time.sleep(REST)
    before = seconds_of(process)
    time.sleep(seconds)
    burnt = seconds_of(process) - before
    ptrace(DETACH, thread)
    rows, _ = process.communicate()
    return burnt, rows


def main():
    if not 2 <= len(sys.argv) <= 3:
        sys.exit(__doc__)
    program, seconds = pathlib.Path(sys.argv[1]).resolve(), float((sys.argv[2:] or ["10"])[0])
    draw = random.Random(1)
    with tempfile.TemporaryDirectory() as name:
        folder = pathlib.Path(name)
        plan, path = folder / "plan.json", folder / "input.json"
        plan.write_text(json.dumps(PLAN))
        path.write_text(json.dumps({"records": [entries_of(draw) for _ in range(PARALLELISM)]}))
        command = [program, "run", plan, path, "--parallelism", str(PARALLELISM)]
        wanted = subprocess.run(command, stdout=subprocess.PIPE, check=True).stdout
        for place in range(TASKS):
            burnt, rows = burnt_while_held(command, place, seconds)
            if rows != wanted:
                sys.exit(f"thread {place}: other rows")
            print(f"thread {place} of {TASKS} held: {100 * burnt / seconds:5.2f} % of a core", flush=True)


main()
