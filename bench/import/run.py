#!/usr/bin/env python3
"""Imports one file with streamjob and, where they are there, with pandas and Miller, and exports the rows of a job;
prints what each took.

    bench/import/run.py [--program PROGRAM] [--lines N] [--runs N]

The files, of 1,000,000 lines if N does not say else, in a folder of their own that is removed:

- `usage.csv`: a time in ISO 8601, one of 1,000 names, two whole numbers and a decimal, which become the numbers of
  `time:ms,customer:name,status,bytes,seconds:3`. pandas and Miller do the same (`tables.py`, `records.mlr`), and the
  rows of pandas are compared with those of streamjob.
- `numbers.csv` and `numbers.ndjson`: three whole numbers, of which streamjob has to make the same input; and the first
  with `--once` of two fields, which sets nothing aside.
- `rows.txt`: what `run` prints of the job over `numbers.csv`, a row for each line, which `export` writes as CSV and as
  JSON.

For each, the least CPU time of user and system, and the greatest peak of memory, of 3 runs or as N says. Ends with
status 1 if two answers differ.
"""
import argparse
import json
import os
import pathlib
import random
import shutil
import sys
import tempfile
import time

HERE = pathlib.Path(__file__).resolve().parent
PROGRAM = HERE.parents[1] / "crates/streamjob/out/streamjob"
USAGE = "time:ms,customer:name,status,bytes,seconds:3"
START = 1772366400


def usage_lines(chance, count):
    yield "time,customer,status,bytes,seconds\n"
    for line in range(count):
        second = START + line // 50
        day, rest = divmod(second - START, 86400)
        clock = f"2026-03-{1 + day:02}T{12 + rest // 3600 if rest < 43200 else rest // 3600 - 12:02}:{rest // 60 % 60:02}:{rest % 60:02}.{line % 50 * 20:03}Z"
        yield f"{clock},customer-{chance.randrange(1000)},{chance.choice((200, 204, 404, 500))},{chance.randrange(200000)},{chance.randrange(3000) / 1000:.3f}\n"


def number_rows(chance, count):
    return [(1000 + line, chance.randrange(100000), chance.randrange(-5000, 5000)) for line in range(count)]


def plan_of(columns, size):
    aggregates = [{"fn": "count"}, {"fn": "sum", "column": columns - 1}, {"fn": "greatest", "column": columns - 1}]
    return {"columns": columns, "maxParallelism": 128, "time": 0, "key": 1, "sources": [{"uid": "s", "partitions": 1}], "window": {"uid": "w", "size": size, "aggregates": aggregates}}


def made(folder, lines):
    """Writes the files."""
    chance = random.Random(1)
    (folder / "usage.csv").write_text("".join(usage_lines(chance, lines)))
    rows = number_rows(chance, lines)
    (folder / "numbers.csv").write_text("at,key,value\n" + "".join(f"{at},{key},{value}\n" for at, key, value in rows))
    (folder / "numbers.ndjson").write_text("".join(f'{{"at":{at},"key":{key},"value":{value}}}\n' for at, key, value in rows))
    (folder / "usage.json").write_text(json.dumps(plan_of(5, 60000)))
    (folder / "plan.json").write_text(json.dumps(plan_of(3, 1)))


def peak_of(child):
    """The most memory in KB that a program which runs has had at once: its own, while what wait4 tells of begins with
    this script's."""
    with open(f"/proc/{child}/status") as it:
        return next((int(line.split()[1]) for line in it if line.startswith("VmHWM:")), 0)


def took(folder, words, out):
    """The CPU seconds and the peak in MB of a program, whose standard output goes to a file. Ends where it fails."""
    peak, ended = 0, 0
    with open(folder / out, "wb") as it:
        child = os.posix_spawnp(words[0], words, os.environ, file_actions=[(os.POSIX_SPAWN_DUP2, it.fileno(), 1)])
        while not ended:
            peak = max(peak, peak_of(child))
            time.sleep(0.002)
            ended, status, used = os.wait4(child, os.WNOHANG)
    if status:
        sys.exit(f"{' '.join(words)}: ends with {os.waitstatus_to_exitcode(status)}")
    return used.ru_utime + used.ru_stime, peak / 1024


def told(folder, runs, name, words, out="out"):
    measured = [took(folder, words, out) for _ in range(runs)]
    print(f"| {name} | {min(cpu for cpu, _ in measured):.2f} | {max(peak for _, peak in measured):.1f} |", flush=True)


def python_with_pandas():
    """A Python that has pandas, if there is one."""
    for python in ("python3", "/usr/bin/python3"):
        path = shutil.which(python)
        if path and os.system(f"{path} -c 'import pandas' 2>/dev/null") == 0:
            return path
    return None


def same(folder, one, other):
    """Whether two inputs have the same rows."""
    rows = [[row for entry in json.loads((folder / it).read_text())["s"][0] for row in entry["rows"]] for it in (one, other)]
    if rows[0] != rows[1]:
        print(f"{one} and {other} have other rows")
    return rows[0] == rows[1]


def main():
    reader = argparse.ArgumentParser(description=__doc__, formatter_class=argparse.RawDescriptionHelpFormatter)
    reader.add_argument("--program", default=str(PROGRAM))
    reader.add_argument("--lines", type=int, default=1000000)
    reader.add_argument("--runs", type=int, default=3)
    said = reader.parse_args()
    program, agree = str(pathlib.Path(said.program).resolve()), True
    with tempfile.TemporaryDirectory() as room:
        folder = pathlib.Path(room)
        made(folder, said.lines)
        os.chdir(folder)
        print("| Program | CPU, s | Peak, MB |\n|---|---|---|")
        told(folder, said.runs, "nothing but its version", [program, "version"])
        told(folder, said.runs, "import, usage", [program, "import", "usage.json", "usage_input.json", USAGE, "s=usage.csv", "--names", "names.csv"])
        pandas = python_with_pandas()
        if pandas:
            told(folder, said.runs, "pandas", [pandas, str(HERE / "tables.py"), "usage.csv", "pandas.json"])
            agree &= same(folder, "usage_input.json", "pandas.json")
        else:
            print("absent: pandas")
        if shutil.which("mlr"):
            told(folder, said.runs, "Miller", ["mlr", "--icsv", "--ojsonl", "--from", "usage.csv", "put", "-q", "-f", str(HERE / "records.mlr")], "miller.ndjson")
        else:
            print("absent: Miller")
        numbers = [program, "import", "plan.json"]
        told(folder, said.runs, "import, numbers, CSV", [*numbers, "input.json", "at,key,value", "s=numbers.csv"])
        told(folder, said.runs, "import, numbers, NDJSON", [*numbers, "other.json", "at,key,value", "s=numbers.ndjson"])
        told(folder, said.runs, "import, numbers, CSV, --once at,key", [*numbers, "once.json", "at,key,value", "s=numbers.csv", "--once", "at,key"])
        agree &= same(folder, "input.json", "other.json") and same(folder, "input.json", "once.json")
        told(folder, said.runs, "run, a row a line", [program, "run", "plan.json", "input.json"], "rows.txt")
        told(folder, said.runs, "export, CSV", [program, "export", "plan.json", "rows.txt", "at:ms,key,value:2"], "rows.csv")
        told(folder, said.runs, "export, JSON", [program, "export", "plan.json", "rows.txt", "at:ms,key,value:2", "--json"], "rows.ndjson")
    return 0 if agree else 1


if __name__ == "__main__":
    sys.exit(main())
