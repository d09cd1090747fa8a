"""What each command of streamjob has to answer: its status, standard output and standard error."""
import collections
import itertools
import re

from . import receipts
from .jobs import (
    LEAST, Refusal, SINK, ends_of, leg_with_saves, level_stages, nothing_of, read_cut, read_cuts, read_input, read_legs, read_plan, read_scale, read_time, require,
    mark_of, require_choices, require_saves, require_stop, text_of, watermark_at,
)
from .savepoints import check, decode, encode, entries_of_group, savepoint_of


def answer(command, files, *words):
    """The answer of a command, whose files are named by words; a file that it writes is put among them."""
    try:
        return 0, command(files, *words), ""
    except Refusal as refusal:
        return refusal.status(), "", f"{refusal}\n"


def run(files, plan, input_, legs=None, choices=None):
    """The answer of `run`, in one leg, in those of a list, or with `--parallelism N`, and of `simulate`, which has
    choices as well."""
    if legs == "--parallelism":
        return run_parallel(files, plan, input_, choices)
    plan = read_plan(files[plan])
    sources = read_input(plan, files[input_])
    legs = [([], None)] if legs is None else read_legs(plan, files[legs])
    if choices is not None:
        require_choices(files[choices], len(legs))
    start, rows = nothing_of(sources), []
    for saves, stop in legs:
        if stop is not None:
            require_stop(sources, start, stop)
        cut = stop or ends_of(sources)
        require_saves(sources, start, saves, cut)
        more, start, _ = leg_with_saves(plan, sources, start, saves, cut)
        rows += more
    return text_of(plan, sorted(rows))


def run_parallel(files, plan, input_, parallelism):
    """The answer of `run` with `--parallelism N`: that of `run`, where a scale of so many subtasks is not refused."""
    read = read_plan(files[plan])
    read_input(read, files[input_])
    level_stages(read, parallelism)
    return run(files, plan, input_)


def run_leg(files, plan, input_, scale, *options):
    """The answer of `leg`, whose options are `--from FILE`, `--saves CUTS`, `--stop CUT`, `--save FILE`, `--stop-file
    FILE`, which is there from the first or never, and those of receipts, `--since FILE`, `--receipt FILE` and `--names
    FILE`."""
    options = dict(zip(options[::2], options[1::2]))
    require("--since" not in options or "--from" in options, "C2 Number")
    require("--names" not in options or "--since" in options or "--receipt" in options, "C2 Number")
    require("--receipt" not in options or options["--receipt"] != options.get("--save"), "C2 Number")
    read = [plan, input_, scale, options.get("--names"), options.get("--stop-file")]
    require_apart(options.get("--save"), [*read, options.get("--since")])
    require_apart(options.get("--receipt"), [*read, options.get("--from")])
    require("--stop-file" not in options or ("--stop" not in options and "--saves" not in options and "--save" in options), "C1 Cut")
    if "--since" in options:
        require_receipt(files, plan, input_, options)
    plan = read_plan(files[plan])
    sources = read_input(plan, files[input_])
    read_scale(plan, files[scale])
    start, cut = nothing_of(sources), ends_of(sources)
    if "--from" in options:
        start = check(plan, sources, decode(files[options["--from"]]))
    saves = read_cuts(options["--saves"]) if "--saves" in options else []
    if "--stop" in options:
        cut = read_cut(options["--stop"])
        require_stop(sources, start, cut)
    require_saves(sources, start, saves, cut)
    is_asked = options.get("--stop-file") in files
    rows, left, saved = leg_with_saves(plan, sources, start, saves, start.cut if is_asked else cut)
    has_stopped = "--stop" in options or is_asked
    if has_stopped:
        saved = left
    if "--save" in options and saved is not None:
        files[options["--save"]] = encode(savepoint_of(plan, sources, saved))
    text = text_of(plan, rows)
    if "--receipt" in options:
        legs = left.number if has_stopped else start.number + 1
        files[options["--receipt"]] = receipts.text_of(plan, sources, left.cut, legs, text, files.get(options.get("--names")))
    return text


def require_apart(written, read):
    """Refuses to write a file over one that is read."""
    require(written is None or written not in read, "F2 Write")


def require_receipt(files, plan, input_, options):
    """Refuses a leg that goes on by a receipt of something else. What the leg refuses of the texts is left to it."""
    try:
        read = read_plan(files[plan])
        sources = read_input(read, files[input_])
        start = check(read, sources, decode(files[options["--from"]]))
    except Refusal:
        return
    receipts.check(read, sources, start.cut, files[options["--since"]], files.get(options.get("--names")))


def run_told(files, plan, input_, *options):
    """The answer of `run` with `--receipt FILE`, `--parallelism N` and `--names FILE`; without a receipt there are no
    names."""
    options = dict(zip(options[::2], options[1::2]))
    require("--names" not in options or "--receipt" in options, "C2 Number")
    require_apart(options.get("--receipt"), [plan, input_, options.get("--names")])
    text = run_parallel(files, plan, input_, options["--parallelism"]) if "--parallelism" in options else run(files, plan, input_)
    read = read_plan(files[plan])
    sources = read_input(read, files[input_])
    if "--receipt" in options:
        files[options["--receipt"]] = receipts.text_of(read, sources, ends_of(sources), 1, text, files.get(options.get("--names")))
    return text


def show(files, savepoint, *options):
    """The answer of `show`, whose option is `--group=G` or two words; with it of bytes that begin as a savepoint with
    an index and are none any other will do."""
    if options:
        word = options[-1].removeprefix("--group=")
        require(re.fullmatch(r"[0-9]{1,5}", word, re.ASCII) and int(word) <= 32767, "C2 Number")
        group = int(word)
        return lines_of(["entry", group, start, key, count, *numbers] for start, key, count, numbers in entries_of_group(files[savepoint], group))
    saved = decode(files[savepoint])
    lines = [["number", saved.number], ["max", saved.max]]
    for uid, partitions in saved.sources:
        lines += [["source", uid, p, *partition] for p, partition in enumerate(partitions)]
    lines += [["window", saved.uid]]
    lines += [["entry", group, start, key, count, *numbers] for group, start, key, count, numbers in saved.entries()]
    return lines_of(lines)


def cuts(files, plan, input_, *options):
    """The answer of `cuts`, whose option is `--until=TIME` or `--open`."""
    plan = read_plan(files[plan])
    sources = read_input(plan, files[input_])
    if not options:
        return lines_of(extent(plan, uid, p, entries) for (uid, _), partitions in zip(plan.sources, sources) for p, entries in enumerate(partitions))
    if options[0] == "--open":
        count = lambda entries: max(0, len(entries) - 1)
    else:
        time = read_time(options[0].removeprefix("--until="))
        count = lambda entries: next(n for n in range(len(entries) + 1) if watermark_at(entries, n) >= time - 1)
    return word_of_cut([[count(entries) for entries in partitions] for partitions in sources]) + "\n"


def word_of_cut(cut):
    return "/".join(",".join(map(str, counts)) for counts in cut)


def extent(plan, uid, place, entries):
    """The words of the line of a partition."""
    times = [record[plan.time] for entry in entries for record in entry.get("rows", [])]
    ends = [min(times), max(times)] if times else ["-", "-"]
    return ["source", uid, place, len(entries), len(times), *ends, max(map(mark_of, entries), default=LEAST)]


def layout(files, plan, scale):
    plan = read_plan(files[plan])
    stages = read_scale(plan, files[scale])
    last, sources = len(stages) - 1, len(plan.sources)
    lines = [["stage", s, stage.parallelism, *stage.uids] for s, stage in enumerate(stages)] + [["stage", len(stages), 1, SINK]]
    for s, stage in enumerate(stages):
        to = max(s + 1, sources)
        after = stages[to].parallelism if to <= last else 1
        kind = "group" if to == last else "forward" if stage.parallelism == after else "rebalance"
        lines += [["edge", s, to, kind]]
    for s, stage in enumerate(stages[:sources]):
        partitions = range(plan.sources[s][1])
        lines += [["partitions", s, i, *partitions[i::stage.parallelism]] for i in range(stage.parallelism)]
    lines += [["groups", last, i, *ends] for i, ends in enumerate(group_ranges(plan.max, stages[last].parallelism))]
    return lines_of(lines)


def group_ranges(groups, parallelism):
    """The first and the last key group of each subtask of the window: group g is of subtask g * parallelism /
    groups."""
    sizes = collections.Counter(group * parallelism // groups for group in range(groups))
    ends = list(itertools.accumulate(sizes[subtask] for subtask in range(parallelism)))
    return [(end - sizes[subtask], end - 1) for subtask, end in enumerate(ends)]


def lines_of(lines):
    return "".join(" ".join(map(str, line)) + "\n" for line in lines)


COMMANDS = {"run": run, "simulate": run, "leg": run_leg, "cuts": cuts, "layout": layout, "show": show}
