"""What streamjob has to answer, worked out from the rules of docs/FORMATS.md and docs/FAULTS.md in the plainest way.

Each command is a function of the bytes of its files and of its words. It gives the text of standard output, or raises
the Refusal that standard error has. Nothing here is made as the program makes it: there are no subtasks, no messages
and no order of steps.
"""
import dataclasses
import datetime
import functools
import json
import re
import struct

LEAST, GREATEST = -(2**63), 2**63 - 1
LEAST_TIME, GREATEST_TIME = -(2**62), 2**62 - 1
OPS = {
    "eq": lambda a, b: a == b, "ne": lambda a, b: a != b, "lt": lambda a, b: a < b,
    "le": lambda a, b: a <= b, "gt": lambda a, b: a > b, "ge": lambda a, b: a >= b,
}
KINDS = ["count", "sum", "least", "greatest"]
SINK = "(sink)"


class Refusal(Exception):
    """A fault, by the line that standard error has."""

    def status(self):
        return 2 if str(self).startswith("C") else 3


def require(holds, line):
    if not holds:
        raise Refusal(line)


# JSON texts and their shapes.

def json_of(data, line):
    """The value of a JSON text; a number that is no whole one, as `3.0` or `-0`, is a float."""
    def refuse(text):
        raise ValueError(text)

    def real(text):
        return float(text) if abs(float(text)) != float("inf") else refuse(text)

    def whole(text):
        number = real(text)
        return number if text == "-0" else int(text)

    try:
        return json.loads(data.decode(), parse_constant=refuse, parse_float=real, parse_int=whole)
    except ValueError:
        raise Refusal(line) from None


def is_number(value):
    return type(value) is int and LEAST <= value <= GREATEST


def is_text(value):
    return type(value) is str


def is_flag(value):
    return type(value) is bool


def is_list(value):
    return type(value) is list


def word_of(words):
    return lambda value: is_text(value) and value in words


def list_of(is_part):
    return lambda value: is_list(value) and all(map(is_part, value))


def members(needed, other=None):
    """An object with just these members, of which the other ones may be left out."""
    other = other or {}
    kinds = needed | other

    def is_so(value):
        if type(value) is not dict or not needed.keys() <= value.keys() <= kinds.keys():
            return False
        return all(kinds[name](part) for name, part in value.items())

    return is_so


def either(one, other):
    return lambda value: one(value) or other(value)


def members_alike(is_part):
    return lambda value: type(value) is dict and all(map(is_part, value.values()))


IS_FILTER = members({"uid": is_text, "column": is_number, "op": word_of(OPS), "value": is_number})
IS_AGGREGATE = either(members({"fn": word_of(KINDS[:1])}), members({"fn": word_of(KINDS[1:]), "column": is_number}))
IS_HAVING = members({"aggregate": is_number, "op": word_of(OPS), "value": is_number})
IS_WINDOW = members(
    {"uid": is_text, "size": is_number, "aggregates": list_of(IS_AGGREGATE)},
    {"slide": is_number, "offset": is_number, "having": list_of(IS_HAVING)},
)
IS_SOURCE = members({"uid": is_text, "partitions": is_number}, {"watermarks": members({"bound": is_number})})
IS_PLAN = members(
    {
        "columns": is_number, "maxParallelism": is_number, "time": is_number, "key": is_number, "window": IS_WINDOW,
        "sources": list_of(IS_SOURCE),
    },
    {"filters": list_of(IS_FILTER)},
)
# Elements of records and watermarks that are no numbers have a fault of their own.
IS_ENTRY = either(members({"rows": list_of(is_list)}), members({"watermark": lambda value: True}))
IS_INPUT = members_alike(list_of(list_of(IS_ENTRY)))
IS_CUT = list_of(list_of(lambda value: type(value) is int and 0 <= value < 2**64))
IS_LEGS = list_of(members({"scale": lambda value: True}, {"saves": list_of(IS_CUT), "stop": IS_CUT}))
IS_CHOICES = list_of(list_of(lambda value: type(value) is int and 0 <= value < 2**32))
IS_SCALE = members({"ring": is_number, "operators": members_alike(members({"parallelism": is_number}, {"chain": is_flag}))})


# Plan, input, scale.

@dataclasses.dataclass(eq=False)
class Plan:
    columns: int
    max: int
    time: int
    key: int
    sources: list  # of (uid, number of partitions)
    bounds: dict  # of the sources that make their own watermarks, by uid
    filters: list  # of (uid, column, op, value)
    uid: str  # the window's
    size: int
    slide: int
    offset: int
    aggregates: list  # of (kind, column)
    having: list  # of (aggregate, op, value)

    def passes(self, record):
        return all(OPS[op](record[column], value) for _, column, op, value in self.filters)

    def starts(self, time):
        """The starts of the windows of a time."""
        start = time - (time - self.offset) % self.slide
        while start > time - self.size:
            yield start
            start -= self.slide

    def first(self, record):
        """The count, and the numbers of a window that has this record alone."""
        return 1, [1 if kind == "count" else record[column] for kind, column in self.aggregates]

    def merged(self, one, other):
        merge = {"count": lambda a, b: a + b, "sum": lambda a, b: a + b, "least": min, "greatest": max}
        numbers = zip(self.aggregates, one[1], other[1])
        return one[0] + other[0], [merge[kind](a, b) for (kind, _), a, b in numbers]

    def keeps(self, numbers):
        return all(OPS[op](numbers[aggregate], value) for aggregate, op, value in self.having)

    def record(self):
        """The plan in short, as a savepoint has it."""
        ops = list(OPS)
        filters = sorted({(column, ops.index(op), value) for _, column, op, value in self.filters})
        having = sorted({(aggregate, ops.index(op), value) for aggregate, op, value in self.having})
        uids = sorted(uid.encode() for uid, _ in self.sources)
        parts = [struct.pack(">BHBBqqq", self.columns, self.max, self.time, self.key, self.size, self.slide, self.offset % self.slide)]
        parts += [bytes([len(uids)])] + [bytes([len(uid)]) + uid for uid in uids]
        parts += [bytes([len(filters)])] + [struct.pack(">BBq", *condition) for condition in filters]
        parts += [bytes([len(self.aggregates)])] + [bytes([KINDS.index(kind), column]) for kind, column in self.aggregates]
        parts += [bytes([len(having)])] + [struct.pack(">BBq", *condition) for condition in having]
        bounds = [(place, self.bounds[uid.decode()]) for place, uid in enumerate(uids) if uid.decode() in self.bounds]
        if bounds:
            parts += [bytes([len(bounds)])] + [struct.pack(">Bq", *bound) for bound in bounds]
        return b"".join(parts)


def is_uid(text):
    return re.fullmatch(r"[a-z0-9-]{1,64}", text, re.ASCII) is not None


@functools.lru_cache(maxsize=8)
def read_plan(data):
    value = json_of(data, "P1 NotJson")
    require(IS_PLAN(value), "P2 Member")
    window = value["window"]
    columns, size, slide = value["columns"], window["size"], window.get("slide", window["size"])
    offset, aggregates, having = window.get("offset", 0), window["aggregates"], window.get("having", [])
    sources, filters = value["sources"], value.get("filters", [])
    named = [value["time"], value["key"]] + [part["column"] for part in filters + aggregates if "column" in part]
    uids = [part["uid"] for part in sources + filters + [window]]
    require(1 <= columns <= 16, "P3 Columns")
    require(all(0 <= column < columns for column in named), "P4 ColumnIndex")
    require(1 <= value["maxParallelism"] <= 32768, "P5 MaxParallelism")
    require(1 <= len(sources) <= 8, "P6 Sources")
    require(all(1 <= source["partitions"] <= 64 for source in sources), "P7 Partitions")
    require(all(map(is_uid, uids)), "P8 Uid")
    require(len(set(uids)) == len(uids), "P9 UidTwice")
    require(len(filters) <= 32 and len(having) <= 32, "P10 Filters")
    require(1 <= size <= 2**40, "P11 WindowSize")
    require(1 <= slide <= 2**40, "P12 WindowSlide")
    require(-slide < offset < slide, "P13 WindowOffset")
    require(size <= 256 * slide, "P14 Panes")
    require(1 <= len(aggregates) <= 8, "P15 Aggregates")
    require(all(0 <= part["aggregate"] < len(aggregates) for part in having), "P15 Aggregates")
    bounds = {source["uid"]: source["watermarks"]["bound"] for source in sources if "watermarks" in source}
    require(all(0 <= bound <= 2**40 for bound in bounds.values()), "P17 Bound")
    return Plan(
        columns, value["maxParallelism"], value["time"], value["key"],
        [(source["uid"], source["partitions"]) for source in sources], bounds,
        [(part["uid"], part["column"], part["op"], part["value"]) for part in filters],
        window["uid"], size, slide, offset,
        [(part["fn"], part.get("column", 0)) for part in aggregates],
        [(part["aggregate"], part["op"], part["value"]) for part in having],
    )


def entries_of(sources):
    """Each entry of the sources, with its source, partition and place."""
    for x, partitions in enumerate(sources):
        for p, entries in enumerate(partitions):
            for n, entry in enumerate(entries):
                yield x, p, n, entry


def mark_of(entry):
    """The watermark that an entry of an input that was read brings."""
    return entry.get("mark", entry.get("watermark", LEAST))


def watermark_at(entries, count):
    """A partition's watermark after so many of its entries."""
    return GREATEST if count == len(entries) else max(map(mark_of, entries[:count]), default=LEAST)


def marked(plan, uid, partitions):
    """The partitions of a source, where it makes its own watermarks with the one that each entry brings."""
    if uid not in plan.bounds:
        return partitions
    return [[{**entry, "mark": max(record[plan.time] for record in entry["rows"]) - plan.bounds[uid] - 1} for entry in entries] for entries in partitions]


@functools.lru_cache(maxsize=8)
def read_input(plan, data):
    """For each source in the plan's order its partitions, each a list of entries."""
    value = json_of(data, "I1 NotJson")
    require(IS_INPUT(value), "I2 Member")
    require(value.keys() == {uid for uid, _ in plan.sources}, "I3 Source")
    require(all(len(value[uid]) == partitions for uid, partitions in plan.sources), "I4 Partitions")
    sources = [value[uid] for uid, _ in plan.sources]
    entries = [entry for *_, entry in entries_of(sources)]
    records = [record for entry in entries for record in entry.get("rows", [])]
    watermarks = [entry["watermark"] for entry in entries if "watermark" in entry]
    require(all(len(record) == plan.columns for record in records), "I5 Width")
    require(all(map(is_number, watermarks)) and all(is_number(x) for record in records for x in record), "I6 Number")
    require(all(1 <= len(entry.get("rows", [0])) <= 4096 for entry in entries), "I7 Rows")
    times = watermarks + [record[plan.time] for record in records]
    require(all(LEAST_TIME <= time <= GREATEST_TIME for time in times), "I8 TimeRange")
    require(not any("watermark" in entry for uid in plan.bounds for entries in value[uid] for entry in entries), "I12 Kind")
    sources = [marked(plan, uid, partitions) for (uid, _), partitions in zip(plan.sources, sources)]
    before = LEAST
    for x, p, n, entry in entries_of(sources):
        before = before if n > 0 else LEAST
        is_late = any(record[plan.time] <= before for record in entry.get("rows", []))
        require(not is_late, f"I9 LateRecord {x} {p} {n}")
        before = max(before, mark_of(entry))
    return sources


@dataclasses.dataclass
class Stage:
    uids: list
    parallelism: int
    source: int = None  # the place of a source in the plan


def stages_of(plan, operators):
    """The stages of a plan, the sink's left out."""
    stages = [Stage([uid], operators[uid]["parallelism"], x) for x, (uid, _) in enumerate(plan.sources)]
    for uid, *_ in plan.filters:
        parallelism, last = operators[uid]["parallelism"], stages[-1]
        is_one_of_sources = len(plan.sources) > 1 and last.source is not None
        if operators[uid].get("chain", True) and parallelism == last.parallelism and not is_one_of_sources:
            last.uids.append(uid)
        else:
            stages.append(Stage([uid], parallelism))
    return stages + [Stage([plan.uid], operators[plan.uid]["parallelism"])]


def read_scale(plan, data):
    """The stages of the plan at a scale."""
    return stages_at(plan, json_of(data, "S1 NotJson"))


def stages_at(plan, value):
    require(IS_SCALE(value), "S2 Member")
    operators = value["operators"]
    uids = {uid for uid, *_ in plan.sources + plan.filters} | {plan.uid}
    require(operators.keys() <= uids, "S3 UnknownUid")
    require(operators.keys() == uids, "S4 MissingUid")
    require(all(1 <= part["parallelism"] <= min(64, plan.max) for part in operators.values()), "S5 Parallelism")
    require(1 <= value["ring"] <= 1024, "S6 Ring")
    stages = stages_of(plan, operators)
    require(sum(stage.parallelism for stage in stages) < 256, "S7 Tasks")
    return stages


def level_stages(plan, word):
    """The stages of the plan at the scale of a number of subtasks: a source has no more than partitions, a filter no
    more than the source with the most."""
    require(re.fullmatch(r"[0-9]{1,5}", word, re.ASCII), "C2 Number")
    number, most = int(word), max(partitions for _, partitions in plan.sources)
    operators = {plan.uid: number} | {uid: min(number, partitions) for uid, partitions in plan.sources} | {uid: min(number, most) for uid, *_ in plan.filters}
    return stages_at(plan, {"ring": 16, "operators": {uid: {"parallelism": parallelism} for uid, parallelism in operators.items()}})


# Legs.

@dataclasses.dataclass
class Start:
    number: int
    cut: list  # for each source how many entries of each partition were read
    windows: dict  # from (start, key) to a count and numbers


def nothing_of(sources):
    return Start(0, [[0 for _ in partitions] for partitions in sources], {})


def watermark_of(sources, cut):
    """The least of the watermarks of all partitions at a cut."""
    return min(watermark_at(entries, n) for partitions, counts in zip(sources, cut) for entries, n in zip(partitions, counts))


def leg(plan, sources, start, cut):
    """The rows of a leg from a start to a cut, in order, and what it leaves: a start for the next leg."""
    windows = dict(start.windows)
    for x, p, n, entry in entries_of(sources):
        if not start.cut[x][p] <= n < cut[x][p]:
            continue
        for record in filter(plan.passes, entry.get("rows", [])):
            for begin in plan.starts(record[plan.time]):
                pane, one = (begin, record[plan.key]), plan.first(record)
                windows[pane] = plan.merged(windows[pane], one) if pane in windows else one
    watermark = watermark_of(sources, cut)
    due = sorted(pane for pane in windows if pane[0] + plan.size - 1 <= watermark)
    rows = [(pane, windows.pop(pane)[1]) for pane in due]
    return [row for row in rows if plan.keeps(row[1])], Start(start.number + 1, cut, windows)


def leg_with_saves(plan, sources, start, saves, cut):
    """The rows of a leg that takes savepoints at some cuts on its way, in order, what it leaves, and what the last of
    these savepoints holds, if there is one."""
    rows, saved = [], None
    for save in saves:
        more, start = leg(plan, sources, start, save)
        rows, saved = rows + more, start
    more, left = leg(plan, sources, start, cut)
    return sorted(rows + more), left, saved


def text_of(plan, rows):
    words = ([start, start + plan.size, key, *numbers] for (start, key), numbers in rows)
    return "".join(" ".join(map(str, row)) + "\n" for row in words)


def ends_of(sources):
    return [[len(entries) for entries in partitions] for partitions in sources]


def read_cut(word):
    counts = [text.split(",") for text in word.split("/")]
    require(all(re.fullmatch(r"[0-9]{1,20}", count, re.ASCII) for source in counts for count in source), "C1 Cut")
    cut = [[int(count) for count in source] for source in counts]
    require(all(count < 2**64 for source in cut for count in source), "C1 Cut")
    return cut


def read_cuts(word):
    return [read_cut(part) for part in word.split("+")]


def read_time(word):
    """A number of 64 bits, with a hyphen or none and 1 to 19 digits, or a time of UTC in whole seconds, in milliseconds
    since 1970."""
    if re.fullmatch(r"-?[0-9]{1,19}", word, re.ASCII):
        require(-(2**63) <= int(word) < 2**63, "C2 Number")
        return int(word)
    require(re.fullmatch(r"[0-9]{4}-[0-9]{2}-[0-9]{2}T[0-9]{2}:[0-9]{2}:[0-9]{2}Z", word, re.ASCII), "C2 Number")
    return int(datetime.datetime.fromisoformat(word.replace("Z", "+00:00")).timestamp()) * 1000


def read_legs(plan, data):
    """The cuts of the savepoints on the way of each leg of a list, and the cut where it stops, of which the last may
    have none."""
    legs = json_of(data, "L4 NotJson")
    require(IS_LEGS(legs), "L5 Member")
    for leg_of_list in legs:
        stages_at(plan, leg_of_list["scale"])
    require(1 <= len(legs) <= 1024 and all("stop" in leg_of_list for leg_of_list in legs[:-1]), "L3 Legs")
    return [(leg_of_list.get("saves", []), leg_of_list.get("stop")) for leg_of_list in legs]


def require_choices(data, legs):
    """Refuses what is no list of choices for each of so many legs; what they are changes no answer."""
    choices = json_of(data, "L6 Choices")
    require(IS_CHOICES(choices) and len(choices) == legs, "L6 Choices")


def require_saves(sources, start, saves, cut):
    """Refuses cuts at which a leg to a cut cannot take savepoints on its way."""
    ends, cuts = ends_of(sources), [start.cut, *saves, cut]
    require(len(saves) <= 1024, "L8 SaveRange")
    require(all(list(map(len, save)) == list(map(len, ends)) for save in saves), "L8 SaveRange")
    require(all(low <= high for pair in zip(cuts, cuts[1:]) for low, high in zip(*(sum(it, []) for it in pair))), "L8 SaveRange")


def require_stop(sources, start, cut):
    ends = ends_of(sources)
    require(list(map(len, cut)) == list(map(len, ends)), "L1 StopRange")
    bounds = zip(sum(start.cut, []), sum(cut, []), sum(ends, []))
    require(all(before <= count <= end for before, count, end in bounds), "L1 StopRange")
