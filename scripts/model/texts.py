"""Plans, inputs, scales and cuts made by chance, and what spoils them."""
import copy
import dataclasses
import string

from . import savepoints
from .jobs import GREATEST, GREATEST_TIME, KINDS, LEAST, LEAST_TIME

NUMBERS = [
    0, 0, 1, 1, -1, 2, 3, 5, 8, 9, 10, 16, 17, 20, 32, 33, 63, 64, 65, 128, 256, 257, 1024, 1025, 4096, 32768, 32769, 2**40, 2**40 + 1, LEAST_TIME,
    LEAST_TIME - 1, GREATEST_TIME, GREATEST_TIME + 1, LEAST, GREATEST, GREATEST + 1, 2**64, 10**30, 1.5, -0.0,
]
VALUES = [None, True, False, [], {}, [[]], "", "x", "count", "sum", "eq", "A", "a b", "a" * 64, "a" * 65, "ä"]
# What conditions compare with, so that most hold now and then.
BOUNDS = {"ge": [-6, 0, 1, 2], "gt": [-6, 0, 1], "le": [2, 30, GREATEST], "lt": [3, 20, GREATEST], "ne": [0, 1, 2], "eq": [0, 1]}
NAMES = ["uid", "column", "value", "rows", "watermark", "watermarks", "bound", "slide", "having", "filters", "chain", "parallelism", "x"]


def small(chance):
    return chance.randint(-5, 30)


def number(chance):
    return chance.choice([small(chance), small(chance), small(chance), chance.randint(LEAST, GREATEST), LEAST, GREATEST])


def uids(chance, count):
    letters = string.ascii_lowercase + string.digits + "-"
    found = set()
    while len(found) < count:
        found.add("".join(chance.choices(letters, k=chance.choice([1, 1, 2, 3, 64]))))
    return chance.sample(sorted(found), count)


def few(chance, most):
    """A number from 1 on, mostly small."""
    return min(most, chance.choice([1, 1, 2, 2, 3, 4, 8]))


def plan(chance):
    columns = chance.randint(1, 4)

    def column():
        return chance.randrange(columns)

    def aggregate():
        kind = chance.choice(KINDS)
        return {"fn": kind} if kind == "count" else {"fn": kind, "column": column()}

    def condition():
        op = chance.choice([*BOUNDS, "ge", "ne"])
        return {"op": op, "value": chance.choice(BOUNDS[op])}

    sources, filters = few(chance, 8), chance.choice([0, 0, 0, 0, 1, 2, 3])
    *names, name = uids(chance, sources + filters + 1)
    aggregates = [aggregate() for _ in range(few(chance, 8))]
    having = [{"aggregate": chance.randrange(len(aggregates)), **condition()} for _ in range(chance.choice([0, 0, 0, 0, 1, 2]))]
    made = {
        "columns": columns, "maxParallelism": chance.choice([1, 2, 5, 64, 100, 128, 128, 32768]), "time": column(), "key": column(),
        "sources": [source(chance, uid) for uid in names[:sources]],
        "window": {"uid": name, **times(chance), "aggregates": aggregates},
    }
    if filters or chance.random() < 0.2:
        made["filters"] = [{"uid": uid, "column": column(), **condition()} for uid in names[sources:]]
    if having:
        made["window"]["having"] = having
    return made


def source(chance, uid):
    """A source, one in three of which makes its own watermarks."""
    made = {"uid": uid, "partitions": few(chance, 4)}
    return made | {"watermarks": {"bound": chance.choice([0, 1, 2, 5, 12, 2**40])}} if chance.random() < 0.35 else made


def times(chance):
    size = chance.choice([1, 3, 8, 10, chance.randint(1, 20), chance.choice([100, 256, 257, 2**40])])
    slide = chance.choice([size, size, chance.randint(max(1, -(-size // 256)), 2 * size)])
    slide = min(slide, 2**40)
    if chance.random() < 0.25:
        # windows that are made of slices: the slide divides the size, into 4 to 256
        slide = chance.choice([1, 1, 2, 3, 7])
        size = slide * chance.choice([4, 5, 8, 16, 64, 256])
    made = {"size": size}
    if slide != size or chance.random() < 0.3:
        made["slide"] = slide
    if chance.random() < 0.5:
        made["offset"] = chance.choice([1 - slide, slide - 1, chance.randint(1 - slide, slide - 1)])
    return made


def bounds_of(plan):
    """The bound of each source, by its uid: None where its watermarks stand in the input."""
    return {part["uid"]: part.get("watermarks", {}).get("bound") for part in plan["sources"]}


def mark_of(plan, bound, entry):
    """The watermark that an entry of a source brings."""
    if bound is None or "rows" not in entry:
        return entry.get("watermark", LEAST)
    return max(record[plan["time"]] for record in entry["rows"]) - bound - 1


def partition(chance, plan, base, bound):
    """Entries whose times go up from a base, and are above the watermarks before them."""
    return entries_behind(chance, plan, base, bound, LEAST_TIME - 1, chance.choice([0, 1, 2, 4, 4, 6]))


def entries_behind(chance, plan, base, bound, least, count):
    """So many entries whose times go up from a base, and are above a watermark and those before them."""
    entries, now = [], base
    for _ in range(count):
        now = min(now + chance.randint(0, 15), GREATEST_TIME)
        if bound is None and chance.random() < 0.45:
            watermark = min(max(now + chance.randint(-9, 3), LEAST_TIME), GREATEST_TIME - 1)
            entries.append({"watermark": watermark})
            least = max(least, watermark)
            continue
        rows = [[number(chance) for _ in range(plan["columns"])] for _ in range(few(chance, 5))]
        for row in rows:
            row[plan["key"]] = chance.choice([0, 1, 2, row[plan["key"]]])
            row[plan["time"]] = min(max(now + chance.randint(-12, 12), least + 1), GREATEST_TIME)
        entries.append({"rows": rows})
        least = max(least, mark_of(plan, bound, entries[-1]))
    return entries


def input_of(chance, plan):
    base = chance.choice([0, 0, 0, 0, 0, 0, LEAST_TIME, GREATEST_TIME - 30])
    bounds = bounds_of(plan)
    return {
        source["uid"]: [partition(chance, plan, base, bounds[source["uid"]]) for _ in range(source["partitions"])] for source in plan["sources"]
    }


def scale_of(chance, plan):
    most = min(64, plan["maxParallelism"])
    alike = few(chance, most)
    wide = chance.random() < 0.04
    made = {}
    for part in [*plan["sources"], *plan.get("filters", []), plan["window"]]:
        parallelism = chance.choice([1, 1, 16, most]) if wide else chance.choice([alike, alike, few(chance, most)])
        made[part["uid"]] = {"parallelism": min(most, parallelism)}
        if chance.random() < 0.5:
            made[part["uid"]]["chain"] = chance.random() < 0.7
    return {"ring": chance.choice([1, 1, 2, 4, 16, 1024]), "operators": made}


def cut_of(chance, sources, least):
    """A count for each partition, from the least on, mostly just behind a watermark, or at one of the ends."""
    behind = chance.random() < 0.7

    def count(entries, least):
        marks = [n + 1 for n, entry in enumerate(entries) if ("watermark" in entry or "mark" in entry) and n >= least]
        if behind:
            return chance.choice([*marks[-2:], len(entries)])
        return chance.choice([least, len(entries), chance.randint(least, len(entries))])

    return [[count(*pair) for pair in zip(partitions, counts)] for partitions, counts in zip(sources, least)]


def next_cut(chance, sources, least):
    """A cut from the least on: the least itself, that of all lengths, or another."""
    same, ends = [list(counts) for counts in least], [[len(entries) for entries in partitions] for partitions in sources]
    return chance.choice([same, ends, *(cut_of(chance, sources, least) for _ in range(3))])


def unread(chance, sources, least, cut):
    """The cut, mostly with an entry less where it is at the end of a partition that has one behind the least."""
    if chance.random() < 0.2:
        return cut
    return [[max(low, min(n, len(entries) - 1)) for entries, low, n in zip(*part)] for part in zip(sources, least, cut)]


def put_right(chance, plan, entry):
    """The entry with another number in one of its records, which is not its time."""
    entry, others = copy.deepcopy(entry), [column for column in range(plan["columns"]) if column != plan["time"]]
    if "rows" in entry and others:
        chance.choice(entry["rows"])[chance.choice(others)] = small(chance)
    return entry


def gone_on(chance, plan, bound, entries):
    """The entries of a partition and some more, at least one."""
    least = max([LEAST_TIME - 1, *(mark_of(plan, bound, entry) for entry in entries)])
    times = [record[plan["time"]] for entry in entries for record in entry.get("rows", [])]
    return entries + entries_behind(chance, plan, max(times, default=max(least, 0)), bound, least, chance.choice([1, 2, 4]))


def changed_behind(chance, plan, input_, cut, how):
    """The input with other entries behind a cut wherever a partition does not end there: those that were there put
    right or left out, and more.

    So that this is not allowed, `how` is `ended`: partitions that end there go on too; or `before`: entries before the
    cut are put right.
    """
    bounds = bounds_of(plan)

    def changed(entries, count, bound):
        kept, rest = entries[:count], entries[count:]
        if how == "before":
            kept = [put_right(chance, plan, entry) for entry in kept]
        if not rest and how != "ended":
            return kept
        if chance.random() < 0.5:
            kept += [put_right(chance, plan, entry) for entry in rest]
        return gone_on(chance, plan, bound, kept)

    return {uid: [changed(*pair, bounds[uid]) for pair in zip(partitions, counts)] for (uid, partitions), counts in zip(input_.items(), cut)}


def choices_of(chance, legs, most):
    """For each of so many legs a list of at most so many choices, now and then of one number alone."""
    def choice():
        return chance.choice([0, 1, chance.randrange(8), chance.randrange(8), chance.randrange(2**32), 2**32 - 1])

    def choices():
        count, one = chance.randint(0, chance.choice([0, 4, most, most])), choice()
        return [one] * count if chance.random() < 0.2 else [choice() for _ in range(count)]

    return [choices() for _ in range(legs)]


def word_of(cut):
    return "/".join(",".join(map(str, counts)) for counts in cut)


# What spoils a value.

def places(value, path=()):
    yield path
    parts = value.items() if isinstance(value, dict) else enumerate(value) if isinstance(value, list) else []
    for name, part in parts:
        yield from places(part, (*path, name))


def part_at(value, path):
    for name in path:
        value = value[name]
    return value


def spoiled(chance, value):
    """The value with one part changed, left out, or there more than once."""
    value = copy.deepcopy(value)
    paths = [path for path in places(value) if path]
    how = chance.choices(SPOILERS, weights=[10, 3, 3, 2, 1, 1])[0]
    suited = [path for path in paths if how.suits(part_at(value, path[:-1]), path[-1])]
    if suited:
        path = chance.choice(suited)
        how.spoil(chance, part_at(value, path[:-1]), path[-1])
    return value


@dataclasses.dataclass
class Spoiler:
    """A way to spoil a part, by what it stands in and its name there."""

    suits: object
    spoil: object


def other_number(chance, above, name):
    above[name] = chance.choice(NUMBERS)


def other_value(chance, above, name):
    above[name] = copy.deepcopy(chance.choice(VALUES + NUMBERS))


def other_uid(chance, above, name):
    above[name] = chance.choice(["", "a", "b", "x", "sink", "A", "a_b", "a" * 64, "a" * 65])


def more(chance, above, name):
    above[name:name] = [copy.deepcopy(above[name]) for _ in range(chance.choice([1, 1, 2, 8, 32, 64, 4096]))]


def leave_out(chance, above, name):
    del above[name]


def add_member(chance, above, name):
    above[chance.choice(NAMES)] = copy.deepcopy(above[name])


SPOILERS = [
    Spoiler(lambda above, name: isinstance(above[name], (int, float)), other_number),
    Spoiler(lambda above, name: name == "uid", other_uid),
    Spoiler(lambda above, name: True, leave_out),
    Spoiler(lambda above, name: isinstance(above, list), more),
    Spoiler(lambda above, name: isinstance(above, dict), add_member),
    Spoiler(lambda above, name: True, other_value),
]


def delay(chance, plan, bound, entries):
    """Puts some records to the greatest watermark before them, which is too late, or just above it."""
    least = LEAST
    for entry in entries:
        if "rows" in entry and least >= LEAST_TIME and chance.random() < 0.3:
            chance.choice(entry["rows"])[plan["time"]] = least + chance.choice([0, 0, 1])
        least = max(least, mark_of(plan, bound, entry))


def delayed(chance, plan, input_):
    input_, bounds = copy.deepcopy(input_), bounds_of(plan)
    for uid, partitions in input_.items():
        for entries in partitions:
            delay(chance, plan, bounds[uid], entries)
    return input_


# Another job than that of the savepoint.

def rename_source(chance, plan, input_):
    source = chance.choice(plan["sources"])
    old, source["uid"] = source["uid"], "renamed"
    input_["renamed"] = input_.pop(old)


def rename_window(chance, plan, input_):
    plan["window"]["uid"] = "renamed"


def add_source(chance, plan, input_):
    if len(plan["sources"]) < 8:
        plan["sources"].append({"uid": "added", "partitions": 1})
        input_["added"] = [[{"watermark": 0}]]


def drop_source(chance, plan, input_):
    if len(plan["sources"]) > 1:
        del input_[plan["sources"].pop()["uid"]]


def add_partition(chance, plan, input_):
    source = chance.choice(plan["sources"])
    source["partitions"] += 1
    input_[source["uid"]].append([])


def add_entry(chance, plan, input_):
    chance.choice(input_[plan["sources"][0]["uid"]]).append({"watermark": GREATEST_TIME})


def other_groups(chance, plan, input_):
    plan["maxParallelism"] = max(64, plan["maxParallelism"]) + 1 if plan["maxParallelism"] < 32768 else 64


def other_having(chance, plan, input_):
    plan["window"]["having"] = [{"aggregate": 0, "op": "ne", "value": chance.randint(0, 3)}]


def other_aggregates(chance, plan, input_):
    plan["window"]["aggregates"].reverse()


def other_bound(chance, plan, input_):
    source = chance.choice(plan["sources"])
    if "watermarks" in source:
        source["watermarks"]["bound"] += 1


def same_meaning(chance, plan, input_):
    """Other uids of filters, each condition in another place and twice, and an offset that is a slide away."""
    window, filters = plan["window"], plan.get("filters", [])
    for n, part in enumerate(filters):
        part["uid"] = f"filter-{n}"
    window["having"] = 2 * window.get("having", [])[::-1]
    plan["filters"] = filters[::-1] + [{**part, "uid": f"{part['uid']}-again"} for part in filters]
    if window.get("offset", 0) > 0:
        window["offset"] -= window.get("slide", window["size"])


OTHERS = [
    rename_source, rename_window, add_source, drop_source, add_partition, add_entry, other_groups, other_having, other_aggregates, other_bound, same_meaning,
]


def another(chance, plan, input_):
    """A plan and an input that are alike, but for one thing."""
    plan, input_ = copy.deepcopy(plan), copy.deepcopy(input_)
    chance.choice(OTHERS)(chance, plan, input_)
    return plan, input_


def json_text(chance, value):
    """A JSON text of the value: members in any order, now and then one before that is not to count, and any white
    space."""
    def space():
        return chance.choice(["", "", "", "", " ", "\n", "\t "])

    def member(name, part):
        return f"{space()}{text(name)}{space()}:{space()}{text(part)}"

    def text(part):
        if isinstance(part, list):
            return f"[{','.join(space() + text(it) for it in part)}{space()}]"
        if not isinstance(part, dict):
            return {None: "null", True: "true", False: "false"}[part] if part is None or isinstance(part, bool) else plain(part)
        named = [member(name, it) for name, it in part.items()]
        chance.shuffle(named)
        if named and chance.random() < 0.02:
            named.insert(0, member(chance.choice(list(part)), chance.choice(VALUES + NUMBERS)))
        return f"{{{','.join(named)}{space()}}}"

    return text(value).encode()


def plain(part):
    if isinstance(part, str):
        return '"' + part + '"'
    return repr(part)


def torn(chance, data, bytes_):
    """The data with one byte left out, one too many, another one, or with its end missing."""
    at, byte = chance.randrange(len(data) + 1), bytes([chance.choice(bytes_)])
    rest = chance.choice([data[at:], data[at + 1:], data[at + 1:], data[at + 1:], b""])
    return data[:at] + chance.choice([byte, byte, b""]) + rest


def torn_text(chance, data):
    return torn(chance, data, b'0123456789"{}[],:-. \x00\x01\x7f\x80\xffeau')


def torn_savepoint(chance, data):
    """The savepoint with another byte, one left out, or one too many, and now and then at its end."""
    byte = bytes([chance.choice([0, 1, 2, 3, 127, 128, 255, chance.randrange(256)])])
    return data + byte if chance.random() < 0.1 else torn(chance, data, byte)


def misplaced(chance, saved):
    """The savepoint with another place, or another count of entries, for one of its key groups, or as it is where it
    has none."""
    data, places = savepoints.encode(saved), savepoints.index_places(saved)
    if not places:
        return data
    at = chance.choice(places) + chance.choice([2, 10, 10])
    size = savepoints.entry_size(saved.kinds)
    # by 2^61 more entries of a multiple of eight bytes a place that wraps stays
    number = int.from_bytes(data[at:at + 8], "big") + chance.choice([1, -1, savepoints.HEAD, size, -size, 2**61, 2**62, 2**63])
    return data[:at] + (number % 2**64).to_bytes(8, "big") + data[at + 8:]


def reverse_part(chance, saved):
    """Puts the sources, the key groups or the entries of one of them the other way round."""
    chance.choice([saved.sources, saved.groups, *(entries for _, entries in saved.groups)]).reverse()


def group_word(chance, most):
    """The word of a key group: mostly that of a key that records have, else any number, or none."""
    group = savepoints.group_of(chance.choice([0, 1, 2]), most)
    return str(chance.choice([group] * 6 + [0, most - 1, chance.randrange(32768), 32767, 32768, f"{group:05}", f"{group:06}", "", "x", "-1", "+1", "1.0"]))


def torn_word(chance, word):
    word = torn(chance, word.encode(), b"0129,/ x+").decode()
    return chance.choice([word, word, "", word + ",0", word + "/0", "18446744073709551615", "18446744073709551616", "0" * 21])


def last_closed(plan, watermark):
    """The start of the last window that has fired at a watermark."""
    last = watermark - plan.size + 1
    return last - (last - plan.offset) % plan.slide


def invented(chance, plan, left, watermark):
    """What a leg leaves at a watermark, changed so that no leg may have left it."""
    windows, closed = dict(left.windows), last_closed(plan, watermark)
    for _ in range(chance.randint(1, 3)):
        pane = chance.choice(list(windows) or [(plan.offset, 0)])
        count, numbers = windows.pop(pane, plan.first([chance.randint(LEAST, GREATEST) for _ in range(plan.columns)]))
        count = max(1, count + chance.choice([0, 0, 0, 1, -1, 2**40 - 1]))
        numbers = [count if kind == "count" else number + chance.choice([0, -1, 1]) for (kind, _), number in zip(plan.aggregates, numbers)]
        start = chance.choice([closed, closed + plan.slide, pane[0] + chance.choice([0, 0, 0, 0, 1, plan.slide, -plan.slide, 20 * plan.slide, 2**62])])
        if chance.random() < 0.9 and LEAST <= start <= GREATEST:
            windows[start, chance.choice([pane[1], small(chance)])] = count, numbers
    number = chance.choice([left.number, left.number, left.number, 7, 2**63, 2**63 + 1, 2**64 - 1])
    return dataclasses.replace(left, number=number, windows=windows)
