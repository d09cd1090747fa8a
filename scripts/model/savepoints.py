"""The bytes of savepoints, what they say, and whether a job can go on from them, by the rules of docs/FORMATS.md."""
import dataclasses
import struct

from .jobs import KINDS, Start, is_number, is_uid, require, watermark_at, watermark_of

WORD = 2**32 - 1


# Key groups.

def rotated(word, places):
    return (word << places | word >> (32 - places)) & WORD


def group_of(key, groups):
    """Flink's key group of a key, by murmur3 of Java's hash code."""
    bits = key & (2**64 - 1)
    code = rotated((bits ^ bits >> 32) * 0xCC9E2D51 & WORD, 15) * 0x1B873593 & WORD
    code = (rotated(code, 13) * 5 + 0xE6546B64) & WORD ^ 4
    code = (code ^ code >> 16) * 0x85EBCA6B & WORD
    code = (code ^ code >> 13) * 0xC2B2AE35 & WORD
    code ^= code >> 16
    signed = code - 2**32 if code >= 2**31 else code
    return (0 if signed == -(2**31) else abs(signed)) % groups


# What a savepoint says.

@dataclasses.dataclass
class Saved:
    number: int
    record: bytes
    max: int
    sources: list  # of (uid, list of (offset, watermark)), in the order of the uids' bytes
    uid: str  # the window's
    kinds: list  # by number
    groups: list  # of (group, list of (start, key, count, numbers)), all in order

    def entries(self):
        return [(group, *entry) for group, entries in self.groups for entry in entries]


def savepoint_of(plan, sources, left):
    """The savepoint of a leg that leaves this."""
    partitions = [
        (uid, [(n, watermark_at(entries, n)) for entries, n in zip(parts, counts)])
        for (uid, _), parts, counts in zip(plan.sources, sources, left.cut)
    ]
    groups = {}
    for (start, key), (count, numbers) in sorted(left.windows.items()):
        groups.setdefault(group_of(key, plan.max), []).append((start, key, count, numbers))
    kinds = [KINDS.index(kind) for kind, _ in plan.aggregates]
    return Saved(left.number, plan.record(), plan.max, sorted(partitions), plan.uid, kinds, sorted(groups.items()))


INDEXED, UNINDEXED = b"WSP2", b"WSP1"
HEAD = 18  # how many bytes the index has of a key group


def entry_size(kinds):
    return 24 + 16 * len(kinds)


def front(magic, saved):
    """The fields up to the number of key groups, which are the same in both layouts."""
    def uid_field(uid):
        return bytes([len(uid)]) + uid.encode()

    parts = [magic, struct.pack(">QH", saved.number, len(saved.record)), saved.record]
    parts += [struct.pack(">HB", saved.max, len(saved.sources))]
    for uid, partitions in saved.sources:
        parts += [uid_field(uid), bytes([len(partitions)])] + [struct.pack(">Qq", *partition) for partition in partitions]
    parts += [uid_field(saved.uid), bytes([len(saved.kinds), *saved.kinds]), struct.pack(">H", len(saved.groups))]
    return b"".join(parts)


def entries_field(entries):
    numbers = lambda entry: b"".join(number.to_bytes(16, "big", signed=True) for number in entry[3])
    return b"".join(struct.pack(">qqQ", *entry[:3]) + numbers(entry) for entry in entries)


def encode(saved):
    """The bytes of the layout that is written: an index of the key groups, and behind it the entries of all."""
    begin = front(INDEXED, saved)
    place, heads = len(begin) + HEAD * len(saved.groups), []
    for group, entries in saved.groups:
        heads.append(struct.pack(">HQQ", group, len(entries), place))
        place += entry_size(saved.kinds) * len(entries)
    return begin + b"".join(heads) + b"".join(entries_field(entries) for _, entries in saved.groups)


def encode_unindexed(saved):
    """The bytes of the layout that is read still, in which the entries of a key group stand behind its number and how
    many they are."""
    groups = (struct.pack(">HQ", group, len(entries)) + entries_field(entries) for group, entries in saved.groups)
    return front(UNINDEXED, saved) + b"".join(groups)


ENCODINGS = [encode, encode_unindexed]


def index_places(saved):
    """Where the index begins to speak of each key group: its number, how many entries it has, and their place."""
    begin = len(front(INDEXED, saved))
    return [begin + HEAD * n for n in range(len(saved.groups))]


def unindexed(data):
    """The bytes of the same savepoint without an index."""
    return encode_unindexed(decode(data))


class Reader:
    """Reads fields from the front."""

    def __init__(self, data):
        self.data, self.place = data, 0

    def take(self, size):
        field = self.data[self.place:self.place + size]
        require(len(field) == size, "V2 Truncated")
        self.place += size
        return field

    def number(self, size, signed=False):
        return int.from_bytes(self.take(size), "big", signed=signed)

    def within(self, size, least, most):
        number = self.number(size)
        require(least <= number <= most, "V5 Range")
        return number

    def uid(self):
        uid = self.take(self.within(1, 1, 64)).decode("latin-1")
        require(is_uid(uid), "V5 Range")
        return uid

    def above(self, value, last):
        require(last is None or value > last, "V4 Order")
        return value

    def sources(self):
        sources, last = [], None
        for _ in range(self.within(1, 1, 8)):
            last = self.above(self.uid(), last)
            sources.append((last, [(self.number(8), self.number(8, True)) for _ in range(self.within(1, 1, 64))]))
        return sources

    def aggregate(self, kind, count):
        value = self.number(16, True)
        in_range = [value == count, abs(value) <= count * 2**63, is_number(value), is_number(value)]
        require(in_range[kind], "V5 Range")
        return value

    def size(self):
        """How many entries a key group has."""
        size = self.number(8)
        require(size > 0, "V4 Order")
        return size

    def entries(self, kinds, size):
        entries, last = [], None
        for _ in range(size):
            last = self.above((self.number(8, True), self.number(8, True)), last)
            count = self.within(8, 1, 2**40)
            entries.append((*last, count, [self.aggregate(kind, count) for kind in kinds]))
        return entries

    def unindexed_groups(self, most, kinds):
        groups, last = [], None
        for _ in range(self.number(2)):
            last = self.above(self.within(2, 0, most - 1), last)
            groups.append((last, self.entries(kinds, self.size())))
        return groups

    def index(self, most, kinds):
        """Each key group, with how many entries it has. Places are whole numbers: one past 2^64 is no group's."""
        heads, last, count = [], None, self.number(2)
        place = self.place + HEAD * count
        for _ in range(count):
            last = self.above(self.within(2, 0, most - 1), last)
            heads.append((last, self.size()))
            require(self.number(8) == place, "V7 Index")
            place += entry_size(kinds) * heads[-1][1]
        return heads

    def groups(self, most, kinds):
        return [(group, self.entries(kinds, size)) for group, size in self.index(most, kinds)]


def decode(data):
    reader = Reader(data)
    magic = reader.take(4)
    require(magic in (INDEXED, UNINDEXED), "V1 Magic")
    number = reader.within(8, 1, 2**64 - 1)
    record = reader.take(reader.number(2))
    most, sources, uid = reader.within(2, 1, 32768), reader.sources(), reader.uid()
    kinds = [reader.within(1, 0, 3) for _ in range(reader.within(1, 1, 8))]
    groups = reader.groups(most, kinds) if magic == INDEXED else reader.unindexed_groups(most, kinds)
    require(reader.place == len(data), "V3 Trailing")
    return Saved(number, record, most, sources, uid, kinds, groups)


def entries_of_group(data, group):
    """The entries of a key group, which are found by the index alone: none of a group that is not there."""
    require(len(data) < 4 or data[:4] == INDEXED, "V1 Magic")
    return dict(decode(data).groups).get(group, [])


def is_open(plan, watermark, start):
    """Whether a window that begins there is one of the plan, and has not fired at the watermark."""
    is_in_range = 1 - plan.size - 2**62 <= start < 2**62
    return is_in_range and (start - plan.offset) % plan.slide == 0 and start + plan.size - 1 > watermark


def check(plan, sources, saved):
    """The start of a leg of the job that goes on from the savepoint."""
    uids, found, entries = [uid for uid, _ in plan.sources], dict(saved.sources), saved.entries()
    require(saved.max == plan.max, "Q1 MaxParallelism")
    require(found.keys() <= set(uids) and saved.uid == plan.uid, "Q2 UnknownUid")
    require(found.keys() == set(uids), "Q3 MissingUid")
    require(saved.record == plan.record() and saved.kinds == [KINDS.index(kind) for kind, _ in plan.aggregates], "Q4 PlanChanged")
    pairs = [(found[uid], partitions) for uid, partitions in zip(uids, sources)]
    require(all(len(one) == len(other) for one, other in pairs), "Q5 Partitions")
    partitions = [pair for both in pairs for pair in zip(*both)]
    require(all(offset <= len(entries) for (offset, _), entries in partitions), "Q6 Offset")
    require(all(watermark == watermark_at(entries, offset) for (offset, watermark), entries in partitions), "Q7 Watermark")
    cut = [[offset for offset, _ in found[uid]] for uid in uids]
    require(all(group == group_of(key, plan.max) for group, _, key, *_ in entries), "Q8 WrongGroup")
    watermark = watermark_of(sources, cut)
    require(all(is_open(plan, watermark, start) for _, start, *_ in entries), "Q9 ClosedWindow")
    before = sum(len(entry.get("rows", [])) for (offset, _), entries in partitions for entry in entries[:offset])
    require(all(count <= before for _, _, _, count, _ in entries), "Q11 Count")
    require(saved.number <= 2**63, "Q12 Number")
    return Start(saved.number, cut, {(start, key): (count, numbers) for _, start, key, count, numbers in entries})
