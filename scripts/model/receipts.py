"""The texts of receipts, and whether a leg can go on by one, by the rules of docs/FORMATS.md."""
import hashlib
import json
import re

from .jobs import json_of, require

VERSION = "streamjob 0.1.0"
MEMBERS = {"version", "legs", "plan", "sources", "records", "rows"}


def counted(count, data):
    return {"count": count, "sha256": hashlib.sha256(data).hexdigest()}


def line_of(entry):
    """The text of an entry, as it stands in the input."""
    return json.dumps({name: part for name, part in entry.items() if name != "mark"}, separators=(",", ":")).encode() + b"\n"


def was_read(entries):
    return counted(len(entries), b"".join(map(line_of, entries)))


def read_before(plan, sources, cut):
    """What was read before a cut of each partition, under the uids of the sources."""
    return {uid: [was_read(entries[:n]) for entries, n in zip(parts, counts)] for (uid, _), parts, counts in zip(plan.sources, sources, cut)}


def text_of(plan, sources, cut, legs, rows, names=None):
    """The text of the receipt of a leg that is the last of so many, has come to a cut and has printed rows."""
    records = sum(len(entry.get("rows", [])) for parts, counts in zip(sources, cut) for entries, n in zip(parts, counts) for entry in entries[:n])
    receipt = {"version": VERSION, "legs": legs, "plan": counted(len(plan.record()), plan.record()), "sources": read_before(plan, sources, cut)}
    if names is not None:
        receipt["names"] = counted(len(names), names)
    receipt |= {"records": records, "rows": counted(rows.count("\n"), rows.encode())}
    return (json.dumps(receipt, separators=(",", ":")) + "\n").encode()


def is_count(value):
    return type(value) is int and 0 <= value < 2**64


def is_counted(value):
    return type(value) is dict and value.keys() == {"count", "sha256"} and is_count(value["count"]) and type(value["sha256"]) is str and re.fullmatch(r"[0-9a-fA-F]{64}", value["sha256"], re.ASCII) is not None


def is_receipt(plan, value):
    """Whether a JSON value is a receipt of a job whose plan has these sources."""
    def are_sources(read):
        return type(read) is dict and read.keys() == {uid for uid, _ in plan.sources} and all(
            type(read[uid]) is list and len(read[uid]) == partitions and all(map(is_counted, read[uid])) for uid, partitions in plan.sources
        )

    return (
        type(value) is dict and value.keys() - {"names"} == MEMBERS and type(value["version"]) is str and is_count(value["legs"]) and is_counted(value["plan"])
        and are_sources(value["sources"]) and is_count(value["records"]) and is_counted(value["rows"]) and ("names" not in value or is_counted(value["names"]))
    )


def is_same(told, read):
    return told["count"] == read["count"] and told["sha256"].lower() == read["sha256"]


def check(plan, sources, cut, data, names=None):
    """Refuses to go on at a cut by bytes that are no receipt, or one that tells of something else."""
    receipt = json_of(data, "R1 Form")
    require(is_receipt(plan, receipt), "R1 Form")
    require(is_same(receipt["plan"], counted(len(plan.record()), plan.record())), "R2 Plan")
    for uid, parts in read_before(plan, sources, cut).items():
        for p, (told, read) in enumerate(zip(receipt["sources"][uid], parts)):
            require(told["count"] == read["count"], f"R3 Cut {uid} {p}")
            require(is_same(told, read), f"R4 Entries {uid} {p}")
    told = receipt.get("names")
    require(told is None or (names is not None and told["count"] <= len(names) and is_same(told, counted(told["count"], names[:told["count"]]))), "R5 Names")
