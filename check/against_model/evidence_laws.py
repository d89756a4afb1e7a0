"""Laws of a view with --evidence and with --summary, of the types of JSON, and of hosts."""

import json

from model.sentences import CLASS_TEXTS
from model.view import view

NAMES = ["IN", "OUT", "REPORT"]

# The type of each key, by its path, of all objects that were seen.
TYPES = {}


# Each key has one type

def types_law(values):
    for value in values:
        see_types("", value)


def see_types(path, value):
    """Compares the type of what is at this path with the type found there before; null goes with
    all."""
    if value is None:
        return
    assert TYPES.setdefault(path, type(value)) is type(value), "two types of the key " + path
    for name, one in value.items() if isinstance(value, dict) else []:
        see_types(path + "." + name, one)
    for one in value if isinstance(value, list) else []:
        see_types(path + "[]", one)


# Evidence

def is_evidence(line):
    return line["side"] in ("in", None) and line["verdict"] != "pass"


def class_of(lines):
    for line in lines:
        if line["side"] != "out" and {"T_CLASH", "F_CLASH"} & set(line["rules"]):
            return "contradictions"
    for line in lines:
        is_noise = line["verdict"] == "drop" and {"T_COLD", "T_FLAGS"} & set(line["rules"])
        if is_evidence(line) and (not is_noise or line["length"] > 0):
            return "differs"
    return "noise"


def plain(line):
    """A line without what --evidence adds to it."""
    changes = [dict(one, replaced=[dict(run, first=None) for run in one["replaced"]])
               if one["field"] == "payload" else one
               for one in line["changes"] if one["field"] != "fragment"]
    return dict(line, changes=changes)


def evidence_law(records, evidence, files):
    """`evidence`: the status and the JSON of a view with --evidence."""
    groups = {}
    for line in records:
        groups.setdefault(line["record"], []).append(line)
    chosen = [lines for lines in groups.values() if any(map(is_evidence, lines))]
    classes = [class_of(lines) for lines in chosen]
    counts = {name: classes.count(name) for name in CLASS_TEXTS}
    ends = [{"event": "chosen", "records": len(chosen)}, {"event": "evidence", **counts}]
    status, values = evidence[0], [json.loads(line) for line in evidence[1].splitlines()]
    if status != (11 if chosen else 0) or values[-2:] != ends:
        return "other evidence, or another status"
    if list(map(plain, values[:-2])) != [line for lines in chosen for line in lines]:
        return "evidence is of other records"
    text = ["chosen %d" % len(chosen)]
    text += ["%s %d: %s" % (name, counts[name], CLASS_TEXTS[name]) for name in CLASS_TEXTS]
    alone = view(["--summary", "--evidence"] + NAMES, files)
    if alone != (status, "".join(line + "\n" for line in text)):
        return "the counts of evidence alone are others"
    return table_law(records, chosen, files) or firsts_law(values[:-2])


def table_law(records, chosen, files):
    """A table of evidence has the lines of the records, and no counts."""
    status, text = view(["--table", "records", "--evidence"] + NAMES, files)
    rows = [line.split("\t")[0] for line in text.splitlines()[1:]]
    if status != (11 if chosen else 0) or rows != [str(line["record"]) for lines in chosen for line in lines]:
        return "a table of evidence has other records"
    return None


def firsts_law(lines):
    """Octets were sent first by an earlier record, or by a frame before in this one."""
    for line in lines:
        runs = [run for one in line["changes"] for run in one.get("replaced", [])]
        runs += [one for one in line["changes"] if one["field"] == "fragment"]
        for run in runs:
            if run["first"] is not None and not 0 < run["first"] <= line["record"]:
                return "octets were first sent by a later record"
            if run["from_octets"]["length"] != run["to_octets"]["length"]:
                return "octets in place of more or fewer"
    return None


def end_law(summary, said, files):
    """`summary` and `said`: the lines of the summary and of the notes."""
    alone = view(["--summary"] + NAMES, files)
    if alone != (0, "".join(line + "\n" for line in summary + said)):
        return "a summary alone says otherwise"
    as_json = view(["--summary", "--json"] + NAMES, files)[1].splitlines()
    events = [json.loads(line)["event"] for line in as_json]
    return None if events == ["summary"] + ["note"] * len(said) else "other objects of a summary alone"


def hosts_law(records, summary):
    """The hosts are the most frequent ends of the records with a side."""
    for name, inwards, outwards in (("outside", "src_ip", "dest_ip"), ("inside", "dest_ip", "src_ip")):
        ends = [line[inwards if line["side"] == "in" else outwards] for line in records
                if line["by"] == "first" and line["side"] is not None and line["src_ip"] is not None]
        numbers = {end: [int(part) for part in end.split(".")] for end in ends}
        found = sorted(numbers, key=lambda end: (-ends.count(end), numbers[end]))[:3]
        wanted = [{"ip": end, "count": ends.count(end)} for end in found]
        if summary[name + "_hosts"] != wanted:
            return "other hosts are %s than the records say" % name
    return None
