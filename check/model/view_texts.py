"""Three printers of a list of fields: a text line, a JSON object and a row of a table.

A field has a name, a value and what a text line has before it (its lead); without a lead it is not
in the text. A value has its text, its JSON and its cell; the text of one that is absent is None: it
is left out with its lead, or shown as `-` (dash).
"""

import json
from datetime import datetime, timedelta
from types import SimpleNamespace

from model.sentences import CLASS_TEXTS, SENTENCES
from model.view_fields import MADE, address_text, ethertype_text, flags_text, is_decimal, protocol_text, value_text

# The most octets that a text shows.
MOST_QUOTED = 64


# Lists of fields

def field(name, value, lead=None, dash=False):
    return SimpleNamespace(name=name, value=value, lead=lead, dash=dash)


def text_line(fields):
    """The lead and the text of each field."""
    texts = ""
    for one in fields:
        text = one.value.text if one.value.text is not None or not one.dash else "-"
        texts += "" if one.lead is None or text is None else one.lead + text
    return texts + "\n"


def json_line(fields):
    """One object, with its keys in the order of the list."""
    return json.dumps({one.name: one.value.json for one in fields}, separators=(",", ":")) + "\n"


def table_line(fields):
    return "\t".join(one.value.cell for one in fields if one.name != "event") + "\n"


def heading(fields):
    return "\t".join(one.name for one in fields if one.name != "event") + "\n"


PRINTERS = {"text": text_line, "json": json_line, "table": table_line}


# Values

def printed(text, value, cell=None):
    return SimpleNamespace(text=text, json=value, cell=text if cell is None else cell)


ABSENT = printed(None, None, "-")


def where_there(make, value):
    return ABSENT if value is None else make(value)


def number(value):
    return where_there(lambda it: printed(str(it), it), value)


def number_if_any(value):
    """A number of which a text has nothing where it is 0."""
    return printed(str(value) if value else None, value)


def word(value):
    return where_there(lambda it: printed(it, it), value)


def address(value):
    return where_there(lambda it: word(address_text(it)), value)


def flags(value):
    return where_there(lambda it: word(flags_text(it)), value)


def protocol(value):
    return where_there(lambda it: word(protocol_text(it)), value)


def ethertype(value):
    """Of a type without a name the text says that it is one."""
    kind = None if value is None else ethertype_text(value)
    return where_there(lambda it: printed("ethertype " + it if it.startswith("0x") else it, it, it), kind)


def time(nanoseconds):
    return where_there(lambda it: word(time_text(it)), nanoseconds)


def time_text(nanoseconds):
    """RFC 3339, in UTC."""
    seconds, fraction = divmod(nanoseconds, 10**9)
    return (datetime(1970, 1, 1) + timedelta(seconds=seconds)).strftime("%Y-%m-%dT%H:%M:%S") + ".%09dZ" % fraction


def mark(value):
    """A Boolean, of which a text line has the lead alone."""
    return where_there(lambda it: printed("" if it else None, it, "true" if it else "false"), value)


def joined(cells):
    return ",".join(cells) or "-"


def rule_text(rule):
    return "%s (%s)" % (rule, SENTENCES[rule])


def explained(rules):
    return printed("".join(" " + rule_text(rule) for rule in rules), rules, joined(rules))


def names(rules):
    return printed("".join(" " + rule for rule in rules), rules, joined(rules))


def ended(ends):
    texts = [" ends era %d %s" % (end.era, end.reason) + ("" if end.octets is None else " octets %d" % end.octets)
             for end in ends]
    cells = ["%d:%s" % (end.era, end.reason) + ("" if end.octets is None else ":%d" % end.octets) for end in ends]
    return printed("".join(texts), [{"era": end.era, "reason": end.reason, "octets": end.octets} for end in ends],
                   joined(cells))


def numbers(first, count):
    """Numbers that follow each other."""
    if count == 0:
        return ABSENT
    return printed(str(first) if count == 1 else "%d-%d" % (first, first + count - 1),
                   list(range(first, first + count)))


def counts(by_verdict):
    """`by_verdict`: how many lines have each verdict."""
    return printed(" ".join("%s %d" % pair for pair in by_verdict.items()), by_verdict)


def rule_counts(rules):
    """For each rule, in the order in which they are first named: how often lines of each side name
    it."""
    lines = ["\nrule %s %d (%s)" % (rule, min(sum(sides.values()), 2**64 - 1), SENTENCES[rule])
             for rule, sides in rules.items()]
    return printed("".join(lines),
                   [{"rule": rule, "in": sides["in"], "out": sides["out"], "neither": sides["-"]}
                    for rule, sides in rules.items()])


def type_counts(types):
    """For each type of an Ethernet frame how many lines have it."""
    return printed("".join("\nethertype 0x%04x %d" % pair for pair in types.items()),
                   [{"type": "0x%04x" % kind, "count": count} for kind, count in types.items()])


def protocol_counts(protocols):
    return printed("".join("\nprotocol %d %d" % pair for pair in protocols.items()),
                   [{"protocol": protocol, "count": count} for protocol, count in protocols.items()])


def rule_numbers(rules):
    """For each rule, the most first, how many records it dropped."""
    text = ", ".join("%s %d" % (one["rule"], one["count"]) for one in rules)
    return printed(text or None, rules)


def hosts(found):
    """The addresses, each with the number of its records."""
    pairs = [(address_text(number), count) for number, count in found]
    text = ", ".join("%s %d" % pair for pair in pairs)
    return printed(text or None, [{"ip": ip, "count": count} for ip, count in pairs])


def classes(name, count):
    """How many records are of this class, and what that says."""
    return printed("%s %d: %s" % (name, count, CLASS_TEXTS[name]), count)


def era_counts(ends, opened):
    """How many eras there are, how many of each end, and how many that began in each way."""
    text = " ".join(["%d" % sum(ends.values())] + ["%s %d" % pair for pair in ends.items()] + ["opened"]
                    + ["%s %d" % pair for pair in opened.items()])
    return printed(text,
                   {"all": sum(ends.values()), **ends, **{"opened_" + way: count for way, count in opened.items()}})


# The changes of the frames

def changes(found, both):
    """The changes of a line. `both`: they are those of both engines."""
    frames = sorted({change.frame for change in found if change.frame is not None})
    parts = ["frame %d " % frame + ", ".join(change_text(change) for change in found if change.frame == frame)
             for frame in frames]
    parts += [clash_text(change) for change in found if change.frame is None]
    text = "".join("; " + part for part in parts)
    if both and text:
        text = "; by both engines: " + text[2:]
    cells = ["%s:%s" % ("-" if change.frame is None else change.frame, change.field) for change in found]
    return printed(text, [change_json(change) for change in found], joined(cells))


def clash_text(change):
    """How a fragment differs from a record before it."""
    run = (change.at, octets_text(change.before), octets_text(change.after), first_text(change))
    return "fragment at %d %s > %s%s" % run


def first_text(run):
    return "" if run.first is None else " first %d" % run.first


def change_text(change):
    if change.field in MADE:
        return made_text(change)
    if change.field == "payload":
        return payload_text(change)
    return ("%s %s > %s"
            % (change.field, value_text(change.field, change.before) or "-",
               value_text(change.field, change.after) or "-"))


def marks_of(flow):
    """The protocol, and of TCP the flags and the numbers."""
    if flow is None:
        return [field(name, ABSENT) for name in ("proto", "flags", "seq", "ack")]
    return [field("proto", protocol(flow.protocol), " "), field("flags", flags(flow.flags), " "),
            field("seq", number(flow.seq), " seq "),
            field("ack", number(flow.ack), " ack ")]


def made_text(change):
    marks = text_line(marks_of(change.flow))[:-1]
    return (change.field + marks + " len %d" % change.length
            + (", compared with no record" if change.field == "datagram" else ""))


def payload_text(change):
    parts = [("front", change.front), ("end", change.end), ("longer", change.longer)]
    text = "".join(" %s %d %s" % (name, len(octets), octets_text(octets)) for name, octets in parts if octets)
    return "payload" + text + "".join(" at %d %s > %s%s"
                                      % (run.at, octets_text(run.before), octets_text(run.after), first_text(run))
                                      for run in change.replaced)


def octets_text(octets):
    more = len(octets) - MOST_QUOTED
    return '"%s"' % quoted(octets) + (" and %d more" % more if more > 0 else "")


def quoted(octets):
    return "".join(quoted_octet(octet) for octet in octets[:MOST_QUOTED])


def quoted_octet(octet):
    if octet in b'"\\':
        return "\\" + chr(octet)
    return chr(octet) if 32 <= octet <= 126 else "\\x%02x" % octet


def change_json(change):
    if change.field in MADE:
        marks = {one.name: one.value.json for one in marks_of(change.flow)}
        return {"frame": change.frame, "field": change.field, **marks, "length": change.length, "compared": False}
    if change.field == "payload":
        return {"frame": change.frame, "field": "payload", "front": octets_json(change.front),
                "end": octets_json(change.end),
                "longer": octets_json(change.longer), "replaced": [run_json(run) for run in change.replaced]}
    if change.field == "fragment":
        return {"frame": None, "field": "fragment", **run_json(change)}
    values = (change.before, change.after)
    texts = [value_text(change.field, value) for value in values]
    numbers = values if is_decimal(change.field) else (None, None)
    return dict(zip(("frame", "field", "from", "to", "from_number", "to_number"),
                    (change.frame, change.field, *texts, *numbers)))


def run_json(run):
    """Octets, those in their place, and the record that first sent them."""
    return {"at": run.at, "from_octets": octets_json(run.before), "to_octets": octets_json(run.after),
            "first": run.first}


def octets_json(octets):
    return {"length": len(octets), "hex": octets.hex(), "text": quoted(octets)} if octets else None
