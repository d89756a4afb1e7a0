"""What a view says of a record, an era, the run, a choice and a stop: lists of fields."""

from types import SimpleNamespace

from model.notes import protocols_of, types_of, unfinished
from model.report import REASONS
from model.sentences import advice_of
from model.view_fields import ethertype_of
from model.view_hosts import hosts_of
from model.view_texts import (ABSENT, address, changes, classes, counts, ended, era_counts,
                                   ethertype, explained, field, flags, hosts, mark, names, number,
                                   number_if_any, numbers, protocol, protocol_counts, rule_counts,
                                   rule_numbers, time, type_counts, word)

VERDICTS = ("pass", "fix", "hold", "drop")

SIDES = ("in", "out", "-")

ENDS = ("live", *REASONS)

# By whom an era was begun: the outside host, the inside host, or in its midst.
WAYS = ("in", "out", "mid")


def times(name, nanoseconds, **shown):
    """A time, and the same in two numbers."""
    seconds, fraction = (None, None) if nanoseconds is None else divmod(nanoseconds, 10**9)
    lead = "" if name == "time" else name + "_"
    return [field(name, time(nanoseconds), " ", **shown), field(lead + "seconds", number(seconds)),
            field(lead + "nanoseconds", number(fraction))]


# A line of the report

NO_FLOW = SimpleNamespace(src=None, dst=None, protocol=None, sport=None, dport=None, flags=None, seq=None, ack=None,
                          window=None,
                          ident=None, offset=None, more=None, kind=None, code=None)


def record_fields(item):
    entry, flow = item.entry, item.flow or NO_FLOW
    second, given = item.by == "second", item.given
    kind = ethertype_of(item.link, item.record)
    side = None if entry.side == "-" else entry.side
    is_fragment = any(rule.startswith("F_") for rule in entry.rules)
    return [
        field("event", word("record")), field("record", number(item.number), ""), field("by", word(item.by)),
        field("number", number(entry.number), "/" if second else None), *times("time", item.time),
        field("side", word(side), " ", dash=True),
        field("src_ip", address(flow.src), " ", dash=True), field("src_port", number(flow.sport), ":"),
        field("dest_ip", address(flow.dst), " > ", dash=True), field("dest_port", number(flow.dport), ":"),
        field("proto", protocol(flow.protocol), " ", dash=kind is None), field("ethertype", ethertype(kind), " "),
        field("flags", flags(flow.flags), " "), field("seq", number(flow.seq), " seq "),
        field("ack", number(flow.ack), " ack "),
        field("window", number(flow.window) if "T_WINDOW" in entry.rules else ABSENT, " window "),
        field("icmp_type", number(flow.kind), " type "), field("icmp_code", number(flow.code), " code "),
        field("id", number(flow.ident) if is_fragment else ABSENT, " id "),
        field("offset", number(flow.offset) if is_fragment else ABSENT, " offset "),
        field("more", mark(flow.more) if is_fragment else ABSENT, " more"),
        field("length", number(item.length), " len "), field("verdict", word(entry.verdict), " "),
        field("era", number(entry.era), " era "),
        field("begun", number(entry.begun), " begins era "), field("ended", ended(entry.ended), ""),
        field("rules", explained(entry.rules), ""),
        field("frames", number(entry.packets), None if given else " frames "),
        field("given", number(entry.packets) if given else ABSENT, " given "),
        field("frames_out", numbers(item.before + 1, len(item.frames)), " out "),
        field("changes", changes(item.changes, second), ""), field("changes_by", word("both" if second else "first")),
    ]


# An era

def era_fields(era):
    first, last = (era.first, era.last) if era.records else (None, None)
    return [
        field("event", word("era")), field("era", number(era.number), "era " if era.by == "first" else "era second "),
        field("by", word(era.by)),
        field("outside_ip", address(era.outside[0]), " ", dash=True),
        field("outside_port", number(era.outside[1]), ":"),
        field("inside_ip", address(era.inside[0]), " <-> ", dash=True),
        field("inside_port", number(era.inside[1]), ":"),
        field("opened", word(era.opened), " opened "), *times("first", first, dash=True),
        *times("last", last, dash=True),
        field("records", number(era.records), " records "), field("sent", number(era.sent), " sent "),
        field("octets", number(era.octets),
            " octets "),
        field("end", word(era.end), " "), field("rules", names(era.rules), ""),
    ]


# The run

def sides_of(items):
    """For each side how many of these lines have each verdict."""
    found = [(item.entry.side, item.entry.verdict) for item in items]
    return [counts({verdict: found.count((side, verdict)) for verdict in VERDICTS}) for side in SIDES]


def rules_of(items):
    """How often lines of each side name each rule."""
    found = {}
    for item in items:
        for rule in item.entry.rules:
            found.setdefault(rule, dict.fromkeys(SIDES, 0))[item.entry.side] += 1
    return found


def summary_fields(items, eras, both):
    """`items` are those of all lines of the report, `eras` those that are named in it, and `both`
    says that it is of two engines."""
    first, second = ([item for item in items if item.by == by] for by in ("first", "second"))
    of_first, of_second = sides_of(first), sides_of(second) if both else [ABSENT] * len(SIDES)
    ends, ways = [era.end for era in eras], [era.opened for era in eras]
    return [
        field("event", word("summary")), field("records", number(len(first)), "records "),
        field("in_lines", of_first[0], "\nin "), field("out_lines", of_first[1], "\nout "),
        field("neither_lines", of_first[2], "\n- "), field("second_in_lines", of_second[0], "\nsecond in "),
        field("second_out_lines", of_second[1], "\nsecond out "),
        field("second_neither_lines", of_second[2], "\nsecond - "),
        field("frames", number(sum(len(item.frames) for item in items)), "\nframes "),
        field("unfinished", number_if_any(unfinished(first)), "\nunfinished "),
        field("types", type_counts(types_of(first)), ""),
        field("protocols", protocol_counts(protocols_of(first)), ""),
        field("outside_hosts", hosts(hosts_of(first, "outside")), "\noutside "),
        field("inside_hosts", hosts(hosts_of(first, "inside")), "\ninside "),
        field("rule_counts", rule_counts(rules_of(items)), ""),
        field("era_counts", era_counts({end: ends.count(end) for end in ENDS}, {way: ways.count(way) for way in WAYS}),
              "\neras "),
    ]


# A note

def note_fields(note):
    """Its counts, and what is to be done."""
    fields = [field("by_rule", rule_numbers(value), " rules ") if key == "rules"
              else field(key, number(value), " %s " % key.replace("_", "-"))
              for key, value in note.counts.items()]
    advice = field("advice", word(advice_of(note.name, note.counts)), ": ")
    return [field("event", word("note")), field("note", word(note.name), "note "), *fields, advice]


# A choice

def chosen_fields(records):
    return [field("event", word("chosen")), field("records", number(records), "chosen ")]


def evidence_fields(found):
    """How many of the chosen records are of each class."""
    return [field("event", word("evidence"))] + [
        field(name, classes(name, times), lead)
        for (name, times), lead in zip(found.items(), ("", "\n", "\n"))]


# A stop

def stop_fields(status, reason):
    return [field("event", word("stop")), field("status", number(status)), field("reason", word(reason), "")]


# The names of the lists that are tables: they depend on no value.

def no_item():
    entry = SimpleNamespace(side="-", rules=[], number=None, verdict=None, era=None, begun=None, ended=[], packets=None)
    return SimpleNamespace(by="first", entry=entry, link=None, record=b"", flow=None, number=None, time=None,
                           given=False, length=None, before=0,
                           frames=[], changes=[])


def no_era():
    return SimpleNamespace(by="first", number=None, outside=(None, None), inside=(None, None), opened=None, first=None,
                           last=None, records=None,
                           sent=None,
                           octets=None, end=None, rules=[])


TABLES = {"records": record_fields(no_item()), "eras": era_fields(no_era())}
