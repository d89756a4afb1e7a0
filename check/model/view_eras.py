"""The eras of a view: who the hosts are, how each began and ended, and what was sent inwards."""

from types import SimpleNamespace

from model.formats import ACK, SYN
from model.view_choice import eras_named
from model.view_fields import flow_of, length_of


def eras_of(run, items):
    """The eras of the first engine in the order in which its lines first name them, then those of
    the second."""
    return [era for by in ("first", "second") for era in eras_by(run, by, [item for item in items if item.by == by])]


def eras_by(run, by, items):
    eras = {}
    for item in items:
        for number in eras_named(item.entry):
            eras.setdefault(number, new_era(by, number))
        if item.entry.era is not None:
            add_to_era(run, eras[item.entry.era], item)
        if item.entry.begun is not None:
            begin_era(run, eras[item.entry.begun], item)
        for ended in item.entry.ended:
            eras[ended.era].end, eras[ended.era].octets = ended.reason, ended.octets
    return list(eras.values())


def new_era(by, number):
    nowhere = (None, None)
    return SimpleNamespace(by=by, number=number, outside=nowhere, inside=nowhere, opened=None, first=0, last=0,
                           records=0, sent=0, octets=None,
                           end="live", rules=[])


def begin_era(run, era, item):
    """Who the outside host is, and which host began it: by the first frame of the line, or by the
    record where it has none in OUT."""
    flow = flow_of(run.link, (item.frames + [item.record])[0])
    # For the second engine the sides are exchanged.
    inwards = item.entry.side == ("in" if era.by == "first" else "out")
    if flow is not None:
        ends = [(flow.src, flow.sport), (flow.dst, flow.dport)]
        era.outside, era.inside = ends if inwards else reversed(ends)
    else:
        era.outside = era.inside = (None, None)
    era.opened = ("in" if inwards else "out") if is_opening(flow) else "mid"


def is_opening(flow):
    """A SYN without ACK."""
    return flow is not None and flow.flags is not None and flow.flags & (SYN | ACK) == SYN


def add_to_era(run, era, item):
    era.first = item.time if era.records == 0 else era.first
    era.last = item.time
    era.records += 1
    era.rules += [rule for rule in dict.fromkeys(item.entry.rules) if rule not in era.rules]
    if item.entry.side == "in":
        era.sent += sum(length_of(run.link, frame) for frame in item.written if has_tcp(run.link, frame))


def has_tcp(link, frame):
    flow = flow_of(link, frame)
    return flow is not None and flow.flags is not None
