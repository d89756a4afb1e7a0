"""The plain model with one rule taken out: what norm would write without it.

A rule is taken out of its list, so it neither drops nor starts a rewrite. What another rule
rewrites is rewritten whole, but for T_OLD, T_WINDOW, T_END and T_CLASH, whose cuts and octets stay
out there too. Without F_HELD and F_DONE, which are taken out together, fragments pass as they
arrived. Memory has no limit without the rules on memory.
"""

import contextlib

from model import both_sides, datagram_rows, engine, era_rows, eras, fragment_rows, frames, link_rows, segment_rows
from model.formats import FIN, RST, SYN, URG, clean_options, write_tcp

LISTS = (link_rows.LINK_DROPS, link_rows.SIDE_DROPS, link_rows.HEADER_DROPS, link_rows.HEADER_FIXES,
         fragment_rows.FRAGMENT_DROPS, datagram_rows.DATAGRAM_DROPS,
         datagram_rows.DATAGRAM_FIXES, segment_rows.SEGMENT_DROPS, segment_rows.SEGMENT_FIXES, era_rows.ERA_DROPS,
         era_rows.ERA_FIXES)

REASSEMBLY = "F_HELD F_DONE"

ENDLESS = 2**62


def judge_piece(_, case, __):
    return [case.frame]


def open_engine(settings, link):
    opened = OPEN_ENGINE(settings, link)
    opened.settings.flows = ENDLESS
    return opened


def kept_without(rule):
    """The kept interval, on which an acknowledgment, a window or an end has no effect."""
    def kept(era, tcp):
        found = KEPT(era, tcp)
        end, limit = eras.end(era), eras.edge(era) + 1
        found.low = found.off if rule == "T_OLD" else max(found.off, eras.acked(era))
        found.high = found.off + found.length
        found.high = found.high if rule == "T_WINDOW" else min(found.high, limit)
        found.high = found.high if rule == "T_END" or end is None else min(found.high, end)
        found.high = max(found.low, found.high)
        found.fin = tcp.flags & FIN != 0 if rule == "T_END" else found.fin
        return found
    return kept


def rewritten(case):
    """As the model rewrites a segment; one that has no kept interval, as a rule would have dropped
    it, has its own octets."""
    if case.kept is not None or case.tcp.flags & (SYN | RST):
        return REWRITTEN(case)
    sent, tcp = case.sent, case.tcp
    return write_tcp(sent.src, sent.dst, tcp, tcp.seq, tcp.ack, tcp.flags & ~URG, clean_options(tcp.options, False),
                     tcp.payload)


def own_octets(case):
    return case.tcp.payload[case.kept.low - case.kept.off:case.kept.high - case.kept.off]


def never(_):
    return False


KEPT, OPEN_ENGINE, REWRITTEN = eras.kept, both_sides.open_engine, frames.rewritten

# What replaces what, besides the lists: a module, a name and a value.
CHANGES = {
    REASSEMBLY: [(engine, "judge_piece", judge_piece)],
    "T_FULL": [(both_sides, "open_engine", open_engine)],
    "I_TTL": [(frames, "I_TTL", never)],
    "T_CLASH": [(frames, "first_sent", own_octets)],
    **{rule: [(eras, "kept", kept_without(rule))] for rule in ("T_OLD", "T_WINDOW", "T_END")},
}


@contextlib.contextmanager
def without(rule):
    """In it the model lacks the rule."""
    lists = [list(each) for each in LISTS]
    changes = [(frames, "rewritten", rewritten)] + CHANGES.get(rule, [])
    replaced = [(module, name, getattr(module, name)) for module, name, _ in changes]
    for module, name, value in changes:
        setattr(module, name, value)
    for each in LISTS:
        each[:] = [one for one in each if one.__name__ != rule]
    try:
        yield
    finally:
        for module, name, value in replaced:
            setattr(module, name, value)
        for each, before in zip(LISTS, lists):
            each[:] = before
