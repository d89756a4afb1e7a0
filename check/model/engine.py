"""One step for each record: its entry in the report and its frames, after all records before."""

from types import SimpleNamespace

from model import eras, frames
from model.datagram_rows import DATAGRAM_DROPS, DATAGRAM_FIXES
from model.era_rows import ERA_DROPS, ERA_FIXES, T_FULL, begins, is_data, reopens
from model.formats import RST, TCP, read_ipv4, read_tcp, scale_of
from model.fragment_rows import forget_old, is_fragment, offer_piece
from model.link_rows import HEADER_DROPS, HEADER_FIXES, LINK_DROPS, SIDE_DROPS, is_arp, read_case
from model.segment_rows import SEGMENT_DROPS, SEGMENT_FIXES


def open_engine(settings, link):
    return SimpleNamespace(settings=settings, link=link, now=0, number=0, begun=0, live={}, held={})


def step(engine, record):
    """The entry and the frames of the next record."""
    engine.number += 1
    engine.now = max(engine.now, record.seconds)
    entry = SimpleNamespace(number=engine.number, side="-", verdict="pass", packets=0, rules=[], era=None,
                            begun=None, ended=[])
    end_idle(engine, entry)
    forget_old(engine.held, engine.now, engine.settings.frag_time)
    case = read_case(engine.settings, engine.link, record)
    written = judge(engine, case, entry)
    entry.packets = len(written)
    return entry, written


def first_drop(rules, case):
    for rule in rules:
        if rule(case) and not (rule is T_FULL and case.outbound):
            return rule.__name__
    return None


def drop(entry, rule):
    entry.verdict, entry.rules = "drop", [rule]
    return []


def judge(engine, case, entry):
    rule = first_drop(LINK_DROPS, case)
    if rule:
        return drop(entry, rule)
    if is_arp(case):
        return [case.frame]
    rule = first_drop(SIDE_DROPS, case)
    if rule:
        return drop(entry, rule)
    entry.side = "in" if case.inbound else "out"
    rule = first_drop(HEADER_DROPS, case)
    if rule:
        return drop(entry, rule)
    if not is_fragment(case.ip):
        case.sent, case.message = case.ip, case.payload
        return judge_message(engine, case, entry, [])
    return judge_piece(engine, case, entry)


def judge_piece(engine, case, entry):
    offered = offer_piece(case, engine.held, engine.now)
    if offered == "F_HELD":
        entry.verdict, entry.rules = "hold", [offered]
        return []
    if isinstance(offered, str):
        return drop(entry, offered)
    case.sent, case.message = offered
    return judge_message(engine, case, entry, ["F_DONE"])


def judge_message(engine, case, entry, done):
    """A whole packet, or a datagram that its last piece has made whole."""
    case.is_live = lambda key: key in engine.live
    case.tcp = read_tcp(case.message)
    rule = first_drop(DATAGRAM_DROPS + SEGMENT_DROPS, case)
    if rule:
        return drop(entry, rule)
    if case.sent.protocol == TCP:
        return judge_segment(engine, case, entry, done)
    return pass_on(case, entry, done, [])


def named(rules, case):
    return [rule.__name__ for rule in rules if rule(case)]


def pass_on(case, entry, done, era_fixes):
    rules = named(HEADER_FIXES, case) + done + named(DATAGRAM_FIXES + SEGMENT_FIXES + era_fixes, case)
    entry.rules = entry.rules + rules
    entry.verdict = "fix" if rules else "pass"
    return frames.written(case, rules)


# Segments and their eras

def key_of(case):
    sent, tcp = case.sent, case.tcp
    if case.inbound:
        return (sent.src, tcp.sport, sent.dst, tcp.dport)
    return (sent.dst, tcp.dport, sent.src, tcp.sport)


def held_all(engine):
    return sum(eras.held(era) for era in engine.live.values())


def is_full(engine):
    """All eras that may be live are, and each holds octets."""
    live = engine.live.values()
    return len(live) >= engine.settings.flows and all(eras.held(era) > 0 for era in live)


def judge_segment(engine, case, entry, done):
    case.era = engine.live.get(key_of(case))
    case.full = is_full(engine)
    case.held_all = lambda: held_all(engine)
    case.kept = eras.kept(case.era, case.tcp) if is_data(case) else None
    if case.era is not None:
        entry.era = case.era.number
    rule = first_drop(ERA_DROPS, case)
    if rule:
        drop(entry, rule)
        probes = frames.dropped(case, rule)
        keep_frames(engine, case, probes)
        return probes
    if T_FULL(case):
        entry.rules = ["T_FULL"]
    written = pass_on(case, entry, done, ERA_FIXES)
    keep_segment(engine, case, entry, written)
    return written


def keep_segment(engine, case, entry, written):
    """Eras begin and end, and the era of the segment gets it."""
    if begins(case) and not T_FULL(case):
        begin_era(engine, case, entry)
    if case.era is None:
        return
    if case.inbound:
        keep_frames(engine, case, written)
    else:
        eras.add_segment(case.era, read_segment(case.tcp, False))
    case.era.touched = entry.number
    case.era.now_at_touched = engine.now
    if case.outbound and case.tcp.flags & RST:
        end_era(engine, entry, case.era, "reset")


def read_segment(tcp, inward):
    return SimpleNamespace(inward=inward, seq=tcp.seq, ack=tcp.ack, flags=tcp.flags, window=tcp.window,
                           scale=scale_of(tcp.options), octets=tcp.payload)


def keep_frames(engine, case, written):
    """Each frame that goes inwards belongs to the era of its packet."""
    for frame in written:
        octets = frame[len(case.link_octets):]
        eras.add_segment(case.era, read_segment(read_tcp(octets[read_ipv4(octets).header:]), True))


def by_recency(some):
    """These eras, least recently touched first."""
    return sorted(some, key=lambda era: era.touched)


def begin_era(engine, case, entry):
    if reopens(case):
        end_era(engine, entry, case.era, "reopened")
    elif len(engine.live) >= engine.settings.flows:
        empty = [era for era in engine.live.values() if eras.held(era) == 0]
        end_era(engine, entry, by_recency(empty)[0], "evicted")
    engine.begun += 1
    case.era = eras.new_era(engine.begun, key_of(case))
    engine.live[case.era.key] = case.era
    entry.era = entry.begun = case.era.number


def end_era(engine, entry, era, reason):
    del engine.live[era.key]
    entry.ended.append(SimpleNamespace(era=era.number, reason=reason, octets=eras.octets(era)))


def end_idle(engine, entry):
    """The at most two least recently touched eras that nothing was written of for too long."""
    limit = engine.settings.idle
    idle = [era for era in engine.live.values() if engine.now > era.now_at_touched + limit]
    for era in by_recency(idle)[:2]:
        end_era(engine, entry, era, "idle")
