"""The rules on a segment and its era. `case.era` is the era live for its four-tuple, or None.

`case.full` says that a new era would find no room: all eras that may be live are, and each holds
octets.
"""

from model import eras
from model.formats import ACK, FIN, RST, SYN
from model.segment_rows import is_inbound_tcp

NO_ERA = "none"


def state(case):
    return NO_ERA if case.era is None else eras.state(case.era)


def has(case, flag):
    return case.tcp.flags & flag != 0


def answers_the_call(case):
    """An acknowledgment of the SYN that the inside host sent."""
    return case.tcp.ack == (eras.iss(case.era) + 1) % 2**32


def is_at_base(case):
    return case.tcp.seq == (eras.base(case.era) - 1) % 2**32


def reopens(case):
    """The era ends, and a new one begins with the same segment."""
    if case.era is None or not has(case, SYN):
        return False
    if case.inbound:
        return state(case) == "closed" and not has(case, ACK) and not is_at_base(case)
    iss = eras.iss(case.era)
    if iss is not None:
        return iss != case.tcp.seq
    return state(case) != "offered"


def begins(case):
    """A new era begins, if there is room."""
    if case.era is not None:
        return reopens(case)
    if case.inbound:
        return has(case, SYN) and not has(case, ACK)
    return not has(case, RST)


def T_COLD(case):
    return case.inbound and case.era is None and (has(case, RST) or (has(case, SYN) and has(case, ACK)))


def T_STATE(case):
    if not case.inbound or has(case, RST):
        return False
    if state(case) == "called":
        return not has(case, SYN) or (has(case, ACK) and not answers_the_call(case))
    return state(case) == "offered" and not has(case, SYN)


def T_SYN(case):
    if not case.inbound or not has(case, SYN) or state(case) in (NO_ERA, "called") or is_at_base(case):
        return False
    return state(case) != "closed" or has(case, ACK)


def T_RST(case):
    if not case.inbound or not has(case, RST) or case.era is None:
        return False
    if state(case) == "called":
        return not (has(case, ACK) and answers_the_call(case))
    return not eras.acked(case.era) <= eras.place_of(case.era, case.tcp.seq) <= eras.next_place(case.era)


def T_FULL(case):
    """Drops an inbound segment; of an outbound one it is a note alone."""
    return begins(case) and not reopens(case) and case.full


def is_data(case):
    """Inbound, Warm or Closed, with neither SYN nor RST."""
    return is_inbound_tcp(case) and state(case) in ("warm", "closed") and not has(case, SYN) and not has(case, RST)


def wanted_blocks(case):
    return eras.new_blocks(case.era, case.kept.low, case.kept.high)


def T_QUOTA(case):
    quota = case.settings.quota
    return quota is not None and is_data(case) and eras.held(case.era) + wanted_blocks(case) > quota


def T_ROOM(case):
    return is_data(case) and wanted_blocks(case) > case.settings.cells - case.held_all()


def C_PROBE(case):
    if not is_inbound_tcp(case):
        return False
    if case.era is None:
        return not has(case, SYN) and not has(case, RST)
    return has(case, RST) and eras.out(case.era) is not None


def T_OLD(case):
    return is_data(case) and case.kept.length > 0 and case.kept.off < eras.acked(case.era)


def T_WINDOW(case):
    return is_data(case) and case.kept.length > 0 and case.kept.off + case.kept.length > eras.edge(case.era) + 1


def T_END(case):
    if not is_data(case):
        return False
    end = eras.end(case.era)
    past = case.kept.length > 0 and end is not None and case.kept.off + case.kept.length > end
    return past or (has(case, FIN) and not case.kept.fin)


def T_CLASH(case):
    return is_data(case) and any(
        case.era.first.get(place, case.tcp.payload[place - case.kept.off])
        != case.tcp.payload[place - case.kept.off]
        for place in range(case.kept.low, case.kept.high))


ERA_DROPS = [T_COLD, T_STATE, T_SYN, T_RST, T_FULL, T_QUOTA, T_ROOM]

ERA_FIXES = [C_PROBE, T_OLD, T_WINDOW, T_END, T_CLASH]
