"""The frames that go out for a record.

`case.sent` has the fields of the packet read or put together, and `case.message` what follows its
IPv4 header.
"""

from model import eras
from model.formats import (ACK, FIN, RST, SYN, TCP, URG, clean_options, pseudo_sum, sum_for, two,
                                write_ipv4, write_tcp)
from model.link_rows import I_TTL

# The rules under which the header of an inbound segment is rewritten.
INBOUND_TCP_FIXES = ("T_RES", "T_URG", "T_OPT", "T_STRIP", "C_PROBE", "T_OLD", "T_WINDOW", "T_END", "T_CLASH")


def in_frame(case, message):
    ttl = case.settings.hops + 1 if I_TTL(case) else case.sent.ttl
    return case.link_octets + write_ipv4(case.sent, ttl, message)


def mended(case, at, if_zero):
    """The message with the checksum at this place made right."""
    message = case.message[:at] + b"\0\0" + case.message[at + 2:]
    right = sum_for(message, pseudo_sum(case.sent.src, case.sent.dst, case.sent.protocol, len(message)))
    return message[:at] + two(right or if_zero) + message[at + 2:]


def probe(case, seq, ack):
    tcp = case.tcp
    return in_frame(case, write_tcp(case.sent.src, case.sent.dst, tcp, seq, ack, ACK, b"", b""))


def cold_probe(case):
    return probe(case, case.tcp.seq - 1, case.tcp.ack)


def era_probes(case):
    """The probe of the era, as a list: none where the inside host has sent nothing."""
    out = eras.out(case.era)
    if out is None:
        return []
    if eras.base(case.era) is None:
        return [probe(case, case.tcp.seq - 1, out)]
    return [probe(case, eras.base(case.era) + eras.acked(case.era) - 1, out)]


def first_sent(case):
    """The octets of the kept interval, each as it was first sent at its place."""
    kept = case.kept
    own = case.tcp.payload
    return bytes(case.era.first.get(place, own[place - kept.off]) for place in range(kept.low, kept.high))


def rewritten(case):
    """An inbound segment with a rewritten header."""
    tcp = case.tcp
    seq, flags, payload = tcp.seq, tcp.flags & ~URG, b""
    if not flags & (SYN | RST):
        payload = first_sent(case)
        if payload:
            seq = eras.base(case.era) + case.kept.low
        elif case.kept.fin:
            seq = eras.base(case.era) + case.kept.fin_place
        if not case.kept.fin:
            flags &= ~FIN
    options = clean_options(tcp.options, bool(flags & SYN))
    return write_tcp(case.sent.src, case.sent.dst, tcp, seq, tcp.ack, flags, options, payload)


def dropped(case, rule):
    """The probe that a rule sends in place of the packet it drops."""
    if rule == "T_STATE":
        return [cold_probe(case)]
    if rule == "T_SYN":
        return era_probes(case)
    return []


def written(case, rules):
    """The frames of a packet that no rule drops, where these rules hold."""
    if not rules:
        return [case.frame]
    if "C_PROBE" in rules and not case.tcp.flags & RST:
        return [cold_probe(case)]
    if case.sent.protocol == TCP and case.inbound and any(rule in INBOUND_TCP_FIXES for rule in rules):
        probes = era_probes(case) if "C_PROBE" in rules else []
        return [in_frame(case, rewritten(case))] + probes
    if "U_SUM_OUT" in rules:
        return [in_frame(case, mended(case, 6, 65535))]
    if "T_SUM_OUT" in rules:
        return [in_frame(case, mended(case, 16, 0))]
    return [in_frame(case, case.message)]
