"""The rules on the link, the IPv4 header and the protocol. Each takes one case: a record and what
was read of it."""

from types import SimpleNamespace

from model.capture import ETHERNET
from model.formats import ICMP, TCP, UDP, read_ipv4, read_options, sum_right, u16
from model.words import side_of

LARGEST_FRAME = 65549

IPV4_TYPE, ARP_TYPE = 0x0800, 0x0806


def read_case(settings, link, record):
    """All that is read of one record by itself, whether or not it makes sense."""
    at = 14 if link == ETHERNET else 0
    octets = record.octets[at:]
    ip = read_ipv4(octets)
    side = side_of(settings, record.side, ip.src, ip.dst)
    return SimpleNamespace(
        settings=settings, ethernet=link == ETHERNET, record=record,
        frame=record.octets, link_octets=record.octets[:at],
        octets=octets, ip=ip, area=octets[20:ip.header], payload=octets[ip.header:ip.total],
        inbound=side == "in", outbound=side == "out",
    )


def is_arp(case):
    return case.ethernet and u16(case.frame, 12) == ARP_TYPE


def L_SNAP(case):
    return len(case.frame) < case.record.original


def L_SHORT(case):
    return case.ethernet and len(case.frame) < 14


def L_TYPE(case):
    if not case.ethernet:
        return False
    if is_arp(case):
        return len(case.frame) > LARGEST_FRAME
    return u16(case.frame, 12) != IPV4_TYPE


def I_SHORT(case):
    return len(case.octets) < 20


def I_VERSION(case):
    return case.ip.version != 4


def I_HLEN(case):
    return case.ip.header < 20 or case.ip.header > len(case.octets)


def I_LEN(case):
    return case.ip.total < case.ip.header or case.ip.total > len(case.octets)


def I_SUM(case):
    return not sum_right(case.octets[:case.ip.header])


def I_SRC(case):
    first = case.ip.src >> 24
    return first == 0 or first == 127 or first >= 224 or case.ip.src == case.ip.dst


def I_DST(case):
    first = case.ip.dst >> 24
    return first == 0 or first == 127 or first >= 240


def I_SIDE(case):
    return not case.inbound and not case.outbound


def I_OPT_BAD(case):
    return read_options(case.area).bad


def I_ROUTE(case):
    return any(option.kind in (131, 137) for option in read_options(case.area).options)


def P_PROTO(case):
    return case.ip.protocol not in (ICMP, TCP, UDP)


def I_TRAIL(case):
    return len(case.octets) > case.ip.total


def I_OPT(case):
    return case.ip.header > 20


def I_RES(case):
    return case.ip.reserved


def I_TTL(case):
    """Of a reassembled packet `sent` has the TTL of its first piece at offset 0."""
    return case.inbound and case.sent.ttl <= case.settings.hops


LINK_DROPS = [L_SNAP, L_SHORT, L_TYPE]

SIDE_DROPS = [I_SHORT, I_VERSION, I_HLEN, I_LEN, I_SUM, I_SRC, I_DST, I_SIDE]

HEADER_DROPS = [I_OPT_BAD, I_ROUTE, P_PROTO]

HEADER_FIXES = [I_TRAIL, I_OPT, I_RES, I_TTL]
