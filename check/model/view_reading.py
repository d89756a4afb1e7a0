"""What is read of an item: a line of the report, its entry, with the octets of its record and the
flow that is read of them (None where no IPv4 header can be read)."""

from model.capture import ETHERNET
from model.formats import UDP, read_ipv4, u16
from model.view_fields import link_of, message_end


def names(item, *rules):
    return any(rule in item.entry.rules for rule in rules)


def has_packet(item):
    return item.flow is not None


def packet_of(item):
    return link_of(item.link, item.record)[1]


def message_of(item):
    packet = packet_of(item)
    return packet[read_ipv4(packet).header:message_end(packet)]


def is_fragment(item):
    return has_packet(item) and (item.flow.offset > 0 or item.flow.more)


def is_unfragmented(item):
    """Returns whether it is a packet that is no fragment."""
    return has_packet(item) and not is_fragment(item)


def is_segment(item):
    """Returns whether it is no fragment and has a TCP header that can be read."""
    return is_unfragmented(item) and item.flow.flags is not None


def is_datagram(item):
    """Returns the same of UDP."""
    return is_unfragmented(item) and item.flow.protocol == UDP and item.flow.sport is not None


def has(item, flag):
    return item.flow.flags & flag != 0


def is_dropped(item):
    return item.entry.verdict == "drop"


def is_multicast(item):
    return 224 <= item.flow.dst >> 24 <= 239


def side_of(item):
    """Returns the side as the keys of a note call it."""
    return "neither" if item.entry.side == "-" else item.entry.side


def four_tuple(item, side):
    """Returns addresses and ports of a segment of this side, the outside host first; None if it has
    no side."""
    flow = item.flow
    ends = [(flow.src, flow.sport), (flow.dst, flow.dport)]
    return {"in": tuple(ends), "out": tuple(reversed(ends))}.get(side)


def datagram_of(item):
    """Returns what the fragments of one datagram have in common."""
    return (item.flow.src, item.flow.dst, item.flow.protocol, item.flow.ident)


def ethertype(item):
    """Returns the type of an Ethernet frame; octets past its end are 0."""
    return u16(item.record, 12) if item.link == ETHERNET else None


def by_side():
    return {"in": 0, "out": 0, "neither": 0}
