"""The packets of a capture, and what is read and changed in one: with no rule of norm."""

import functools

from model.capture import ETHERNET
from model.formats import ACK, TCP, four, pseudo_sum, read_ipv4, read_options, read_tcp, sum_right, u16, u32
from model.pcapng import read_input
from model.words import is_trusted

TIMESTAMPS = 8


def packets_in(octets, inside=None):
    """For each record its packet; none where it is no whole IPv4 frame."""
    head, records, fault, _ = read_input(octets, inside)
    if head is None or fault != "end":
        raise ValueError("a capture that cannot be read to its end")
    return [packet_of(head.link, record) for record in records]


def packet_of(link, record):
    if len(record.octets) < record.original:
        return b""
    if link == ETHERNET:
        return record.octets[14:] if record.octets[12:14] == b"\x08\0" else b""
    return record.octets


def ports_at(packet):
    """Where a TCP header begins whose ports are present, or None."""
    ip = read_ipv4(packet)
    at = max(ip.header, 20)
    return at if len(packet) >= 20 and ip.protocol == TCP and ip.offset == 0 and at + 4 <= len(packet) else None


def key_of(packet, inward):
    """The four-tuple with the outside first, or None where the packet does not say its ports."""
    at, ip = ports_at(packet), read_ipv4(packet)
    if at is None:
        return None
    ends = (ip.src, u16(packet, at)), (ip.dst, u16(packet, at + 2))
    return ends[0] + ends[1] if inward else ends[1] + ends[0]


@functools.lru_cache(maxsize=4096)
def tcp_of(packet, fragment=False):
    """The segment of a packet that has a whole TCP header and, but for `fragment`, is no fragment;
    or None."""
    ip = read_ipv4(packet)
    if ports_at(packet) is None or ip.mf and not fragment or not ip.header + 20 <= ip.total <= len(packet):
        return None
    tcp = read_tcp(packet[ip.header:ip.total])
    return tcp if 20 <= tcp.header <= ip.total - ip.header else None


def is_right(packet):
    """False for a segment whose checksum is wrong."""
    ip = read_ipv4(packet)
    message = packet[ip.header:ip.total]
    return tcp_of(packet) is None or sum_right(message, pseudo_sum(ip.src, ip.dst, TCP, len(message)))


def inward_of(settings, packet):
    """True for inbound, False for outbound, None where the packet is of neither side."""
    if len(packet) < 20:
        return None
    trusted = is_trusted(settings, u32(packet, 12)), is_trusted(settings, u32(packet, 16))
    return None if trusted[0] == trusted[1] else trusted[1]


def moved(packet, shift, echo=None):
    """The packet with its acknowledgment, and its echoed timestamp, as the host's own numbers
    require; a right checksum stays right and a wrong one wrong."""
    at = ports_at(packet)
    if at is None or at + 20 > len(packet) or not packet[at + 13] & ACK:
        return packet
    new = packet[:at + 8] + four(u32(packet, at + 8) + shift) + packet[at + 12:]
    where = echo_at(packet)
    if echo is not None and where is not None:
        new = new[:where] + four(echo) + new[where + 4:]
    check = (u16(packet, at + 16) + words_of(packet, at) - words_of(new, at)) % 65535
    return new[:at + 16] + check.to_bytes(2, "big") + new[at + 18:]


def words_of(packet, at):
    """The sum of the segment's 16-bit words, its checksum left out."""
    octets = packet[at:at + 16] + b"\0\0" + packet[at + 18:]
    return sum(octets[0::2]) * 256 + sum(octets[1::2])


def echo_at(packet):
    tcp = tcp_of(packet)
    if tcp is None:
        return None
    stamps = [option for option in read_options(tcp.options).options if option.kind == TIMESTAMPS
              and len(option.octets) == 10]
    return read_ipv4(packet).header + 20 + stamps[0].at + 6 if stamps else None
