"""What is written for a next link with an MTU: long frames are cut into segments, or dropped."""

from model.capture import ETHERNET
from model.formats import (CWR, FIN, PSH, RST, SYN, TCP, URG, four, pseudo_sum, read_ipv4, read_tcp, sum_for, two)


def parts_of(link, frame):
    """The octets before the packet, and the packet: None where the frame carries no IPv4."""
    at = 14 if link == ETHERNET else 0
    if link == ETHERNET and frame[12:14] != b"\x08\x00":
        return frame[:at], None
    return frame[:at], frame[at:]


def may_be_cut(packet):
    if read_ipv4(packet).protocol != TCP:
        return False
    tcp = read_tcp(packet[20:])
    return not tcp.flags & (SYN | RST | URG) and tcp.payload != b""


def segment(packet, index, start, piece, is_last):
    """The packet with this piece of its payload."""
    ip, tcp = read_ipv4(packet), read_tcp(packet[20:])
    flags = tcp.flags & ~(0 if is_last else FIN | PSH) & ~(0 if index == 0 else CWR)
    message = packet[20:20 + tcp.header]
    message = (message[:4] + four(tcp.seq + start) + message[8:13] + bytes([flags]) + message[14:16] + b"\0\0"
               + message[18:] + piece)
    right = sum_for(message, pseudo_sum(ip.src, ip.dst, TCP, len(message)))
    message = message[:16] + two(right) + message[18:]
    head = packet[:2] + two(20 + len(message)) + two(ip.ident + index) + packet[6:10] + b"\0\0" + packet[12:20]
    return head[:10] + two(sum_for(head)) + head[12:] + message


def segments(packet, mtu):
    tcp = read_tcp(packet[20:])
    room = mtu - 20 - tcp.header
    starts = range(0, len(tcp.payload), room)
    return [segment(packet, n, start, tcp.payload[start:start + room], start + room >= len(tcp.payload))
            for n, start in enumerate(starts)]


def as_written(settings, link, entry, frames):
    """The frames that are written instead of these; the entry is changed if one is cut or
    dropped."""
    if settings.mtu is None:
        return frames
    written, named = [], set()
    for frame in frames:
        before, packet = parts_of(link, frame)
        if packet is None or read_ipv4(packet).total <= settings.mtu:
            written.append(frame)
        elif may_be_cut(packet):
            named.add("E_CUT")
            written += [before + octets for octets in segments(packet, settings.mtu)]
        else:
            named.add("E_MTU")
    entry.rules = entry.rules + [rule for rule in ("E_CUT", "E_MTU") if rule in named]
    if named:
        entry.verdict = "drop" if "E_MTU" in named else "fix"
    entry.packets = len(written)
    return written
