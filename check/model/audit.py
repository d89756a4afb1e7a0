"""An audit of a finished run: the written capture and its report, looked at without the rules of
the run."""

from model import eras
from model.capture import ETHERNET, read_head, read_records
from model.engine import read_segment
from model.formats import FIN, SYN, TCP, is_plain, legal_flags, read_ipv4, read_options, read_tcp, sum_right
from model.report import read_report

STATUS = {"magic": 3, "version": 3, "link": 3, "long": 3, "many": 3, "cut": 4}


def audit(written, text, hops):
    """The status and the line."""
    report = read_report(text)
    if isinstance(report, tuple):
        return 9, "stop report %d" % report[1]
    if report.last.startswith("stop"):
        return 9, "stop report %d" % report.lines
    head = read_head(written)
    if isinstance(head, str):
        return STATUS[head], "stop %s 0" % head
    records, fault, at = read_records(written, head)
    frames = [record.octets for record in records]
    found = first_fault(hops, head.link, frames, fault != "end", report.entries)
    if found == "fault of the capture":
        return STATUS[fault], "stop %s %d" % (fault, at)
    if found is not None:
        return 1, "no %d %s" % found
    return 0, "yes %d %d" % (len(eras_named(report.entries)), len(frames))


def eras_named(entries):
    named = set()
    for entry in entries:
        named.update({entry.era, entry.begun}, {ended.era for ended in entry.ended})
    return named - {None}


def first_fault(hops, link, frames, goes_on, entries):
    """The first frame with a fault and the fault's name, or None. `goes_on`: the capture has a
    fault after them."""
    owners = [entry for entry in entries for _ in range(entry.packets)]
    known = {}
    for number, octets in enumerate(frames, 1):
        if number > len(owners):
            return number, "count"
        packet = octets[14:] if link == ETHERNET else octets
        fault = frame_fault(hops, packet, owners[number - 1], known)
        if fault is not None:
            return number, fault
    if goes_on:
        return "fault of the capture"
    if len(frames) < len(owners):
        return len(frames) + 1, "count"
    return None


def frame_fault(hops, packet, entry, known):
    if not shape_fits(hops, packet, entry):
        return "plain"
    if entry.era is None:
        return None
    tcp = read_tcp(packet[read_ipv4(packet).header:read_ipv4(packet).total])
    era = known.setdefault(entry.era, eras.new_era(entry.era, None))
    first, end, segment = dict(era.first), eras.end(era), read_segment(tcp, entry.side == "in")
    eras.add_segment(era, segment)
    return segment_fault(era, segment, first, end) if segment.inward else None


def shape_fits(hops, packet, entry):
    ip = read_ipv4(packet)
    if entry.side == "in" and not is_plain(hops, packet):
        return False
    if entry.era is None:
        return True
    if entry.side == "in":
        return ip.protocol == TCP
    return entry.side == "out" and ip.protocol == TCP and parses(packet)


def parses(packet):
    """The IPv4 header and the TCP header have no fault, the TCP checksum aside."""
    ip = read_ipv4(packet)
    if len(packet) < 20 or ip.version != 4 or ip.header < 20 or ip.header > len(packet):
        return False
    if not ip.header <= ip.total <= len(packet) or not sum_right(packet[:ip.header]):
        return False
    octets = packet[ip.header:ip.total]
    tcp = read_tcp(octets)
    if len(octets) < 20 or tcp.header < 20 or tcp.header > len(octets):
        return False
    return legal_flags(tcp.flags) and not read_options(tcp.options).bad


def segment_fault(era, segment, first, end):
    """`first` and `end` are those of the frames before this one."""
    fin = segment.flags & FIN
    if eras.base(era) is None:
        return "base" if segment.octets or fin else None
    if segment.flags & SYN and segment.seq != (eras.base(era) - 1) % 2**32:
        return "syn"
    for i, octet in enumerate(segment.octets):
        place = segment.place + i
        if first.get(place, octet) != octet or (end is not None and place >= end):
            return "octet"
    if fin:
        place = segment.place + len(segment.octets)
        if (end is not None and place != end) or (end is None and place < eras.top(era)):
            return "fin"
    return None
