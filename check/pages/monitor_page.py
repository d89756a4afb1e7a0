"""The last part of the page on evasions: receivers that miss what a host reads. Reads
examples/monitors.txt and writes a section for each."""

import os

from cases.notation import line_of, packet_of, seconds_of
from pages.evasion_page import BASE, DESCRIPTIONS, columns, read_descriptions, shown, wrapped
from model.capture import read_head, read_records
from model.packets import capture_of
from model.receivers import POLICIES, deliver
from model.report import frames_by_entry, read_report

MONITORS = os.path.join(os.path.dirname(DESCRIPTIONS), "monitors.txt")

HEAD = """## What a monitor must do

Proved is that within an era a monitor misses nothing ([PROVED](PROVED.md)). It takes each frame
written inwards, in order, keeps each octet that it has not read and the FIN, and delivers after
each frame all that it can. A receiver that drops a frame is not a monitor. Each part below has a
receiver that reads less of what norm wrote than a host does. An attacker can use each of them
behind norm; [MONITORS](MONITORS.md) has the settings under which real monitors read on. Three
more are not shown. A monitor that reads only what is acknowledged lacks the octets not yet
acknowledged. One that has room for fewer connections than `--flows` forgets some that norm follows.
And one that waits for a handshake does not begin a connection where norm does.

A packet is written as `> PA 1000,5001 abcd`: inbound (`>`) or outbound (`<`), flags, sequence
number, acknowledgment number and octets, in which `_` is a space. Fields that differ from the
default follow in brackets: a window, a port, or the second `t`. `$STAMP9` is a timestamp of 9.
On the left is what arrives, in the middle the report, on the right what norm writes. The handshake
(`> S 999`, `< SA 5000,1000`, `> A 1000,5001`) passes, and is left out. The name in brackets is that
of the capture in `examples/`.
"""


class Packet(bytes):
    """A packet with the second of its record."""

    second = 0


def timed(line):
    """The packet of a line, with the second of its record."""
    packet = Packet(packet_of(line))
    packet.second = seconds_of(line)
    return packet


def timed_line(packet):
    """The line that this packet is made from."""
    return line_of(packet, packet.second)


def read_monitors():
    """The descriptions of receivers that are no monitors."""
    with open(MONITORS, encoding="ascii") as file:
        return read_descriptions(file.read())


def made_monitor_capture(case):
    return capture_of([(packet, packet.second) for packet in map(timed, case.lines)])


def frames_of(case, report, written):
    """For each record the packets that were written for it, with their times."""
    read = read_report(report)
    records = read_records(written, read_head(written))[0]
    packets = [Packet(record.octets) for record in records]
    for packet, record in zip(packets, records):
        packet.second = record.seconds
    numbers, counts = [entry.number for entry in read.entries], [entry.packets for entry in read.entries]
    if numbers != list(range(1, len(case.lines) + 1)) or len(packets) != sum(counts):
        raise ValueError("the report has other records or frames than the captures")
    return frames_by_entry(read.entries, packets)


def stream_of(host, packets):
    """What the receiver delivers, by whichever policy."""
    streams = {(stream.octets, stream.ended): stream for stream in deliver(host.read(packets), BASE, host.start)}
    if len(streams) != 1:
        raise ValueError("%s: policies differ on what was written (%s)" % (host.label, ", ".join(POLICIES)))
    return next(iter(streams.values()))


def section(case, report, written):
    frames = frames_of(case, report, written)
    packets = [packet for some in frames for packet in some]
    streams = [stream_of(host, packets) for host in case.hosts]
    most = streams[0].octets
    if not all(most.startswith(stream.octets) and len(stream.octets) < len(most) for stream in streams[1:]):
        raise ValueError("a receiver reads as much as the host")
    read = ["%s, %s" % (host.label, shown(stream)) for host, stream in zip(case.hosts, streams)]
    told = "Delivered of this: %s. %s" % ("; ".join(read), case.prose["answer"])
    said = wrapped(case.prose["case"] + " (`%s`)" % case.name)
    drawn = columns(case, report, frames, timed_line)
    return "\n\n".join(["### " + case.title, said, drawn, wrapped(told)]) + "\n"


def monitor_part(outcomes):
    """The last part of the page, from pairs of a description and its outcome, the report and the
    octets written."""
    parts = [HEAD]
    for case, (report, written) in outcomes:
        try:
            parts.append(section(case, report, written))
        except ValueError as fault:
            raise ValueError("%s: %s" % (case.name, fault)) from fault
    return "\n".join(parts)
