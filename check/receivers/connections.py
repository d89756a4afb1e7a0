"""The connections of a capture as receivers meet them: the eras of norm's report, and the packets
of each, as sent and as forwarded."""

import os
import subprocess
from types import SimpleNamespace

from model import eras
from model.built import WHOLE
from model.engine import read_segment
from model.formats import ACK, FIN, RST, SYN, TCP, four, read_ipv4, read_options, u32
from model.report import frames_by_entry, read_report
from model.run import run
from receivers.packets import TIMESTAMPS, inward_of, key_of, packets_in, tcp_of

SACK_PERMITTED = 4

# The number of addresses that outside_like gives.
OUTSIDES = 0x1FFF


# Captures

def run_norm(program, words, given, folder):
    """Runs norm: its status, its report, and for each record the packets that were written."""
    paths = {"IN": os.path.join(folder, "in.pcap"), "OUT": os.path.join(folder, "out.pcap")}
    with open(paths["IN"], "wb") as file:
        file.write(given)
    done = subprocess.run([program] + [paths.get(word, word) for word in words], stdout=subprocess.PIPE,
                          stderr=subprocess.DEVNULL, timeout=120, check=False)
    if done.returncode != 0:
        return done.returncode, None, []
    with open(paths["OUT"], "rb") as file:
        return (0,) + by_record(done.stdout.decode("ascii", "replace"), file.read())


def run_model(words, given):
    """The same of the plain model."""
    status, written, text = run(words, given, WHOLE)
    return (0,) + by_record(text, written) if status == 0 else (status, None, [])


def by_record(text, written):
    """The report, and for each record the packets that were written."""
    report, frames = read_report(text), packets_in(written)
    if isinstance(report, tuple):
        raise ValueError("the report cannot be read back")
    if len(frames) != sum(entry.packets for entry in report.entries):
        raise ValueError("OUT has other frames than the report says")
    return report, frames_by_entry(report.entries, frames)


# Packets

def renamed(packet, inward, outside, inside):
    """The packet with these addresses. Each has the sum of the one that it replaces, so every
    checksum stays as right or wrong as it was."""
    return packet[:12] + (four(outside) + four(inside) if inward else four(inside) + four(outside)) + packet[20:]


def with_sum(address, high):
    """The address with these first two octets whose 16-bit words have the sum of the given one."""
    return high * 65536 + ((address // 65536 + address % 65536 - high) % 65535 or 65535)


def outside_like(address, number):
    """The address with this number, of 8,191 in 192.0.0.0/3, in place of one outside."""
    return with_sum(address, 0xC000 + number % OUTSIDES)


def inside_like(address):
    """The address in 10.0.0.0/16 in place of one inside."""
    return with_sum(address, 0x0A00)


# Eras

def eras_in(settings, report, written):
    """The eras of the report that have a first octet, each with what its written packets say of
    it."""
    found = {}
    for entry, packets in zip(report.entries, written):
        for packet in packets:
            inward, tcp = inward_of(settings, packet), tcp_of(packet)
            if entry.era is None or tcp is None or inward is None:
                continue
            if entry.begun == entry.era and entry.era not in found:
                found[entry.era] = eras.new_era(entry.era, key_of(packet, inward))
                found[entry.era].begun = entry.number
            era = found.get(entry.era)
            if era is not None:
                segment = read_segment(tcp, inward)
                segment.options = tcp.options
                eras.add_segment(era, segment)
    return [described(era, list(found.values())) for era in found.values() if eras.base(era) is not None]


def described(era, others):
    """What a receiver of the era is set up with. `last` is the record before the next era of the
    four-tuple begins."""
    later = [other.begun for other in others if other.key == era.key and other.begun > era.begun]
    syns = [[segment for segment in era.segments if segment.inward == side and segment.flags & SYN]
            for side in (True, False)]
    agreed = kinds_of(syns[0]) & kinds_of(syns[1]) if syns[0] and syns[1] else set()
    iss, first = eras.iss(era), era.segments[0]
    sent = (iss + 1) % 2**32 if iss is not None else first.ack if first.inward else first.seq
    opened = first.flags & (SYN | ACK | RST) == SYN
    return SimpleNamespace(number=era.number, key=era.key, first=era.begun, last=min(later, default=2**32) - 1,
                           base=eras.base(era), iss=iss, sent=sent,
                           stamps=TIMESTAMPS in agreed, sack=SACK_PERMITTED in agreed,
                           opener=("in" if first.inward else "out") if opened else None)


def kinds_of(syns):
    return {option.kind for option in read_options(syns[0].options).options}


def packets_of_eras(settings, eras_of_report, forwarded):
    """For each era its packets with their sides. `forwarded` has pairs of a record's number and a
    packet; a fragment that does not name its ports is of each connection between the two hosts."""
    found = [[] for _ in eras_of_report]
    for number, packet in forwarded:
        inward = inward_of(settings, packet)
        if inward is None or read_ipv4(packet).protocol != TCP:
            continue
        one = SimpleNamespace(record=number, inward=inward, octets=packet, tcp=tcp_of(packet))
        key, ends = key_of(packet, inward), (u32(packet, 12), u32(packet, 16))
        for era, chosen in zip(eras_of_report, found):
            hosts = (era.key[0], era.key[2]) if inward else (era.key[2], era.key[0])
            if era.first <= number <= era.last and ends == hosts and key in (era.key, None):
                chosen.append(one)
    return found


def has_stream(packets):
    """Whether an inward packet has octets, a FIN, or is a fragment."""
    return any(packet.inward and (packet.tcp is None or packet.tcp.payload or packet.tcp.flags & FIN)
               for packet in packets)


def flat(lists):
    """Pairs of a record's number and a packet, of a list of packets for each record."""
    return [(number, packet) for number, packets in enumerate(lists, 1) for packet in packets]
