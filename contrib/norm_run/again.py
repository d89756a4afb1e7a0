"""Reads IN again where evidence leaves a doubt. Were other octets sent at the offsets of those that
norm did not forward? Did a connection go on after a segment that may end it?"""

import bisect
import contextlib
import struct
import subprocess

from .made import RUNNING, end_all
from .opened import CLASSIC, SECTION

OTHER = "IN has other octets at its offsets, in record %d"
NOWHERE = "IN has its octets nowhere else"
GOES_ON = "the connection goes on after it, with record %d"
IN_FRAGMENTS = "it is a segment in fragments"

ETHERNET, TCP, MORE = 1, 6, 0x2000
SYN, RST, ACK = 2, 4, 16

# How many sequence numbers there are.
TURN = 1 << 32

# Seconds for which a host keeps the fragments of a datagram.
KEPT = 30

INTERFACE, PACKET, SIMPLE, ENHANCED = 1, 2, 3, 6


def records_of(file):
    """Yields the time in seconds, the link and the octets of each record of a capture."""
    start = file.read(4)
    if start == SECTION:
        yield from records_of_blocks(file)
        return
    order, form = CLASSIC[start]
    link = struct.unpack(order + "I", file.read(20)[16:])[0] & 0xFFFF
    read, heads = file.read, struct.Struct(order + "IIII")
    while len(head := read(16)) == 16:
        seconds, _, captured, _ = heads.unpack(head)
        yield seconds, link, read(captured)


def records_of_blocks(file):
    """The same of a pcapng file, of which the first four octets are read; a simple packet has the
    time of the record before it."""
    order, links, time, head = "<", [], 0, SECTION + file.read(4)
    while len(head) == 8:
        if head[:4] == SECTION:
            order, links, head = "<", [], head + file.read(4)
            if head[8:] == b"\x1a\x2b\x3c\x4d":
                order = ">"
        kind, length = struct.unpack_from(order + "II", head)
        body = file.read(length - len(head))[:-4]
        if kind == INTERFACE:
            links.append((struct.unpack_from(order + "H", body)[0], units_of(order, body)))
        elif kind in (PACKET, ENHANCED):
            number, high, low, captured = struct.unpack_from(order + ("HxxIII" if kind == PACKET else "IIII"), body)
            time = (high << 32 | low) // links[number][1]
            yield time, links[number][0], body[20:20 + captured]
        elif kind == SIMPLE:
            yield time, links[0][0], body[4:4 + struct.unpack_from(order + "I", body)[0]]
        head = file.read(8)


def units_of(order, body):
    """Returns the units of time in a second, by the options of an interface."""
    at = 8
    while at + 4 <= len(body):
        kind, length = struct.unpack_from(order + "HH", body, at)
        if kind == 9 and length == 1:
            return 2**(body[at + 4] & 127) if body[at + 4] & 128 else 10**body[at + 4]
        at += 4 + length + -length % 4
    return 10**6


class Sent:
    """The octets that IN has at the offsets of a record: the first ones, and which of them another
    record has too."""

    __slots__ = ("doubt", "octets", "known", "elsewhere", "lap", "is_seen", "until", "first")

    def __init__(self, doubt):
        self.doubt, self.is_seen, self.until = doubt, False, doubt.length
        self.clear(None)

    def clear(self, lap):
        length = self.doubt.length
        self.octets, self.known, self.elsewhere = bytearray(length), bytearray(length), bytearray(length)
        self.lap, self.first = lap, None

    def is_of_lap(self, lap):
        """Returns whether octets are of the same turn of the sequence numbers as the record, or of
        the same datagram as the fragment, as far as it is known."""
        if self.lap is None or abs(self.lap - lap) > (KEPT if self.doubt.is_fragment else 0):
            if not self.is_seen:
                self.clear(lap)
            return not self.is_seen
        return True

    def take(self, at, octets, record):
        """Takes octets of a record, from this offset on; returns whether other ones are known."""
        begin, end = max(at, 0), min(at + len(octets), self.doubt.length)
        octets, before, known = octets[begin - at:end - at], self.octets[begin:end], self.known[begin:end]
        self.first = self.first or record
        if octets != before and any(it and one != other for it, one, other in zip(known, octets, before)):
            return True
        self.octets[begin:end], self.known[begin:end] = octets, b"\1" * (end - begin)
        return False

    def note_elsewhere(self, at, length):
        begin, end = max(at, 0), min(at + length, self.doubt.length)
        self.elsewhere[begin:end] = b"\1" * (end - begin)


class Way:
    """One direction of a connection, or one datagram, with the doubts about it."""

    __slots__ = ("sent", "starts", "longest", "stops", "active", "acked", "is_acked", "has_begun")

    def __init__(self, doubts):
        self.sent = sorted((Sent(it) for it in doubts if it.length), key=lambda it: it.doubt.start % TURN)
        self.starts = [it.doubt.start % TURN for it in self.sent]
        self.longest = max((it.doubt.length for it in self.sent), default=0)
        self.stops = {it.record: it for it in doubts if it.stops}
        self.active, self.acked, self.is_acked, self.has_begun = [], None, False, False

    def acknowledge(self, number):
        """Takes what the other side acknowledges, which an attacker cannot choose: the turn of a
        sequence number is the nearest to it."""
        near = number + TURN if self.acked is None else self.near(number)
        if not self.is_acked or near > self.acked:
            self.acked, self.is_acked = near, True

    def near(self, number):
        return self.acked + (number - self.acked + TURN // 2) % TURN - TURN // 2

    def over(self, start, length):
        """Yields what is known at the offsets of these octets, and where they begin in it."""
        for begin in (start - TURN, start, start + TURN) if self.sent else ():
            at = bisect.bisect_left(self.starts, begin - self.longest)
            while at < len(self.starts) and self.starts[at] < begin + length:
                if begin < self.starts[at] + self.sent[at].doubt.length:
                    yield self.sent[at], begin - self.starts[at]
                at += 1


class Again:
    """What IN says of doubts: the reasons for which records are contradictions, by their
    numbers."""

    def __init__(self, doubts):
        self.reasons, self.needing = {}, {it.record for it in doubts if it.needs}
        of_keys = {}
        for doubt in doubts:
            of_keys.setdefault(doubt.key, []).append(doubt)
        self.ways = {key: Way(it) for key, it in of_keys.items()}
        self.back = {key[4:8] + key[:4] + key[10:] + key[8:10]: it for key, it in self.ways.items() if len(key) == 12}

    def read(self, file):
        """Reads IN; the numbers of records are those of the report."""
        ways, back = self.ways, self.back
        for number, (time, link, octets) in enumerate(records_of(file), 1):
            at = 14 if link == ETHERNET else 0
            if octets[at:at + 1] == b"\x45" and len(octets) >= at + 24 and not octets[at + 6] & 0x3F | octets[at + 7]:
                key = octets[at + 12:at + 24]
                if key not in ways and key not in back:
                    continue
            if not at or octets[12:14] == b"\x08\0":
                self.take(number, time, octets[at:])
        for way in self.ways.values():
            for sent in way.sent:
                self.end(sent)

    def take(self, number, time, packet):
        """Takes a packet, which may be in no doubt."""
        header, total = packet[0] % 16 * 4 if packet else 0, int.from_bytes(packet[2:4], "big")
        if packet[:1] < b"\x45" or packet[:1] > b"\x4f" or len(packet) < header or total < header:
            return
        message, place = packet[header:total], int.from_bytes(packet[6:8], "big")
        if place & 0x3FFF:
            way = self.ways.get(packet[12:20] + packet[9:10] + packet[4:6])
            if way:
                self.compare(way, number, (place & 0x1FFF) * 8, message, time)
        if packet[9] != TCP or place & 0x1FFF or len(message) < 20:
            return
        key = packet[12:20] + message[:4]
        if key in self.back:
            self.answer(self.back[key], message)
        if key in self.ways:
            self.segment(self.ways[key], number, message, place & MORE)

    def answer(self, way, message):
        """Takes a segment of the other side: a SYN begins both streams."""
        if message[13] & ACK:
            way.acknowledge(int.from_bytes(message[8:12], "big"))
        if message[13] & SYN:
            way.has_begun, way.active = True, []

    def segment(self, way, number, message, is_fragment):
        """Takes a segment of the direction."""
        flags, octets = message[13], message[message[12] // 16 * 4:]
        seq = (int.from_bytes(message[4:8], "big") + bool(flags & SYN)) % TURN
        way.has_begun = way.has_begun or bool(flags & SYN)
        if way.acked is None:
            way.acked = seq + TURN
        begin = way.near(seq)
        # The octet of a keep-alive has no meaning: it is before the next one (RFC 9293, 3.8.4).
        if octets and not (len(octets) == 1 and way.is_acked and begin + 1 == way.acked):
            if not flags & (SYN | RST):
                self.go_on(way, number, begin + len(octets))
            self.compare(way, number, seq, octets, begin - seq)
            if is_fragment:
                self.reasons.update((sent.doubt.record, IN_FRAGMENTS) for sent, _ in way.over(seq, len(octets))
                                    if sent.doubt.record == number)
        if number in way.stops:
            way.active.append((way.stops[number], begin))

    def go_on(self, way, number, end):
        """Takes octets up to this offset, after segments at which receivers may have stopped."""
        for doubt, begin in way.active:
            if doubt.stops != "F" or end > begin:
                self.reasons.setdefault(doubt.record, GOES_ON % number)
        way.active = [it for it in way.active if it[0].record not in self.reasons]

    def compare(self, way, number, start, octets, lap):
        """Compares octets with those that other records have at their offsets."""
        for sent, at in way.over(start, len(octets)):
            doubt, first = sent.doubt, sent.first
            if not sent.is_of_lap(lap):
                continue
            if sent.take(at, octets, number):
                self.reasons.setdefault(doubt.record, OTHER % (first if number == doubt.record else number))
            if number not in self.needing:
                sent.note_elsewhere(at, len(octets))
            if number == doubt.record:
                sent.is_seen = True
                # What is not acknowledged may come later, and what IN does not begin with earlier.
                if doubt.needs == "T_OLD":
                    sent.until = min(doubt.length, max(0, way.acked - lap - start)) if way.has_begun else 0

    def end(self, sent):
        """Decides at the end of IN about octets that have to be elsewhere, too."""
        if sent.doubt.needs and sent.is_seen and not all(sent.elsewhere[:sent.until]):
            self.reasons.setdefault(sent.doubt.record, NOWHERE)


@contextlib.contextmanager
def opened_again(opened):
    """Opens IN, through the commands of its pipe where it has some."""
    if not opened.commands:
        with open(opened.path, "rb") as file:
            yield file
        return
    source = subprocess.DEVNULL
    try:
        for command in opened.commands:
            RUNNING.append(subprocess.Popen(command, stdin=source, stdout=subprocess.PIPE, stderr=subprocess.DEVNULL))
            if source != subprocess.DEVNULL:
                source.close()
            source = RUNNING[-1].stdout
        yield source
    finally:
        end_all()
        RUNNING.clear()


def reasons_of(opened, doubts):
    """Returns why records are contradictions, by their numbers, of these doubts."""
    if not doubts:
        return {}
    again = Again(doubts)
    with opened_again(opened) as file:
        again.read(file)
    return again.reasons
