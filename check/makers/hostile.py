"""Makes hostile captures, and plain captures of like sizes to compare with.

Records are packed into one buffer, and checksums are added up from the fields, so that a record
takes a few microseconds. Each kind of capture is a function of a writer, the number of records, a
source of random numbers and a size; `KINDS` lists them.
"""

import array
import itertools
import struct

from lib.bench import captures
from model.formats import ACK, FIN, RST, SYN, TCP, UDP

FILE_HEAD = struct.pack(">IHHiIII", 0xA1B2C3D4, 2, 4, 0, 0, 262144, 101)

# The head of a record followed by an IPv4 header, and by a TCP header too.
IP_RECORD = struct.Struct(">IIIIBBHHHBBHII")
TCP_RECORD = struct.Struct(">IIIIBBHHHBBHIIHHIIHHHH")

ROOM = 1 << 20

INSIDE = 0x0A000001


class Writer:
    """A classic capture of raw IP, big-endian, while it is written."""

    def __init__(self, path):
        self.file = open(path, "wb")
        self.buffer = bytearray(ROOM + 70000)
        self.buffer[:24] = FILE_HEAD
        self.at = 24
        self.seconds = 1
        self.sizes = array.array("I")

    def flush(self):
        self.file.write(memoryview(self.buffer)[:self.at])
        self.at = 0

    def close(self):
        """Returns the sizes of the packets."""
        self.flush()
        self.file.close()
        return self.sizes

    def grown(self, at, size):
        """Counts a packet of this size, whose record begins at `at`."""
        self.sizes.append(size)
        self.at = at + 16 + size
        if self.at > ROOM:
            self.flush()

    def tcp(self, source, sport, target, dport, seq, ack, flags, payload=b"", payload_sum=0, window=65535):
        """Adds a segment without options."""
        at, size = self.at, 40 + len(payload)
        total = source + target + TCP + size - 20 + sport + dport + seq + ack + (0x5000 | flags) + window + payload_sum
        TCP_RECORD.pack_into(self.buffer, at, self.seconds, 0, size, size, 0x45, 0, size, 0, 0, 64, TCP,
                             65535 - (0x8506 + size + source + target) % 65535,
                             source, target, sport, dport, seq, ack, 0x5000 | flags, window, 65535 - total % 65535, 0)
        self.buffer[at + 56:at + 16 + size] = payload
        self.grown(at, size)

    def piece(self, source, target, number, marks, payload):
        """Adds a fragment of a UDP message; `marks` are MF and the offset in units of 8 octets."""
        at, size = self.at, 20 + len(payload)
        total = 0x8511 + size + number + marks + source + target
        IP_RECORD.pack_into(self.buffer, at, self.seconds, 0, size, size, 0x45, 0, size, number, marks, 64, UDP,
                            65535 - total % 65535, source, target)
        self.buffer[at + 36:at + 16 + size] = payload
        self.grown(at, size)

    def packet(self, octets):
        """Adds a packet."""
        at, size = self.at, len(octets)
        struct.pack_into(">IIII", self.buffer, at, self.seconds, 0, size, size)
        self.buffer[at + 16:at + 16 + size] = octets
        self.grown(at, size)


class Blocks(Writer):
    """A pcapng file with 64 interfaces in each section, and a block of 12 octets, of an unknown
    type, before each packet."""

    INTERFACE = struct.pack(">IIHHII", 1, 20, 101, 0, 0, 20)
    SECTION = struct.pack(">IIIHHqI", 0x0A0D0D0A, 28, 0x1A2B3C4D, 1, 0, -1, 28) + INTERFACE * 64
    BEFORE = struct.Struct(">IIIIIIIIII")

    def __init__(self, path):
        super().__init__(path)
        self.at = 0

    def packet(self, octets):
        if len(self.sizes) % 10000 == 0:
            self.buffer[self.at:self.at + len(self.SECTION)] = self.SECTION
            self.at += len(self.SECTION)
        at, size = self.at, len(octets)
        whole = 32 + (size + 3) // 4 * 4
        self.BEFORE.pack_into(self.buffer, at, 0x0BAD, 12, 12, 6, whole, len(self.sizes) % 64, 0, self.seconds * 1000,
                              size, size)
        self.buffer[at + 40:at + 8 + whole] = octets + b"\0" * (-size % 4)
        struct.pack_into(">I", self.buffer, at + 8 + whole, whole)
        self.sizes.append(size)
        self.at = at + 12 + whole
        if self.at > ROOM:
            self.flush()


def packed_tcp(source, sport, target, dport, seq, ack, flags, payload, options=b"", ip_options=b""):
    """Makes a segment with options, in its packet; options fill words of 32 bits."""
    segment = (struct.pack(">HHIIHHHH", sport, dport, seq, ack, (5 + len(options) // 4) << 12 | flags, 65535, 0, 0)
               + options + payload)
    total = source + target + TCP + len(segment) + words_sum(segment)
    segment = segment[:16] + struct.pack(">H", captures.checksum(total)) + segment[18:]
    head = (struct.pack(">BBHHHBBHII", 0x45 + len(ip_options) // 4, 0, 20 + len(ip_options) + len(segment), 0, 0, 64,
                        TCP, 0, source, target) + ip_options)
    return head[:10] + struct.pack(">H", captures.checksum(words_sum(head))) + head[12:] + segment


def words_sum(octets):
    return sum(octets[0::2]) * 256 + sum(octets[1::2])


def opened(out, source, sport, target, base, scale=None):
    """Opens a connection from outside whose first octet has the sequence number `base`; with a
    scale both ends scale their windows."""
    if scale is None:
        out.tcp(source, sport, target, 80, (base - 1) % 2**32, 0, SYN)
        out.tcp(target, 80, source, sport, 5000, base, SYN | ACK)
    else:
        options = bytes([3, 3, scale, 1])
        out.packet(packed_tcp(source, sport, target, 80, (base - 1) % 2**32, 0, SYN, b"", options))
        out.packet(packed_tcp(target, 80, source, sport, 5000, base, SYN | ACK, b"", options))
    out.tcp(target, 80, source, sport, 5001, base, ACK)


# The kinds

def plain(out, sizes, connections):
    """Segments of this number of connections in order, those of each in turn, and an acknowledgment
    for every 32,768 octets."""
    ends = [(0x64400000 + number, 1024 + number % 60000, INSIDE + number % 200,
             number * 2654435761 % 2**32) for number in range(connections)]
    for end in ends:
        opened(out, *end)
    sent = [0] * connections
    acked = [0] * connections
    for number, size in enumerate(sizes):
        which = number * 7919 % connections
        source, sport, target, base = ends[which]
        place = sent[which]
        payload, payload_sum = captures.octets_at(place, max(size - 40, 0))
        out.tcp(source, sport, target, 80, (base + place) % 2**32, 5001, ACK, payload, payload_sum)
        sent[which] = place = place + len(payload)
        if place - acked[which] > 32768:
            acked[which] = place
            out.tcp(target, 80, source, sport, 5001, (base + place) % 2**32, ACK)


def table(out, count, chance, size):
    """The greatest table, in which each connection holds an octet; then ever new connections, and
    octets that differ."""
    draw = chance.random
    for number in range(size):
        source, sport = 0x64400000 + number, 1024 + number % 60000
        out.tcp(source, sport, INSIDE, 80, 999, 0, SYN)
        out.tcp(INSIDE, 80, source, sport, 5000, 1000, SYN | ACK)
        out.tcp(source, sport, INSIDE, 80, 1000, 5001, ACK, b"a", 0x6100)
    for _ in range(count - 3 * size):
        kind, number = draw(), int(draw() * size)
        source, sport = 0x64400000 + number, 1024 + number % 60000
        if kind < 0.4:
            out.tcp(0x65000000 + int(draw() * 2**24), 1024 + number % 60000, INSIDE, 80, number, 0, SYN)
        elif kind < 0.5:
            out.tcp(INSIDE, 80, 0x65000000 + int(draw() * 2**24), 1024 + number % 60000, 5001, number, ACK)
        elif kind < 0.75:
            out.tcp(source, sport, INSIDE, 80, 1000, 5001, ACK, b"b", 0x6200)
        else:
            out.tcp(source, sport, INSIDE, 80, 1000 + int(draw() * 60000), 5001, ACK, b"c", 0x6300)


def cells(out, count, chance, size):
    """All cells in one connection, by single octets far from each other, then octets between and
    after them."""
    draw = chance.random
    source, base = 0x64400000, 2**32 - 70000
    opened(out, source, 1024, INSIDE, base, 14)
    for number in range(count - 3):
        place = 256 * number if number < size else 256 * int(draw() * 2 * size) + int(draw() * 3)
        octet = 0x61 if draw() < 0.9 else 0x62
        out.tcp(source, 1024, INSIDE, 80, (base + place) % 2**32, 5001, ACK, bytes([octet]), octet << 8)


def datagrams(out, count, chance, size):
    """Pieces of 8 octets, in blocks of their own, of more datagrams than may be held, none of which
    ends."""
    draw = chance.random
    payload = b"abcdefgh"
    for number in range(count):
        out.seconds = 1 + number * 200 // count
        key = int(draw() * size * 1.2)
        out.piece(0x64400000 + key // 4, INSIDE, key, captures.MORE | int(draw() * 255) * 32, payload)


def bucket(out, count, chance, size):
    """SYNs of connections that a table of this size has in one bucket under the seed 0, again and
    again."""
    ends = in_one_bucket(size)
    for number in range(count):
        source, sport = ends[number if number < size else int(chance.random() * size)]
        out.tcp(source, sport, INSIDE, 80, 999, 0, SYN)


def syns(out, count, chance, _size):
    """SYNs of ever new connections, none of them answered."""
    draw = chance.random
    for number in range(count):
        out.tcp(0x65000000 + number, 1024 + int(draw() * 60000), INSIDE + number % 200, 80, int(draw() * 2**32), 0, SYN)


def resets(out, count, _chance, _size):
    """Resets at each sequence number of a window with 60,000 unacknowledged octets, and around
    it."""
    source, base = 0x64400000, 2**32 - 30000
    opened(out, source, 1024, INSIDE, base)
    for place in range(0, 60000, 1000):
        payload, payload_sum = captures.octets_at(place, 1000)
        out.tcp(source, 1024, INSIDE, 80, (base + place) % 2**32, 5001, ACK, payload, payload_sum)
    for number in range(count - 63):
        out.tcp(source, 1024, INSIDE, 80, (base - 300 + number % 66000) % 2**32, 5001 if number % 2 else 0,
                RST | ACK if number % 2 else RST)


def options_of(chance, length):
    """Makes options of this number of octets: kinds that are kept, kinds that are not, ends of the
    list, and one area of twenty with a length that is wrong."""
    area = b""
    while len(area) < length:
        kind = chance.choice((1, 2, 3, 4, 5, 8, 19, 30, 254, chance.randrange(2, 256),
                              1 if chance.random() < 0.7 else 0))
        size = {0: 1, 1: 1, 2: 4, 3: 3, 4: 2, 5: chance.choice((10, 18, 26, 34)),
                8: 10}.get(kind, chance.randrange(2, 12))
        if size == 1 or len(area) + size > length:
            area += bytes([kind if size == 1 else 1])
        else:
            area += bytes([kind, size]) + bytes(chance.randrange(256) for _ in range(size - 2))
    wrong = chance.randrange(max(length, 1))
    return (area if chance.random() < 0.95 or not length else area[:wrong] + bytes([chance.randrange(256)])
            + area[wrong + 1:])


def options(out, count, chance, _size):
    """Segments with options of every length in the header of IPv4, of TCP and of both."""
    source = 0x64400000
    opened(out, source, 1024, INSIDE, 1000)
    made = []
    for number in range(6000):
        lengths = [4 * (number % 11), 4 * (number // 11 % 11)]
        area, ip_area = (options_of(chance, length) for length in lengths)
        payload = BODY[:number % 50]
        flags = ACK if number % 9 else ACK | FIN
        made.append(packed_tcp(source, 1024, INSIDE, 80, 1000 + number * 10, 5001,
                               flags & ~FIN if number < 5000 else flags, payload, area, ip_area))
    for _ in range(count - 3):
        out.packet(made[int(chance.random() * 6000)])


BODY = bytes(range(97, 123)) * 10

ORDERS = list(itertools.permutations(range(4)))


def pieces(out, count, chance, _size):
    """Datagrams in four pieces that overlap, in each of their orders; every third has octets that
    differ where two pieces overlap."""
    draw = chance.random
    number = 0
    while len(out.sizes) < count - 3:
        number += 1
        out.seconds = 1 + number // 20
        length = 8 * (8 + int(draw() * 20))
        message = struct.pack(">HHHH", 4000, 53, length, 0) + BODY[:length - 8]
        other = BODY[1:25] if number % 3 == 0 else None
        cuts = [0, length // 32 * 8, length // 16 * 8, length // 32 * 24, length]
        source = 0x64400000 + number // 65536
        for turn in ORDERS[number % 24]:
            begin, end = max(cuts[turn] - 8, 0), cuts[turn + 1]
            payload = message[begin:end]
            if other and turn == 2:
                payload = other[:8] + payload[8:]
            out.piece(source, INSIDE, number % 65536, (0 if turn == 3 else captures.MORE) | begin // 8, payload)


def blocks(out, count, chance, _size):
    """A pcapng file with 64 interfaces in a section, a tiny block before each packet, and SYNs in
    the packets."""
    made = [packed_tcp(0x65000000 + number, 1024, INSIDE, 80, number, 0, SYN, b"") for number in range(6000)]
    for _ in range(count):
        out.packet(made[int(chance.random() * 6000)])


def times(out, count, chance, _size):
    """SYNs while the clock jumps forward and back, so that each record ends two idle
    connections."""
    draw = chance.random
    now = 1
    for number in range(count):
        now += 3 if number % 2000 == 1999 else 0
        out.seconds = now if draw() < 0.8 else int(draw() * now)
        out.tcp(0x65000000 + number, 1024, INSIDE, 80, number, 0, SYN)
    out.seconds = 2**32 - 1


# Four-tuples of one bucket

PRIME = 2**61 - 1
# The point of the seed 0.
POINT = 0x9E3779B97F4A7C15 % 2**60 + 1


def hash_words(first, second):
    """Hashes two words under the seed 0, as `linked_table::hash_words` does."""
    return (first * POINT + second) * POINT % PRIME


def bucket_of(hashed, buckets):
    """Picks the bucket of a hash, as `linked_table` does."""
    return hashed % 2**32 * (hashed >> 32) % 2**32 * buckets >> 32


def in_one_bucket(count):
    """Finds `count` outside addresses and ports that a table of `count` connections has in its
    first bucket under the seed 0."""
    ends, inside = [], INSIDE << 16 | 80
    for number in itertools.count():
        outside, port = 0x66000000 + number // 60000, 1024 + number % 60000
        if bucket_of(hash_words(outside << 16 | port, inside), count + 1) == 0:
            ends.append((outside, port))
            if len(ends) == count:
                return ends


GREATEST = ["--flows", "65536", "--cells", "262144", "--frags", "4096", "--frag-cells", "65536"]

# The kinds: the maker, the file's writer, the size at its greatest and the part of the records that
# it is at most, and norm's options.
KINDS = {
    "table": (table, Writer, 65536, 6, [*GREATEST[2:], "--flows", "{size}"]),
    "cells": (cells, Writer, 262144, 3, [*GREATEST[:2], *GREATEST[4:], "--cells", "{size}"]),
    "datagrams": (datagrams, Writer, 4096, 8, [*GREATEST[:4], *GREATEST[6:], "--frags", "{size}"]),
    "bucket": (bucket, Writer, 512, 2, ["--flows", "{size}", "--seed", "7"]),
    "syns": (syns, Writer, 65536, 1, GREATEST),
    "resets": (resets, Writer, 0, 1, []),
    "options": (options, Writer, 0, 1, []),
    "pieces": (pieces, Writer, 0, 1, []),
    "blocks": (blocks, Blocks, 0, 1, []),
    "times": (times, Writer, 65536, 1, [*GREATEST, "--idle", "1", "--frag-time", "1"]),
}
