"""Makes the captures that `bench/run` times, each from a seed.

Packets are packed from their fields, and checksums are added up from the fields and from running
sums over one block of octets, so that making a record takes a few microseconds. Each kind of
capture is a function; `KINDS` lists them.
"""

import itertools
import random
import struct

CAPTURE_HEAD = struct.Struct("<IHHiIII")
RECORD_HEAD = struct.Struct("<IIII")
IP_HEAD = struct.Struct(">BBHHHBBHII")
TCP_HEADS = struct.Struct(">BBHHHBBHIIHHIIHHHH")
UDP_HEADS = struct.Struct(">BBHHHBBHIIHHHH")
ETHERNET, RAW = 1, 101
UDP, TCP = 17, 6
FIN, SYN, RST, ACK = 1, 2, 4, 16
MORE = 0x2000

# The octets of every payload are a slice of this block, which repeats after PERIOD octets.
PERIOD = 32749
OCTETS = random.Random(11).randbytes(PERIOD)
BLOCK = OCTETS + OCTETS + OCTETS
EVEN = [0, *itertools.accumulate(octet << 8 if place % 2 == 0 else octet for place, octet in enumerate(BLOCK))]
ODD = [0, *itertools.accumulate(octet << 8 if place % 2 == 1 else octet for place, octet in enumerate(BLOCK))]


def octets_at(place, size):
    """The octets of a stream from an offset on, and their sum as words."""
    begin = place % PERIOD
    sums = ODD if begin % 2 else EVEN
    return BLOCK[begin:begin + size], sums[begin + size] - sums[begin]


def checksum(total):
    """The checksum that makes this sum right: 2^16 counts as 1, so that fields of 32 bits are added
    whole."""
    return 65535 - total % 65535


class Capture:
    """A capture that is being written, a thousand records a second."""

    def __init__(self, path, network=RAW):
        self.file = open(path, "wb")
        self.file.write(CAPTURE_HEAD.pack(0xA1B2C3D4, 2, 4, 0, 0, 262144, network))
        self.records = 0
        self.parts = []

    def add(self, frame):
        size = len(frame)
        self.parts.append(RECORD_HEAD.pack(self.records // 1000, self.records % 1000 * 1000, size, size) + frame)
        self.records += 1
        if len(self.parts) == 4096:
            self.flush()

    def flush(self):
        self.file.write(b"".join(self.parts))
        self.parts.clear()

    def close(self):
        """Returns how many records the capture has."""
        self.flush()
        self.file.close()
        return self.records


def ip_head(source, target, protocol, size, number=0, fragment=0, ttl=64):
    """A header of 20 octets before this number of octets."""
    total = 0x4500 + size + 20 + number + fragment + (ttl << 8 | protocol) + source + target
    return IP_HEAD.pack(0x45, 0, size + 20, number, fragment, ttl, protocol, checksum(total), source, target)


def tcp_packet(source, sport, target, dport, seq, ack, flags, window=65535, payload=b"", payload_sum=0, ttl=64):
    """A segment without options in its packet."""
    size = 20 + len(payload)
    head = 0x4500 + size + 20 + (ttl << 8 | TCP) + source + target
    words = 0x5000 | flags
    total = source + target + TCP + size + sport + dport + seq + ack + words + window + payload_sum
    return TCP_HEADS.pack(0x45, 0, size + 20, 0, 0, ttl, TCP, checksum(head), source, target,
                          sport, dport, seq, ack, words, window, checksum(total), 0) + payload


def scaled_syn(source, sport, target, dport, seq, ack, flags, scale):
    """A SYN whose one option is a window scale."""
    options = bytes([3, 3, scale, 1])
    words = 0x6000 | flags
    total = source + target + TCP + 24 + sport + dport + seq + ack + words + 65535 + 0x0303 + (scale << 8 | 1)
    return (ip_head(source, target, TCP, 24)
            + struct.pack(">HHIIHHHH", sport, dport, seq, ack, words, 65535, checksum(total), 0)
            + options)


def udp_packet(source, sport, target, dport, place, size, number=0, ttl=64):
    """A message with this number of octets from this offset on, in its packet."""
    payload, payload_sum = octets_at(place, size)
    head = 0x4500 + size + 28 + number + (ttl << 8 | UDP) + source + target
    total = source + target + UDP + 2 * (size + 8) + sport + dport + payload_sum
    return UDP_HEADS.pack(0x45, 0, size + 28, number, 0, ttl, UDP, checksum(head), source, target,
                          sport, dport, size + 8, checksum(total)) + payload


class Connection:
    """A connection from outside, with the offset after its last octet and the one that is
    acknowledged."""

    def __init__(self, number):
        self.outside = 0x64400000 + number
        self.sport = 1024 + number % 60000
        self.inside = 0x0A000001 + number % 200
        self.base = number * 2654435761 % 2**32
        self.end = self.acked = 0
        self.latest = None

    def inward(self, seq, ack, flags, payload=b"", payload_sum=0):
        return tcp_packet(self.outside, self.sport, self.inside, 80, seq % 2**32, ack, flags, 65535,
                          payload, payload_sum)

    def outward(self, seq, ack, flags, window=65535):
        return tcp_packet(self.inside, 80, self.outside, self.sport, seq, ack % 2**32, flags, window)

    def syn(self):
        return self.inward(self.base - 1, 0, SYN)

    def answer(self):
        return self.outward(5000, self.base, SYN | ACK)

    def ack(self):
        self.acked = self.end
        return self.outward(5001, self.base + self.acked, ACK)

    def data(self, place, size, changed=False):
        payload, payload_sum = octets_at(self.base + place, size)
        if changed:
            payload_sum += ((payload[0] ^ 0x55) - payload[0]) << 8
            payload = bytes([payload[0] ^ 0x55]) + payload[1:]
        return self.inward(self.base + place, 5001, ACK, payload, payload_sum)


def udp(path, records, chance, _size):
    """Raw IP, UDP packets of 100 octets, all of which pass."""
    capture = Capture(path)
    for number in range(records):
        outside, inside = 0xC6336400 + chance.randrange(256), 0x0A000001 + chance.randrange(0xFFFFF)
        source, target = (inside, outside) if chance.random() < 0.5 else (outside, inside)
        capture.add(udp_packet(source, 4000 + number % 1000, target, 53, number * 31, 72, number % 65536))
    return capture.close()


def ethernet(path, records, chance, _size):
    """Ethernet, UDP packets of 64 to 1,400 octets, every fourth with a low TTL."""
    capture = Capture(path, ETHERNET)
    link = bytes([2, 0, 0, 0, 0, 1, 2, 0, 0, 0, 0, 2, 8, 0])
    for number in range(records):
        outside, inside = 0xC6336400 + chance.randrange(256), 0x0A000001 + chance.randrange(0xFFFFF)
        low = number % 4 == 3
        source, target = (inside, outside) if not low and chance.random() < 0.5 else (outside, inside)
        size = chance.randrange(36, 1373)
        capture.add(link + udp_packet(source, 4000, target, 53, number * 31, size, number % 65536,
                                      chance.randrange(1, 31) if low else 64))
    return capture.close()


def turn_of(connection, draw):
    """The kinds of the next records of a connection: data, a fifth of it twice, and half of it
    acknowledged at once."""
    again = ["again"] if draw() < 0.2 else []
    acked = ["ack"] if draw() < 0.5 or connection.end - connection.acked > 20000 else []
    return [*acked, *again, "data"]


def begun(capture, flows):
    """This number of connections, each of which begins in the capture."""
    connections = [Connection(number) for number in range(flows)]
    for connection in connections:
        capture.add(connection.syn())
        capture.add(connection.answer())
    return connections


def tcp(path, records, chance, flows):
    """TCP: data inwards in segments of up to 1,000 octets, a fifth of them sent twice."""
    # Connections begin first. A hundredth of the retransmissions is changed; data is acknowledged.
    capture = Capture(path)
    connections = begun(capture, flows)
    draw = chance.random
    # The connections under way. Their records alternate, and are of the same kinds however many
    # connections there are.
    under_way = [(connections[0], [])] * 64
    for _ in range(records):
        place = int(draw() * 64)
        connection, turn = under_way[place]
        if not turn:
            connection = connections[place + 64 * int(draw() * (flows // 64))]
            turn = turn_of(connection, draw)
            under_way[place] = (connection, turn)
        kind = turn.pop()
        if kind == "ack":
            capture.add(connection.ack())
        elif kind == "again":
            capture.add(connection.data(*connection.latest, draw() < 0.01))
        else:
            connection.latest = (connection.end, 1 + int(draw() * 1000))
            capture.add(connection.data(*connection.latest))
            connection.end += connection.latest[1]
    return capture.close()


def fragments(path, records, chance, _size):
    """UDP datagrams of 1,500 to 4,000 octets in three fragments each, 32 datagrams in turn."""
    capture = Capture(path)
    number = 0
    while capture.records < records:
        waiting = []
        for _ in range(32):
            number += 1
            source, target = 0xC6336400 + number % 256, 0x0A000001 + number % 65536
            size = chance.randrange(1472, 3973)
            message = udp_packet(source, 4000, target, 53, number * 31, size)[20:]
            cut = size // 3 // 8 * 8
            bounds = [(0, cut, MORE), (cut, 2 * cut, MORE), (2 * cut, len(message), 0)]
            waiting.append([ip_head(source, target, UDP, end - begin, number % 65536, more | begin // 8)
                            + message[begin:end] for begin, end, more in bounds])
        for turn in range(3):
            for pieces in waiting:
                capture.add(pieces[turn])
    return capture.close()


def lone(path, records, chance, _size):
    """Fragments of 100 octets, each the first one of its own datagram."""
    capture = Capture(path)
    payload, _ = octets_at(0, 80)
    for _ in range(records):
        capture.add(ip_head(0x64400000 + chance.randrange(2**20), 0x0A000001, UDP, 80,
                            chance.randrange(65536), MORE) + payload)
    return capture.close()


def stray_syn(chance):
    return tcp_packet(0x65000000 + chance.randrange(2**24), 1024 + chance.randrange(60000),
                      0x0A000001 + chance.randrange(200), 80, chance.randrange(2**32), 0, SYN)


def syns(path, records, chance, flows):
    """SYNs that are never answered: the table fills, and then each replaces the oldest one."""
    capture = Capture(path)
    for _ in range(flows + records):
        capture.add(stray_syn(chance))
    return capture.close()


def ports_in_one_chain(outside, inside, dport):
    """The ports with which an address is in the first chain of a table of 4,096 connections under
    the seed 0 (`crates/tcp_norm/src/key.rt`)."""
    factor = 11400714819323198485
    first = ((outside << 16) * factor + (inside << 16 | dport)) * factor
    step = factor * factor % 2**64
    return [port for port in range(1024, 61024) if ((first + port * step) % 2**64 >> 16) % 4097 == 0]


def chains(path, records, chance, count):
    """SYNs, again and again, of connections in one chain of a table of 4,096 with the seed 0."""
    capture = Capture(path)
    ends = []
    while len(ends) < count:
        outside = 0x66000000 + len(ends)
        ends += [(outside, port) for port in ports_in_one_chain(outside, 0x0A000001, 80)]
    packets = [tcp_packet(outside, port, 0x0A000001, 80, 1, 0, SYN) for outside, port in ends[:count]]
    for packet in packets:
        capture.add(packet)
    for _ in range(records):
        capture.add(packets[chance.randrange(count)])
    return capture.close()


def held_syns(path, records, chance, flows):
    """SYNs while each connection of the full table holds an octet that is not acknowledged."""
    capture = Capture(path)
    for number in range(flows):
        connection = Connection(number)
        for packet in (connection.syn(), connection.answer(), connection.data(0, 1)):
            capture.add(packet)
    for _ in range(records):
        capture.add(stray_syn(chance))
    return capture.close()


def filled_pool(capture, cells, flows):
    """Connections that hold all cells: each has one octet in each of its first blocks of 256
    offsets."""
    connections = [Connection(number) for number in range(flows)]
    for connection in connections:
        ends = connection.outside, connection.sport, connection.inside, 80
        back = connection.inside, 80, connection.outside, connection.sport
        capture.add(scaled_syn(*ends, (connection.base - 1) % 2**32, 0, SYN, 14))
        capture.add(scaled_syn(*back, 5000, connection.base, SYN | ACK, 14))
        capture.add(connection.outward(5001, connection.base, ACK))
    for block in range(cells // flows):
        for connection in connections:
            capture.add(connection.data(256 * block, 1))
    return connections


def pool(path, records, chance, cells, flows):
    """Segments of one octet at offsets far from each other: the cells are filled from the front on,
    then offsets are drawn up to twice as far."""
    capture = Capture(path)
    connections = filled_pool(capture, cells, flows)
    for _ in range(records):
        capture.add(connections[chance.randrange(flows)].data(256 * chance.randrange(2 * cells // flows), 1))
    return capture.close()


def pool_one(path, records, chance, cells):
    """Segments of one octet over a full pool, all cells held by one connection."""
    return pool(path, records, chance, cells, 1)


def pool_many(path, records, chance, cells):
    """Segments of one octet over a full pool, sixteen cells held by each connection."""
    return pool(path, records, chance, cells, cells // 16)


def pool_end(path, records, _chance, cells):
    """One connection holds all cells: its last octet again and again, while ACKs free the first."""
    capture = Capture(path)
    connection, = filled_pool(capture, cells, 1)
    for number in range(records):
        if number % 2:
            capture.add(connection.outward(5001, connection.base + number, ACK))
        else:
            capture.add(connection.data(256 * (cells - 1), 1))
    return capture.close()


def resets(path, records, chance, flows):
    """Resets of live connections: most outside of what is awaited, others awaited."""
    # Now and then one goes outwards, and the connection begins again.
    capture = Capture(path)
    connections = begun(capture, flows)
    ended = None
    for _ in range(records):
        connection = ended or connections[chance.randrange(flows)]
        kind = chance.random()
        if ended:
            capture.add(connection.syn())
            capture.add(connection.answer())
            ended = None
        elif kind < 0.6:
            capture.add(connection.inward(connection.base + chance.randrange(1, 2**32), 0, RST))
        elif kind < 0.9:
            capture.add(connection.inward(connection.base, 0, RST))
        else:
            capture.add(connection.outward(5001, connection.base, RST | ACK))
            ended = connection
    return capture.close()


def drops(path, records, chance, _size):
    """Packets of 100 octets that are dropped for their form."""
    # Version, header checksum, sides, protocol, source route, flags, length, no connection.
    capture = Capture(path)
    payload, payload_sum = octets_at(0, 60)
    for number in range(records):
        outside, inside, kind = 0x64400000 + chance.randrange(2**20), 0x0A000001 + chance.randrange(200), number % 8
        good = tcp_packet(outside, 4000, inside, 80, number, 0, ACK, 65535, payload, payload_sum)
        if kind == 0:
            good = b"\x65" + good[1:]
        elif kind == 1:
            good = good[:4] + bytes([good[4] ^ 1]) + good[5:]
        elif kind == 2:
            good = tcp_packet(inside, 4000, inside + 1, 80, number, 0, ACK, 65535, payload, payload_sum)
        elif kind == 3:
            good = ip_head(outside, inside, 47, 80) + good[20:]
        elif kind == 4:
            words = 0x4600 + 100 + (64 << 8 | TCP) + outside + inside + 0x8303 + 0x0400
            good = (IP_HEAD.pack(0x46, 0, 100, 0, 0, 64, TCP, checksum(words), outside, inside)
                    + bytes([131, 3, 4, 0]) + good[24:])
        elif kind == 5:
            good = tcp_packet(outside, 4000, inside, 80, number, 0, SYN | FIN, 65535, payload, payload_sum)
        elif kind == 6:
            good = udp_packet(outside, 4000, inside, 53, number, 72)
            good = good[:24] + b"\x00\x09" + good[26:]
        else:
            good = tcp_packet(outside, 4000, inside, 80, number, 0, RST, 65535, payload, payload_sum)
        capture.add(good)
    return capture.close()


def wrong_sums(path, records, chance, _size):
    """UDP messages and segments of 100 octets in all, each with a wrong checksum."""
    capture = Capture(path)
    payload, payload_sum = octets_at(0, 60)
    for number in range(records):
        outside, inside = 0x64400000 + chance.randrange(2**20), 0x0A000001 + chance.randrange(200)
        if number % 2:
            packet = udp_packet(outside, 4000, inside, 53, number, 72)
        else:
            packet = tcp_packet(outside, 4000, inside, 80, number, 0, ACK, 65535, payload, payload_sum)
        capture.add(packet[:-1] + bytes([packet[-1] ^ 1]))
    return capture.close()


# The kinds: the maker, by what the number of records is divided, the number of connections, cells
# or packets that it takes in a whole run and in a small one, and norm's options.
KINDS = {
    "udp": (udp, 1, 0, 0, []),
    "ethernet": (ethernet, 5, 0, 0, []),
    "tcp-64": (tcp, 2, 64, 64, ["--flows", "65536", "--cells", "262144"]),
    "tcp-4096": (tcp, 2, 4096, 256, ["--flows", "65536", "--cells", "262144"]),
    "tcp-60000": (tcp, 2, 60000, 1000, ["--flows", "65536", "--cells", "262144"]),
    "fragments": (fragments, 4, 0, 0, []),
    "syns": (syns, 2, 4096, 256, ["--flows", "{size}"]),
    "held-syns": (held_syns, 20, 4096, 256, ["--flows", "{size}"]),
    "chains": (chains, 20, 1024, 64, []),
    "pool-one": (pool_one, 50, 65536, 2048, ["--cells", "{size}"]),
    "pool-many": (pool_many, 5, 65536, 2048, ["--cells", "{size}"]),
    "pool-end": (pool_end, 5, 65536, 2048, ["--cells", "{size}"]),
    "lone-fragments": (lone, 2, 0, 0, []),
    "resets": (resets, 2, 1024, 256, []),
    "drops": (drops, 1, 0, 0, []),
    "wrong-sums": (wrong_sums, 1, 0, 0, []),
}


def make(kind, path, records, seed, size):
    """Makes a capture of this kind with this number of records besides those with which it begins,
    and returns how many it has in all."""
    return KINDS[kind][0](path, records, random.Random(seed), size)
