"""Clean traffic of many kinds between inside and outside hosts: nothing of it is bad input, and no
note is to be on it.

A host is a namespace with its address and a count of its packets, from which their identifications
are. A talk is a generator of packets in their order; talks are mixed by chance. Networks lose,
reorder and delay packets before they are captured, so talks have retransmissions and packets out of
order.
"""

from types import SimpleNamespace

from model.formats import ACK, FIN, ICMP, PSH, RST, SYN, TCP, UDP, two
from model.packets import address, icmp, ipv4, tcp, udp

INSIDE, OUTSIDE = address("10.0.0.1"), address("198.51.100.7")

# The octets of a full segment: few, since the model reads each by itself.
FULL = 90

SCALED = bytes([2, 4, 5, 180, 4, 2, 1, 1, 1, 3, 3, 2])


def some_octets(rng, count):
    return rng.getrandbits(8 * count + 1).to_bytes(count + 1, "big")[1:]


def host(rng, number):
    return SimpleNamespace(address=number, count=rng.randrange(1, 60000))


def packet_of(src, dst, protocol, message, **fields):
    """A packet with the next identification of its host, which is never 0."""
    src.count = src.count % 65535 + 1
    return ipv4(src.address, dst.address, protocol, message, ident=src.count, **fields)


# TCP

class Peer:
    """One end of a connection: its numbers, and what it has of the other's."""

    def __init__(self, rng, place, port):
        self.host, self.port = place, port
        self.next = rng.choice([rng.randrange(2**32), 2**32 - rng.randrange(1, 3000)])
        self.seen = 0


class Connection:
    """Two peers, of which the first one calls. Each method yields packets."""

    def __init__(self, rng, caller, called):
        self.rng, self.caller, self.called = rng, caller, called
        self.stamps = rng.random() < 0.5

    def segment(self, peer, flags, payload=b"", seq=None, options=None):
        other = self.called if peer is self.caller else self.caller
        if options is None:
            options = (b"\1\1\x08\x0a" + two(0) + two(self.rng.randrange(65536)) + two(0) + two(7) if self.stamps
                       and not flags & SYN else b"")
        message = tcp(peer.host.address, other.host.address, peer.port, other.port,
                      (peer.next if seq is None else seq) % 2**32,
                      peer.seen % 2**32 if flags & ACK else 0, flags, payload, window=60000, options=options)
        return packet_of(peer.host, other.host, TCP, message, df=True)

    def opens(self):
        caller, called, again = self.caller, self.called, self.rng.random() < 0.1
        yield self.segment(caller, SYN, options=SCALED)
        if again:
            yield self.segment(caller, SYN, options=SCALED)
        called.seen = caller.next = caller.next + 1
        yield self.segment(called, SYN | ACK, options=SCALED)
        caller.seen = called.next = called.next + 1
        yield self.segment(caller, ACK)

    def acknowledges(self, peer, upto):
        peer.seen = max(peer.seen, upto)
        return self.segment(peer, ACK)

    def sends(self, peer, sizes):
        """Segments of these sizes, and acknowledgments of every second one; at times one is lost in
        the network, late, or sent again."""
        rng, other = self.rng, self.called if peer is self.caller else self.caller
        flight = []
        for number, size in enumerate(sizes):
            flight.append((peer.next, some_octets(rng, size)))
            peer.next += size
            if len(flight) == 2 or number + 1 == len(sizes):
                yield from self.flight(peer, other, flight)
                flight = []

    def flight(self, peer, other, flight):
        chance = self.rng.random()
        ends = [seq + len(payload) for seq, payload in flight]
        segments = [self.segment(peer, PSH | ACK if n + 1 == len(flight) else ACK, payload, seq)
                    for n, (seq, payload) in enumerate(flight)]
        if chance < 0.05 and len(flight) == 2:
            # The network exchanged them, or lost the first one: it is sent again, after the answer
            # to the second one.
            yield segments[1]
            yield self.acknowledges(other, flight[0][0])
            yield self.segment(peer, ACK, flight[0][1], flight[0][0])
        else:
            yield from segments
            if chance < 0.07:
                yield self.segment(peer, ACK, flight[-1][1], flight[-1][0])
        yield self.acknowledges(other, ends[-1])

    def closes(self, first):
        second = self.called if first is self.caller else self.caller
        yield self.segment(first, FIN | ACK)
        first.next += 1
        second.seen = first.next
        yield self.segment(second, ACK)
        if self.rng.random() < 0.3:
            yield from self.sends(second, [self.rng.randrange(1, 100)])
        yield self.segment(second, FIN | ACK)
        second.next += 1
        yield self.acknowledges(first, second.next)

    def keeps_alive(self, peer):
        other = self.called if peer is self.caller else self.caller
        yield self.segment(peer, ACK, some_octets(self.rng, self.rng.randrange(2)), peer.next - 1)
        yield self.segment(other, ACK)


def interactive(rng, connection):
    for _ in range(rng.randrange(3, 12)):
        yield from connection.sends(connection.caller, [rng.randrange(1, 40)])
        yield from connection.sends(connection.called, [rng.randrange(1, 80)] * rng.randrange(1, 3))
        if rng.random() < 0.1:
            yield from connection.keeps_alive(rng.choice([connection.caller, connection.called]))


def request(rng, connection):
    yield from connection.sends(connection.caller, [rng.randrange(20, 200)])
    yield from connection.sends(connection.called, [FULL] * rng.randrange(4, 40) + [rng.randrange(1, FULL)])


def upload(rng, connection):
    yield from connection.sends(connection.caller, [FULL] * rng.randrange(4, 40) + [rng.randrange(1, FULL)])
    yield from connection.sends(connection.called, [rng.randrange(10, 50)])


def merged(rng, connection):
    """As a receiver merges segments before they are captured."""
    sizes = [FULL * rng.choice([1, 2, 5, 10]) for _ in range(rng.randrange(4, 20))]
    yield from connection.sends(rng.choice([connection.caller, connection.called]), sizes)


def idle(rng, connection):
    for _ in range(rng.randrange(2, 8)):
        yield from connection.keeps_alive(rng.choice([connection.caller, connection.called]))


USES = [interactive, request, upload, merged, idle]


def conversation(rng, inside, outside, port):
    """A connection from its first segment to its last; few are refused, and few have no end yet."""
    ends = [Peer(rng, outside, port), Peer(rng, inside, rng.choice([22, 80, 443]))]
    if rng.random() < 0.4:
        ends = [Peer(rng, inside, port), Peer(rng, outside, rng.choice([22, 80, 443]))]
    connection = Connection(rng, *ends)
    if rng.random() < 0.05:
        yield connection.segment(connection.caller, SYN, options=SCALED)
        connection.called.seen, connection.called.next = connection.caller.next + 1, 0
        yield connection.segment(connection.called, RST | ACK)
        return
    yield from connection.opens()
    for _ in range(rng.randrange(1, 3)):
        yield from rng.choice(USES)(rng, connection)
    end = rng.random()
    if end < 0.7:
        yield from connection.closes(rng.choice(ends))
    elif end < 0.8:
        yield connection.segment(connection.called, RST | ACK)


# Other protocols

def lookups(rng, inside, outside, port):
    for _ in range(rng.randrange(1, 10)):
        yield packet_of(inside, outside, UDP,
                        udp(inside.address, outside.address, port, 53, some_octets(rng, rng.randrange(20, 60))))
        answer, check = some_octets(rng, rng.randrange(40, 300)), rng.choice([None, None, 0])
        yield packet_of(outside, inside, UDP, udp(outside.address, inside.address, 53, port, answer, check=check))


def pings(rng, inside, outside, port):
    ends = rng.choice([(inside, outside), (outside, inside)])
    for number in range(rng.randrange(1, 10)):
        rest = two(port) + two(number) + bytes(range(56))
        yield packet_of(*ends, ICMP, icmp(8, 0, rest))
        yield packet_of(*reversed(ends), ICMP, icmp(0, 0, rest))


def large(rng, inside, outside, port):
    """A datagram in fragments either way."""
    for src, dst in ((inside, outside), (outside, inside)):
        whole = packet_of(src, dst, UDP, udp(src.address, dst.address, port, 4000, some_octets(rng, 300)))
        ident, message = whole[4] * 256 + whole[5], whole[20:]
        for at in (0, 200):
            yield ipv4(src.address, dst.address, UDP, message[at:at + 200], ident=ident, mf=at == 0, offset=at)


OTHERS = [lookups, pings, large]


def traffic(rng, records=600):
    """At least this number of packets of raw IP, of mixed conversations."""
    insides = [host(rng, INSIDE + n) for n in range(3)]
    outsides = [host(rng, OUTSIDE + n) for n in range(4)]
    packets, talks, port = [], [], 40000
    while len(packets) < records or talks:
        while len(talks) < 6 and len(packets) < records:
            port += 1
            make = rng.choice([conversation] * 5 + OTHERS)
            talks.append(make(rng, rng.choice(insides), rng.choice(outsides), port))
        talk = rng.choice(talks)
        for _ in range(rng.randrange(1, 6)):
            packet = next(talk, None)
            if packet is None:
                talks.remove(talk)
                break
            packets.append(packet)
    return packets
