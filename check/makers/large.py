"""Makes a capture of 4 MiB from a seed, with packets to rewrite and to drop up to its end.

Messages of UDP have most of the octets, since the model is slow on those of TCP. The hosts inside
have addresses of 16 prefixes.
"""

import random

from lib.bench import captures

PREFIXES = ["10.%d.0.0/16" % (16 * number) for number in range(16)]

CONNECTIONS = 160

# Octets of a message of UDP and of a segment.
MESSAGE, SEGMENT = 2900, 32


class Peer(captures.Connection):
    """A connection to a host of one of the prefixes."""

    def __init__(self, number):
        captures.Connection.__init__(self, number)
        self.inside = 0x0A000001 + ((16 * (number % 16)) << 16)

    def turn(self, chance):
        """Makes a segment, at times sent again with an octet that differs, and its
        acknowledgment."""
        yield self.data(self.end, SEGMENT)
        if chance.random() < 0.1:
            yield self.data(self.end, SEGMENT, changed=True)
        self.end += SEGMENT
        if chance.random() < 0.5:
            yield self.ack()


def message(chance, number):
    """Makes a message of UDP; of 16 one has a TTL that norm raises, and one a wrong checksum."""
    outside, inside = 0xC6336400 + number % 256, 0x0A000002 + ((16 * (number % 16)) << 16)
    kind = chance.randrange(16)
    packet = captures.udp_packet(outside, 4000, inside, 53, 7 * number, MESSAGE, ttl=12 if kind == 0 else 64)
    return packet[:-1] + bytes([packet[-1] ^ 1]) if kind == 1 else packet


def make_large(path, seed, records):
    """Writes a capture with at least this number of records. A connection begins every 20
    records."""
    chance, out, peers = random.Random("large %s" % seed), captures.Capture(path), []
    while out.records < records:
        if len(peers) < CONNECTIONS and out.records >= 20 * len(peers):
            peers.append(Peer(len(peers)))
            for packet in (peers[-1].syn(), peers[-1].answer(), peers[-1].ack()):
                out.add(packet)
        out.add(message(chance, out.records))
        # The last one that began is the most active one.
        for packet in (peers[-1] if chance.random() < 0.3 else chance.choice(peers)).turn(chance):
            out.add(packet)
    return out.close()
