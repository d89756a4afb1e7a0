"""Small captures for the laws of check/receivers/stream_laws.py: senders that keep to one stream or
contradict it, eras that end quietly or not, recorded hosts.
"""

import random

from model import packets as p
from model.formats import ACK, FIN, PSH, RST, SYN, TCP, UDP
from model.packets import INSIDE, OUTSIDE, address, capture_of, tcp

OTHER = address("198.51.100.8")

IDLE = 5


class Sender:
    """An outside host, the inside host that acknowledges it, and the packets of both so far."""

    def __init__(self, rng, port, longest):
        self.rng, self.port, self.packets, self.now = rng, port, [], 0
        self.base = rng.choice([1000, 0, 2**32 - 20, rng.randrange(2**32)])
        self.acked, self.top, self.end = 0, 0, None
        self.lies = rng.random() < 0.5
        self.longest = longest

    def add(self, inbound, offset, flags, payload=b"", acked=None):
        src, dst, ports = (OUTSIDE, INSIDE, (self.port, 80)) if inbound else (INSIDE, OUTSIDE, (80, self.port))
        seq, ack = ((self.base + offset, 5001) if inbound
                    else (5001 - (flags & SYN != 0), self.base + (self.acked if acked is None else acked)))
        message = tcp(src, dst, *ports, seq % 2**32, ack % 2**32 if flags & ACK else 0, flags, payload)
        for packet in self.fragments(src, dst, message):
            self.packets.append((packet, self.now))

    def fragments(self, src, dst, message):
        """The packet, or two fragments that may overlap, and at times a third one that may differ
        from these.
        """
        rng, ident = self.rng, self.rng.randrange(65536)
        if len(message) < 40 or rng.random() < 0.85:
            return [p.ipv4(src, dst, TCP, message, ident=ident)]
        cut, back = rng.choice([24, 32]), rng.choice([0, 8, 16])
        parts = [(0, message[:cut], True), (cut - back, message[cut - back:], False)]
        rng.shuffle(parts)
        if rng.random() < 0.4:
            offset, octets, more = parts[0]
            at = rng.randrange(len(octets))
            parts.insert(1,
                         rng.choice([(offset, octets, more),
                                     (offset, octets[:at] + bytes([octets[at] ^ 1]) + octets[at + 1:], more)]))
        return [p.ipv4(src, dst, TCP, octets, ident=ident, offset=offset, mf=more) for offset, octets, more in parts]

    def open(self):
        self.add(True, -1, SYN)
        self.add(False, 0, SYN | ACK)

    def send(self):
        """A segment somewhere near what was sent last, which a sender that lies may change."""
        rng = self.rng
        offset = rng.choice([self.top, self.top, max(0, self.acked - 5),
                             rng.randint(max(0, self.acked - 20), self.top), self.top + 3])
        octets = bytes((7 * (offset + i) + self.port) % 251 for i in range(rng.randint(1, self.longest)))
        if self.end is not None:
            octets = octets[:max(0, self.end - offset)]
        if octets and self.lies and rng.random() < 0.3:
            at = rng.randrange(len(octets))
            octets = octets[:at] + bytes([octets[at] ^ 128]) + octets[at + 1:]
        self.add(True, offset, ACK | PSH, octets)
        self.top = max(self.top, offset + len(octets))

    def finish(self):
        self.end = self.top
        self.add(True, self.top, FIN | ACK)

    def acknowledge(self, upto=None):
        self.acked = max(self.acked, self.rng.randint(self.acked, self.top) if upto is None else upto)
        self.add(False, 0, ACK)

    def last_number(self):
        return self.top + (self.end is not None)

    def pause(self):
        """Mostly all is acknowledged; then the era ends, and what the inside host acknowledges
        begins the next one.
        """
        rng = self.rng
        if rng.random() < 0.3:
            self.finish()
        if rng.random() < 0.8:
            self.acknowledge(rng.choice([self.last_number(), self.last_number(), self.top]))
        self.now += rng.choice([IDLE, IDLE + 1, IDLE + 1, IDLE + 1])
        if rng.random() < 0.3:
            self.packets += [(p.segment("> S 999", 50000 + i), self.now) for i in range(3)]
        self.acked = max(0, rng.choice([self.acked, self.acked, self.acked, self.acked - 2, self.acked + 3]))
        self.end, self.top = None, max(self.top, self.acked)
        self.add(False, 0, ACK, acked=self.acked)

    def step(self):
        choice = self.rng.randrange(20)
        if choice < 12:
            self.send()
        elif choice < 17:
            self.acknowledge()
        elif choice < 19:
            self.pause()
        else:
            self.add(True, self.top, RST)


def sender(rng, longest):
    one = Sender(rng, 40000 + rng.randrange(4), longest)
    if rng.random() < 0.8:
        one.open()
    else:
        one.add(False, 0, ACK)
    for _ in range(rng.choice([6, 12, 24])):
        one.step()
    return one.packets


def recorded_host(rng):
    """A connection of which all passes, and at times what is dropped or changed, of its own pair of
    addresses or of another.
    """
    one = Sender(rng, 40000, 30)
    one.lies = False
    one.open()
    for _ in range(rng.choice([3, 6])):
        octets = bytes(rng.randrange(256) for _ in range(rng.randint(1, 30)))
        one.packets.append((p.inward(TCP,
                                     tcp(OUTSIDE, INSIDE, one.port, 80, (one.base + one.top) % 2**32, 5001, ACK,
                                         octets)), one.now))
        one.top += len(octets)
        if rng.random() < 0.5:
            one.acknowledge(one.top)
    good, bad = (p.udp(OTHER, INSIDE, 40000, 53, b"hi", **fields) for fields in ({}, {"check": 1}))
    extras = [[], [p.ipv4(OTHER, INSIDE, UDP, bad)], [p.ipv4(OUTSIDE, INSIDE, UDP, bad)],
              [p.ipv4(OTHER, INSIDE, UDP, good, ttl=1)], [b"\x45"]]
    for packet in rng.choice(extras):
        one.packets.insert(rng.randrange(len(one.packets)), (packet, 0))
    return one.packets


def make_stream(number, both=False):
    """The words and the octets of the capture with this number."""
    rng = random.Random("stream " + number)
    words = ["--idle", str(IDLE)] + rng.choice([[], [], ["--flows", "1"], ["--flows", "2"]])
    words += (["--both"] if both
              else rng.choice([[], [], [], ["--both"], ["--mtu", "576"], ["--quota", "1"], ["--cells", "3"]]))
    longest = 900 if "--mtu" in words else rng.choice([30, 30, 30, 300])
    packets = recorded_host(rng) if rng.random() < 0.2 else sender(rng, longest)
    return ["run"] + words + ["IN", "OUT", "10.0.0.0/8"], capture_of(packets)
