"""Conversations of an outside and an inside host, whose segments stand at the edges of what their
era allows."""

from makers.datagrams import GOOD_OPTIONS, ODD_OPTIONS, inside_address, octets, outside_address
from makers.fragments import fragments_of_packet
from makers.headers import packet_of
from makers.world import chance, live_era, near
from model import eras
from model.formats import ACK, CWR, ECE, FIN, PSH, RST, SYN, TCP, URG
from model.packets import tcp

HALF = 2**31

SCALES = [b"", b"\1\3\3\0", b"\1\3\3\2", b"\1\3\3\7", b"\1\3\3\x0e", b"\1\3\3\x0f"]

WINDOWS = [0, 1, 4, 100, 255, 256, 1000, 8192, 65535]


def new_host_pair(world):
    """The two ends, where the numbers of the outside one begin, and a number by which its octets
    are told."""
    rng = world.rng
    outside, inside = outside_address(world), inside_address(world)
    return {"key": (outside, 40000 + rng.randrange(4), inside, rng.choice([80, 80, 443])),
            "base": rng.choice([0, 1, 1000, HALF - 3, 2**32 - 1, 2**32 - 5, 2**32 - 300, rng.randrange(2**32)]),
            "seq": rng.choice([5000, 2**32 - 2, 0, rng.randrange(2**32)]),
            "window": rng.choice(WINDOWS), "salt": rng.randrange(251)}


def stream_octets(pair, place, length):
    """The octets that the outside host means at these places."""
    return bytes((place * 7 + i * 7 + pair["salt"]) % 251 for i in range(length))


def packet(world, pair, inbound, seq, ack, flags, payload=b"", window=None, options=b""):
    """The segment as a packet, now and then with odd marks of its header."""
    rng = world.rng
    src, sport, dst, dport = pair["key"]
    if not inbound:
        src, sport, dst, dport = dst, dport, src, sport
    fields = {"window": rng.choice(WINDOWS) if window is None else window, "options": options}
    if chance(world, 3):
        fields["reserved"] = rng.randrange(1, 16)
    if chance(world, 3):
        fields["urgent"] = rng.choice([0, 1, 300])
        flags |= rng.choice([0, URG])
    if chance(world, 4):
        fields["options"] = rng.choice(rng.choice([GOOD_OPTIONS, ODD_OPTIONS]))
    if chance(world, 3):
        flags |= rng.choice([CWR, ECE, PSH])
    if chance(world, 3):
        fields["check"] = rng.choice([0, rng.randrange(65536)])
    return packet_of(world, src, dst, TCP, tcp(src, dst, sport, dport, seq, ack, flags, payload, **fields))


def syn_options(world):
    return world.rng.choice(SCALES) if chance(world, 60) else b""


# Without an era

def first_segment(world, pair):
    """What comes where no era is live: mostly an opening from one of the two sides."""
    rng = world.rng
    base, seq = pair["base"], pair["seq"]
    choice = rng.randrange(20)
    if choice < 8:
        payload = octets(world, 3) if chance(world, 10) else b""
        return packet(world, pair, True, base - 1, 0, SYN, payload, options=syn_options(world))
    if choice < 12:
        return packet(world, pair, False, seq, 0, SYN, options=syn_options(world))
    if choice < 14:
        return packet(world, pair, False, seq, base, rng.choice([ACK, ACK, FIN | ACK, SYN | ACK]),
                      window=pair["window"])
    if choice < 17:
        return packet(world, pair, True, base, seq, rng.choice([ACK, PSH | ACK, FIN | ACK]),
                      octets(world, rng.choice([0, 4])))
    return packet(world, pair, rng.random() < 0.8, base, seq, rng.choice([RST, RST | ACK, SYN | ACK]))


# In an era

def place_near_an_edge(world, era):
    """A place at one of the edges of the era, or a place that nobody would name."""
    rng = world.rng
    acked, top, edge = eras.acked(era), eras.top(era), eras.edge(era)
    end = top if eras.end(era) is None else eras.end(era)
    if chance(world, 60):
        return near(world, acked, top, top, top)
    if chance(world, 90):
        return near(world, acked, top, edge, edge + 1, end, end + 1, eras.next_place(era), 0, (acked + edge) // 2)
    return rng.choice([acked + HALF - 1, acked + HALF, acked - HALF, acked - 5, rng.randrange(2**32)])


def length_near_an_edge(world, era, place):
    """A length with which the payload ends at an edge, or a usual one."""
    rng = world.rng
    acked, edge, end = eras.acked(era), eras.edge(era), eras.end(era)
    goals = [acked, acked + 1, edge, edge + 1, edge + 2, place // 256 * 256 + 256, place // 256 * 256 + 257]
    goals += [] if end is None else [end, end + 1]
    fitting = [goal - place for goal in goals if 0 < goal - place <= 3000]
    if fitting and chance(world, 40):
        return rng.choice(fitting)
    return rng.choice([0, 1, 2, 4, 10, 100, 256, 300, 536, 1460]) if chance(world, 98) else 20000


def payload_at(world, pair, place, length):
    """What the outside host means there; now and then with one octet changed."""
    payload = stream_octets(pair, place, length)
    if payload and chance(world, 20):
        at = world.rng.choice([0, len(payload) - 1, world.rng.randrange(len(payload))])
        payload = payload[:at] + bytes([payload[at] ^ 128]) + payload[at + 1:]
    return payload


def answered_number(world, pair, era):
    """The next octet from the other side; where both sides are followed, what the other engine's
    era would have acknowledged."""
    other = pair.get("other")
    seen = None if other is None else live_era(other["world"], other["key"])
    return ((eras.out(era) or 0) if seen is None or chance(world, 30)
            else acknowledged_number(other["world"], other, seen))


def inbound_data(world, pair, era):
    rng = world.rng
    place = place_near_an_edge(world, era)
    payload = payload_at(world, pair, place, length_near_an_edge(world, era, place))
    flags = FIN | ACK if chance(world, 12) else rng.choice([ACK, ACK | PSH])
    return packet(world, pair, True, eras.base(era) + place, answered_number(world, pair, era), flags, payload)


def inbound_control(world, pair, era):
    """A SYN or a reset: at the place where it would count, and beside it."""
    rng = world.rng
    base = pair["base"] if eras.base(era) is None else eras.base(era)
    iss = eras.iss(era)
    answer = 0 if iss is None else near(world, iss + 1, iss + 1, iss)
    if chance(world, 50):
        flags = rng.choice([RST, RST | ACK])
        place = (base if eras.base(era) is None else base
                 + near(world, eras.acked(era), eras.next_place(era), eras.top(era)))
        return packet(world, pair, True, place, answer, flags, octets(world, 2) if chance(world, 10) else b"")
    flags = rng.choice([SYN, SYN, SYN | ACK])
    seq = rng.choice([base - 1, base - 1, base, base + 70000, rng.randrange(2**32)])
    payload = octets(world, 3) if chance(world, 10) else b""
    return packet(world, pair, True, seq, answer, flags, payload, options=syn_options(world))


def acknowledged_number(world, pair, era):
    rng = world.rng
    if eras.base(era) is None:
        return pair["base"]
    acked, top = eras.acked(era), eras.top(era)
    place = near(world, top, top, acked, eras.next_place(era), eras.next_place(era), 0)
    if chance(world, 25):
        place = rng.randrange(acked, max(acked, top) + 1)
    if chance(world, 6):
        place = rng.choice([acked + HALF - 1, acked + HALF, acked - 1, -1, acked + 2**30, rng.randrange(2**32)])
    return eras.base(era) + place


def outbound_segment(world, pair, era):
    rng = world.rng
    seq = eras.out(era) or pair["seq"]
    ack = acknowledged_number(world, pair, era)
    payload = octets(world, rng.choice([0, 0, 0, 0, 1, 20, 20, 1200]))
    choice = rng.randrange(40)
    if choice < 30:
        window = pair["window"] if chance(world, 60) else None
        return packet(world, pair, False, seq, ack, rng.choice([ACK, ACK, PSH | ACK]), payload, window=window)
    if choice < 34:
        return packet(world, pair, False, seq, ack, FIN | ACK, payload)
    if choice < 35:
        return packet(world, pair, False, seq, ack, rng.choice([RST, RST | ACK]))
    iss = eras.iss(era)
    number = rng.choice([seq, seq - 1, pair["seq"]] + ([] if iss is None else [iss, iss, iss, iss + 1]))
    return packet(world, pair, False, number, ack, rng.choice([SYN, SYN | ACK, SYN | ACK]), payload[:1],
                  options=syn_options(world))


def next_in_era(world, pair, era):
    """Mostly what carries the conversation on, and at times what does not fit its state."""
    state = eras.state(era)
    base = pair["base"]
    if state == "called" and chance(world, 60):
        flags = world.rng.choice([SYN | ACK, SYN | ACK, SYN | ACK, SYN])
        return packet(world, pair, True, base - 1, eras.iss(era) + 1, flags, options=syn_options(world))
    if state == "offered" and chance(world, 60):
        seq = pair["seq"] if eras.iss(era) is None else eras.iss(era)
        flags = SYN | ACK if eras.iss(era) is None else ACK
        return packet(world, pair, False, seq, eras.base(era), flags, window=pair["window"], options=syn_options(world))
    choice = world.rng.randrange(100)
    if choice < 58 and eras.base(era) is not None:
        return inbound_data(world, pair, era)
    if choice < 70 if state != "closed" else choice < 85:
        return inbound_control(world, pair, era)
    return outbound_segment(world, pair, era)


def ending(world, pair, era):
    """The segments with which both sides end the conversation, as far as the era says what they
    are."""
    if eras.state(era) != "warm":
        return
    yield packet(world, pair, False, eras.out(era), eras.base(era) + eras.top(era), FIN | ACK, window=8192)
    place = max(eras.top(era), eras.acked(era))
    yield packet(world, pair, True, eras.base(era) + place, eras.out(era), FIN | ACK)
    if eras.end(era) is not None:
        yield packet(world, pair, False, eras.out(era), eras.base(era) + eras.end(era) + 1, ACK, window=8192)


def segments(world, pair):
    while True:
        era = live_era(world, pair["key"])
        if era is None:
            yield first_segment(world, pair)
        elif chance(world, 3):
            yield from ending(world, pair, era)
        else:
            yield next_in_era(world, pair, era)


def wide_host_pair(world):
    """Mostly with a window that octets fit into."""
    pair = new_host_pair(world)
    if chance(world, 40):
        pair["window"] = world.rng.choice([1000, 8192, 65535])
    return pair


def conversation(world):
    """Segments of one pair of hosts; few of them come in fragments."""
    return partly_in_fragments(world, segments(world, wide_host_pair(world)))


def either_way(world):
    """One connection between two hosts that both send what stands at an edge: that of the engine
    which protects the other one."""
    one = dict(wide_host_pair(world), world=world)
    outside, outside_port, inside, inside_port = one["key"]
    other = dict(one, world=world.behind, key=(inside, inside_port, outside, outside_port),
                 base=(one["seq"] + 1) % 2**32,
                 seq=(one["base"] - 1) % 2**32)
    one["other"], other["other"] = other, one
    return partly_in_fragments(world, taken_in_turn(world, segments(world, one), segments(world.behind, other)))


def taken_in_turn(world, one, other):
    while True:
        yield next(world.rng.choice([one, other]))


def partly_in_fragments(world, packets):
    for octets_of_packet in packets:
        if chance(world, 4) and len(octets_of_packet) > 60:
            yield from fragments_of_packet(world, octets_of_packet)
        else:
            yield octets_of_packet
