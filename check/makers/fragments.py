"""Cuts packets into fragments: in and out of order, overlapping alike and differing, with gaps and
wrong ends."""

from makers.datagrams import any_message, octets
from makers.headers import packet_of
from makers.world import chance
from model.formats import read_ipv4


def cut_places(world, length):
    """Where the message is cut: some multiples of 8 below its length."""
    places = list(range(8, length, 8))
    world.rng.shuffle(places)
    return sorted(places[:world.rng.choice([1, 1, 2, 3])])


def pieces_of(world, message):
    """Offset, octets and whether more come, in order."""
    places = [0] + cut_places(world, len(message)) + [len(message)]
    return [(start, message[start:end], end < len(message)) for start, end in zip(places, places[1:])]


def changed(world, piece):
    """The same piece with one octet changed."""
    start, body, more = piece
    if not body:
        return piece
    at = world.rng.randrange(len(body))
    return start, body[:at] + bytes([body[at] ^ 1]) + body[at + 1:], more


def overlapping(world, message, piece):
    """A piece that begins or ends in another one."""
    start, body, more = piece
    low = max(0, start - 8 * world.rng.choice([0, 1, 2]))
    high = min(len(message), start + len(body) + (8 * world.rng.choice([0, 1, 2]) if more else 0))
    return low, message[low:high], high < len(message)


def wrong_end(world, message, piece):
    """A last piece at another end, or one that goes past the end."""
    rng = world.rng
    start, body, more = piece
    return rng.choice([(start, body, False), (start, body + b"\0" * 8, more), (start, body + b"\0", False),
                       (start, body[:-1], False), (len(message) // 8 * 8 + 8, b"12345678", True)])


def misshapen(world, piece):
    start, body, more = piece
    return world.rng.choice([(start, b"", more), (start, body + b"x", True), (start, body[:-1], True),
                             (65504, b"12345678", True), (65504, b"123456789ab", False),
                             (65504, b"123456789abc", False),
                             (65512, b"123", False), (65512, b"1234", False), (65528, b"1", False)])


def unusual(world, message, pieces):
    """One more piece, made of one of these."""
    piece = world.rng.choice(pieces)
    choice = world.rng.randrange(10)
    if choice < 3:
        return piece
    if choice < 5:
        return overlapping(world, message, piece)
    if choice < 7:
        return changed(world, overlapping(world, message, piece))
    if choice < 9:
        return wrong_end(world, message, piece)
    return misshapen(world, piece)


def schedule(world, message):
    """All pieces once, mostly; in any order; with unusual ones between them."""
    rng = world.rng
    pieces = pieces_of(world, message)
    order = list(pieces)
    if chance(world, 50):
        rng.shuffle(order)
    if chance(world, 15):
        order.pop()
    while chance(world, 35):
        order.insert(rng.randrange(len(order) + 1), unusual(world, message, pieces))
    return order


def fragments(world, src, dst, protocol, message):
    """The packets of the pieces of this message."""
    rng = world.rng
    ident, ttl = rng.randrange(4), rng.choice([64, 64, 64, world.settings.hops, world.settings.hops + 1])
    for start, body, more in schedule(world, message):
        fields = {"ident": ident, "mf": more, "offset": start, "ttl": min(ttl, 255)}
        if chance(world, 15 if start == 0 else 3):
            fields["df"] = True
        if chance(world, 15):
            fields["ttl"] = rng.choice([1, 255, ttl])
        if chance(world, 10):
            fields["tos"] = rng.randrange(256)
        yield packet_of(world, src, dst, protocol, body, **fields)


def fragments_of_packet(world, packet):
    """A whole packet in pieces; its own header fields are not kept."""
    ip = read_ipv4(packet)
    yield from fragments(world, ip.src, ip.dst, ip.protocol, packet[ip.header:])


def fragmented_messages(world):
    """Messages in pieces, and pieces of messages that never become whole."""
    while True:
        src, dst, protocol, message = any_message(world)
        if len(message) < 16 or len(message) > 3000 and chance(world, 90):
            message += octets(world, 24)
        yield from fragments(world, src, dst, protocol, message[:60000])


def many_blocks(world):
    """Pieces that take nearly all cells of the least number that is allowed, and then some more."""
    src, dst, protocol, _ = any_message(world)
    for ident in (1, 2, 3):
        length = world.rng.choice([65504, 65272, 65280, 64768])
        yield packet_of(world, src, dst, protocol, octets(world, length), ident=ident, mf=True)
        for _ in range(3):
            offset = 256 * world.rng.randrange(255) + world.rng.choice([0, 240, 248])
            if chance(world, 40):
                body, more = octets(world, world.rng.choice([7, 8, 9])), False
            else:
                body, more = octets(world, 16), True
            yield packet_of(world, src, dst, protocol, body, ident=ident + world.rng.choice([4, 4, 9]), mf=more,
                            offset=offset)
