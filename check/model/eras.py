"""An era of a connection, and what its written segments tell: the quantities that the rules speak
of.

An era keeps the list of its written segments in order. A segment is inward or outward and has its
numbers, its flags, its window, its window scale and its octets. Each quantity is a first or last
element, a maximum or a count over that list. Only these are put in dictionaries when a segment
comes: the octet first sent at each place, and the last such place in each block of 256. Each
quantity is worked out once for each list.
"""

import functools
from types import SimpleNamespace

from model.formats import ACK, FIN, RST, SYN

HALF = 2**31


def new_era(number, key):
    return SimpleNamespace(number=number, key=key, segments=[], first={}, last_in_block={}, touched=0,
                           now_at_touched=0, known={})


def quantity(function):
    """What the function answers stays known until the next segment comes."""
    @functools.wraps(function)
    def answer(era):
        if function not in era.known:
            era.known[function] = function(era)
        return era.known[function]
    return answer


def add_segment(era, segment):
    """Adds a written segment. Its place, and that of its acknowledgment, are read before it counts.

    As long as no base is fixed there is no place to read, so what is acknowledged before is 0.
    """
    before = acked(era)
    segment.place, segment.ack_place = None, None
    era.segments.append(segment)
    era.known = {}
    segment.shift = shift(era)
    if base(era) is not None:
        segment.place = near(segment.seq - base(era), before)
        segment.ack_place = near(segment.ack - base(era), before)
        keep_octets(era, segment)
    era.known = {}


def keep_octets(era, segment):
    """An octet that goes inwards is the first one at its offset, or another was first."""
    for i, octet in enumerate(segment.octets if segment.inward else b""):
        place = segment.place + i
        if place not in era.first:
            era.first[place] = octet
            era.last_in_block[place // 256] = max(era.last_in_block.get(place // 256, 0), place)


def near(number, middle):
    """The whole number that equals `number` modulo 2^32 and lies from middle - 2^31 to below middle
    + 2^31."""
    return (number - middle + HALF) % 2**32 - HALF + middle


@quantity
def inward(era):
    return [segment for segment in era.segments if segment.inward]


@quantity
def outward(era):
    return [segment for segment in era.segments if not segment.inward]


@quantity
def acknowledgments(era):
    """The outbound segments with ACK, once their places can be read."""
    return [segment for segment in outward(era) if segment.flags & ACK and segment.ack_place is not None]


@quantity
def base(era):
    """The sequence number of place 0: fixed by the first inbound SYN or outbound acknowledgment."""
    for segment in era.segments:
        if segment.inward and segment.flags & SYN:
            return (segment.seq + 1) % 2**32
        if not segment.inward and segment.flags & ACK and not segment.flags & RST:
            return segment.ack
    return None


def place_of(era, number):
    """The place that a number of the present record names."""
    return near(number - base(era), acked(era))


@quantity
def acked(era):
    return max([0] + [segment.ack_place for segment in acknowledgments(era)])


@quantity
def shift(era):
    """How far the windows of outbound segments are shifted (RFC 7323)."""
    ours = [segment for segment in outward(era) if segment.flags & SYN]
    theirs = [segment for segment in inward(era) if segment.flags & SYN]
    if not ours or not theirs:
        return 14
    our_scales = [segment.scale for segment in ours if segment.scale is not None]
    their_scales = [segment.scale for segment in theirs if segment.scale is not None]
    if our_scales and their_scales:
        return max(our_scales)
    return 0


@quantity
def edge(era):
    """The right edge of the window that the inside host gave."""
    reaches = [0]
    for segment in acknowledgments(era):
        if segment.ack_place >= 0:
            factor = 1 if segment.flags & SYN else 2**segment.shift
            reaches.append(segment.ack_place + segment.window * factor)
    return max(reaches)


@quantity
def top(era):
    """1 + the greatest place of an octet, which may lie below 0 in frames that norm did not write;
    0 where there is none."""
    return max((segment.place + len(segment.octets) for segment in inward(era) if segment.octets), default=0)


@quantity
def end(era):
    """The place of the first FIN sent inwards, or None."""
    for segment in inward(era):
        if segment.flags & FIN:
            return segment.place + len(segment.octets)
    return None


@quantity
def next_place(era):
    ends = [] if end(era) is None else [end(era) + 1]
    return max([acked(era), top(era)] + ends)


@quantity
def iss(era):
    """The sequence number of the first outbound SYN, or None."""
    for segment in outward(era):
        if segment.flags & SYN:
            return segment.seq
    return None


@quantity
def out(era):
    """The sequence number after the last outbound segment, or None."""
    if not outward(era):
        return None
    last = outward(era)[-1]
    marks = (1 if last.flags & SYN else 0) + (1 if last.flags & FIN else 0)
    return (last.seq + len(last.octets) + marks) % 2**32


@quantity
def state(era):
    if base(era) is None:
        return "called"
    if not any(segment.ack_place >= 0 for segment in acknowledgments(era)):
        return "offered"
    out_fin = any(segment.flags & FIN for segment in outward(era))
    if end(era) is not None and acked(era) >= end(era) + 1 and out_fin:
        return "closed"
    return "warm"


def octets(era):
    """How many places have an octet."""
    return len(era.first)


@quantity
def blocks(era):
    """The blocks that hold an octet at or past what is acknowledged."""
    return [block for block, last in era.last_in_block.items() if last >= acked(era)]


@quantity
def held(era):
    return len(blocks(era))


def kept(era, tcp):
    """What goes inwards of a segment without SYN and RST: an interval of places and the FIN or
    not."""
    off = place_of(era, tcp.seq)
    length = len(tcp.payload)
    low = max(off, acked(era))
    high = min(off + length, edge(era) + 1)
    if end(era) is not None:
        high = min(high, end(era))
    fin_place = off + length
    if not tcp.flags & FIN:
        fin = False
    elif end(era) is not None:
        fin = fin_place == end(era)
    else:
        fin = max(top(era), acked(era)) <= fin_place <= edge(era)
    return SimpleNamespace(off=off, length=length, low=low, high=max(low, high), fin=fin, fin_place=fin_place)


def new_blocks(era, low, high):
    """How many blocks of these places hold no octet at or past what is acknowledged."""
    if low >= high:
        return 0
    have = blocks(era)
    return len([block for block in range(low // 256, (high - 1) // 256 + 1) if block not in have])
