"""What is missing of the streams of the eras, and what was acknowledged before it is in IN: the
counts of the notes `lost` and `order`. Items are those of the module notes."""

from model.formats import ACK, FIN, RST, SYN, read_ipv4, read_tcp
from model.view_reading import (four_tuple, has, is_dropped, is_segment, message_of, names,
                                     packet_of)

# A sequence number or an acknowledgment that is further from what was read before is not followed.
NEAR = 2**30


def signed(number):
    """Returns the same number by 2^32, from -2^31 on."""
    return (number + 2**31) % 2**32 - 2**31


def octets_of(item):
    """Counts the offsets of a segment; one that was cut short has those of its total length."""
    payload = item.length
    if names(item, "L_SNAP"):
        ip = read_ipv4(packet_of(item))
        payload = max(0, ip.total - ip.header - read_tcp(message_of(item)).header)
    return payload + has(item, FIN)


class Half:
    """What one side of an era sent: offsets from `base`, a sequence number."""

    def __init__(self):
        self.base = None
        # The greatest end of its segments, and the greatest acknowledgment of them.
        self.top = self.acked = 0
        # The newest gap that an acknowledgment left: what is missing of it yet.
        self.front = self.end = 0
        # From where to where its segments go, each copy and each dropped one too.
        self.pieces = []

    def offset(self, number):
        """Returns the offset of this sequence number that is nearest to `top`; None where it is
        too far from it, or where no number is known."""
        if self.base is None:
            return None
        step = signed(number - (self.base + self.top))
        return self.top + step if -NEAR <= step <= NEAR else None

    def begins(self, item):
        """Fixes the base by the first segment that is not dropped."""
        count = octets_of(item)
        # A segment without octets and without SYN may be a keep-alive, one octet before the next.
        more = has(item, SYN) or count == 0
        self.base, self.top = item.flow.seq + more, count
        self.pieces.append((0, count))

    def covers(self, item):
        """Keeps which offsets a segment has, where they are known, and returns them."""
        start = self.offset(item.flow.seq + has(item, SYN))
        if start is None:
            return None
        self.pieces.append((start, start + octets_of(item)))
        return self.pieces[-1]

    def sends(self, item):
        """Takes a segment of this side. Returns whether it fills a gap."""
        if self.base is None and not is_dropped(item):
            self.begins(item)
            return False
        piece = self.covers(item)
        return piece is not None and not is_dropped(item) and self.reaches(*piece)

    def reaches(self, start, stop):
        """Raises the top, and returns whether a gap is filled with these offsets."""
        is_filled = False
        if self.front < self.end and start <= self.front < stop:
            self.front = stop
            is_filled = self.front >= self.end
            if is_filled:
                self.front = self.end = 0
        self.top = max(self.top, stop)
        return is_filled

    def is_acknowledged(self, ack):
        """Takes that the other side has what is before this sequence number."""
        at = self.offset(ack)
        if at is None or at <= 0:
            return
        known = max(self.top, self.acked)
        if at > known:
            self.front, self.end = known, at
        self.acked = max(self.acked, at)

    def missing(self):
        """Counts the offsets that were passed over and acknowledged and that no segment has."""
        most, at, missing = min(self.top, self.acked), 0, 0
        for start, stop in sorted(self.pieces):
            missing += max(0, min(start, most) - at)
            at = max(at, min(stop, most))
        return missing + most - at


class Streams:
    """The halves of all eras, and the gaps of each side that were filled late."""

    def __init__(self, tuples):
        """`tuples`: the four-tuples, with the last era of each up to the line before."""
        self.tuples, self.halves, self.gaps = tuples, {}, {"in": 0, "out": 0}

    def half(self, era, side):
        return self.halves.setdefault((era, side), Half())

    def add(self, item):
        era, side = item.entry.era, item.entry.side
        if not is_segment(item) or has(item, RST):
            return
        if era is None:
            self.add_stray(item)
        elif side != "-":
            self.add_segment(item, side, {"in": "out", "out": "in"}[side])

    def add_stray(self, item):
        """Adds a segment without an era: it covers offsets of the last era of its four-tuple."""
        for side in ("in", "out") if item.entry.side == "-" else (item.entry.side,):
            era = self.tuples.last.get(four_tuple(item, side))
            if era is not None:
                self.half(era, side).covers(item)
                return

    def add_segment(self, item, side, opposite):
        self.gaps[side] += self.half(item.entry.era, side).sends(item)
        if not is_dropped(item) and has(item, ACK):
            self.half(item.entry.era, opposite).is_acknowledged(item.flow.ack)

    def lost(self, side):
        return sum(half.missing() for (_, of), half in self.halves.items() if of == side)
