"""Which record first sent the octets that a later one has otherwise: in the streams that were
written inwards, and in datagrams whose fragments are held."""

from types import SimpleNamespace

from model.formats import SYN
from model.notes import completes
from model.view_fields import fields_of
from model.view_reading import datagram_of, is_fragment, message_of, names
from model.view_streams import signed


class Stream:
    """The offsets of an era at which an octet was written, each with the record that it is of."""

    def __init__(self, base):
        self.base, self.top, self.records = base, 0, {}

    def offset(self, number):
        """Returns the offset of this sequence number that is nearest to the greatest end."""
        return self.top + signed(number - (self.base + self.top))

    def add(self, seq, count, record):
        start = self.offset(seq)
        for at in range(start, start + count):
            self.records.setdefault(at, record)
        self.top = max(self.top, start + count)


class Firsts:
    """The streams of all eras that are written inwards, and the fragments that are held."""

    def __init__(self):
        self.streams, self.held = {}, {}

    def add(self, items):
        """Names the first records in the changes of a record's lines, and takes these lines."""
        first = items[0]
        for item in items:
            self.name_runs(item if item.entry.side == "in" else first, item)
            if item.by == "second":
                self.take_frames(item)
        self.take_frames(first)
        if is_fragment(first):
            self.add_fragment(first)

    def name_runs(self, line, item):
        """Names the record that first sent each run of octets that an item's changes replace:
        `line` is that of the engine which lets the octets inwards."""
        stream = self.streams.get(key_of(line))
        for change in item.changes:
            for run in change.replaced if change.field == "payload" else []:
                run.first = None if stream is None else first_of(stream, item.flow, run.at)

    def take_frames(self, item):
        """Takes the octets of the frames that this line led to."""
        key = key_of(item)
        for frame in item.written if key is not None else []:
            fields = fields_of(item.link, frame)
            if fields.get("sequence") is None:
                continue
            seq = fields["sequence"] + (fields["flags"] & SYN != 0)
            stream = self.streams.setdefault(key, Stream(seq))
            stream.add(seq, len(fields["payload"]), item.number)

    def add_fragment(self, item):
        """Adds what a fragment contradicts to its changes, and holds it, or what it leaves held."""
        key, octets = datagram_of(item), message_of(item)
        held = self.held.setdefault(key, {})
        if names(item, "F_CLASH"):
            item.changes += clash_of(held, item.flow.offset, octets)
        if completes(item) or names(item, "F_END", "F_CLASH"):
            del self.held[key]
        elif names(item, "F_HELD"):
            for at, octet in enumerate(octets, item.flow.offset):
                # The datagram was removed before by an octet that differs from the held one.
                if at not in held or held[at][0] != octet:
                    held[at] = (octet, item.number)


def key_of(item):
    """Returns the engine and the era of an inbound line; None of any other line."""
    has_stream = item.entry.side == "in" and item.entry.era is not None
    return (item.by, item.entry.era) if has_stream else None


def first_of(stream, flow, at):
    """Returns the record that first sent the octet at this place of a record's payload."""
    if flow is None or flow.seq is None:
        return None
    return stream.records.get(stream.offset(flow.seq + (flow.flags & SYN != 0) + at))


def clash_of(held, offset, octets):
    """Returns the change of a fragment at this offset of its datagram: the first run of octets that
    differ from those held; none where none is known to differ."""
    differs = [at for at, octet in enumerate(octets, offset) if held.get(at, (octet,))[0] != octet]
    if not differs:
        return []
    at = differs[0]
    count = next(n for n in range(len(differs) + 1) if differs[n:n + 1] != [at + n])
    before = octets[at - offset:at - offset + count]
    after = bytes(held[at + n][0] for n in range(count))
    return [SimpleNamespace(frame=None, field="fragment", at=at, before=before, after=after,
                            first=held[at][1])]
