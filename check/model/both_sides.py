"""Both sides protected: each frame that the first engine writes is a record of a second one, for
which the sides are exchanged."""

from copy import copy
from types import SimpleNamespace

from model.engine import open_engine, step

# As many records may come where both sides are protected.
MOST = 2**31 - 1


def exchanged(settings):
    """The same settings, in which the addresses outside the prefixes are the trusted ones."""
    other = copy(settings)
    other.mirror = True
    return other


def open_engines(settings, link):
    """The first engine, and the second one after it, or None."""
    behind = open_engine(exchanged(settings), link) if settings.both else None
    return SimpleNamespace(first=open_engine(settings, link), behind=behind)


def record_of(record, frame):
    """A frame that was written for a record, as a record: it has the record's time and place, and
    its own length."""
    return SimpleNamespace(seconds=record.seconds, fraction=record.fraction, offset=record.offset,
                           side=None, original=len(frame), octets=frame)


def step_engines(engines, record):
    """The entry of the record, the entries of its frames in the second engine, and the frames that
    go out in the end."""
    entry, frames = step(engines.first, record)
    if engines.behind is None:
        return entry, [], frames
    steps = [step(engines.behind, record_of(record, frame)) for frame in frames]
    return entry, [behind for behind, _ in steps], [frame for _, written in steps for frame in written]


def up_to_most(settings, records, fault, at):
    """The records that are judged, and the end or the fault with its place: with both sides
    protected one record too many is a fault."""
    if not settings.both or len(records) <= MOST:
        return records, fault, at
    return records[:MOST], "many", records[MOST].offset
