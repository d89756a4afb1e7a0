"""The items of a view, one for each line of the report, read in step with its record and frames."""

from types import SimpleNamespace

from model.report import read_end, read_entry
from model.view_fields import changes_of, flow_of, length_of, made_change
from model.view_input import Ended


def records_of(run):
    """The items of each record, as soon as its last line is read with its frames. Then all three
    files are at their end."""
    records = 0
    while True:
        line = run.lines.next()
        counts = read_end(line)
        if counts is not None:
            need_ends(run, records, counts)
            return
        records += 1
        yield items_of_record(run, need_entry(run, line, records))


def need_entry(run, line, number):
    entry = read_entry(line, run.version)
    if entry is None or entry.number != number:
        raise run.lines.fault()
    return entry


def need_behind(run):
    """The entry of the second engine's next line; the numbers of these lines go over the whole
    run."""
    line = run.lines.next()
    run.behind += 1
    if not line.startswith("/"):
        raise run.lines.fault()
    return need_entry(run, line[1:], run.behind)


def need_record(run, number):
    record = run.source.next()
    if record is None:
        raise Ended(1, "no record %d" % number)
    return record


def need_frames(run, item, is_same):
    """Returns the frames of a line. `is_same`: there is to be one, with the octets of the record
    and the two numbers of its time."""
    frames = []
    for _ in range(item.entry.packets):
        frame = run.written.next()
        if frame is None:
            raise Ended(1, "no frame %d" % (run.written.taken + 1))
        frames.append(frame)
    if is_same and [(frame.octets, frame.seconds, frame.fraction) for frame in frames] != [item.as_read]:
        raise Ended(1, "no record %d" % item.number)
    return [frame.octets for frame in frames]


def items_of_record(run, entry):
    """That of its own line, and with both sides protected those of its frames in the second
    engine."""
    record = need_record(run, entry.number)
    first = new_item(run, "first", entry, record, entry.number)
    if not run.both:
        return [with_frames(run, first, kinds_of(entry), is_passed(entry))]
    items = [first]
    for left in reversed(range(entry.packets)):
        behind = need_behind(run)
        second = new_item(run, "second", behind, record, entry.number)
        with_frames(run, second, kinds_behind(entry, left == 0, behind), is_passed(entry, behind))
        first.written += second.frames
        items.append(second)
    return items


def time_of(head, record):
    return record.seconds * 10**9 + record.fraction * (1 if head.nano else 1000)


def new_item(run, by, entry, record, number):
    """The item of a line of this engine, without frames. `given`: its frames went to the second
    engine. `before`: how many frames in OUT are before its own. `written`: the frames in OUT that
    this record, or frame of the first engine, led to."""
    return SimpleNamespace(by=by, number=number, entry=entry, time=time_of(run.source.head, record),
                           given=run.both and by == "first", before=run.written.taken,
                           frames=[], written=[], flow=flow_of(run.link, record.octets),
                           length=length_of(run.link, record.octets), changes=[],
                           link=run.link, record=record.octets,
                           as_read=(record.octets, record.seconds, record.fraction))


def is_passed(*entries):
    return all(entry.verdict == "pass" for entry in entries)


def with_frames(run, item, kinds, is_same):
    """The same with the frames that its line counts, and their changes."""
    item.frames = item.written = need_frames(run, item, is_same)
    for number, (kind, frame) in enumerate(zip(kinds, item.frames), 1):
        item.changes += (changes_of(run.link, item.record, frame, number) if kind is None
                         else [made_change(run.link, frame, number, kind)])
    return item


# Frames that are no form of their record

def kinds_of(entry):
    """For each frame of this line whether norm made it: a probe, a datagram, or None for a form of
    the record.

    Each frame of a dropped record is a probe, also under a rule that sends one without C_PROBE.
    """
    rest = "datagram" if "F_DONE" in entry.rules else None
    return ["probe" if entry.verdict == "drop" or ("C_PROBE" in entry.rules and n == entry.packets) else rest
            for n in range(1, entry.packets + 1)]


def kinds_behind(first, is_last, entry):
    """The same of a line of the second engine: the first one may have made what it reads.
    `is_last`: it is the last line of its record."""
    if first.verdict == "drop" or ("C_PROBE" in first.rules and is_last):
        return ["probe"] * entry.packets
    return [kind or ("datagram" if "F_DONE" in first.rules else None) for kind in kinds_of(entry)]


# The end

def need_ends(run, records, counts):
    if counts != (records, run.written.taken):
        raise run.lines.fault()
    run.lines.need_end()
    if run.source.next() is not None:
        raise Ended(1, "no record %d" % (records + 1))
    if run.written.next() is not None:
        raise Ended(1, "no frame %d" % run.written.taken)
