"""A run whose input waits: what it has flushed at each pause of the writer, and how it ends if OUT
or the report accepts nothing further.

The input is a pipe. Its writer gives it in parts and pauses after each, so that each read returns
one part, and the read buffer is empty once a part is used up. Parts, OUT and the report are shorter
than the buffers, so nothing else flushes them.
"""

from types import SimpleNamespace

from model import capture, report
from model.built import WHOLE
from model.pcapng import KINDS, SECTION, block_at
from model.run import read_input, run_capture


def positions(octets, inside):
    """The offset of the next octet to read before each record: after the head, and after each
    record.
    """
    if octets[:4] != SECTION:
        return ([capture.HEAD]
                + [record.offset + capture.RECORD_HEAD + len(record.octets)
                   for record in read_input(octets, inside)[1]])
    file = SimpleNamespace(order=None, interfaces=[], link=None, time=(0, 0), inside=inside)
    after, at, before = [], 0, 0
    while not isinstance(block := block_at(octets, at, file, before), str):
        had_head = file.link is not None
        made = KINDS.get(block.kind, lambda *_: None)(file, block)
        at, before = at + len(block.octets), before + 1
        if isinstance(made, str):
            break
        if made is not None or file.link is not None and not had_head:
            after.append(at)
    return after


def boundaries(parts):
    """Where parts end."""
    ends, at = [], 0
    for part in parts:
        at += len(part)
        ends.append(at)
    return ends


def given(settings, head, steps):
    """OUT and the report after these records, each with its entries and its frames."""
    frames = [capture.write_record(head, record.seconds, record.fraction, frame) for record, (_, _, written) in steps
              for frame in written]
    lines = [report.lines_of(entry, behind, WHOLE.report_version) for _, (entry, behind, _) in steps]
    return (capture.write_head(head) + b"".join(frames),
            report.first_line(WHOLE.report_version, settings.both) + "".join(lines))


def flushes(settings, parts):
    """Each flush before a record: after how many parts, the offset after the newest record or
    block, OUT and the report so far.
    """
    octets, ends = b"".join(parts), boundaries(parts)
    head, records, _, _ = read_input(octets, settings.inside)
    steps = list(zip(records, run_capture(settings, octets, WHOLE)[3]))
    for count, at in enumerate(positions(octets, settings.inside)):
        if at in ends:
            out, lines = given(settings, head, steps[:count])
            yield SimpleNamespace(parts=ends.index(at) + 1, at=at, out=out, report=lines)


def run_in_parts(settings, parts, out=None, lines=None):
    """The status, what OUT took and what the report took of a run on a whole capture.

    OUT takes what the first `out` flushes give it, and the report what the first `lines` give; all
    if None.
    """
    taken, told = b"", ""
    for number, flush in enumerate(flushes(settings, parts)):
        if out is not None and number >= out and flush.out != taken:
            return 6, taken, flush.report + report.stop_line("capture", flush.at)
        taken = flush.out
        if lines is not None and number >= lines and flush.report != told:
            return 7, taken, told
        told = flush.report
    status, written, text, _ = run_capture(settings, b"".join(parts), WHOLE)
    return (status, written, text) if lines is None else (7, written, told)
