"""A whole run: from the words and the octets of a capture to the status, the capture written and
the report."""

from model import capture, report
from model.both_sides import open_engines, step_engines, up_to_most
from model.cuts import as_written
from model.load import run_load
from model.pcapng import read_input
from model.words import read_words

STATUS = {"end": 0, "magic": 3, "version": 3, "link": 3, "block": 3, "long": 3, "many": 3, "cut": 4}


def run(words, octets, built):
    """The status, the octets of the written capture, and the report."""
    command = read_words(words, built)
    if isinstance(command, int):
        return 2, b"", report.stop_line("words", command)
    if command.kind == "load":
        return 0, b"", run_load(command.seed, command.count)
    status, written, lines, _ = run_capture(command.settings, octets, built)
    return status, written, lines


def run_capture(settings, octets, built):
    """Besides, for each record its entry, the entries of its frames in the second engine, and the
    frames that go out."""
    lines = report.first_line(built.report_version, settings.both)
    head, records, fault, at = read_input(octets, settings.inside)
    if head is None:
        return STATUS[fault], b"", lines + report.stop_line(fault, at), []
    records, fault, at = up_to_most(settings, records, fault, at)
    parts, texts, steps = [capture.write_head(head)], [lines], []
    engines = open_engines(settings, head.link)
    for record in records:
        entry, behind, written = step_engines(engines, record)
        written = as_written(settings, head.link, entry, written)
        parts += [capture.write_record(head, record.seconds, record.fraction, frame) for frame in written]
        texts.append(report.lines_of(entry, behind, built.report_version))
        steps.append((entry, behind, written))
    packets = sum(len(written) for _, _, written in steps)
    last = report.end_line(len(records), packets) if fault == "end" else report.stop_line(fault, at)
    return STATUS[fault], b"".join(parts), "".join(texts) + last, steps
