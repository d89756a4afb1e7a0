"""The three files of a view, each read from its front: IN, OUT and REPORT."""

from types import SimpleNamespace

from model.capture import read_head, read_records
from model.report import first_line
from model.run import STATUS, read_input


class Ended(Exception):
    """Why a view ends before all was read: the status, and the words of the last line."""

    def __init__(self, status, reason):
        Exception.__init__(self, reason)
        self.status, self.reason = status, reason


class Capture:
    """The records of a capture, one at a time."""

    def __init__(self, name, head, records, fault, at):
        self.name, self.head, self.records, self.fault, self.at = name, head, records, fault, at
        self.taken = 0

    def next(self):
        """The next record, or None at the end."""
        if self.taken < len(self.records):
            self.taken += 1
            return self.records[self.taken - 1]
        if self.fault != "end":
            raise capture_fault(self.name, self.fault, self.at)
        return None


def capture_fault(name, fault, at):
    return Ended(STATUS[fault], "stop %s %s %d" % (name, fault, at))


class Lines:
    """The lines of a report, one at a time."""

    def __init__(self, octets):
        self.lines = octets.decode("latin-1").split("\n")
        self.unended = self.lines.pop()
        self.number = 0

    def next(self):
        self.number += 1
        if self.number > len(self.lines):
            raise self.fault()
        return self.lines[self.number - 1]

    def fault(self):
        """The line taken last is none of a finished run's report."""
        return Ended(9, "stop report %d" % self.number)

    def need_end(self):
        """Nothing follows the last line."""
        if self.number < len(self.lines) or self.unended:
            self.number += 1
            raise self.fault()


def octets_of(octets):
    """The octets of a file; None is one that cannot be read."""
    if octets is None:
        raise Ended(5, "stop read")
    return octets


def open_input(octets):
    head, records, fault, at = read_input(octets_of(octets), None)
    if head is None:
        raise capture_fault("in", fault, at)
    return Capture("in", head, records, fault, at)


def open_output(octets, link):
    """Its frames have the link of the input's records."""
    head = read_head(octets_of(octets))
    if isinstance(head, str):
        raise capture_fault("out", head, 0)
    if head.link != link:
        raise capture_fault("out", "link", 0)
    return Capture("out", head, *read_records(octets, head))


def open_report(octets):
    """The lines after the first one, the version, and whether the second engine has lines among
    them."""
    lines = Lines(octets_of(octets))
    first = lines.next() + "\n"
    for version, both in ((1, False), (2, False), (2, True)):
        if first == first_line(version, both):
            return lines, version, both
    raise lines.fault()


def open_files(files):
    source = open_input(files[0])
    written = open_output(files[1], source.head.link)
    lines, version, both = open_report(files[2])
    return SimpleNamespace(source=source, written=written, lines=lines, version=version, both=both,
                           link=source.head.link, behind=0)
