"""The text of a report, and a report read back.

Version 1 writes an ended era as `-E:reason`, version 2 as `-E:reason:N` with the number of its
octets. With both sides protected the first line has `both`, and a line that begins with `/` is of a
frame in the second engine. The audit refuses such a report; the view reads its lines.
"""

import itertools
import re
from types import SimpleNamespace

from model.rule_names import RULES


def first_line(version, both=False):
    return "norm %d%s\n" % (version, " both" if both else "")


def entry_line(entry, version):
    parts = [str(entry.number), entry.side, entry.verdict, str(entry.packets)] + entry.rules
    if entry.era is not None:
        parts.append("@%d" % entry.era)
    if entry.begun is not None:
        parts.append("+%d" % entry.begun)
    for ended in entry.ended:
        text = "-%d:%s" % (ended.era, ended.reason)
        parts.append(text + (":%d" % ended.octets if version == 2 else ""))
    return " ".join(parts) + "\n"


def lines_of(entry, behind, version):
    """The line of a record; with both sides protected, followed by those of its frames in the
    second engine."""
    return entry_line(entry, version) + "".join("/" + entry_line(one, version) for one in behind)


def end_line(records, packets):
    return "end %d %d\n" % (records, packets)


def stop_line(kind, number):
    return "stop %s %d\n" % (kind, number)


# A report read back

REASONS = ("reset", "evicted", "idle", "reopened")

STOPS = ("magic", "version", "link", "block", "long", "many", "cut", "read", "capture", "memory")

NUMBER = "(0|[1-9][0-9]*)"

ENTRY = re.compile("%s (in|out|-) (pass|fix|hold|drop) %s((?: [A-Z_]+)*)(?: @%s)?(?: \\+%s)?((?: -[0-9a-z:]+)*)"
                   % (NUMBER, NUMBER, NUMBER, NUMBER))

ENDED = {1: re.compile("-%s:(%s)" % (NUMBER, "|".join(REASONS))),
         2: re.compile("-%s:(%s):%s" % (NUMBER, "|".join(REASONS), NUMBER))}

LAST = re.compile("end %s %s|stop (%s) %s" % (NUMBER, NUMBER, "|".join(STOPS), NUMBER))


def below(bits, *texts):
    return all(text is None or int(text) < 2**bits for text in texts)


def read_ended(text, version):
    found = ENDED[version].fullmatch(text)
    if found is None or not below(32, found[1]) or (version == 2 and not below(64, found[3])):
        return None
    return SimpleNamespace(era=int(found[1]), reason=found[2], octets=int(found[3]) if version == 2 else None)


def read_entry(text, version):
    """The entry that this line is the text of, or None."""
    found = ENTRY.fullmatch(text)
    if found is None or not below(32, found[1], found[6], found[7]) or not below(8, found[4]):
        return None
    rules = found[5].split()
    ended = [read_ended(part, version) for part in found[8].split()]
    if len(rules) > 16 or any(rule not in RULES for rule in rules) or len(ended) > 4 or None in ended:
        return None
    era, begun = (None if found[i] is None else int(found[i]) for i in (6, 7))
    return SimpleNamespace(number=int(found[1]), side=found[2], verdict=found[3], packets=int(found[4]), rules=rules,
                           era=era, begun=begun, ended=ended)


def is_last(text):
    found = LAST.fullmatch(text)
    if found is None:
        return False
    return below(32, found[1]) and below(64, found[2], found[4])


def read_end(text):
    """The two counts of an `end` line, or None."""
    found = LAST.fullmatch(text)
    if found is None or found[1] is None or not is_last(text):
        return None
    return int(found[1]), int(found[2])


def read_report(text):
    """The version, the entries and the last line; or the name of the first fault and the number of
    its line."""
    lines = text.split("\n")
    versions = [version for version in (1, 2) if lines[0] + "\n" == first_line(version)]
    if not versions or len(lines) == 1:
        return ("First", 1)
    entries, whole = [], lines[:-1]
    for n, line in enumerate(whole[1:], 2):
        if is_last(line):
            if n == len(whole) and lines[-1] == "":
                return SimpleNamespace(version=versions[0], entries=entries, last=line, lines=n)
            return ("Shape", n + 1)
        entry = read_entry(line, versions[0])
        if entry is None:
            return ("Shape", n)
        if entry.number != len(entries) + 1:
            return ("Number", n)
        entries.append(entry)
    return ("Shape", len(whole) + 1)


def frames_by_entry(entries, frames):
    """For each of these entries its own of the frames, which are in their order."""
    rest = iter(frames)
    return [list(itertools.islice(rest, entry.packets)) for entry in entries]
