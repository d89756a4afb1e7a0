"""The page on evasions: reads what examples/evasions.txt says of each, makes its capture, and
writes its section of docs/EVASIONS.md."""

import os
import textwrap
from types import SimpleNamespace

from cases.notation import line_of, packet_of
from pages import measured
from model.capture import read_head, read_records
from model.formats import read_ipv4
from model.fragment_rows import is_fragment
from model.hosts import READERS, fields
from model.packets import capture_of
from model.receivers import POLICIES, all_agree, deliver
from model.report import frames_by_entry, read_report
from pages.markdown import anchor

TOP = os.path.dirname(os.path.dirname(os.path.dirname(os.path.abspath(__file__))))

DESCRIPTIONS = os.path.join(TOP, "examples", "evasions.txt")

PAGE = os.path.join(TOP, "docs", "EVASIONS.md")

BASE, WIDTH = 1000, 100

HEAD = """# Evasions

A monitor is evaded where its stream differs from that of the host. Handley, Paxson and Kreibich
(*Network Intrusion Detection: Evasion, Traffic Normalization, and End-to-End Protocol Semantics*,
USENIX Security 2001) show how: hosts differ on certain packets, and the monitor cannot know which
host it watches. Each section below has such packets, what norm writes instead, and what receivers
deliver of both.

In a drawing time runs downwards. On the left are the packets that arrive, in the middle the verdict
and its rules ([REPORT](REPORT.md), [RULES](RULES.md)), on the right the packets that norm writes.
An arrow has flags, sequence numbers (`1000:1004` is 1000 to 1003), acknowledgment, and the octets
at their offsets in the stream. Below are the octets that receivers deliver.

Four receivers differ at an octet for which another one is already waiting. **First** keeps the one
that waits, and **Newest** replaces it. **Left** replaces it where the newer segment begins before
the one that brought it, and **Right** where it ends after that one. Receivers that differ in
another way, such as in whether they verify checksums, have a line each, with all four policies. Of
what norm wrote, those that start at one octet deliver the same here: each gets each frame in order.

The table has the name of a section's capture. To repeat a section, at the top of a checkout:

    norm-run --into /tmp examples/NAME.pcap 10.0.0.0/8
"""

# What is described

def read_descriptions(text):
    """One description for each evasion."""
    cases = []
    for line in text.splitlines():
        if line.startswith("== "):
            name, _, title = line[3:].partition(": ")
            cases.append(SimpleNamespace(name=name, title=title,
                                         prose={"attack": "", "case": "", "answer": "", "options": ""}, hosts=[],
                                         lines=[], past=[]))
        elif cases and line.strip():
            add_line(cases[-1], line)
    return cases


def add_line(case, line):
    word, _, rest = line.partition(": ")
    if line[:2] in ("> ", "< "):
        case.lines.append(line)
    elif line.startswith("past norm > "):
        case.past.append((len(case.lines), line[10:]))
    elif word.startswith("host "):
        name, _, start = word[5:].partition(" from ")
        case.hosts.append(SimpleNamespace(read=READERS[name], start=int(start or 0), label=rest))
    elif word in case.prose:
        case.last, case.prose[word] = word, rest
    elif line.startswith("  "):
        case.prose[case.last] += " " + line.strip()
    else:
        raise ValueError("%s: nobody knows what this says: %s" % (case.name, line))


def capture_file(case):
    return os.path.join(TOP, "examples", case.name + ".pcap")


def made_capture(case):
    return capture_of([packet_of(line) for line in case.lines])


def words(case, written):
    """The words of the run, but for the program."""
    return ["run"] + case.prose["options"].split() + ["examples/%s.pcap" % case.name, written, "10.0.0.0/8"]


# What became of it

def frames_of(case, report, written):
    """For each record the packets that were written for it."""
    read, head = read_report(report), read_head(written)
    if isinstance(read, tuple) or isinstance(head, str):
        raise ValueError("the report or the written capture cannot be read back")
    if len(read.entries) != len(case.lines):
        raise ValueError("the report has a line too many or too few")
    packets = [record.octets for record in read_records(written, head)[0]]
    if written != capture_of(packets) or len(packets) != sum(entry.packets for entry in read.entries):
        raise ValueError("the written capture has other heads, times or records than the report tells")
    return frames_by_entry(read.entries, packets)


def ends_of(packet):
    ip, tcp = fields(packet)
    return {(ip.src, tcp.sport), (ip.dst, tcp.dport)}


def first_connection(packets):
    """The packets of the first connection; each fragment is of it."""
    return [packet for packet in packets if is_fragment(read_ipv4(packet)) or ends_of(packet) == ends_of(packets[0])]


def streams(host, packets):
    return deliver(host.read(packets), BASE, host.start)


def shown(stream):
    octets = "`%s`" % stream.octets.decode("ascii") if stream.octets else "nothing"
    return octets + (", then the end" if stream.ended else "")


def rows(case, came, written):
    """Receivers that have the same: what they are, their policies, what they deliver of what came
    and of what was written."""
    found = {}
    for host in case.hosts:
        for policy, one, other in zip(POLICIES, streams(host, came), streams(host, written)):
            alike = found.setdefault((host.label, host.start, shown(one), shown(other)),
                                     SimpleNamespace(policies=[], of_came=one, of_written=other))
            alike.policies.append(policy)
    return [SimpleNamespace(label=label, start=start, came=one, written=other, **vars(alike))
            for (label, start, one, other), alike in found.items()]


def check_agreement(case, written):
    """Of what was written all receivers with one start deliver the same, and no other order or
    repeat makes two of them differ."""
    for start in {host.start for host in case.hosts}:
        same = [stream for host in case.hosts if host.start == start for stream in streams(host, written)]
        if len({(stream.octets, stream.ended) for stream in same}) != 1:
            raise ValueError("receivers deliver different streams of what was written")
        inward = READERS["every_packet"](written)
        for schedule in (inward[::-1], inward + inward, [packet for packet in inward for _ in (1, 2)]):
            if not all_agree(deliver(schedule, BASE, start) + same):
                raise ValueError("receivers of another order disagree on what was written")


# The page

def wrapped(text):
    return "\n".join(textwrap.wrap(text, WIDTH, break_on_hyphens=False, break_long_words=False))


# The packets with which most captures begin, and the report's lines on them.
OPENING = (("> S 999", "1 in pass 1 @1 +1"), ("< SA 5000,1000", "2 out pass 1 @1"), ("> A 1000,5001", "3 in pass 1 @1"))


def columns(case, report, frames, line_of=line_of):
    """What arrived, the lines of the report, and what was written, side by side, without an opening
    that passed."""
    table = []
    for line, told, packets in zip(case.lines, report.splitlines()[1:], frames):
        written = [line_of(packet) for packet in packets] or [""]
        table.append((line, told, written[0]))
        table += [("", "", other) for other in written[1:]]
    if tuple(row[:2] for row in table[:3]) == OPENING and all(row[0] == row[2] for row in table[:3]):
        del table[:3]
    wide = [max(len(row[i]) for row in table) + 3 for i in (0, 1)]
    return "\n".join(("    " + row[0].ljust(wide[0]) + row[1].ljust(wide[1]) + row[2]).rstrip() for row in table)


def section(case, report, written):
    """The section, and the row of the table at the top."""
    frames = frames_of(case, report, written)
    came = first_connection([packet_of(line) for line in case.lines])
    went = first_connection([packet for packets in frames for packet in packets])
    check_agreement(case, went)
    found = rows(case, came, went)
    drawing = "![%s](pictures/%s.svg)" % (case.title, case.name)
    return "\n\n".join(["## " + case.title, wrapped(case.prose["attack"] + " " + answer(case)),
                        drawing]) + "\n", top_row(case, report, found)


def answer(case):
    """What norm does about it, and the options of the run."""
    options = case.prose["options"]
    return case.prose["answer"] + (" Here the option is `%s`." % options if options else "")


def top_row(case, report, found):
    told = []
    for entry in read_report(report).entries:
        told += entry.rules + [ended.reason for ended in entry.ended]
    starts = ["" if row.start == 0 else " from offset %d on" % row.start for row in found]
    came = [row.came + start for row, start in zip(found, starts)] or ["no octets"] * 2
    written = [row.written + start for row, start in zip(found, starts)] or ["no octets"]
    cells = came + ["; ".join(dict.fromkeys(written)), " ".join("`%s`" % word for word in dict.fromkeys(told))]
    return "| [%s](#%s) | `%s` | %s |" % (case.title, anchor(case.title), case.name, " | ".join(cells))


def page(outcomes):
    """The page, from pairs of a description and its outcome, the report and the octets written."""
    sections, table = [], ["| Evasion | Name | One receiver delivers | Another delivers "
                           "| All, of what norm wrote | In the report |", "|---|---|---|---|---|---|"]
    for case, (report, written) in outcomes:
        try:
            text, row = section(case, report, written)
        except ValueError as fault:
            raise ValueError("%s: %s" % (case.name, fault)) from fault
        sections.append(text)
        table.append(row)
    return "\n".join([HEAD, "\n".join(table) + "\n"] + sections + measured.sections())


def read_cases():
    with open(DESCRIPTIONS, encoding="ascii") as file:
        return read_descriptions(file.read())
