"""Makes the three files of a view and its words from a number. They are those of a run, without or
with both sides protected, or of frames that no run wrote. Many of them are changed somewhere."""

import random

from makers.audits import changed_capture, changed_report
from makers.evidence import evidence_run, evidence_words
from makers.files import both_words, make_capture, make_pcapng
from makers.noted import noted_run
from model.built import WHOLE
from model.capture import ETHERNET, RAW, read_head, read_records
from model.formats import ICMP, TCP, UDP, four, two
from model.packets import INSIDE, OUTSIDE, capture_of, head, icmp, ipv4, record, segment, tcp, udp
from model.report import REASONS, first_line
from model.rule_names import RULES
from model.run import run
from model.view_lists import SIDES, VERDICTS

EDGES = [0, 1, 2, 255, 256, 65535, 65536, 2**31, 2**32 - 1]


# Words

HOSTS = ["10.0.0.1", "198.51.100.7", "10.0.0.0/8", "10.0.0.1/31", "198.51.100.0/24", "198.51.100.6/31", "0.0.0.0/0",
         "128.0.0.0/1", "0.0.0.0",
         "255.255.255.255/32",
         "010.000.0.01/08", "10.0.0.2", "192.168.0.0/16"]

ERAS = ["1", "1", "2", "3", "01", "4294967295", "second:1", "second:1", "second:2", "second:3", "second:01"]


def list_of(rng, words):
    """Some of the words, each once, in any order."""
    return ",".join(rng.sample(words, min(len(words), rng.choice([1, 1, 2, 3, 3, len(words)]))))


def option_words(rng, name, value):
    return ["--%s=%s" % (name, value)] if rng.random() < 0.5 else ["--" + name, value]


def choice_words(rng):
    """Some of the options, each in one of its forms; a few of them do not go together."""
    words, choices = [], {"rule": list_of(rng, RULES), "era": rng.choice(ERAS), "only": list_of(rng, VERDICTS),
                          "side": list_of(rng, SIDES),
                          "host": rng.choice(HOSTS)}
    table = rng.choice(["records", "records", "eras"]) if rng.random() < 0.25 else None
    if rng.random() < (0.4 if table is None else 0.03):
        words.append(["--json"])
    if table is not None:
        words.append(option_words(rng, "table", table))
    for name, value in choices.items():
        if rng.random() < (0.02 if table == "eras" else 0.18):
            words.append(option_words(rng, name, value))
    for mark, often in (("--evidence", 0.03 if table == "eras" else 0.3), ("--summary", 0.02 if table else 0.12)):
        if rng.random() < often:
            words.append([mark])
    rng.shuffle(words)
    return [word for group in words for word in group]


# Numbers of an era at both ends of their range, and of as many digits as are read.
ERA_EDGES = ["0", "1", "4294967295", "4294967296", "18446744073709551616", "0" * 19 + "1", "0" * 20 + "1", ""]

# Addresses and prefixes at the edge of what is read.
HOST_EDGES = ["10.0.0.1/32", "10.0.0.1/33", "10.0.0.1/0", "10.0.0.1/00", "10.0.0.1/000", "10.0.0.1/", "10.0.0.255",
              "10.0.0.256", "10.0.0.001",
              "10.0.0.0001", "10.0.0",
              "10.0.0.1.1", ".0.0.1", "10.0.0.", "10.0.0.1 ", "10.0.0.1,10.0.0.2", "", "/8", "10.0.0.1/8/8",
              "10.0.0.1/-1", "a.0.0.1"]

# Lists at the edge of what is read, of the words pass, fix, hold and drop.
LIST_EDGES = ["pass,fix,hold,drop", "drop,hold,fix,pass", "pass,pass", "pass,fix,pass", "pass,", ",pass", "pass,,fix",
              ",", "", "pass fix",
              "pass;fix", "pas", "Pass", "pass,passed"]

SIDE_EDGES = ["in,out,-", "-", "-,-", "in,in", "--", "-,", "neither", "In", "in,-,out"]


def edge_words(rng):
    """One option with a value at the edge of what it takes, also with a format."""
    edges = {"era": [by + number for by in ("", "second:") for number in ERA_EDGES], "host": HOST_EDGES,
             "only": LIST_EDGES, "side": SIDE_EDGES,
             "rule": [",".join(RULES), ",".join(RULES + RULES[-1:]), "T_OLD,T_CLASH", "T_OLD,T_OLD"]}
    name = rng.choice(list(edges))
    return (rng.choice([[], [], ["--json"], ["--table=records"], ["--table", "eras"]])
            + option_words(rng, name, rng.choice(edges[name])))


BAD_OPTIONS = [words.split(" ") for words in [
    "--json=1", "--json=", "--json --json", "--rule", "--rule=", "--rule T_CLASHES",
    "--rule=t_clash", "--rule=T_CLASH --rule=T_OLD",
    "--rule=T_CLASH,T_CLASH", "--rule T_CLASH,", "--rule --json", "--era=0", "--era 4294967296",
    "--era=" + "0" * 20 + "1", "--era=x",
    "--era=4294967297", "--era=18446744073709551615", "--era=-1", "--era=+1", "--era=",
    "--era 1 --json --era=1", "--era=1,2", "--era=first:1",
    "--era=second", "--era=second:", "--era=second:second:1", "--era=Second:1", "--era=:1",
    "--era=second:0", "--era=second:4294967296",
    "--only", "--only=passed", "--only=", "--only=Drop", "--only drop --only drop",
    "--only=drop,drop", "--only=drop,", "--side", "--side=both",
    "--side=in,in", "--side=", "--side=--", "--host", "--host=", "--host=10.0.0", "--host=10.0.0.0/33", "--host=host",
    "--host=1.0.0.1 --host=1.0.0.2",
    "--table", "--table=", "--table=record", "--table=Eras", "--table --json",
    "--table=eras --table=eras", "--table=records --json",
    "--json --table eras", "--table=eras --only=drop", "--era=1 --table=eras",
    "--table=eras --host=10.0.0.1", "--table=eras --side=in",
    "--rule=T_OLD --table=eras", "--notes --notes", "--notes=", "--notes=1",
    "--notes --table=records", "--table eras --notes", "--notes --only=drop",
    "--era=1 --notes", "--notes --json --side=in",
    "--evidence --evidence", "--evidence=", "--evidence=1", "--evidence --notes",
    "--notes --evidence", "--evidence --table=eras", "--evidenc",
    "--evidences", "--summary --summary", "--summary=", "--summary=1", "--summary --notes",
    "--notes --json --summary", "--table=records --summary",
    "--summary --table=eras", "--summar", "--summary --evidence --table records",
    "--note", "--", "-", "-j", "--rul=T_CLASH", "--rules=T_CLASH", "--hops=30", "--help", "-h", "--version", "",
]] + [["--rule", "T_CLASH, T_OLD"], ["--era=second: 1"], ["--side", ""]]


def spoilt_words(rng, words):
    """Invalid arguments."""
    kind = rng.randrange(6)
    if kind < 3:
        return rng.choice(BAD_OPTIONS) + words
    if kind == 3:
        return words[:rng.randrange(len(words))]
    if kind == 4:
        return words + [rng.choice(["", "x", "--json", "-"])]
    if rng.random() < 0.5:
        return words[:-3] + [rng.choice(["", "-", "-x", word]) for word in words[-3:]]
    at = len(words) - rng.randrange(3)
    return words[:at] + rng.choice(BAD_OPTIONS + [["x"]]) + words[at:]


# Frames that no run wrote

# Octets of a payload: those whose text is themselves, and those at the edges of these.
OCTETS = b'aaab"\\ ~\x1f\x7f\x00\xff'


def any_payload(rng):
    """Few octets, or as many as a text has, one less or one more, or many."""
    octets = rng.choice([b"ab", b"ab", OCTETS])
    return bytes(rng.choice(octets) for _ in range(rng.choice([rng.randrange(9)] * 6 + [63, 64, 65, 66, 128, 200])))


def any_message(rng):
    """A protocol and a message, whole or cut."""
    octets = any_payload(rng)
    kind = rng.randrange(5)
    if kind < 2:
        options = rng.choice([b"", b"", b"\1\1\1\1", b"\2\4\5\xb4", b"\1" * 40])
        flags = rng.choice([2, 16, 18, 24, 17, 4, 0, 255, rng.randrange(256)])
        message = tcp(OUTSIDE, INSIDE, rng.choice([40000, 0, 65535]), 80, rng.choice([1000, 1000, 1001, 0, 2**32 - 1]),
                      rng.choice(EDGES), flags, octets, options=options, reserved=rng.choice([0, 0, 1, 15]),
                      urgent=rng.choice([0, 0,
                          9]), window=rng.choice([0, 1, 8192, 65535]),
                      header=rng.choice([None, None, None, None, 0, 4, 5, 6, 15]))
        protocol = TCP
    elif kind == 2:
        protocol, message = UDP, udp(OUTSIDE, INSIDE, 40000, 53, octets, length=rng.choice([None, None, 0, 65535]))
    elif kind == 3:
        protocol, message = ICMP, icmp(rng.choice([0, 3, 8, 255]), rng.choice([0, 0, 1, 255]), two(1) + two(1) + octets)
    else:
        protocol, message = rng.choice([0, 2, 47, 255, TCP, UDP]), octets
    ends = {TCP: [19, 20, 24], UDP: [7, 8]}.get(protocol, [7, 8])
    return protocol, message[:rng.choice([None, None, None] + ends)]


def any_packet(rng):
    protocol, message = any_message(rng)
    options = rng.choice([b"", b"", b"", b"\1\1\1\1", b"\x94\4\0\0", b"\1" * 40])
    fields = {"options": options, "ttl": rng.choice([0, 31, 64, 255]), "tos": rng.choice([0, 0, 255]),
              "ident": rng.choice([1, 2, 65535]),
              "reserved": rng.random() < 0.1, "df": rng.random() < 0.2, "mf": rng.random() < 0.2,
              "offset": rng.choice([0, 0, 0, 8, 65528])}
    if rng.random() < 0.2:
        fields[rng.choice(["version", "header"])] = rng.choice([0, 4, 5, 6, 15])
    if rng.random() < 0.2:
        fields["total"] = rng.choice([0, 19, 20, 24, 28, 40, 65535, 20 + len(options) + len(message) - 1])
    packet = ipv4(rng.choice([OUTSIDE, INSIDE, 0, 2**32 - 1]), INSIDE, protocol, message, **fields)
    return packet + rng.choice([b"", b"", b"", bytes(6), b"xyz"])


def any_frame(rng, link):
    if rng.random() < 0.03:
        return bytes(rng.randrange(256) for _ in range(rng.randrange(30)))
    packet = any_packet(rng)
    before = (bytes(12) + rng.choice([b"\x08\0"] * 9 + [b"\x08\x06", b"\x86\xdd", b"\x81\0", b"\0\0", b"\xff\xff"])
              if link == ETHERNET else b"")
    return (before + packet)[:rng.choice([None] * 9 + [0, 13, 14, 33, 34, 54])]


def changed_octets(rng, frame):
    """The frame with an octet or two changed, octets more or less at an end, or in front."""
    for _ in range(rng.choice([0, 1, 1, 2, 3])):
        kind, at = rng.randrange(4), rng.randrange(len(frame) + 1)
        if kind == 0:
            frame = frame[:at]
        elif kind == 1:
            frame = frame + bytes(rng.randrange(4))
        elif frame:
            at = rng.randrange(len(frame))
            frame = (frame[:at] + bytes([rng.choice([frame[at] ^ 1 << rng.randrange(8), rng.randrange(256)])])
                     + frame[at + 1:])
    return frame


def some_offset(rng, count):
    """One of the offsets of these octets, their ends, or where a text of 64 octets ends."""
    any_of_them = rng.randrange(count + 1)
    return max(0, min(count, rng.choice([any_of_them, any_of_them, 0, count, 64, 65, count - 64])))


def moved_segment(rng):
    """A segment, and one that has some of its octets, with some of them changed."""
    octets = any_payload(rng) + b"a"
    count = len(octets)
    front, end = some_offset(rng, count), some_offset(rng, count)
    part = bytes(octet ^ (rng.random() < 0.2) for octet in octets[front:end])
    seq, letters = rng.choice([1000, 2**32 - 2]), rng.choice(["PA", "A", "FA", "S"])
    make = lambda text, payload: segment("> %s,5001" % text, payload=payload)  # noqa: E731
    moved = (seq + rng.choice([front, front, front, front + 1, front - 1, -1, front + 2**31])) % 2**32
    return make("%s %d" % (letters, seq), octets), make("%s %d" % (rng.choice([letters, "A"]), moved), part)


def free_pair(rng, link):
    """A record and a frame that may be written for it."""
    if rng.random() < 0.3:
        pair = moved_segment(rng)
        return tuple((bytes(12) + b"\x08\0" if link == ETHERNET else b"") + packet for packet in pair)
    frame = any_frame(rng, link)
    return frame, rng.choice([frame, changed_octets(rng, frame), changed_octets(rng, frame), any_frame(rng, link)])


# Reports that no run wrote

# The rules whose frames norm made.
MADE_RULES = ["F_DONE", "C_PROBE"]


def free_rules(rng, made):
    """Any rules; those whose frames norm made with this chance each, at any place."""
    rules = rng.choices(RULES, k=rng.choice([0, 0, 1, 1, 2, 14]))
    for rule in MADE_RULES:
        if rng.random() < made:
            rules.insert(rng.randrange(len(rules) + 1), rule)
    return rules


def free_line(rng, number, packets, version, made):
    """An entry of any words, with this many frames."""
    words = ([str(number), rng.choice(["in", "in", "out", "-"]), rng.choice(VERDICTS), str(packets)]
             + free_rules(rng, made))
    words += ["@%d" % rng.choice([1, 2, 3, 0, 2**32 - 1])] if rng.random() < 0.6 else []
    words += ["+%d" % rng.choice([1, 2, 3])] if rng.random() < 0.3 else []
    for _ in range(rng.choice([0] * 6 + [1, 2, 4])):
        octets = ":%d" % rng.choice([0, 1, 2**64 - 1]) if version == 2 else ""
        words.append("-%d:%s%s" % (rng.choice([1, 2, 3, 4]), rng.choice(REASONS), octets))
    return " ".join(words)


def is_passed(*lines):
    return all(line.split(" ")[2] == "pass" for line in lines)


def free_report(rng, count):
    """The lines of a report of one engine or of two, and for each record which of its frames in OUT
    are to be the record."""
    version, both = rng.choice([(1, False), (2, False), (2, False), (2, True), (2, True), (2, True)])
    made = rng.choice([0, 0, 0.1, 0.4])
    lines, frames, behind = [first_line(version, both)[:-1]], [], 0
    for number in range(1, count + 1):
        packets = rng.choice([0, 1, 1, 1, 2, 3] * 20 + [12])
        first = free_line(rng, number, packets, version, made)
        lines.append(first)
        frames.append([] if both else [is_passed(first)] * packets)
        for behind in range(behind + 1, behind + 1 + packets) if both else []:
            more = rng.choice([0, 1, 1, 1, 1, 2, 3])
            second = free_line(rng, behind, more, version, made)
            lines.append("/" + second)
            frames[-1] += [is_passed(first, second)] * more
    return lines + ["end %d %d" % (count, sum(map(len, frames)))], frames


def free_view(rng):
    """Records, frames that are changed from them in any way, and a report that names as many of
    them."""
    order, nano, link = rng.choice(["little", "big"]), rng.random() < 0.5, rng.choice([ETHERNET, RAW])
    source, written = head(order, nano, link), head(rng.choice([order, order, "big"]), rng.random() < 0.5, link)
    written_order = "little" if written[0] in (0xd4, 0x4d) else "big"
    lines, frames = free_report(rng, rng.choice([0, 1, 2, 5, 9]))
    often = rng.choice([0.8, 1, 1, 1, 1, 1])
    for passed in frames:
        octets, frame = free_pair(rng, link)
        source += record(octets, rng.choice([0, 1, 1790000000, 2**32 - 1]),
                         rng.choice([0, 1, 999999, 10**9, 2**32 - 1]), order=order)
        parts = [octets if is_same and rng.random() < often else rng.choice([frame, changed_octets(rng, octets)])
                 for is_same in passed]
        written += b"".join(record(part, 0, 0, order=written_order) for part in parts)
    return [source, written, "".join(line + "\n" for line in lines).encode()]


# Files that are changed

def more_of_report(rng, text):
    """Changes that only the lines of a finished run show."""
    lines = text.split("\n")
    kind = rng.randrange(8)
    if kind == 0:
        lines[0] = rng.choice(["norm 1", "norm 2", "norm 2 both", "norm 3", "norm 2 ", ""])
    elif kind == 1:
        return text + rng.choice(["\n", "x", "end 0 0\n", lines[-2] + "\n"])
    elif kind == 2:
        words = lines[-2].split(" ")
        at = rng.randrange(len(words))
        words[at] = str(int(words[at]) + rng.choice([-1, 1])) if words[at].isdigit() else "End"
        lines[-2] = " ".join(words)
    elif kind == 3:
        lines[-2] = "stop %s 24" % rng.choice(["cut", "read", "memory"])
    elif kind == 4:
        at = rng.randrange(len(lines))
        lines[at] = rng.choice(["/", " "]) + lines[at] if rng.random() < 0.5 else lines[at].lstrip("/")
    elif kind == 5:
        at = rng.randrange(len(lines))
        lines[at] = lines[at] + rng.choice([" ", "\r", "\0", " T_CLASH", " T_CLASH" * 17, "x" * 400])
    elif kind == 6:
        at = rng.randrange(len(lines))
        lines[at] = lines[at].replace(" ", "  ", 1) if rng.random() < 0.5 else "0" + lines[at]
    else:
        return text[:-1]
    return "\n".join(lines)


def other_number(rng, line):
    """The line with another number in front, or with another count of frames."""
    words = line.split(" ")
    if rng.random() < 0.3 and len(words) > 3 and words[3].isdigit():
        words[3] = str(max(0, int(words[3]) + rng.choice([-1, 1])))
    else:
        slash, digits = words[0][:1] == "/", words[0].lstrip("/")
        number = max(0, int(digits) + rng.choice([-1, 1, 1, 2**32])) if digits.isdigit() else 1
        words[0] = "/" * slash + rng.choice(["%d"] * 4 + ["0%d", " %d", "+%d"]) % number
    return " ".join(words)


def both_faults(rng, text):
    """Changes of the lines of the second engine; in a report of one engine such a line, or the
    first line of one of two."""
    lines = text.split("\n")
    behind = [at for at, line in enumerate(lines) if line.startswith("/")]
    if not behind:
        lines.insert(rng.randrange(len(lines)), rng.choice(["/1 in pass 1", "/1 out drop 0 T_SYN", "/", "/end 0 0"]))
        lines[0] = rng.choice([lines[0], lines[0], "norm 2 both"])
        return "\n".join(lines)
    at, kind = rng.choice([behind[0], behind[-1], rng.choice(behind)]), rng.randrange(8)
    if kind == 0:
        lines.pop(at)
    elif kind == 1:
        lines.insert(at + 1, rng.choice([lines[at], other_number(rng, lines[at])]))
    elif kind == 2:
        lines[at] = other_number(rng, lines[at])
    elif kind == 3:
        lines[at] = rng.choice([lines[at - 1], lines[at][1:], "/" + lines[at], lines[1]])
    elif kind == 4:
        lines[at:-2] = []
    elif kind == 5:
        lines.insert(at, lines[-2])
    elif kind == 6:
        lines[0] = rng.choice(["norm 2", "norm 1", "norm 1 both", "norm 2 both ", "norm 2 Both"])
    else:
        firsts = [n for n, line in enumerate(lines[:-2]) if line[:1].isdigit()]
        if firsts:
            first = rng.choice(firsts)
            lines[first] = other_number(rng, lines[first])
    return "\n".join(lines)


def record_less_or_more(rng, octets):
    """The capture without its last record, or with one more after it."""
    head_read = read_head(octets)
    if isinstance(head_read, str):
        return octets
    records, _, end = read_records(octets, head_read)
    if records and rng.random() < 0.5:
        return octets[:records[-1].offset]
    return octets[:end] + record(b"x" * rng.randrange(3), order=head_read.order)


def changed_file(rng, octets, other):
    """A capture that is cut, of another run, changed in a place, with a record more or less, or
    with another head."""
    kind = rng.randrange(10)
    if kind > 7:
        return record_less_or_more(rng, octets)
    if kind == 0:
        return octets[:rng.randrange(len(octets) + 1)]
    if kind == 1:
        return other
    if kind == 2:
        return octets + octets[24:24 + rng.choice([1, 15, 16, len(octets)])]
    if kind == 3 and len(octets) >= 24:
        at = rng.randrange(24)
        return octets[:at] + bytes([rng.randrange(256)]) + octets[at + 1:]
    if kind == 4 and len(octets) >= 24:
        return octets[:20] + rng.choice([four(1), four(101), four(1)[::-1], four(101)[::-1]]) + octets[24:]
    if kind == 5 and len(octets) >= 40:
        return octets[:28] + four(rng.choice([10**6, 10**9, 2**32 - 1])) + octets[32:]
    if isinstance(read_head(octets), str):
        return octets[:-1]
    return changed_capture(rng, octets)


def with_faults(rng, files, other):
    """One or two of the three files are changed."""
    for _ in range(rng.choice([0, 1, 1, 1, 2])):
        at = rng.randrange(4)
        if at < 2:
            files[at] = changed_file(rng, files[at], other[at])
        else:
            change = rng.choice([changed_report, more_of_report, more_of_report, both_faults, both_faults])
            text = files[2].decode("latin-1")
            files[2] = change(rng, text).encode("latin-1") if text.count("\n") > 1 else files[2][:-1]
    return files


def refused_files(rng):
    """The files of a run with invalid arguments: --both with --mtu or --inside, or twice."""
    words = ["run"] + rng.choice(both_words(rng)[1:]) + ["IN", "OUT", "10.0.0.0/8"]
    octets = capture_of([segment("> S 999")])
    _, written, text = run(words, octets, WHOLE)
    return [octets, written, text.encode()]


def run_files(number, rng):
    """The three files of a run of the model that reads its capture to the end, or of one that
    stops."""
    if rng.random() < 0.01:
        return refused_files(rng)
    make = make_pcapng if rng.random() < 0.2 else make_capture
    for again in range(8):
        words, octets, _ = make("%s %d" % (number, again), WHOLE, both=0.5)
        if words[:1] != ["run"]:
            continue
        status, written, text = run(words, octets, WHOLE)
        if status == 0 or (status in (3, 4) and again == 7):
            return [octets, written, text.encode()]
    return free_view(rng)


def files_of_run(options, octets):
    """The three files of a run with these options."""
    _, written, text = run(["run"] + options + ["IN", "OUT", "10.0.0.0/8"], octets, WHOLE)
    return [octets, written, text.encode()]


def note_words(rng):
    """Words of a view that has notes."""
    return rng.choice([["--notes"], ["--notes"], ["--notes", "--json"], ["--json", "--notes"], ["--json"], [], [],
                       ["--summary"],
                       ["--json", "--summary"]])


def make_view(number):
    """The words, in which IN, OUT and REPORT stand for the names, and the octets of the three
    files; one that is None is not there."""
    rng = random.Random("view " + number)
    if rng.random() < 0.1:
        if rng.random() < 0.4:
            return edge_words(rng) + ["IN", "OUT", "REPORT"], free_view(rng)
        return spoilt_words(rng, choice_words(rng) + ["IN", "OUT", "REPORT"]), free_view(rng)
    kind = rng.random()
    if kind < 0.25:
        return note_words(rng) + ["IN", "OUT", "REPORT"], files_of_run(*noted_run(rng))
    if kind < 0.4:
        return evidence_words(rng) + ["IN", "OUT", "REPORT"], files_of_run(*evidence_run(rng))
    files = free_view(rng) if rng.random() < 0.45 else run_files(number, rng)
    if rng.random() < 0.45:
        files = with_faults(rng, files, free_view(rng))
    if rng.random() < 0.02:
        files[rng.randrange(3)] = None
    words = (note_words if rng.random() < 0.15 else choice_words)(rng) + ["IN", "OUT", "REPORT"]
    return spoilt_words(rng, words) if rng.random() < 0.08 else words, files
