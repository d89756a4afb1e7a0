"""Views worked by hand with --evidence and with --summary."""

from model.formats import ICMP, UDP
from model.packets import INSIDE, OUTSIDE, capture_of, head, inward, ipv4, opening, record, segment, udp
from model.sentences import ADVICE, CLASS_TEXTS
from cases.notes import answer, data, ethernets
from cases.views import (AT_EPOCH, BACK, ENDS, LATER, RECORD, THERE, as_json, as_row,
                       ethernet, fragments, pair_lines, row)


def found(contradictions=0, differs=0, noise=0):
    """The lines of counts."""
    return ["chosen %d" % (contradictions + differs + noise),
            "contradictions %d: %s" % (contradictions, CLASS_TEXTS["contradictions"]),
            "differs %d: %s" % (differs, CLASS_TEXTS["differs"]),
            "noise %d: %s" % (noise, CLASS_TEXTS["noise"])]


def evidence(name, packets, lines, counts, words="", **more):
    """The chosen records are these lines, and this number of them is of each class. `more`: the
    options of the run, or a report in place of its own."""
    row("evidence: " + name, packets if isinstance(packets, bytes) else capture_of(packets),
        ("--evidence " + words).strip(), lines + found(*counts), status=11 if any(counts) else 0, **more)


def counted_only(name, packets, counts, words="", **more):
    """The same without the lines."""
    evidence(name, packets, [], counts, "--summary " + words, **more)


# Which record first sent octets

def clash(number, record_of, frame_of, runs, era=1, at="in " + THERE):
    """The line of a segment that is rewritten to the octets of another packet."""
    seq, ack = (int.from_bytes(record_of[place:place + 4], "big") for place in (24, 28))
    by = "by both engines: " if "/" in str(number) else ""
    return ("%s EPOCH %s tcp PA seq %d ack %d len %d fix era %d T_CLASH: frames 1 out %s; %s"
            "frame 1 checksum 0x%s > 0x%s, payload %s"
            % (number, at, seq, ack, len(record_of) - 40, era, str(number).split("/")[0], by,
               record_of[36:38].hex(), frame_of[36:38].hex(), runs))


def clashes(name, packets, wanted, runs):
    """The last of these packets is rewritten to the wanted one."""
    line = clash(len(opening() + packets), packets[-1], wanted, runs)
    evidence(name, opening() + packets, [line], (1, 0, 0))


clashes("one record sent them first", [data(1000, "abcdef"), data(1000, "abXXgh")],
        data(1000, "abcdef"), 'at 2 "XXgh" > "cdef" first 4')

PARTS = [data(1000, "abcd"), data(1004, "efgh")]

clashes("each run has a first record", PARTS + [data(1000, "abXdefXh")], data(1000, "abcdefgh"),
        'at 2 "X" > "c" first 4 at 6 "X" > "g" first 5')

clashes("a run over two records has that of its first octet", PARTS + [data(1000, "abcXXfgh")],
        data(1000, "abcdefgh"), 'at 3 "XX" > "de" first 4')

clashes("a run that begins with the second of them", PARTS + [data(1000, "abcdXfgh")],
        data(1000, "abcdefgh"), 'at 4 "X" > "e" first 5')

clashes("a copy is not the first", PARTS[:1] * 2 + [data(1000, "Xbcd")], data(1000, "abcd"),
        'at 0 "X" > "a" first 4')

clashes("of a longer copy its new octets are", [data(1000, "abcd"), data(1002, "cdef"),
                                               data(1002, "XdeX")],
        data(1002, "cdef"), 'at 0 "X" > "c" first 4 at 3 "X" > "f" first 5')

clashes("octets of the segment itself are not known before", [data(1000, "ab"), data(1000, "Xbcd")],
        data(1000, "abcd"), 'at 0 "X" > "a" first 4')

HIGH = [segment("> S %d" % (2**32 - 4)), segment("< SA 5000,%d" % (2**32 - 3)),
        segment("> A %d,5001" % (2**32 - 3))]

evidence("numbers that pass 2^32", HIGH + [data(2**32 - 3, "abcdef"), data(1, "eX")],
         [clash(5, data(1, "eX"), data(1, "ef"), 'at 1 "X" > "f" first 4')], (1, 0, 0))

AGAIN = opening() + [data(1000, "abcd"), segment("< RA 5001,1004")] + opening() + [data(1000, "efgh")]

evidence("of the era alone", AGAIN + [data(1000, "efXh")],
         [clash(10, data(1000, "efXh"), data(1000, "efgh"), 'at 2 "X" > "g" first 9', era=2)],
         (1, 0, 0))

TWO = [segment("> S 999", outside_port=40001), segment("< SA 5000,1000", outside_port=40001),
       data(1000, "zzzz", outside_port=40001)]

evidence("of another era nothing", TWO + opening() + PARTS[:1] + [data(1000, "Xbcd")],
         [clash(8, data(1000, "Xbcd"), data(1000, "abcd"), 'at 0 "X" > "a" first 7', era=2)],
         (1, 0, 0))

UNKNOWN = [data(1000, "abcd"), data(1000, "aXcd")]

for name, first in [("an outward line", "1 out fix 1 T_OLD @1"), ("a line without a side", "1 - fix 1 @1"),
                    ("a line without an era", "1 in pass 1"), ("a line of another era", "1 in pass 1 @2"),
                    ("a line that begins the era alone", "1 in pass 1 +1")]:
    row("evidence, and no run: %s first sent nothing" % name, capture_of([UNKNOWN[0], UNKNOWN[1]]),
        "--evidence --rule T_CLASH",
        [clash(2, UNKNOWN[1], UNKNOWN[0], 'at 1 "X" > "b"')] + found(1), status=11,
        files=[capture_of(UNKNOWN), capture_of([UNKNOWN[0]] * 2),
               b"".join(line + b"\n" for line in (b"norm 2", first.encode(),
                                                  b"2 in fix 1 T_CLASH @1", b"end 2 2"))])


def no_run(name, records, frames, lines, shown):
    """Of lines that no run has, those of T_CLASH."""
    row("evidence, and no run: " + name, b"", "--evidence --rule T_CLASH", [shown] + found(1), status=11,
        files=[capture_of(records), capture_of(frames),
               ("norm 2\n%send %d %d\n"
                % ("".join("%d in %s @1\n" % (number, line) for number, line in enumerate(lines, 1)),
                   len(records), len(frames))).encode()])


no_run("a second run that nobody sent before", [data(1000, "ab"), data(1000, "XbXd")],
       [data(1000, "ab"), data(1000, "abcd")], ["pass 1", "fix 1 T_CLASH"],
       clash(2, data(1000, "XbXd"), data(1000, "abcd"), 'at 0 "X" > "a" first 1 at 2 "X" > "c"'))

CUT_OFF = [data(1000, "abcd"), data(1002, "XY"), data(1000, "abZZ")]

no_run("octets that were cut off at the end were not sent", CUT_OFF,
       [data(1000, "ab"), data(1002, "XY"), data(1000, "abXY")],
       ["fix 1 T_WINDOW", "pass 1", "fix 1 T_CLASH"],
       clash(3, CUT_OFF[2], data(1000, "abXY"), 'at 2 "ZZ" > "XY" first 2'))

DATAGRAM = opening() + fragments(data(1000, "abcdefgh"), 24) + [data(1000, "Xbcd")]

row("evidence: the record that completes a datagram first sent its octets", capture_of(DATAGRAM),
    "--evidence --rule T_CLASH",
    [clash(6, DATAGRAM[5], data(1000, "abcd"), 'at 0 "X" > "a" first 5').replace("out 6", "out 5")] + found(1),
    status=11)


def without_numbers(name, packets, octets, shown):
    """In an era with octets a record without sequence numbers is rewritten: a capture of each
    form."""
    row("evidence, and no run: %s has no first record" % name, b"", "--evidence",
        ["2 EPOCH in " + shown + " fix era 1 frames 1 out 2; frame 1 payload at 1 \"b\" > \"X\""]
        + found(0, 1), status=11,
        files=[octets(packets[:2]), octets([packets[0], packets[2]]),
               b"norm 2\n1 in pass 1 @1\n2 in fix 1 @1\nend 2 2\n"])


TEXTS = [inward(UDP, udp(OUTSIDE, INSIDE, 40000, 53, text, check=0)) for text in (b"abc", b"aXc")]

without_numbers("UDP", [data(1000, "abcd")] + TEXTS, capture_of,
                "198.51.100.7:40000 > 10.0.0.1:53 udp len 3")

ARPS = [ethernet(text, b"\x08\x06") for text in (b"abc", b"aXc")]

without_numbers("ARP", [ethernet(data(1000, "abcd"))] + ARPS, ethernets, "- > - arp len 3")

row("evidence as JSON", capture_of(opening() + PARTS[:1] + [data(1000, "aXcd")]), "--json --evidence",
    [as_json(RECORD, event="record", record=5, by="first", number=5, **AT_EPOCH, side="in", **ENDS,
             flags="PA", seq=1000, ack=5001, length=4, verdict="fix", era=1, ended=[],
             rules=["T_CLASH"], frames=1, frames_out=[5],
             changes=[{"frame": 1, "field": "checksum", "from": "0x" + data(1000, "aXcd")[36:38].hex(),
                       "to": "0x" + data(1000, "abcd")[36:38].hex(), "from_number": None,
                       "to_number": None},
                      {"frame": 1, "field": "payload", "front": None, "end": None, "longer": None,
                       "replaced": [{"at": 1, "from_octets": {"length": 1, "hex": "58", "text": "X"},
                                     "to_octets": {"length": 1, "hex": "62", "text": "b"},
                                     "first": 4}]}]),
     '{"event":"chosen","records":1}',
     '{"event":"evidence","contradictions":1,"differs":0,"noise":0}'], status=11)

OUTWARDS = opening() + [answer(1000, "abcd"), answer(1000, "abXd")]

evidence("outwards, of both engines", OUTWARDS,
         ["5 EPOCH out " + BACK + " tcp PA seq 5001 ack 1000 len 4 pass era 1 given 1",
          clash("5/5", answer(1000, "abXd"), answer(1000, "abcd"), 'at 2 "X" > "c" first 4',
                at="in " + BACK)], (1, 0, 0), options="--both")

evidence("inwards, of both engines", opening() + PARTS + [data(1000, "abcdeXgh")],
         ["6 EPOCH in " + THERE + " tcp PA seq 1000 ack 5001 len 8 fix era 1 T_CLASH: given 1",
          clash("6/6", data(1000, "abcdeXgh"), data(1000, "abcdefgh"), 'at 5 "X" > "f" first 5',
                at="out " + THERE).replace("fix era 1 T_CLASH:", "pass era 1")],
         (1, 0, 0), options="--both")

counted_only("outwards, of one engine", OUTWARDS, (0, 0, 0))


# Fragments that contradict

def part(offset, text, more=True, ident=1, protocol=ICMP, src=OUTSIDE):
    return ipv4(src, INSIDE, protocol, text.encode(), offset=offset, mf=more, ident=ident)


GOOD, EVIL = part(8, "goodgood"), part(8, "EVILgood")


def fragment_line(number, offset, length, change, time="EPOCH"):
    return "%d %s in %sicmp id 1 offset %d more len %d drop F_CLASH: frames 0%s" % (
        number, time, LATER, offset, length, "; fragment " + change if change else "")


def contradicts(name, packets, change, offset=8, time="EPOCH"):
    """The last of these fragments contradicts those that are held."""
    last = packets[-1][0] if isinstance(packets[-1], tuple) else packets[-1]
    row("evidence: " + name, capture_of(packets), "--evidence --rule F_CLASH --host 10.0.0.1",
        [fragment_line(len(packets), offset, len(last) - 20, change, time)] + found(1), status=11)


contradicts("a fragment", [GOOD, EVIL], 'at 8 "EVIL" > "good" first 1')

contradicts("the first run of a fragment",
            [GOOD, part(16, "more...."), part(8, "gooXXXXXmoYe....")], 'at 11 "XXXXX" > "dgood" first 1')

contradicts("a run over two fragments", [GOOD, part(16, "more...."), part(8, "goodgooXYore....")],
            'at 15 "XY" > "dm" first 1')

contradicts("a run of the second fragment", [GOOD, part(16, "more...."), part(8, "goodgoodmYre....")],
            'at 17 "Y" > "o" first 2')

contradicts("a run behind octets that are not held",
            [GOOD, part(24, "tailtail"), part(8, "goodgoodbetween.XYilXail")],
            'at 24 "XY" > "ta" first 2')

contradicts("a run up to octets that are not held",
            [GOOD, part(24, "tailtail"), part(8, "goodgooXbetween.tailtail")], 'at 15 "X" > "d" first 1')

contradicts("a copy is not the first fragment", [GOOD, GOOD, EVIL], 'at 8 "EVIL" > "good" first 1')

contradicts("what a longer fragment had before",
            [GOOD, part(8, "goodgoodmore...."), part(16, "Xore....")], 'at 16 "X" > "m" first 2', 16)

contradicts("other datagrams", [part(8, "1another", ident=2), part(8, "2another", protocol=UDP),
                                part(8, "3another", src=OUTSIDE + 1), GOOD, EVIL],
            'at 8 "EVIL" > "good" first 4')

evidence("a datagram that was forgotten", [GOOD, EVIL, EVIL, GOOD],
         [fragment_line(2, 8, 8, 'at 8 "EVIL" > "good" first 1'),
          fragment_line(4, 8, 8, 'at 8 "good" > "EVIL" first 3')], (2, 0, 0), "--only drop")

MORE, MORE_BEFORE = part(16, "more...."), part(8, "notheld.morX....")

evidence("octets that were forgotten are not compared", [GOOD, EVIL, MORE, MORE_BEFORE],
         [fragment_line(2, 8, 8, 'at 8 "EVIL" > "good" first 1'),
          fragment_line(4, 8, 16, 'at 19 "X" > "e" first 3')], (2, 0, 0), "--only drop")

contradicts("octets that were forgotten by an end are not compared",
            [part(8, "goodgood", False), MORE, MORE, MORE_BEFORE], 'at 19 "X" > "e" first 3')

contradicts("a datagram that was forgotten by its end",
            [part(8, "goodgood", False), part(16, "more...."), EVIL, GOOD],
            'at 8 "good" > "EVIL" first 3')

WHOLE = fragments(inward(UDP, udp(OUTSIDE, INSIDE, 40000, 53, b"goodgood", check=0)), 8)

row("evidence: a datagram that was whole",
    capture_of(WHOLE + [part(8, "EVILgood", protocol=UDP), part(8, "goodgood", protocol=UDP)]),
    "--evidence --only drop",
    ["4 EPOCH in " + LATER + 'udp id 1 offset 8 more len 8 drop F_CLASH: frames 0; '
     'fragment at 8 "good" > "EVIL" first 3'] + found(1), status=11)

row("evidence: octets of a datagram that was whole are not compared",
    capture_of(WHOLE + [part(16, "more....", protocol=UDP), part(8, "notheld.morX....", protocol=UDP)]),
    "--evidence --only drop",
    ["4 EPOCH in " + LATER + 'udp id 1 offset 8 more len 16 drop F_CLASH: frames 0; '
     'fragment at 19 "X" > "e" first 3'] + found(1), status=11)

contradicts("a datagram that was too old", [(GOOD, 0), (EVIL, 100), (GOOD, 101)],
            'at 8 "good" > "EVIL" first 2', time="1970-01-01T00:01:41.000000000Z")

contradicts("octets that are held since", [(part(8, "goodgoodmore...."), 0), (EVIL, 100),
                                           (part(8, "EVIXgood"), 101)],
            'at 11 "X" > "L" first 2', time="1970-01-01T00:01:41.000000000Z")

row("evidence, and no run: nothing is held", capture_of([EVIL]), "--evidence",
    [fragment_line(1, 8, 8, "")] + found(1), status=11, report=["norm 2", "1 in drop 0 F_CLASH", "end 1 0"],
    files=[capture_of([EVIL]), capture_of([]), b"norm 2\n1 in drop 0 F_CLASH\nend 1 0\n"])

row("evidence, and no run: what is held does not differ", capture_of([GOOD]), "--evidence --only drop",
    [fragment_line(2, 8, 8, "")] + found(1), status=11,
    files=[capture_of([GOOD, GOOD]), capture_of([]),
           b"norm 2\n1 in hold 0 F_HELD\n2 in drop 0 F_CLASH\nend 2 0\n"])

row("evidence, and no run: a packet that is no fragment", capture_of([]), "--evidence --only drop",
    ["2 EPOCH in " + LATER + "icmp type 103 code 111 id 1 offset 0 len 8 drop F_CLASH: frames 0"]
    + found(1), status=11,
    files=[capture_of([part(0, "evilgood"), part(0, "goodgood", False)]), capture_of([]),
           b"norm 2\n1 in hold 0 F_HELD\n2 in drop 0 F_CLASH\nend 2 0\n"])

row("a fragment that contradicts, without --evidence", capture_of([GOOD, EVIL]), "--only drop",
    [fragment_line(2, 8, 8, ""), "chosen 1"])

row("a fragment that contradicts, as JSON", capture_of([GOOD, EVIL]), "--evidence --json --only drop",
    [as_json(RECORD, event="record", record=2, by="first", number=2, **AT_EPOCH, side="in",
             src_ip="198.51.100.7", dest_ip="10.0.0.1", proto="icmp", id=1, offset=8, more=True,
             length=8, verdict="drop", ended=[], rules=["F_CLASH"], frames=0,
             changes=[{"frame": None, "field": "fragment", "at": 8,
                       "from_octets": {"length": 4, "hex": "4556494c", "text": "EVIL"},
                       "to_octets": {"length": 4, "hex": "676f6f64", "text": "good"}, "first": 1}]),
     '{"event":"chosen","records":1}',
     '{"event":"evidence","contradictions":1,"differs":0,"noise":0}'], status=11)

row("a fragment that contradicts, in a table", capture_of([GOOD, EVIL]),
    "--table records --evidence --only drop",
    ["\t".join(RECORD[1:]), as_row(RECORD, record=2, by="first", number=2, **AT_EPOCH, side="in",
                                   src_ip="198.51.100.7", dest_ip="10.0.0.1", proto="icmp", id=1,
                                   offset=8, more="true", length=8, verdict="drop", rules="F_CLASH",
                                   frames=0, changes="-:fragment")], status=11)

row("the same of both engines", capture_of([GOOD, EVIL]), "--evidence --only drop",
    [fragment_line(2, 8, 8, 'at 8 "EVIL" > "good" first 1').replace("frames 0", "given 0")] + found(1),
    status=11, options="--both")


# What is chosen, and what it is evidence of

LOW = inward(UDP, udp(OUTSIDE, INSIDE, 40000, 53, b"hi"), ttl=30)

SNIPPET = ethernet(b"")[:-1]

counted_only("nothing", opening(), (0, 0, 0))

counted_only("no record", [], (0, 0, 0))

counted_only("a rewritten packet differs", [LOW], (0, 1, 0))

counted_only("a fragment that is held differs", [GOOD], (0, 1, 0))

counted_only("without a side", head(link=1) + record(SNIPPET) + record(ethernet(bytes(28), b"\x08\x06")),
             (0, 1, 0))

counted_only("outward packets are none", [segment("< PA 5001,1000 ab", check=1)], (0, 0, 0))

for name, text, class_counts in [
        ("a RST of no connection", "> R 1000", (0, 0, 1)), ("one with payload", "> R 1000,0 ab", (0, 1, 0)),
        ("an answer of no connection", "> SA 1000,5001", (0, 0, 1)),
        ("flags that are not allowed", "> SF 1000", (0, 0, 1)),
        ("such flags with payload", "> SFP 1000,0 a", (0, 1, 0)), ("no flags", ">  1000", (0, 0, 1)),
        ("a segment of no connection is not dropped", "> A 1000,5001", (0, 1, 0))]:
    counted_only(name, [segment(text)], class_counts)

counted_only("each record once", opening() + PARTS + [data(1000, "abXd"), LOW, segment("> SF 1")],
             (1, 1, 1))


def by_lines(name, lines, counts, words=""):
    """Of lines that no run has, each with a frame for it."""
    counted_only("by lines that no run has: " + name, opening()[:2],
                 counts, words, report=lines + ["end 2 2"])


by_lines("the first class that fits", ["norm 2", "1 in drop 1 T_COLD T_CLASH", "2 out pass 1"], (1, 0, 0))

by_lines("an outward line contradicts nothing", ["norm 2", "1 in fix 1", "2 out fix 1 T_CLASH"], (0, 1, 0))

by_lines("a line without a side does", ["norm 2", "1 - fix 1 F_CLASH", "2 out pass 1"], (1, 0, 0))

by_lines("one that passed is none", ["norm 2", "1 in pass 1 T_CLASH", "2 out pass 1"], (0, 0, 0))

by_lines("noise is dropped", ["norm 2", "1 in fix 1 T_COLD", "2 - hold 1 T_FLAGS"], (0, 2, 0))

by_lines("all lines are noise",
         ["norm 2 both", "1 in drop 1 T_FLAGS", "/1 in drop 1 T_COLD", "2 out pass 1", "/2 out pass 1"],
         (0, 0, 1))

by_lines("a line is none",
         ["norm 2 both", "1 in drop 1 T_FLAGS", "/1 in fix 1 T_COLD", "2 out pass 1", "/2 out pass 1"],
         (0, 1, 0))

by_lines("a line that is not asked for is none",
         ["norm 2 both", "1 in drop 1 T_FLAGS", "/1 out fix 1", "2 out pass 1", "/2 out pass 1"],
         (0, 0, 1))

by_lines("a line that passed contradicts beside another one",
         ["norm 2 both", "1 in pass 1 T_CLASH", "/1 in fix 1", "2 out pass 1", "/2 out pass 1"], (1, 0, 0))

by_lines("a line of the second engine",
         ["norm 2 both", "1 out pass 1", "/1 - drop 1 T_OLD", "2 out pass 1", "/2 out pass 1"], (0, 1, 0))

MANY = opening() + PARTS + [data(1000, "abXd"), LOW, segment("> SF 1"), GOOD, EVIL]

for words, counts in [("--rule T_CLASH", (1, 0, 0)), ("--rule T_CLASH,I_TTL", (1, 1, 0)),
                      ("--only pass", (0, 0, 0)), ("--only drop", (1, 0, 1)), ("--only hold", (0, 1, 0)),
                      ("--side out", (0, 0, 0)), ("--side in", (2, 2, 1)), ("--era 1", (1, 0, 0)),
                      ("--host 10.0.0.1", (2, 2, 1)), ("--host 10.0.0.2", (0, 0, 0)), ("", (2, 2, 1))]:
    counted_only("with " + (words or "no more words"), MANY, counts, words)

row("evidence: a record that passed one engine", capture_of(OUTWARDS), "--evidence --only pass --summary",
    found(1), options="--both", status=11)

HOSTLESS = head(link=1) + b"".join(map(record, [SNIPPET, ethernet(bytes(60), b"\x86\xdd"), ethernet(LOW)]))

SHOWN = ["1 EPOCH - - > - - len 0 drop L_SHORT: frames 0",
         "2 EPOCH - - > - ethertype 0x86dd len 60 drop L_TYPE: frames 0"]

evidence("a record without a header may be of a host", HOSTLESS, SHOWN, (0, 2, 0), "--host 192.0.2.1")

row("without --evidence it is of none", HOSTLESS, "--host 192.0.2.1", ["chosen 0"])

evidence("it has no other side for that", HOSTLESS, [], (0, 0, 0), "--host 192.0.2.1 --side in")

row("evidence as a table", HOSTLESS, "--evidence --table records --host=192.0.2.1",
    ["\t".join(RECORD[1:]),
     as_row(RECORD, record=1, by="first", number=1, **AT_EPOCH, length=0, verdict="drop",
            rules="L_SHORT", frames=0),
     as_row(RECORD, record=2, by="first", number=2, **AT_EPOCH, ethertype="0x86dd", length=60,
            verdict="drop", rules="L_TYPE", frames=0)], status=11)

row("no evidence as a table", capture_of(opening()), "--table=records --evidence",
    ["\t".join(RECORD[1:])])

row("no evidence as JSON", capture_of(opening()), "--json --evidence",
    ['{"event":"chosen","records":0}', '{"event":"evidence","contradictions":0,"differs":0,"noise":0}'])

row("evidence of a run that stopped", capture_of([LOW])[:-1], "--evidence", ["stop report 2"], status=9)


# The end alone

row("a summary alone", capture_of(opening()), "--summary",
    ["records 3", "in pass 2 fix 0 hold 0 drop 0", "out pass 1 fix 0 hold 0 drop 0",
     "- pass 0 fix 0 hold 0 drop 0", "frames 3", *pair_lines(3),
     "eras 1 live 1 reset 0 evicted 0 idle 0 reopened 0 opened in 1 out 0 mid 0"])

row("a summary and its notes", capture_of(opening() + [data(1004, "efgh"), answer(1008)]), "--summary",
    ["records 5", "in pass 3 fix 0 hold 0 drop 0", "out pass 2 fix 0 hold 0 drop 0",
     "- pass 0 fix 0 hold 0 drop 0", "frames 5", *pair_lines(5),
     "eras 1 live 1 reset 0 evicted 0 idle 0 reopened 0 opened in 1 out 0 mid 0",
     "note lost in 4 out 0: " + ADVICE["lost"]])

row("how many are chosen", capture_of(opening()), "--summary --side=in", ["chosen 2"])

row("how many are chosen, as JSON", capture_of(opening()), "--only=pass --json --summary",
    ['{"event":"chosen","records":3}'])

row("evidence alone, as JSON", capture_of([LOW, segment("> SF 1")]), "--json --summary --evidence",
    ['{"event":"chosen","records":2}', '{"event":"evidence","contradictions":0,"differs":1,"noise":1}'],
    status=11)

for words in ["--json --notes --summary", "--json --evidence --notes", "--json --evidence=1",
              "--evidence --json --table records", "--summary --table records --json"]:
    row("refused, as JSON: " + words, capture_of([]), words,
        ['{"event":"stop","status":2,"reason":"stop words"}'], status=2)
