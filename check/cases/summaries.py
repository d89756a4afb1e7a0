"""Views worked by hand of what was not judged, of notes on lines that no run has, and of the words
of notes."""

from model.formats import TCP, UDP, pseudo_sum, two
from model.packets import INSIDE, OUTSIDE, capture_of, inward, ipv4, opening, segment, udp
from model.sentences import ADVICE, NO_RECORD, UNJUDGED
from cases.notes import GRE, LOST, MIDDLE, ONE_FLOW, answer, asked, data, ethernets, held, left, no_notes, notes
from cases.views import (EPOCH, ERA, RECORD, SUMMARY, as_json, counted, counts, ethernet, fragments,
                       pair_hosts, pair_lines, row)

# What a summary has of packets that were not judged, and the notes after it

NONE = ["in pass 0 fix 0 hold 0 drop 0", "out pass 0 fix 0 hold 0 drop 0", "- pass 0 fix 0 hold 0 drop 0"]

NO_ERAS = "eras 0 live 0 reset 0 evicted 0 idle 0 reopened 0 opened in 0 out 0 mid 0"

NO_PAYLOAD = "note unjudged records 8 of 11 rules L_TYPE 4, P_PROTO 3, L_SHORT 1: " + UNJUDGED["L_TYPE"]

NOT_JUDGED = ethernets([ethernet(bytes(40), b"\x86\xdd"), ethernet(bytes(40), b"\x88\xcc"),
                        ethernet(bytes(40), b"\x86\xdd"), ethernet(b"")[:-1],
                        ethernet(bytes(65550), b"\x08\6")]
                       + [ethernet(one) for one in [inward(GRE, bytes(20)), inward(2, bytes(20)),
                                                    inward(GRE, bytes(21)), *held(3)]])

row("what was not judged, in a summary", NOT_JUDGED, "",
    ["records 11", "in pass 0 fix 0 hold 3 drop 3", NONE[1], "- pass 0 fix 0 hold 0 drop 5",
     "frames 0", "unfinished 3", "ethertype 0x86dd 2",
     "ethertype 0x88cc 1", "ethertype 0x0806 1", "protocol 47 2", "protocol 2 1", *pair_lines(6),
     counted("L_TYPE", 4), counted("L_SHORT", 1), counted("P_PROTO", 3),
     counted("F_HELD", 3), NO_ERAS, "note tunnels records 2: " + ADVICE["tunnels"], NO_PAYLOAD])

row("the same as JSON", NOT_JUDGED, "--json --notes",
    ['{"event":"note","note":"tunnels","records":2,"advice":"%s"}' % ADVICE["tunnels"],
     '{"event":"note","note":"unjudged","records":8,"of":11,"by_rule":[{"rule":"L_TYPE","count":4},'
     '{"rule":"P_PROTO","count":3},{"rule":"L_SHORT","count":1}],"advice":"%s"}'
     % UNJUDGED["L_TYPE"]], status=10)

row("notes are not among what is chosen", NOT_JUDGED, "--host 10.0.0.1 --only pass", ["chosen 0"])

row("notes are in no table", NOT_JUDGED, "--table eras", ["\t".join(ERA[1:])])


def hosts_of(packets):
    """The lines of addresses, of packets inwards."""
    lines = []
    for name, at in (("outside", 12), ("inside", 16)):
        ends = [".".join(map(str, packet[at:at + 4])) for packet in packets]
        found = sorted(set(ends), key=lambda end: (-ends.count(end), end))
        lines.append(name + " " + ", ".join("%s %d" % (end, ends.count(end)) for end in found))
    return lines


def unfinished(name, packets, number, rules, verdicts):
    """The summary of records inwards, with this number of fragments of datagrams that were never
    complete."""
    lines = ["records %d" % len(packets), "in pass %d fix %d hold %d drop %d" % verdicts, *NONE[1:],
             "frames %d" % sum(verdicts[:2])]
    lines += ((["unfinished %d" % number] if number else []) + hosts_of(packets)
              + [counted(*rule) for rule in rules] + [NO_ERAS])
    row("unfinished: " + name, capture_of(packets), "", lines)


WHOLE, OTHER = ([one
                 for one in fragments(inward(UDP,
                                             udp(OUTSIDE, INSIDE, 40000, 53, bytes(16),
                                                 check=check)), 16)] for check in (None, 1))

unfinished("none of a whole datagram", WHOLE, 0, [("F_HELD", 1), ("F_DONE", 1)], (0, 1, 1, 0))

unfinished("none of one that is dropped", OTHER, 0, [("F_HELD", 1), ("U_SUM", 1)], (0, 0, 1, 1))

unfinished("what follows a whole datagram", WHOLE + WHOLE[:1], 1, [("F_HELD", 2), ("F_DONE", 1)], (0, 1, 2, 0))

unfinished("a dropped fragment completes nothing",
           WHOLE[:1] + [ipv4(OUTSIDE, INSIDE, UDP, bytes(8), offset=16, df=True)], 1,
           [("F_HELD", 1), ("F_DF", 1)], (0, 0, 1, 1))

unfinished("a packet that is no fragment completes nothing", WHOLE[:1] + asked(1), 1, [("F_HELD", 1)], (1, 0, 1, 0))

OTHERS = [ipv4(OUTSIDE, INSIDE, UDP, bytes(16), mf=True, ident=2), ipv4(OUTSIDE, INSIDE + 1, UDP, bytes(16), mf=True),
          ipv4(OUTSIDE + 1, INSIDE, UDP, bytes(16), mf=True), ipv4(OUTSIDE, INSIDE, TCP, bytes(16), mf=True)]

unfinished("each datagram for itself", OTHERS + WHOLE, 4, [("F_HELD", 5), ("F_DONE", 1)], (0, 1, 5, 0))


def of_hosts(*pairs):
    """Datagrams inwards, each of the outside host and to the inside host of these numbers."""
    return [ipv4(OUTSIDE + src, INSIDE + dst, UDP,
                 udp(OUTSIDE + src, INSIDE + dst, 40000, 53, b"hi")) for src, dst in pairs]


unfinished("addresses with the same last octet, one after another",
           of_hosts((0, 0), (256, 0), (0, 256), (256, 256), (0, 0), (512, 512)), 0, [],
           (6, 0, 0, 0))


def odd(name, pairs, number, verdicts, rules, note=None):
    """The same of lines that no run has, each with its packet and a frame."""
    count = len(pairs)
    lines = ["records %d" % count, "in pass %d fix %d hold %d drop %d" % verdicts, *NONE[1:], "frames %d" % count]
    lines += ((["unfinished %d" % number] if number else [])
              + hosts_of([packet for _, packet in pairs]) + [counted(*rule) for rule in rules])
    lines += [NO_ERAS] + ([note] if note else [])
    report = (["norm 2"] + ["%d in %s" % (n, line) for n, (line, _) in enumerate(pairs, 1)]
              + ["end %d %d" % (count, count)])
    row("unfinished, and no run: " + name, capture_of([packet for _, packet in pairs]), "", lines, report=report)


PART, PLAIN = held(1)[0], asked(1)[0]

HELD_ONE = ("hold 1 F_HELD", PART)

NO_CELLS = "note full flows 0 cells 0 quota 0 frags 0 frag-cells 1: " + ADVICE["full"]

odd("held beside another rule", [("drop 1 F_DF F_HELD", PART), HELD_ONE], 2, (0, 0, 1, 1), [("F_DF", 1), ("F_HELD", 2)])

odd("the first rule completes it", [HELD_ONE, ("fix 1 F_DONE F_HELD", PART)], 0, (0, 1, 1, 0),
    [("F_HELD", 2), ("F_DONE", 1)])

odd("the last rule on fragments completes nothing", [HELD_ONE, ("drop 1 F_ROOM U_SHORT", PART)], 1, (0, 0, 1, 1),
    [("F_HELD", 1), ("F_ROOM", 1), ("U_SHORT", 1)], NO_CELLS)

odd("the next rule completes it", [HELD_ONE, ("drop 1 U_SHORT F_ROOM", PART)], 0, (0, 0, 1, 1),
    [("F_HELD", 1), ("U_SHORT", 1), ("F_ROOM", 1)], NO_CELLS)

odd("a fragment without a rule", [HELD_ONE, ("pass 1", PART)], 1, (1, 0, 1, 0), [("F_HELD", 1)])

odd("a packet that is no fragment is not held", [("hold 1 F_HELD", PLAIN)], 0, (0, 0, 1, 0), [("F_HELD", 1)])

NO_TYPES = ethernets([ethernet(b"", b"\x88\xcc"), ethernet(b"", b"\x88\xcc")[:13]])

row("types of 14 octets, and no type of 13", NO_TYPES, "",
    ["records 2", *NONE[:2], "- pass 0 fix 0 hold 0 drop 2", "frames 0", "ethertype 0x88cc 1",
     counted("L_TYPE", 2), NO_ERAS, "note unjudged records 2 of 2 rules L_TYPE 2: "
     + UNJUDGED["L_TYPE"]],
    files=[NO_TYPES, NO_TYPES[:24], b"norm 2\n1 - drop 0 L_TYPE\n2 - drop 0 L_TYPE\nend 2 0\n"])

NO_ERA = {"all": 0, "live": 0, "reset": 0, "evicted": 0, "idle": 0, "reopened": 0, "opened_in": 0,
          "opened_out": 0, "opened_mid": 0}

AT = {"event": "record", "by": "first", "time": EPOCH, "seconds": 0, "nanoseconds": 0, "ended": [],
      "frames": 0, "changes": []}

row("three things of a summary as JSON",
    ethernets([ethernet(bytes(40), b"\x86\xdd"), ethernet(b"ab", b"\0\0")]), "--json",
    [as_json(RECORD, **AT, record=1, number=1, ethertype="0x86dd", length=40, verdict="drop", rules=["L_TYPE"]),
     as_json(RECORD, **AT, record=2, number=2, ethertype="0x0000", length=2, verdict="drop", rules=["L_TYPE"]),
     as_json(SUMMARY, event="summary", records=2, in_lines=counts(), out_lines=counts(),
             neither_lines=counts(drop=2), frames=0, unfinished=0,
             types=[{"type": "0x86dd", "count": 1}, {"type": "0x0000", "count": 1}], protocols=[],
             outside_hosts=[], inside_hosts=[],
             rule_counts=[{"rule": "L_TYPE", "in": 0, "out": 0, "neither": 2}], era_counts=NO_ERA),
     '{"event":"note","note":"unjudged","records":2,"of":2,"by_rule":[{"rule":"L_TYPE","count":2}],'
     '"advice":"%s"}' % UNJUDGED["L_TYPE"]])

PING = {"src_ip": "198.51.100.7", "dest_ip": "10.0.0.1"}

row("the others of them as JSON", capture_of([inward(2, b"ab"), held(1, 8)[0]]), "--json",
    [as_json(RECORD, **AT, **PING, record=1, number=1, side="in", proto="2", length=2,
             verdict="drop", rules=["P_PROTO"]),
     as_json(RECORD, **AT, **dict(PING, src_port=0, dest_port=0), record=2, number=2, side="in",
             proto="udp", id=1, offset=0, more=True, length=0,
             verdict="hold", rules=["F_HELD"]),
     as_json(SUMMARY, event="summary", records=2, in_lines=counts(0, 0, 1, 1), out_lines=counts(),
             neither_lines=counts(), frames=0, unfinished=1, types=[],
             protocols=[{"protocol": 2, "count": 1}],
             **pair_hosts(2),
             rule_counts=[{"rule": rule, "in": 1, "out": 0, "neither": 0}
                          for rule in ("P_PROTO", "F_HELD")], era_counts=NO_ERA),
     '{"event":"note","note":"unjudged","records":1,"of":2,"by_rule":[{"rule":"P_PROTO","count":1}],'
     '"advice":"%s"}' % ADVICE["unjudged"]])


# Streams

notes("an acknowledgment that comes twice leaves one gap",
      opening() + [one for n in range(0, 12, 4)
                   for one in (answer(1004 + n, ident=0), answer(1004 + n, ident=0),
                               data(1000 + n, "abcd", ident=0))],
      ["note order in 3 out 0:"])

no_notes("three connections in order",
         [one for port in (1, 2, 3) for one in (
             segment("> S 999", outside_port=port), segment("< SA 5000,1000", outside_port=port),
             segment("> A 1000,5001", outside_port=port),
             data(1000, "abcd", outside_port=port), answer(1004, outside_port=port))])

notes("a segment behind the stream, and just near enough",
      opening() + [data(1000 - 2**30, "abcd"), data(1004, "efgh"), answer(1008)], LOST)

notes("one that is too far behind it hides nothing",
      opening() + [data(999 - 2**30, "abcd"), data(1004, "efgh"), answer(1008)], LOST)

notes("a stream begins in its midst with octets",
      [answer(1000, "ab", 5001), answer(1000, "ef", 5005), data(1000, "", 5007)],
      ["note lost in 0 out 2:"])

notes("it begins with a keep-alive, one octet before the next one",
      [answer(1000, "", 5001), answer(1000, "ab", 5002), data(1000, "", 5004)], MIDDLE)


# Lines that no run has

ONE_OF = ["norm 2", "1 in pass 1 @1 +1", "2 out pass 1 @1 -1:evicted:0", "3 in fix 1 C_PROBE", "end 3 3"]

THREE = [segment("> S 999"), answer(1000), data(1000, "a")]

notes("no run: evicted by a line before", THREE, ONE_FLOW, report=ONE_OF)

notes("no run: evicted by this line", THREE, ONE_FLOW, report=ONE_OF[:2]
      + ["2 out pass 1 @1", "3 in fix 1 C_PROBE -1:evicted:0", "end 3 3"])

no_notes("no run: evicted by a later line", THREE[:1] + THREE[2:] + THREE[1:2],
         report=ONE_OF[:2] + ["2 in fix 1 C_PROBE", "3 out pass 1 @1 -1:evicted:0", "end 3 3"])

no_notes("no run: ended twice, at last otherwise", THREE, report=ONE_OF[:2]
         + ["2 out pass 1 @1 -1:evicted:0 -1:idle:0"] + ONE_OF[3:])

notes("no run: ended twice, at last evicted", THREE, ONE_FLOW, report=ONE_OF[:2]
      + ["2 out pass 1 @1 -1:idle:0 -1:evicted:0"] + ONE_OF[3:])

notes("no run: it goes on without room", THREE, ["note full flows 2 cells 0 quota 0 frags 0 frag-cells 0:"],
      report=ONE_OF[:3] + ["3 in fix 1 T_FULL C_PROBE T_FULL"] + ONE_OF[4:])

notes("no run: half is named beside a table that was full", THREE[2:] * 2, MIDDLE + ONE_FLOW,
      report=["norm 2", "1 in drop 1 T_FULL", "2 in pass 1 @1 +1", "end 2 2"])

no_notes("no run: it belongs to an era", THREE, report=ONE_OF[:3] + ["3 in fix 1 C_PROBE @2"] + ONE_OF[4:])

notes("no run: a SYN with a probe goes on", THREE[:2] + [segment("> S 7")], ONE_FLOW, report=ONE_OF)

no_notes("no run: another four-tuple", THREE[:2] + [data(1000, "", outside_port=1)], report=ONE_OF)

no_notes("no run: a line without a side has no four-tuple", THREE, report=ONE_OF[:3]
         + ["3 - fix 1 C_PROBE"] + ONE_OF[4:])

no_notes("no run: a line without a side begins an era", [answer(1000), data(1000, "a")],
         report=["norm 2", "1 - pass 1 @1 +1", "2 in pass 1", "end 2 2"])

notes("no run: sums of another protocol", [left(one) for one in asked(2)], ["note card in 2 out 0 neither 0:"],
      report=["norm 2", "1 in drop 1 T_SUM", "2 in fix 1 I_SRC T_SUM", "end 2 2"])

HIGH = 240 * 2**24 + 1

notes("no run: a destination behind those of groups",
      [ipv4(INSIDE, HIGH, UDP, udp(INSIDE, HIGH, 1, 2, b"a"))], ["note foreign records 1:"],
      report=["norm 2", "1 - hold 1 I_SIDE", "end 1 1"])

SUMMED = bytes(6) + two(pseudo_sum(OUTSIDE, INSIDE, 1, 8) % 65535)

no_notes("no run: the checksum of ICMP", [ipv4(OUTSIDE, INSIDE, 1, SUMMED, ident=n) for n in (1, 2)],
         report=["norm 2", "1 in drop 1 U_SUM", "2 in drop 1 T_SUM", "end 2 2"])

no_notes("no run: a type where there is no Ethernet header", [ipv4(129 * 2**24 + 7, 8 * 2**24, 2, bytes(8))],
         report=["norm 2", "1 - hold 1 L_TYPE", "end 1 1"])

notes("the lines of the first engine alone", opening() + [data(1004, "efgh"), answer(1008)], LOST, "--both")

row("notes of an empty capture", capture_of([]), "--notes", ["note unjudged records 0 of 0: " + NO_RECORD], status=10)


# Words

for words in ["--notes --notes", "--notes --table records", "--table=eras --notes",
              "--notes --rule T_CLASH", "--only=drop --notes",
              "--notes --era 1", "--notes --side in", "--host 10.0.0.1 --notes",
              "--notes --evidence", "--evidence --notes", "--notes --summary", "--summary --notes",
              "--evidence --evidence", "--evidence=1",
              "--evidence=", "--evidences", "--summary --summary", "--summary=1",
              "--table eras --evidence", "--evidence --table=eras",
              "--table records --summary", "--summary --table=eras", "--notes=1", "--notes=", "--note"]:
    row("refused: " + words, capture_of([]), words, ["stop words"], status=2)

row("refused, as JSON: --notes --json --only drop", capture_of([]), "--notes --json --only drop",
    ['{"event":"stop","status":2,"reason":"stop words"}'], status=2)

row("notes of a run that stopped", capture_of(opening() + [data(1004, "efgh"), answer(1008)])[:-1],
    "--notes", ["stop report 6"], status=9)
