"""Views worked by hand of runs with both sides protected, and of reports of both engines that no
run wrote."""

from model.packets import capture_of, opening, segment
from cases.views import (BACK, BOTH, EARLY, EPOCH, ERA, FIRST_ERA, LATER, LIVE, NOTHING_ELSE, PAIR,
                         RECORD, RESET, SUMMARY, SYN, THERE, THREE, as_json,
                       as_row, counted, counts, ethernet, pair_hosts, pair_lines, row)

row("one record of both engines as JSON", capture_of(opening()[:1]), "--json",
    [as_json(RECORD, **SYN, by="first", side="in", given=1),
     as_json(RECORD, **SYN, by="second", side="out", frames_out=[1]),
     as_json(SUMMARY, **NOTHING_ELSE, event="summary", records=1, in_lines=counts(1),
             out_lines=counts(), neither_lines=counts(), second_in_lines=counts(),
             second_out_lines=counts(1), second_neither_lines=counts(), frames=1, **pair_hosts(1),
             rule_counts=[], era_counts=LIVE),
     as_json(ERA, **FIRST_ERA, by="first", rules=[]),
     as_json(ERA, **FIRST_ERA, by="second", rules=[])], options="--both")

row("the same as a table", capture_of(opening()[:1]), "--table records",
    ["\t".join(RECORD[1:])]
    + [as_row(RECORD, **{name: value for name, value in SYN.items() if value != []}, **more)
       for more in (
        {"by": "first", "side": "in", "given": 1}, {"by": "second", "side": "out", "frames_out": 1})], options="--both")

row("its eras as a table", capture_of(opening()[:1]), "--table eras",
    ["\t".join(ERA[1:])] + [as_row(ERA, **FIRST_ERA, by=by) for by in ("first", "second")], options="--both")


def sides(first, second):
    """The lines of sides of both engines, from their counts as pass, fix, hold and drop."""
    names = ["in", "out", "-", "second in", "second out", "second -"]
    return ["%s pass %d fix %d hold %d drop %d" % ((name,) + counts) for name, counts in zip(names, first + second)]


row("the summary of both engines", BOTH, "",
    ["records 5"] + sides([(2, 0, 0, 0), (3, 0, 0, 0), (0, 0, 0, 0)], [(2, 1, 0, 0), (2, 0, 0, 0), (0, 0, 0, 0)])
    + ["frames 5", *pair_lines(5), counted("T_CLASH", 1),
       "eras 2 live 2 reset 0 evicted 0 idle 0 reopened 0 opened in 2 out 0 mid 0",
       "era 1 " + PAIR + " opened in EPOCH EPOCH records 5 sent 0 live", "era second 1 " + PAIR
       + " opened in EPOCH EPOCH records 5 sent 8 live T_CLASH"],
    options="--both")

WAYS = capture_of(opening() + [segment("> PA 1000,5001 abcd"), segment("< PA 5001,1004 xyz"),
                               segment("< RA 5004,1004"), ethernet(b"")])

row("octets either way, and records without a side", WAYS, "",
    ["records 7"] + sides([(3, 0, 0, 0), (3, 0, 0, 0), (0, 0, 0, 1)], [(2, 1, 0, 0), (3, 0, 0, 0), (0, 0, 0, 0)])
    + ["frames 7", *pair_lines(6), counted("C_PROBE", 1), counted("I_SHORT", 1),
       "eras 2 live 1 reset 1 evicted 0 idle 0 reopened 0 opened in 2 out 0 mid 0",
       "era 1 " + PAIR + " opened in EPOCH EPOCH records 6 sent 4 octets 4 reset", "era second 1 " + PAIR
       + " opened in EPOCH EPOCH records 6 sent 3 live C_PROBE"],
    options="--both")

WHOLE_RESET = ["5 EPOCH in " + LATER + "tcp id 1 offset 16 len 12 fix era 1 F_DONE: T_STRIP: C_PROBE: given 2",
               "5/4 EPOCH out " + LATER + "tcp len 12 pass era 1 ends era 1 reset octets 0 frames "
                                          "1 out 4; by both engines: "
               "frame 1 datagram tcp R seq 1000 ack 0 len 0, compared with no record",
               "5/5 EPOCH out " + LATER + "tcp len 12 pass era 2 begins era 2 frames 1 out 5; by "
                                          "both engines: frame 1 probe tcp A seq 999 ack 5001 "
                                          "len 0", "chosen 1"]

row("a reset and its probe in the second engine", capture_of(RESET), "--only pass --era second:2",
    WHOLE_RESET, options="--both")

row("by a rule of the first engine and a verdict of the second", capture_of(RESET),
    "--rule C_PROBE --only pass", WHOLE_RESET, options="--both")

row("no era of the first engine", capture_of(RESET), "--era 2", ["chosen 0"], options="--both")

row("no second engine", capture_of(RESET), "--era second:1", ["chosen 0"])

row("the sides of the first engine, and an era of each", capture_of(RESET), "--era 1 --side out",
    ["2 EPOCH out " + BACK + " tcp SA seq 5000 ack 1000 len 0 pass era 1 given 1", "2/2 EPOCH in " + BACK
     + " tcp SA seq 5000 ack 1000 len 0 pass era 1 frames 1 out 2", "chosen 1"],
    options="--both")

row("a segment outwards that is probed for", capture_of([segment("< PA 5001,1000 ab")]), "--only fix",
    ["1 EPOCH out " + BACK + " tcp PA seq 5001 ack 1000 len 2 pass era 1 begins era 1 given 1",
     "1/1 EPOCH in " + BACK + " tcp PA seq 5001 ack 1000 len 2 fix C_PROBE: frames 1 out 1; by "
                              "both engines: frame 1 probe tcp A seq 5000 ack 1000 "
                              "len 0", "chosen 1"],
    options="--both")

row("a probe of the first engine in the place of a segment", EARLY, "--rule T_STATE",
    ["2 EPOCH in " + THERE + " tcp PA seq 1000 ack 5001 len 2 drop era 1 T_STATE: given 1",
     "2/2 EPOCH out " + THERE + " tcp PA seq 1000 ack 5001 len 2 pass era 1 frames 1 out 2; by "
                                "both engines: frame 1 probe tcp A seq 999 ack 5001 len 0",
     "chosen 1"], options="--both")

row("a probe of the second engine in the place of a segment",
    capture_of([segment("< S 5000"), segment("< PA 5001,1000 ab")]), "--only drop",
    ["2 EPOCH out " + BACK + " tcp PA seq 5001 ack 1000 len 2 pass era 1 given 1",
     "2/2 EPOCH in " + BACK + " tcp PA seq 5001 ack 1000 len 2 drop era 1 T_STATE: frames 1 out 2; "
                              "by both engines: frame 1 probe tcp A seq 5000 ack 1000 len 0",
     "chosen 1"],
    options="--both")

row("eras of both engines that the inside host begins", capture_of([segment("< S 5000")]), "",
    ["records 1"] + sides([(0, 0, 0, 0), (1, 0, 0, 0), (0, 0, 0, 0)], [(1, 0, 0, 0), (0, 0, 0, 0), (0, 0, 0, 0)])
    + ["frames 1", *pair_lines(1), "eras 2 live 2 reset 0 evicted 0 idle 0 reopened 0 opened in 0 "
                                   "out 2 mid 0", "era 1 " + PAIR
       + " opened out EPOCH EPOCH records 1 sent 0 live",
       "era second 1 " + PAIR + " opened out EPOCH EPOCH records 1 sent 0 live"], options="--both")

# Reports of both engines that no run wrote

LINES = ["norm 2 both", "1 in pass 1 @1 +1", "/1 out pass 1 @1 +1", "2 out pass 1 @1",
         "/2 in pass 1 @1", "3 in pass 1 @1", "/3 out pass 1 @1",
         "end 3 3"]


def broken(name, lines, at):
    """Nothing is printed but that this line may not be there."""
    row(name, THREE, "", ["stop report %d" % at], status=9, report=lines)


broken("no first version of both", ["norm 1 both"] + LINES[1:], 1)
broken("a line of the second engine in a report of one", ["norm 2"] + LINES[1:], 3)
broken("a line of the second engine is missing", LINES[:4] + LINES[5:], 5)
broken("the last line of the second engine is missing", LINES[:6] + LINES[7:], 7)
broken("one line of the second engine too many", LINES[:5] + ["/3 in pass 1 @1"] + LINES[5:], 6)
broken("a line of the second engine twice", LINES[:3] + LINES[2:], 4)
broken("a number of the second engine left out", LINES[:4] + ["/3 in pass 1 @1"] + LINES[5:], 5)
broken("numbers of the second engine by record", LINES[:2] + ["/0 out pass 1 @1 +1"] + LINES[3:], 3)
broken("a line of the first engine where one of the second is missing",
       LINES[:2] + ["1 out pass 1 @1 +1"] + LINES[3:], 3)
broken("a line of the second engine where one of the first is missing", LINES[:3] + LINES[4:], 4)
broken("the last line too early", LINES[:6] + ["end 3 2"], 7)
broken("the last line before all", LINES[:1] + ["end 3 3"], 2)
broken("no last line behind the second engine's", LINES[:7], 8)
broken("a last line of the second engine", LINES[:7] + ["/end 3 3"], 8)
broken("a line with two slashes", LINES[:2] + ["//1 out pass 1 @1 +1"] + LINES[3:], 3)
broken("a space behind the slash", LINES[:2] + ["/ 1 out pass 1 @1 +1"] + LINES[3:], 3)
broken("an era that ended without octets", LINES[:6] + ["/3 out pass 1 @1 -1:reset"] + LINES[7:], 7)
broken("frames of the first engine counted at the end", LINES[:6] + ["/3 out drop 0 T_COLD @1", "end 3 3"], 8)
broken("a line behind the last one", LINES + ["/4 out pass 1"], 9)

row("a record with a line that is none is not printed", THREE, "--only pass",
    ["1 EPOCH in " + THERE + " tcp S seq 999 ack 0 len 0 pass era 1 begins era 1 given 1",
     "1/1 EPOCH out " + THERE + " tcp S seq 999 ack 0 len 0 pass era 1 begins era 1 frames 1 out 1",
     "stop report 5"], status=9, report=LINES[:4] + LINES[5:])

row("a stop as JSON", THREE, "--era=4294967295 --json",
    ['{"event":"stop","status":9,"reason":"stop report 5"}'], status=9, report=LINES[:4]
    + LINES[5:])

row("a stop in a table", THREE, "--table records --side out",
    ["\t".join(RECORD[1:]), "stop report 5"], status=9, report=LINES[:4] + LINES[5:])

row("a stop in a table of eras", THREE, "--table eras", ["stop report 5"], status=9, report=LINES[:4] + LINES[5:])

row("a stop before a table", THREE, "--table records", ["stop report 1"], status=9, report=["norm 1 both"] + LINES[1:])

row("a stop behind the first line of a report", THREE, "--table records",
    ["\t".join(RECORD[1:]), "stop report 2"], status=9, report=LINES[:1])

row("a run of both engines that stopped", THREE, "", ["stop report 8"], status=9, report=LINES[:7] + ["stop cut 136"])

row("no frame of the second engine", THREE, "", ["no frame 4"], status=1, report=LINES[:6]
    + ["/3 out pass 2 @1", "end 3 4"])

row("a frame too many of the second engine", THREE, "", ["no frame 3"], status=1, report=LINES[:6]
    + ["/3 out drop 0 T_COLD @1", "end 3 2"])

row("a record too many of both engines", THREE, "", ["no record 3"], status=1, report=LINES[:5] + ["end 2 2"])

row("no record of both engines", THREE, "", ["no record 4"], status=1, report=LINES[:7]
    + ["4 in drop 0 T_SYN", "end 4 3"])


def two_and_one(name, heads, lines):
    """Of a report with three frames: two of the line /1, the second of its lines that are given,
    and a probe of the line /2."""
    row(name, THREE, "--only fix",
        lines + ["1/2 EPOCH - " + THERE + " tcp S seq 999 ack 0 len 0 fix T_OLD: frames 1 out 3; "
                                          "by both engines: frame 1 probe tcp A seq 1000 ack 5001 "
                                          "len 0", "chosen 1"],
        report=["norm 2 both", *heads, "/2 - fix 1 T_OLD", "2 out hold 0 F_HELD", "3 out drop 0 T_SYN", "end 3 3"])


two_and_one("frames of one line of the second engine", ["1 in fix 2 F_DONE C_PROBE", "/1 in fix 2 C_PROBE"],
            ["1 EPOCH in " + THERE + " tcp S seq 999 ack 0 id 1 offset 0 len 0 fix F_DONE: C_PROBE: given 2",
             "1/1 EPOCH in " + THERE + " tcp S seq 999 ack 0 len 0 fix C_PROBE: frames 2 out 1-2; by both engines: "
             "frame 1 datagram tcp S seq 999 ack 0 len 0, compared with no record; frame 2 probe "
             "tcp SA seq 5000 ack 1000 len 0"])

two_and_one("frames of a record that the first engine dropped", ["1 in drop 2 T_SYN F_DONE", "/1 in fix 2 F_DONE"],
            ["1 EPOCH in " + THERE + " tcp S seq 999 ack 0 id 1 offset 0 len 0 drop T_SYN: F_DONE: given 2",
             "1/1 EPOCH in " + THERE + " tcp S seq 999 ack 0 id 1 offset 0 len 0 fix F_DONE: "
                                       "frames 2 out 1-2; by both engines: "
             "frame 1 probe tcp S seq 999 ack 0 len 0; frame 2 probe tcp SA seq 5000 ack 1000 len 0"])

row("frames that the second engine dropped", THREE, "--rule T_STATE",
    ["1 EPOCH in " + THERE + " tcp S seq 999 ack 0 id 1 offset 0 len 0 fix F_DONE: given 2",
     "1/1 EPOCH out " + THERE
     + " tcp S seq 999 ack 0 id 1 offset 0 len 0 drop F_DONE: T_STATE: frames 1 out 1; by both "
       "engines: frame 1 probe tcp S seq 999 ack 0 len 0",
     "1/2 EPOCH in " + THERE + " tcp S seq 999 ack 0 len 0 fix T_STATE: frames 1 out 2; by both engines: "
     "frame 1 datagram tcp SA seq 5000 ack 1000 len 0, compared with no record",
     "2 EPOCH out " + BACK + " tcp SA seq 5000 ack 1000 len 0 fix given 1",
     "2/3 EPOCH in " + BACK + " tcp SA seq 5000 ack 1000 len 0 drop T_STATE: frames 1 out 3; by "
                              "both engines: frame 1 probe tcp A seq 1000 ack 5001 len 0",
     "chosen 2"],
    report=["norm 2 both", "1 in fix 2 F_DONE", "/1 out drop 1 F_DONE T_STATE",
            "/2 in fix 1 T_STATE", "2 out fix 1", "/3 in drop 1 T_STATE",
            "3 out drop 0 T_SYN", "end 3 3"])

ODD_ERAS = ["norm 2 both", "1 in fix 2 @7 +7", "/1 in pass 1 -7:reset:18446744073709551615",
            "/2 in pass 2 @3 +3", "2 out drop 0 -3:idle:5",
            "3 - drop 0 @2", "end 3 3"]

row("eras of both engines that no run has", THREE, "",
    ["records 3"] + sides([(0, 1, 0, 0), (0, 0, 0, 1), (0, 0, 0, 1)], [(2, 0, 0, 0), (0, 0, 0, 0), (0, 0, 0, 0)])
    + ["frames 3", *pair_lines(2), "eras 5 live 3 reset 1 evicted 0 idle 1 reopened 0 opened in 1 "
                                   "out 0 mid 1", "era 7 " + PAIR
       + " opened in EPOCH EPOCH records 1 sent 0 live",
       "era 3 - <-> - - - records 0 sent 0 octets 5 idle", "era 2 - <-> - EPOCH EPOCH records 1 sent 0 live",
       "era second 7 - <-> - - - records 0 sent 0 octets 18446744073709551615 reset",
       "era second 3 198.51.100.7:40000 <-> 10.0.0.1:80 opened mid EPOCH EPOCH records 1 sent 0 live"],
    report=ODD_ERAS)

row("the same as a table of eras", THREE, "--table=eras",
    ["\t".join(ERA[1:]), as_row(ERA, **dict(FIRST_ERA, era=7), by="first"),
     as_row(ERA, era=3, by="first", records=0, sent=0, octets=5, end="idle"),
     as_row(ERA, era=2, by="first", first=EPOCH, first_seconds=0, first_nanoseconds=0, last=EPOCH, last_seconds=0,
            last_nanoseconds=0, records=1, sent=0, end="live"),
     as_row(ERA, era=7, by="second", records=0, sent=0, octets=18446744073709551615, end="reset"),
     as_row(ERA, **dict(FIRST_ERA, era=3, opened="mid"), by="second")], report=ODD_ERAS)

# A segment from which the second engine took its only flag.

FLAGGED, PLAIN = segment("> S 999"), segment(">  999")

SUMS = ["0x" + packet[36:38].hex() for packet in (FLAGGED, PLAIN)]


def unflagged(words, lines):
    row("both engines, no flags are left: " + words, b"", words, lines,
        files=[capture_of([FLAGGED]), capture_of([PLAIN]), b"norm 2 both\n1 in pass 1\n/1 out fix 1\nend 1 1\n"])


unflagged("--only fix",
          ["1 EPOCH in " + THERE + " tcp S seq 999 ack 0 len 0 pass given 1",
           "1/1 EPOCH out " + THERE + " tcp S seq 999 ack 0 len 0 fix frames 1 out 1; by both "
                                      "engines: frame 1 flags S > none, checksum %s > %s"
           % tuple(SUMS), "chosen 1"])

FLAGS = dict(SYN, era=None, begun=None, changes=None)

unflagged("--json --only fix",
          [as_json(RECORD, **dict(FLAGS, changes=[]), by="first", side="in", given=1),
           as_json(RECORD, **dict(FLAGS, verdict="fix", changes=[
               {"frame": 1, "field": name, "from": before, "to": after, "from_number": None, "to_number": None}
               for name, before, after in (("flags", "S", "none"), ("checksum", *SUMS))]),
                   by="second", side="out", frames_out=[1]),
           '{"event":"chosen","records":1}'])

unflagged("--table=records --only fix",
          ["\t".join(RECORD[1:])]
          + [as_row(RECORD, **{name: value for name, value in FLAGS.items()
                               if value not in ([], None)}, **more) for more in (
              {"by": "first", "side": "in", "given": 1},)]
          + [as_row(RECORD, **{name: value for name, value in dict(FLAGS, verdict="fix").items()
                               if value not in ([], None)}, by="second", side="out",
                    frames_out=1, changes="1:flags,1:checksum")])
