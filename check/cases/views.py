"""Views worked by hand: a capture, the words of its run or a report, the words of the view, and
what it prints."""

import json
from types import SimpleNamespace

from model.built import WHOLE
from model.formats import ICMP, UDP, read_ipv4
from model.packets import INSIDE, OUTSIDE, capture_of, head, icmp, inward, ipv4, opening, outward, record, segment, udp
from model.rule_names import RULES
from model.run import run
from model.sentences import ADVICE, SENTENCES

ROWS = []

# The names of the three files among the words of a view.
FILES = ["IN", "OUT", "REPORT"]

EPOCH = "1970-01-01T00:00:00.000000000Z"

THERE = "198.51.100.7:40000 > 10.0.0.1:80"

BACK = "10.0.0.1:80 > 198.51.100.7:40000"

PAIR = "198.51.100.7:40000 <-> 10.0.0.1:80"


def row(name, octets, words, lines, options="", status=0, report=None, files=None, names=FILES):
    """In the lines RULE: is the rule with its sentence, and EPOCH the time of a record. `report`:
    its lines, in place of those of the run. `files`: all three; one that is None does not exist."""
    for rule in RULES:
        lines = [line.replace(rule + ":", "%s (%s)" % (rule, SENTENCES[rule])) for line in lines]
    ROWS.append(SimpleNamespace(name=name, octets=octets, options=options.split(),
                                words=words.split() + names, status=status, report=report,
                                files=files, text="".join(line.replace("EPOCH", EPOCH) + "\n" for line in lines)))


def files_of(row):
    """The three files of a row: if it has its own report, all records are in OUT."""
    if row.files is not None:
        return row.files
    if row.report is not None:
        return [row.octets, row.octets, "".join(line + "\n" for line in row.report).encode()]
    _, written, report = run(["run"] + row.options + ["a", "b", "10.0.0.0/8"], row.octets, WHOLE)
    return [row.octets, written, report.encode()]


def fragments(packet, at):
    """The packet in two fragments, cut at this offset after its header."""
    ip, message = read_ipv4(packet), packet[20:]
    return [ipv4(ip.src, ip.dst, ip.protocol, message[:at], mf=True),
            ipv4(ip.src, ip.dst, ip.protocol, message[at:], offset=at)]


def ethernet(octets, kind=b"\x08\x00"):
    return b"\1" * 6 + b"\2" * 6 + kind + octets


# The names of the keys, in their order.
RECORD = ("event record by number time seconds nanoseconds side src_ip src_port dest_ip dest_port "
          "proto ethertype flags seq ack window "
          "icmp_type icmp_code id offset more length verdict era begun ended rules frames given "
          "frames_out changes changes_by").split()

ERA = ("event era by outside_ip outside_port inside_ip inside_port opened first first_seconds "
       "first_nanoseconds last last_seconds last_nanoseconds "
       "records sent octets end rules").split()

SUMMARY = ("event records in_lines out_lines neither_lines second_in_lines second_out_lines "
           "second_neither_lines frames unfinished types protocols "
           "outside_hosts inside_hosts rule_counts era_counts").split()

# What a summary mostly has of three of them.
NOTHING_ELSE = {"unfinished": 0, "types": [], "protocols": []}


def with_engines(values):
    """The same with the engines whose changes a line has."""
    return {"changes_by": "both" if values.get("by") == "second" else "first", **values}


def as_json(names, **values):
    """An object with these keys; what has no value here is null."""
    return json.dumps({name: with_engines(values).get(name) for name in names}, separators=(",", ":"))


def as_row(names, **cells):
    """A row of a table; what has no cell here is absent."""
    return "\t".join(str(with_engines(cells).get(name, "-")) for name in names[1:])


def host_list(*pairs):
    return [{"ip": ip, "count": count} for ip, count in pairs]


def pair_hosts(count):
    """What a summary as JSON has of hosts, where each of as many records is of these two."""
    return {"outside_hosts": host_list(("198.51.100.7", count)), "inside_hosts": host_list(("10.0.0.1", count))}


def pair_lines(count):
    """The same in the text."""
    return ["outside 198.51.100.7 %d" % count, "inside 10.0.0.1 %d" % count]


AT_EPOCH = {"time": EPOCH, "seconds": 0, "nanoseconds": 0}

ENDS = {"src_ip": "198.51.100.7", "src_port": 40000, "dest_ip": "10.0.0.1", "dest_port": 80, "proto": "tcp"}


def made(frame, kind, length, proto=None, flags=None, seq=None, ack=None):
    return {"frame": frame, "field": kind, "proto": proto, "flags": flags, "seq": seq, "ack": ack,
            "length": length, "compared": False}


# Where a plain look misleads

FLOOD = capture_of([segment("> S 999"), segment("> S 999", outside_port=40001), segment("> S 999", outside_port=40002)])

row("an era that a record begins, and one that it ends", FLOOD, "--era 1",
    ["1 EPOCH in " + THERE + " tcp S seq 999 ack 0 len 0 pass era 1 begins era 1 frames 1 out 1",
     "3 EPOCH in 198.51.100.7:40002 > 10.0.0.1:80 tcp S seq 999 ack 0 len 0 pass era 3 begins era "
     "3 ends era 1 evicted octets 0 frames 1 out 3",
     "chosen 2"],
    options="--flows 2")

row("the same as JSON", FLOOD, "--json --era 1",
    [as_json(RECORD, event="record", record=1, by="first", number=1, **AT_EPOCH, side="in", **ENDS,
             flags="S", seq=999, ack=0, length=0,
             verdict="pass", era=1, begun=1, ended=[], rules=[], frames=1, frames_out=[1], changes=[]),
     as_json(RECORD, event="record", record=3, by="first", number=3, **AT_EPOCH, side="in",
             **dict(ENDS, src_port=40002), flags="S", seq=999, ack=0,
             length=0, verdict="pass", era=3, begun=3,
             ended=[{"era": 1, "reason": "evicted", "octets": 0}], rules=[], frames=1,
             frames_out=[3], changes=[]),
     '{"event":"chosen","records":2}'], options="--flows 2")

row("the same as a table", FLOOD, "--table records --era 1",
    ["\t".join(RECORD[1:]),
     as_row(RECORD, record=1, by="first", number=1, **AT_EPOCH, side="in", **ENDS, flags="S",
            seq=999, ack=0, length=0, verdict="pass", era=1,
            begun=1, frames=1, frames_out=1),
     as_row(RECORD, record=3, by="first", number=3, **AT_EPOCH, side="in",
            **dict(ENDS, src_port=40002), flags="S", seq=999, ack=0, length=0,
            verdict="pass", era=3,
            begun=3, ended="1:evicted:0", frames=1, frames_out=3)], options="--flows 2")

OUTWARDS = capture_of([segment("< S 5000"), segment("< PA 7000,1000 ab", outside_port=40001)])

row("the outside host comes first in an era that the inside host begins", OUTWARDS, "",
    ["records 2", "in pass 0 fix 0 hold 0 drop 0", "out pass 2 fix 0 hold 0 drop 0",
     "- pass 0 fix 0 hold 0 drop 0", "frames 2", *pair_lines(2),
     "eras 2 live 2 reset 0 evicted 0 idle 0 reopened 0 opened in 0 out 1 mid 1",
     "era 1 " + PAIR + " opened out EPOCH EPOCH records 1 sent 0 live",
     "era 2 198.51.100.7:40001 <-> 10.0.0.1:80 opened mid EPOCH EPOCH records 1 sent 0 live",
     "note half eras 1 segments 0: " + ADVICE["half"]])

AGAIN = capture_of(opening() + [segment("> PA 1000,5001 abcd")] * 2 + [segment("< RA 5001,1004")])

row("octets that are sent twice, and their offsets", AGAIN, "",
    ["records 6", "in pass 4 fix 0 hold 0 drop 0", "out pass 2 fix 0 hold 0 drop 0",
     "- pass 0 fix 0 hold 0 drop 0", "frames 6", *pair_lines(6),
     "eras 1 live 0 reset 1 evicted 0 idle 0 reopened 0 opened in 1 out 0 mid 0",
     "era 1 " + PAIR + " opened in EPOCH EPOCH records 6 sent 8 octets 4 reset"])

row("the same as a table of eras", AGAIN, "--table=eras",
    ["\t".join(ERA[1:]),
     as_row(ERA, era=1, by="first", outside_ip="198.51.100.7", outside_port=40000,
            inside_ip="10.0.0.1", inside_port=80, opened="in", first=EPOCH,
            first_seconds=0, first_nanoseconds=0, last=EPOCH, last_seconds=0, last_nanoseconds=0,
            records=6, sent=8, octets=4, end="reset")])

BOTH = capture_of(opening() + [segment("< PA 5001,1000 abcd"), segment("< PA 5001,1000 abXd")])

row("a choice finds all lines of a record", BOTH, "--only fix",
    ["5 EPOCH out " + BACK + " tcp PA seq 5001 ack 1000 len 4 pass era 1 given 1",
     "5/5 EPOCH in " + BACK + " tcp PA seq 5001 ack 1000 len 4 fix era 1 T_CLASH: frames 1 out 5; by both engines: "
     "frame 1 checksum 0xedc4 > 0xe2c4, payload at 2 \"X\" > \"c\"", "chosen 1"], options="--both")

CLASH = capture_of(opening() + [segment("> PA 1000,5001 abcdefgh")] + fragments(segment("> PA 1000,5001 abcdXfgh"), 24))

row("a datagram with other octets is compared with no record", CLASH, "--rule T_CLASH",
    ["6 EPOCH in 198.51.100.7 > 10.0.0.1 tcp id 1 offset 24 len 4 fix era 1 F_DONE: T_CLASH: frames 1 out 5; "
     "frame 1 datagram tcp PA seq 1000 ack 5001 len 8, compared with no record", "chosen 1"])

ODD = b'"\\\x1f\x7f\x80 ~z'

row("texts of octets",
    capture_of(opening() + [segment("> PA 1000,5001", payload=ODD),
                            segment("> PA 1000,5001 XXXXXXXz")]), "--rule=T_CLASH",
    ["5 EPOCH in " + THERE + " tcp PA seq 1000 ack 5001 len 8 fix era 1 T_CLASH: frames 1 out 5; "
     'frame 1 checksum 0x4604 > 0x6711, payload at 0 "XXXXXXX" > "\\"\\\\\\x1f\\x7f\\x80 ~"', "chosen 1"])

row("the same as JSON",
    capture_of(opening() + [segment("> PA 1000,5001", payload=ODD),
                            segment("> PA 1000,5001 XXXXXXXz")]), "--json --rule=T_CLASH",
    [as_json(RECORD, event="record", record=5, by="first", number=5, **AT_EPOCH, side="in", **ENDS,
             flags="PA", seq=1000, ack=5001, length=8,
             verdict="fix", era=1, ended=[], rules=["T_CLASH"], frames=1,
             frames_out=[5])[:-len('null,"changes_by":"first"}')]
     + r'[{"frame":1,"field":"checksum","from":"0x4604","to":"0x6711","from_number":null,'
     + r'"to_number":null},{"frame":1,"field":"payload","front":null,"end":null,"longer":null,'
     + r'"replaced":'
     + r'[{"at":0,"from_octets":{"length":7,"hex":"58585858585858","text":"XXXXXXX"},'
     + r'"to_octets":{"length":7,"hex":"225c1f7f80207e","text":"\\\"\\\\\\x1f\\x7f\\x80 '
       r'~"},"first":null}]}],"changes_by":"first"}',
     '{"event":"chosen","records":1}'])

OTHERS = head(link=1) + b"".join(map(record, [
    ethernet(bytes(28), b"\x08\x06"), ethernet(bytes(60), b"\x86\xdd"),
    ethernet(bytes(4), b"\x81\x00"), ethernet(b"\x55"
        + bytes(30)), ethernet(b"")[:-1]]))

row("ARP, IPv6, a VLAN, a malformed IPv4 header, no type", OTHERS, "--side -",
    ["1 EPOCH - - > - arp len 28 pass frames 1 out 1", "2 EPOCH - - > - ethertype 0x86dd len 60 drop L_TYPE: frames 0",
     "3 EPOCH - - > - ethertype 0x8100 len 4 drop L_TYPE: frames 0",
     "4 EPOCH - - > - ethertype 0x0800 len 31 drop I_VERSION: frames 0",
     "5 EPOCH - - > - - len 0 drop L_SHORT: frames 0", "chosen 5"])

row("two of them as a table", OTHERS, "--table=records --only=pass,hold --side=in,-",
    ["\t".join(RECORD[1:]), as_row(RECORD, record=1, by="first", number=1, **AT_EPOCH,
                                   ethertype="arp", length=28, verdict="pass", frames=1,
                                   frames_out=1)])

row("a low TTL", capture_of([inward(UDP, udp(OUTSIDE, INSIDE, 40000, 53, b"hi"), ttl=30)]), "--only fix",
    ["1 EPOCH in 198.51.100.7:40000 > 10.0.0.1:53 udp len 2 fix I_TTL: frames 1 out 1; frame 1 ttl "
     "30 > 31, header_checksum 0x6893 > 0x6793", "chosen 1"])

row("the same as JSON", capture_of([inward(UDP, udp(OUTSIDE, INSIDE, 40000, 53, b"hi"), ttl=30)]), "--json --only fix",
    [as_json(RECORD, event="record", record=1, by="first", number=1, **AT_EPOCH, side="in",
             **dict(ENDS, dest_port=53, proto="udp"), length=2,
             verdict="fix", ended=[], rules=["I_TTL"], frames=1, frames_out=[1], changes=[
                 {"frame": 1, "field": "ttl", "from": "30", "to": "31", "from_number": 30, "to_number": 31},
                 {"frame": 1, "field": "header_checksum", "from": "0x6893", "to": "0x6793",
                  "from_number": None, "to_number": None}]),
     '{"event":"chosen","records":1}'])

row("a probe in the place of a SYN", capture_of(opening() + [segment("> S 7000")]), "--rule=T_SYN",
    ["4 EPOCH in " + THERE + " tcp S seq 7000 ack 0 len 0 drop era 1 T_SYN: frames 1 out 4; frame "
                             "1 probe tcp A seq 999 ack 5001 len 0", "chosen 1"])

row("the same as JSON", capture_of(opening() + [segment("> S 7000")]), "--json --only drop",
    [as_json(RECORD, event="record", record=4, by="first", number=4, **AT_EPOCH, side="in", **ENDS,
             flags="S", seq=7000, ack=0, length=0,
             verdict="drop", era=1, ended=[], rules=["T_SYN"], frames=1, frames_out=[4],
             changes=[made(1, "probe", 0, "tcp", "A", 999, 5001)]),
     '{"event":"chosen","records":1}'])

row("the same as a table", capture_of(opening() + [segment("> S 7000")]), "--table=records --only=drop",
    ["\t".join(RECORD[1:]), as_row(RECORD, record=4, by="first", number=4, **AT_EPOCH, side="in",
                                   **ENDS, flags="S", seq=7000, ack=0, length=0,
                                   verdict="drop", era=1, rules="T_SYN", frames=1, frames_out=4, changes="1:probe")])

EARLY = capture_of([segment("> S 999"), segment("> PA 1000,5001 ab")])

row("a probe before the era is open", EARLY, "--rule T_STATE",
    ["2 EPOCH in " + THERE + " tcp PA seq 1000 ack 5001 len 2 drop era 1 T_STATE: frames 1 out 2; "
                             "frame 1 probe tcp A seq 999 ack 5001 len 0",
     "chosen 1"])

row("a probe behind a RST", capture_of(opening() + [segment("> R 1000")]), "--only fix --era 1",
    ["4 EPOCH in " + THERE + " tcp R seq 1000 ack 0 len 0 fix era 1 C_PROBE: frames 2 out 4-5; "
     "frame 2 probe tcp A seq 999 ack 5001 len 0", "chosen 1"])

row("a probe in the place of a segment", capture_of([segment("> PA 1000,5001 ab")]), "--only fix",
    ["1 EPOCH in " + THERE + " tcp PA seq 1000 ack 5001 len 2 fix C_PROBE: frames 1 out 1; frame 1 "
                             "probe tcp A seq 999 ack 5001 len 0", "chosen 1"])

LONG = capture_of(opening() + [segment("> PA 1000,5001 " + "x" * 1100)])

row("a segment that is cut", LONG, "--rule E_CUT",
    ["4 EPOCH in " + THERE + " tcp PA seq 1000 ack 5001 len 1100 fix era 1 E_CUT: frames 3 out 4-6; "
     "frame 1 total_length 1140 > 576, header_checksum 0x4248 > 0x447c, flags PA > A, checksum 0xd070 > 0x8761, "
     'payload end 564 "' + "x" * 64 + '" and 500 more; '
     "frame 2 total_length 1140 > 576, identification 1 > 2, header_checksum 0x4248 > 0x447b, "
     "sequence 1000 > 1536, flags PA > A, "
     'checksum 0xd070 > 0x8549, payload front 536 "' + "x" * 64 + '" and 472 more end 28 "' + "x" * 28 + '"; '
     "frame 3 total_length 1140 > 68, identification 1 > 3, header_checksum 0x4248 > 0x4676, sequence 1000 > 2072, "
     'checksum 0xd070 > 0x0cad, payload front 1072 "' + "x" * 64 + '" and 1008 more', "chosen 1"], options="--mtu 576")

row("the same as a table", LONG, "--table records --rule E_CUT",
    ["\t".join(RECORD[1:]), as_row(
        RECORD, record=4, by="first", number=4, **AT_EPOCH, side="in", **ENDS, flags="PA", seq=1000,
        ack=5001, length=1100, verdict="fix", era=1, rules="E_CUT", frames=3, frames_out="4-6",
        changes="1:total_length,1:header_checksum,1:flags,1:checksum,1:payload,2:total_length,"
        "2:identification,2:header_checksum,2:sequence,2:flags,2:checksum,2:payload,3:total_length,"
        "3:identification,3:header_checksum,3:sequence,3:checksum,3:payload")],
    options="--mtu 576")

ROW_8 = opening()[:1] + [segment("< SA 5000,1000", window=4), segment("> A 1000,5001"), segment("> PA 1000,5001 ab"),
                         segment("< A 5001,1002", window=4), segment("> PA 1000,5001 abcdefghij")]

row("both ends of a payload, and the window of the record", capture_of(ROW_8), "--rule=T_WINDOW",
    ["6 EPOCH in " + THERE + " tcp PA seq 1000 ack 5001 window 8192 len 10 fix era 1 T_OLD: "
                             "T_WINDOW: frames 1 out 6; frame 1 total_length 50 > 45, "
     'header_checksum 0x468a > 0x468f, sequence 1000 > 1002, checksum 0xac85 > 0x77bd, payload '
     'front 2 "ab" end 3 "hij"', "chosen 1"])

row("a window that no line is about", capture_of(ROW_8),
    "--json --rule T_STATE,T_WINDOW --only drop,pass", ['{"event":"chosen","records":0}'])

HI = [inward(UDP, udp(OUTSIDE, INSIDE, 40000, 53, octets)) for octets in (b"hi!", b"hi")]

row("a frame that is longer than its record", capture_of(HI), "--rule T_SYN,I_TRAIL",
    ["2 EPOCH in 198.51.100.7:40000 > 10.0.0.1:53 udp len 2 fix I_TRAIL: frames 2 out 1-2; "
     'frame 1 total_length 30 > 31, header_checksum 0x4693 > 0x4692, checksum 0xc6bf > 0xa5bd, '
     'udp_length 10 > 11, payload longer 1 "!"', "chosen 1"],
    report=["norm 2", "1 in hold 0 F_HELD", "2 in fix 2 I_TRAIL", "end 2 2"])

SIZES = [inward(UDP, udp(OUTSIDE, INSIDE, 40000, 53, b"x" * count)) for count in (0, 64, 0, 65)]

INTO_53 = "EPOCH in 198.51.100.7:40000 > 10.0.0.1:53 udp "

row("texts of 64 octets and of 65", capture_of(SIZES), "--only fix",
    ["2 " + INTO_53 + "len 64 fix frames 1 out 1; frame 1 total_length 92 > 28, header_checksum "
                      "0x4655 > 0x4695, checksum 0x1f9e > 0x2f2d, "
     'udp_length 72 > 8, payload end 64 "' + "x" * 64 + '"',
     "3 " + INTO_53 + "len 0 fix frames 1 out 2; frame 1 total_length 28 > 92, header_checksum "
                      "0x4695 > 0x4655, checksum 0x2f2d > 0x1f9e, "
     'udp_length 8 > 72, payload longer 64 "' + "x" * 64 + '"',
     "4 " + INTO_53 + "len 65 fix frames 2 out 3-4; frame 1 total_length 93 > 28, header_checksum "
                      "0x4654 > 0x4695, checksum 0xa79b > 0x2f2d, "
     'udp_length 73 > 8, payload end 65 "' + "x" * 64 + '" and 1 more', "chosen 3"],
    report=["norm 2", "1 in hold 0", "2 in fix 1", "3 in fix 1", "4 in fix 2", "end 4 4"])

# Datagrams

LATER = "198.51.100.7 > 10.0.0.1 "

row("a datagram", capture_of(opening() + fragments(segment("> PA 1000,5001 " + "x" * 24), 24)), "--rule F_DONE,F_HELD",
    ["4 EPOCH in " + THERE + " tcp PA seq 1000 ack 5001 id 1 offset 0 more len 4 hold F_HELD: frames 0",
     "5 EPOCH in " + LATER + "tcp id 1 offset 24 len 20 fix era 1 F_DONE: frames 1 out 4; frame 1 "
                             "datagram tcp PA seq 1000 ack 5001 len 24, "
     "compared with no record", "chosen 2"])

row("a datagram that is cut",
    capture_of(opening() + fragments(segment("> PA 1000,5001 " + "x" * 1100), 560)), "--rule E_CUT",
    ["5 EPOCH in " + LATER + "tcp id 1 offset 560 len 560 fix era 1 F_DONE: E_CUT: frames 3 out 4-6; "
     "frame 1 datagram tcp A seq 1000 ack 5001 len 536, compared with no record; "
     "frame 2 datagram tcp A seq 1536 ack 5001 len 536, compared with no record; "
     "frame 3 datagram tcp PA seq 2072 ack 5001 len 28, compared with no record", "chosen 1"], options="--mtu 576")

row("a datagram whose segment is probed for", capture_of(fragments(segment("> PA 1000,5001 abcd"), 16)), "--only fix",
    ["2 EPOCH in " + LATER + "tcp id 1 offset 16 len 8 fix F_DONE: C_PROBE: frames 1 out 1; frame "
                             "1 probe tcp A seq 999 ack 5001 len 0", "chosen 1"])

RESET = opening() + fragments(segment("> R 1000 abcdefgh"), 16)

row("a datagram, and a probe behind it", capture_of(RESET), "--rule F_DONE",
    ["5 EPOCH in " + LATER + "tcp id 1 offset 16 len 12 fix era 1 F_DONE: T_STRIP: C_PROBE: frames 2 out 4-5; "
     "frame 1 datagram tcp R seq 1000 ack 0 len 0, compared with no record; frame 2 probe tcp A "
     "seq 999 ack 5001 len 0", "chosen 1"])

MESSAGES = [inward(UDP, udp(OUTSIDE, INSIDE, 40000, 53, b"x" * 9)), inward(ICMP, icmp(8, 0, b"\0\1\0\1abcdefgh"))]

row("datagrams of other protocols", capture_of(fragments(MESSAGES[0], 8) + fragments(MESSAGES[1], 8)), "--only=fix",
    ["2 EPOCH in " + LATER + "udp id 1 offset 8 len 9 fix F_DONE: frames 1 out 1; frame 1 datagram "
                             "udp len 9, compared with no record",
     "4 EPOCH in " + LATER + "icmp id 1 offset 8 len 8 fix F_DONE: frames 1 out 2; frame 1 "
                             "datagram icmp len 16, compared with no record",
     "chosen 2"])

row("type and code of ICMP, and of its first fragment",
    capture_of([MESSAGES[1], inward(ICMP, icmp(8, 3, b"\0\1\0")), *fragments(MESSAGES[1], 8)[:1]]),
    "--side=in",
    ["1 EPOCH in " + LATER + "icmp type 8 code 0 len 16 pass frames 1 out 1", "2 EPOCH in " + LATER
     + "icmp len 7 drop M_SHORT: frames 0",
     "3 EPOCH in " + LATER + "icmp type 8 code 0 id 1 offset 0 more len 8 hold F_HELD: frames 0", "chosen 3"])

row("the last of them as JSON", capture_of(fragments(MESSAGES[1], 8)[:1]), "--json --host 198.51.100.0/24",
    [as_json(RECORD, event="record", record=1, by="first", number=1, **AT_EPOCH, side="in",
             src_ip="198.51.100.7", dest_ip="10.0.0.1", proto="icmp",
             icmp_type=8, icmp_code=0, id=1, offset=0, more=True, length=8, verdict="hold",
             ended=[], rules=["F_HELD"], frames=0, changes=[]), '{"event":"chosen","records":1}'])

row("a datagram and a probe as JSON", capture_of(RESET), "--json --only=fix",
    [as_json(RECORD, event="record", record=5, by="first", number=5, **AT_EPOCH, side="in",
             src_ip="198.51.100.7", dest_ip="10.0.0.1", proto="tcp",
             id=1, offset=16, more=False, length=12, verdict="fix", era=1, ended=[],
             rules=["F_DONE", "T_STRIP", "C_PROBE"], frames=2, frames_out=[4, 5],
             changes=[made(1, "datagram", 0, "tcp", "R", 1000, 0),
                      made(2, "probe", 0, "tcp", "A", 999, 5001)]),
     '{"event":"chosen","records":1}'])

row("the same as a table", capture_of(RESET), "--table records --only=fix",
    ["\t".join(RECORD[1:]), as_row(RECORD, record=5, by="first", number=5, **AT_EPOCH, side="in",
                                   src_ip="198.51.100.7", dest_ip="10.0.0.1",
                                   proto="tcp", id=1, offset=16, more="false", length=12,
                                   verdict="fix", era=1, rules="F_DONE,T_STRIP,C_PROBE",
                                   frames=2, frames_out="4-5",
                                   changes="1:datagram,2:probe")])

ARP = ethernet(bytes(28), b"\x08\x06")

row("a datagram without an IPv4 header", head(link=1) + record(ARP) + record(ARP), "--rule=F_DONE",
    ["1 EPOCH - - > - arp len 28 fix F_DONE: frames 1 out 1; frame 1 datagram len 28, compared with no record",
     "2 EPOCH - - > - arp len 28 fix F_DONE: C_PROBE: frames 1 out 2; frame 1 probe len 28", "chosen 2"],
    report=["norm 2", "1 - fix 1 F_DONE", "2 - fix 1 F_DONE C_PROBE", "end 2 2"])

row("each frame of a dropped record is a probe", head(link=1) + record(ARP) * 4, "--only=drop",
    ["1 EPOCH - - > - arp len 28 drop F_DONE: frames 2 out 1-2; frame 1 probe len 28; frame 2 probe len 28",
     "2 EPOCH - - > - arp len 28 drop C_PROBE: frames 2 out 3-4; frame 1 probe len 28; frame 2 probe len 28",
     "3 EPOCH - - > - arp len 28 drop F_DONE: frames 0", "4 EPOCH - - > - arp len 28 drop frames 0", "chosen 4"],
    report=["norm 2", "1 - drop 2 F_DONE", "2 - drop 2 C_PROBE", "3 - drop 0 F_DONE", "4 - drop 0", "end 4 4"])

row("a datagram as JSON", head(link=1) + record(ARP), "--json --rule=F_DONE",
    [as_json(RECORD, event="record", record=1, by="first", number=1, **AT_EPOCH, ethertype="arp",
             length=28, verdict="fix", ended=[],
             rules=["F_DONE"], frames=1, frames_out=[1], changes=[made(1, "datagram", 28)]),
     '{"event":"chosen","records":1}'],
    report=["norm 2", "1 - fix 1 F_DONE", "end 1 1"])

# Summaries

def counts(passed=0, fix=0, hold=0, drop=0):
    return {"pass": passed, "fix": fix, "hold": hold, "drop": drop}


def counted(rule, times):
    return "rule %s %d (%s)" % (rule, times, SENTENCES[rule])


LIVE = {"all": 2, "live": 2, "reset": 0, "evicted": 0, "idle": 0, "reopened": 0, "opened_in": 2,
        "opened_out": 0, "opened_mid": 0}

SYN = dict(AT_EPOCH, **ENDS, event="record", record=1, number=1, flags="S", seq=999, ack=0,
           length=0, verdict="pass", era=1, begun=1, ended=[],
           rules=[], frames=1, changes=[])

FIRST_ERA = dict(event="era", era=1, outside_ip="198.51.100.7", outside_port=40000,
                 inside_ip="10.0.0.1", inside_port=80, opened="in", first=EPOCH,
                 first_seconds=0, first_nanoseconds=0, last=EPOCH, last_seconds=0,
                 last_nanoseconds=0, records=1, sent=0, end="live")

row("the summary of one engine as JSON", FLOOD, "--json",
    [as_json(RECORD, **{**SYN, "record": number, "number": number, "src_port": port, "era": number,
                        "begun": number, "ended": ended}, by="first",
             side="in", frames_out=[number])
     for number, port, ended in ((1, 40000, []), (2, 40001, []),
                                 (3, 40002, [{"era": 1, "reason": "evicted", "octets": 0}]))]
    + [as_json(SUMMARY, **NOTHING_ELSE, event="summary", records=3, in_lines=counts(3),
               out_lines=counts(), neither_lines=counts(), frames=3, rule_counts=[],
               **pair_hosts(3), era_counts=dict(LIVE, all=3, evicted=1, opened_in=3))]
    + [as_json(ERA, **{**FIRST_ERA, "era": number, "outside_port": port, **more}, by="first", rules=[])
       for number, port, more in ((1, 40000, {"end": "evicted", "octets": 0}), (2, 40001, {}),
                                  (3, 40002, {}))], options="--flows 2")

THREE = capture_of(opening())

row("an era without a side that two records begin, and rules of each side", THREE, "",
    ["records 3", "in pass 0 fix 0 hold 0 drop 1", "out pass 0 fix 0 hold 0 drop 1",
     "- pass 0 fix 1 hold 0 drop 0", "frames 3", *pair_lines(2), counted("T_SYN", 4),
     counted("I_TRAIL", 1), "eras 1 live 0 reset 1 evicted 0 idle 0 reopened 0 opened in 0 out 1 mid 0",
     "era 1 10.0.0.1:80 <-> 198.51.100.7:40000 opened out EPOCH EPOCH records 1 sent 0 octets 9 reset T_SYN I_TRAIL"],
    report=["norm 2", "1 in drop 0 T_SYN +1 -1:idle:3", "2 out drop 0 T_SYN T_SYN",
            "3 - fix 3 T_SYN I_TRAIL @1 +1 -1:reset:9", "end 3 3"])

SA = dict(SYN, record=2, number=2, src_ip="10.0.0.1", src_port=80, dest_ip="198.51.100.7",
          dest_port=40000, flags="SA", seq=5000, ack=1000,
          begun=None)

row("the rules of each side as JSON", capture_of(opening()[:2]), "--json",
    [as_json(RECORD, **dict(SYN, era=None, rules=["T_SYN"]), by="first", side="in", frames_out=[1]),
     as_json(RECORD, **dict(SA, era=None, rules=["T_SYN", "I_TRAIL", "T_SYN"]), by="first", frames_out=[2]),
     as_json(SUMMARY, **NOTHING_ELSE, event="summary", records=2, in_lines=counts(1),
             out_lines=counts(), neither_lines=counts(1), frames=2, **pair_hosts(1),
             rule_counts=[{"rule": "T_SYN", "in": 1, "out": 0, "neither": 2},
                          {"rule": "I_TRAIL", "in": 0, "out": 0, "neither": 1}],
             era_counts=dict(LIVE, all=1, live=1, opened_in=1)),
     as_json(ERA, **{**FIRST_ERA, "first": None, "first_seconds": None, "first_nanoseconds": None,
                     "last": None, "last_seconds": None,
                     "last_nanoseconds": None, "records": 0}, by="first", rules=[])],
    report=["norm 2", "1 in pass 1 T_SYN +1", "2 - pass 1 T_SYN I_TRAIL T_SYN", "end 2 2"])

row("an ended era of version 1", THREE, "--side=out",
    ["2 EPOCH out " + BACK + " tcp SA seq 5000 ack 1000 len 0 pass era 1 ends era 1 reset frames 1 out 2", "chosen 1"],
    report=["norm 1", "1 in pass 1 @1 +1", "2 out pass 1 @1 -1:reset", "3 in pass 1 @1", "end 3 3"])

row("its eras", THREE, "--table=eras",
    ["\t".join(ERA[1:]), as_row(ERA, **{**FIRST_ERA, "end": "reset", "records": 3}, by="first")],
    report=["norm 1", "1 in pass 1 @1 +1", "2 out pass 1 @1 -1:reset", "3 in pass 1 @1", "end 3 3"])

PADDED = head("big", True, 1) + record(ethernet(bytes(28), b"\x08\x06"), 5, 7, order="big") \
    + record(ethernet(segment("> S 999") + bytes(6)), 6, 2**32 - 1,
             order="big") + record(ethernet(b"\x45" + bytes(5)), 0, 0, 60, order="big")

row("ARP, a trailer, a snapped record", PADDED, "--only=pass",
    ["1 1970-01-01T00:00:05.000000007Z - - > - arp len 28 pass frames 1 out 1",
     "chosen 1"])

row("a fraction of more than a second", PADDED, "--only=fix",
    ["2 1970-01-01T00:00:10.294967295Z in " + THERE + " tcp S seq 999 ack 0 len 0 fix era 1 begins "
                                                      "era 1 I_TRAIL: frames 1 out 2; "
     "frame 1 trailer 000000000000 > -", "chosen 1"])

row("no IPv4 header", PADDED, "--only=drop",
    ["3 EPOCH - - > - ethertype 0x0800 len 6 drop L_SNAP: frames 0", "chosen 1"])

row("as JSON", PADDED, "--json --only=pass,fix",
    [as_json(RECORD, event="record", record=1, by="first", number=1,
             time="1970-01-01T00:00:05.000000007Z", seconds=5, nanoseconds=7, ethertype="arp",
             length=28, verdict="pass", ended=[], rules=[], frames=1, frames_out=[1], changes=[]),
     as_json(RECORD, event="record", record=2, by="first", number=2,
             time="1970-01-01T00:00:10.294967295Z", seconds=10, nanoseconds=294967295,
             side="in", **ENDS, flags="S", seq=999, ack=0, length=0, verdict="fix", era=1, begun=1,
             ended=[], rules=["I_TRAIL"], frames=1, frames_out=[2],
             changes=[{"frame": 1, "field": "trailer", "from": "000000000000", "to": None,
                       "from_number": None, "to_number": None}]), '{"event":"chosen","records":2}'])

SYN_TWICE = capture_of([(segment("> S 999"), 0), (inward(UDP, udp(OUTSIDE, INSIDE, 40000, 53, b"hi")), 3601)])

row("an idle era", SYN_TWICE, "", ["records 2", "in pass 2 fix 0 hold 0 drop 0",
                                   "out pass 0 fix 0 hold 0 drop 0", "- pass 0 fix 0 hold 0 drop 0",
                                   "frames 2", *pair_lines(2),
                                   "eras 1 live 0 reset 0 evicted 0 idle 1 reopened 0 opened in 1 "
                                   "out 0 mid 0", "era 1 " + PAIR
                                   + " opened in EPOCH EPOCH records 1 sent 0 octets 0 idle"])

row("the record that ends it", SYN_TWICE, "--era 1",
    ["1 EPOCH in " + THERE + " tcp S seq 999 ack 0 len 0 pass era 1 begins era 1 frames 1 out 1",
     "2 1970-01-01T01:00:01.000000000Z in 198.51.100.7:40000 > 10.0.0.1:53 udp len 2 pass ends era "
     "1 idle octets 0 frames 1 out 2", "chosen 2"])

row("a run that stopped", SYN_TWICE[:-1], "", ["stop report 3"], status=9)

# Hosts

HOSTS = capture_of([inward(UDP, udp(OUTSIDE, INSIDE, 40000, 53, b"hi")),
                    outward(UDP, udp(INSIDE, OUTSIDE, 53, 40000, b"hi")),
                    ipv4(OUTSIDE + 1, INSIDE + 1, UDP, udp(OUTSIDE + 1, INSIDE + 1, 40000, 53, b"hi"))])

INTO = "1 EPOCH in 198.51.100.7:40000 > 10.0.0.1:53 udp len 2 pass frames 1 out 1"
OUT_OF = "2 EPOCH out 10.0.0.1:53 > 198.51.100.7:40000 udp len 2 pass frames 1 out 2"
OTHER = "3 EPOCH in 198.51.100.8:40000 > 10.0.0.2:53 udp len 2 pass frames 1 out 3"

for words, lines in [("198.51.100.7", [INTO, OUT_OF]), ("010.000.0.1", [INTO, OUT_OF]),
                     ("10.0.0.1/32", [INTO, OUT_OF]), ("10.0.0.2/31", [OTHER]),
                     ("10.0.0.3/31", [OTHER]),
                     ("10.0.0.3/30", [INTO, OUT_OF, OTHER]), ("1.2.3.4/0", [INTO, OUT_OF, OTHER]),
                     ("198.51.100.9/32", []), ("0.0.0.0/00",
                         [INTO, OUT_OF, OTHER])]:
    row("host " + words, HOSTS, "--host " + words, lines + ["chosen %d" % len(lines)])

row("a host of a side", HOSTS, "--host=198.51.100.7 --side=out", [OUT_OF, "chosen 1"])

row("sides in a list", HOSTS, "--side -,out", [OUT_OF, "chosen 1"])

row("no host where there is no IPv4 header", OTHERS, "--host 0.0.0.0/0", ["chosen 0"])

# Invalid arguments

for words in ["--rule T_CLASHES", "--rule T_CLASH,", "--rule ,T_CLASH",
              "--rule T_CLASH,T_OLD,T_CLASH", "--rule T_CLASH,,T_OLD", "--only pass,pass",
              "--only all",
              "--side in,in", "--side neither", "--side=", "--side --", "--era 0", "--era first:1",
              "--era second:", "--era second:0", "--era second:4294967296",
              "--era second:second:1", "--era :1", "--era Second:1", "--era 1,2", "--host 10.0.0",
              "--host 10.0.0.256", "--host 10.0.0.0/33", "--host 10.0.0.0/", "--host=",
              "--host 10.0.0.1,10.0.0.2", "--host 0010.0.0.1", "--table", "--table record",
              "--table records,eras", "--table=", "--table=records --table=eras",
              "--table eras --rule T_CLASH", "--host 10.0.0.1 --table eras",
              "--side in --table=eras", "--era 1 --table=eras",
              "--only drop --table=eras", "--json=1"]:
    row("refused: " + words, SYN_TWICE, words, ["stop words"], status=2)

for words in ["--json --table records", "--table eras --json", "--rule --json", "--json --json",
              "--only drop,drop --json", "--json --era x", "x --json"]:
    row("refused, as JSON: " + words, SYN_TWICE, words, ['{"event":"stop","status":2,"reason":"stop words"}'], status=2)
