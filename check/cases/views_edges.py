"""Views worked by hand at the edges of what is read: of words, of the three files, of a frame, and
of a line of a report."""

from model.formats import UDP
from model.packets import INSIDE, OUTSIDE, capture_of, head, inward, ipv4, opening, record, segment, udp
from model.rule_names import RULES
from cases.views import BACK, EPOCH, ERA, LATER, PAIR, THERE, as_row, ethernet, pair_lines, row

INTO = "EPOCH in " + LATER

HI = udp(OUTSIDE, INSIDE, 40000, 53, b"hi")

# Words

for names in [["IN", "OUT"], ["IN", "OUT", "REPORT", "MORE"], [], ["IN", "OUT", "-"],
              ["IN", "-OUT", "REPORT"], ["IN", "", "REPORT"]]:
    row("refused: the names " + " ".join(map(repr, names)), b"", "--notes", ["stop words"], status=2, names=names)

# The three files: their heads are 24 octets, and each record of these has 56.

IN = capture_of(opening())

LINES = ["norm 2", "1 in pass 1 @1 +1", "2 out pass 1 @1", "3 in pass 1 @1", "end 3 3"]

SHOWN = ["1 EPOCH in " + THERE + " tcp S seq 999 ack 0 len 0 pass era 1 begins era 1 frames 1 out 1",
         "2 EPOCH out " + BACK + " tcp SA seq 5000 ack 1000 len 0 pass era 1 frames 1 out 2",
         "3 EPOCH in " + THERE + " tcp A seq 1000 ack 5001 len 0 pass era 1 frames 1 out 3"]


def of_files(name, shown, last, status, source=IN, written=IN, report="".join(line + "\n" for line in LINES).encode()):
    """A view of these files prints this number of records and this last line."""
    row("files: " + name, b"", "--only pass", SHOWN[:shown] + [last], status=status, files=[source, written, report])


of_files("whole", 3, "chosen 3", 0)

HEADS = [("not there", None, "stop read", 5), ("empty", b"", "stop %s cut 0", 4),
         ("23 octets", IN[:23], "stop %s cut 0", 4),
         ("another magic", b"\0" + IN[1:], "stop %s magic 0", 3),
         ("version 2.5", IN[:6] + b"\5" + IN[7:], "stop %s version 0", 3),
         ("another link", IN[:20] + b"\2" + IN[21:], "stop %s link 0", 3)]

for name, octets, last, status in HEADS:
    of_files("IN: " + name, 0, last.replace("%s", "in"), status, source=octets)
    of_files("OUT: " + name, 0, last.replace("%s", "out"), status, written=octets)

of_files("OUT: of another network", 0, "stop out link 0", 3, written=head(link=1))

of_files("no report", 0, "stop read", 5, report=None)

of_files("an empty report", 0, "stop report 1", 9, report=b"")

FAULTS = [("cut in a record", IN[:-1], 2, "stop %s cut 136", 4),
          ("cut in the head of a record", IN[:151], 2, "stop %s cut 136", 4),
          ("a part of a record's head", IN + bytes(15), 3, "stop %s cut 192", 4),
          ("a record that is too long", IN + record(b"", captured=262145), 3, "stop %s long 192", 3)]

for name, octets, shown, last, status in FAULTS:
    of_files("IN: " + name, shown, last.replace("%s", "in"), status, source=octets)
    of_files("OUT: " + name, shown, last.replace("%s", "out"), status, written=octets)

for name, octets, shown, number in [("a record less", IN[:136], 2, 3), ("a record more", IN + record(b""), 3, 4)]:
    of_files("IN: " + name, shown, "no record %d" % number, 1, source=octets)
    of_files("OUT: " + name, shown, "no frame %d" % number, 1, written=octets)


TEXT = "".join(line + "\n" for line in LINES)

REPORTS = [
    ("no line feed behind the last line", 3, 5, TEXT[:-1]), ("an octet behind the last line", 3, 6, TEXT + "x"),
    ("a line behind the last one", 3, 6, TEXT + "\n"), ("no last line", 3, 5, TEXT[:-8]),
    ("another number of records", 3, 5, TEXT.replace("end 3", "end 4")),
    ("another number of frames", 3, 5, TEXT.replace("3 3", "3 2")),
    ("version 3", 0, 1, TEXT.replace("norm 2", "norm 3")),
    ("a number left out", 1, 3, TEXT.replace("2 out", "3 out")),
    ("a number with a 0 in front", 1, 3, TEXT.replace("2 out", "02 out")),
    ("a verdict that is none", 1, 3, TEXT.replace("out pass", "out gone")),
    ("a side that is none", 1, 3, TEXT.replace("2 out", "2 up")),
    ("two spaces", 1, 3, TEXT.replace("2 out", "2  out")),
    ("a carriage return", 1, 3, TEXT.replace("@1\n3", "@1\r\n3")),
    ("an octet that is no ASCII", 1, 3, TEXT.replace("2 out", "\xb2 out")),
]

for name, shown, at, text in REPORTS:
    of_files("a report with " + name, shown, "stop report %d" % at, 9, report=text.encode("latin-1"))

# Frames

row("another type before an IPv4 header", head(link=1) + record(ethernet(segment("> S 999"), b"\x88\xb5")), "--side -",
    ["1 EPOCH - - > - ethertype 0x88b5 len 40 drop L_TYPE: frames 0", "chosen 1"])

row("a link header alone", head(link=1) + record(ethernet(b"", b"\x88\xcc")) + record(ethernet(b"")), "--side -",
    ["1 EPOCH - - > - ethertype 0x88cc len 0 drop L_TYPE: frames 0",
     "2 EPOCH - - > - ethertype 0x0800 len 0 drop I_SHORT: frames 0", "chosen 2"])

ALONE = ipv4(OUTSIDE, INSIDE, UDP, b"")

row("an IPv4 header alone, and octets behind it", capture_of([ALONE, ALONE + b"ab"]), "--side in",
    ["1 " + INTO + "udp len 0 drop U_SHORT: frames 0", "2 " + INTO + "udp len 0 drop U_SHORT: frames 0", "chosen 2"])

row("an octet less than an IPv4 header", capture_of([ALONE[:19]]), "--side -",
    ["1 EPOCH - - > - - len 19 drop I_SHORT: frames 0", "chosen 1"])

HEADER = ipv4(OUTSIDE, INSIDE, UDP, HI, total=20)

row("total lengths that cannot be are ignored, and one of 20 octets ends the packet after its header",
    capture_of([ipv4(OUTSIDE, INSIDE, UDP, HI, total=total) for total in (0, 19, 31)] + [HEADER]), "--side in",
    ["%d EPOCH in 198.51.100.7:40000 > 10.0.0.1:53 udp len 2 pass frames 1 out %d"
     % (number, number) for number in (1, 2, 3)]
    + ["4 " + INTO + "udp len 0 pass frames 1 out 4", "chosen 4"],
    report=["norm 2", "1 in pass 1", "2 in pass 1", "3 in pass 1", "4 in pass 1", "end 4 4"])

row("a UDP header, and an octet less", capture_of([inward(UDP, bytes(8)), inward(UDP, bytes(7))]), "--side in",
    ["1 EPOCH in 198.51.100.7:0 > 10.0.0.1:0 udp len 0 drop U_LEN: frames 0",
     "2 " + INTO + "udp len 7 drop U_SHORT: frames 0", "chosen 2"])

SYN = segment("> S 999")

row("the last second of a leap day, and the last one of a classic capture",
    head(nano=True) + record(SYN, 951868799, 123456789) + record(SYN, 2**32 - 1, 999999999), "--side in",
    ["1 2000-02-29T23:59:59.123456789Z in " + THERE + " tcp S seq 999 ack 0 len 0 pass era 1 "
                                                      "begins era 1 frames 1 out 1",
     "2 2106-02-07T06:28:15.999999999Z in " + THERE
     + " tcp S seq 999 ack 0 len 0 pass era 2 begins era 2 ends era 1 idle octets 0 frames 1 out 2",
     "chosen 2"])

row("times in microseconds", head() + record(SYN, 1, 7) + record(SYN, 2, 999999) + record(SYN, 3, 1000001), "--side in",
    ["1 1970-01-01T00:00:01.000007000Z in " + THERE + " tcp S seq 999 ack 0 len 0 pass era 1 "
                                                      "begins era 1 frames 1 out 1",
     "2 1970-01-01T00:00:02.999999000Z in " + THERE + " tcp S seq 999 ack 0 len 0 pass era 1 frames 1 out 2",
     "3 1970-01-01T00:00:04.000001000Z in " + THERE + " tcp S seq 999 ack 0 len 0 pass era 1 "
                                                      "frames 1 out 3", "chosen 3"])

row("the first and the last time of an era", capture_of([(packet, at) for packet, at in zip(opening(), (1, 2, 4))]), "",
    ["records 3", "in pass 2 fix 0 hold 0 drop 0", "out pass 1 fix 0 hold 0 drop 0",
     "- pass 0 fix 0 hold 0 drop 0", "frames 3", *pair_lines(3),
     "eras 1 live 1 reset 0 evicted 0 idle 0 reopened 0 opened in 1 out 0 mid 0",
     "era 1 " + PAIR + " opened in 1970-01-01T00:00:01.000000000Z 1970-01-01T00:00:04.000000000Z "
                       "records 3 sent 0 live"])

row("octets of UDP in an era", capture_of([inward(UDP, HI)]), "--table eras",
    ["\t".join(ERA[1:]), as_row(ERA, era=1, by="first", first=EPOCH, first_seconds=0,
                                first_nanoseconds=0, last=EPOCH, last_seconds=0,
                                last_nanoseconds=0, records=1, sent=0, end="live")],
    report=["norm 2", "1 in pass 1 @1", "end 1 1"])

# What differs. Checksums were computed by RFC 1071 from the octets, and not by the model.

row("IP options that are removed", capture_of([inward(UDP, HI, options=bytes.fromhex("01010101"))]), "--only fix",
    ["1 EPOCH in 198.51.100.7:40000 > 10.0.0.1:53 udp len 2 fix I_OPT: frames 1 out 1; frame 1 "
     "header_length 24 > 20, total_length 34 > 30, "
     "header_checksum 0x438d > 0x4693, ip_options 01010101 > -", "chosen 1"])

row("a frame of another protocol", capture_of([inward(UDP, HI), segment("> S 999")]), "--only fix",
    ["2 EPOCH in " + THERE + " tcp S seq 999 ack 0 len 0 fix I_TRAIL: frames 2 out 1-2; frame 1 "
                             "total_length 40 > 30, protocol 6 > 17, "
     "header_checksum 0x4694 > 0x4693, destination_port 80 > 53, sequence 999 > -, acknowledgment "
     "0 > -, data_offset 20 > -, reserved 0 > -, "
     'flags S > -, window 8192 > -, checksum 0xbb2f > 0xc6bf, urgent_pointer 0 > -, udp_length - > '
     '10, payload longer 2 "hi"', "chosen 1"],
    report=["norm 2", "1 in hold 0 F_HELD", "2 in fix 2 I_TRAIL", "end 2 2"])


def compared(name, octets, frame, line, changes):
    """The only record of a run is rewritten to a frame: the line up to the frames, and what
    differs."""
    row(name, b"", "--only fix",
        ["1 EPOCH in %s fix frames 1 out 1%s" % (line, "; frame 1 " + changes if changes else ""),
         "chosen 1"],
        files=[capture_of([octets]), capture_of([frame]), b"norm 2\n1 in fix 1\nend 1 1\n"])


WHOLE, TO_53 = inward(UDP, HI), "198.51.100.7:40000 > 10.0.0.1:53 udp len 2"

compared("a rewritten record that differs in nothing", WHOLE, WHOLE, TO_53, "")

compared("a frame of another version has payload alone", WHOLE, b"\x65" + WHOLE[1:], TO_53,
         "version 4 > -, header_length 20 > -, type_of_service 0 > -, total_length 30 > -, "
         "identification 1 > -, reserved_bit 0 > -, "
         "dont_fragment 0 > -, more_fragments 0 > -, fragment_offset 0 > -, ttl 64 > -, protocol "
         "17 > -, header_checksum 0x4693 > -, "
         "source 198.51.100.7 > -, destination 10.0.0.1 > -, source_port 40000 > -, "
         "destination_port 53 > -, checksum 0xc6bf > -, udp_length 10 > -, "
         'payload longer 28 "\\x00\\x1e\\x00\\x01\\x00\\x00@\\x11F\\x93\\xc63d\\x07'
         '\\x0a\\x00\\x00\\x01\\x9c@\\x005\\x00\\x0a\\xc6\\xbfhi" '
         'at 0 "hi" > "e\\x00"')

compared("a frame that ends after its header has a trailer", WHOLE, HEADER, TO_53,
         "total_length 30 > 20, header_checksum 0x4693 > 0x469d, source_port 40000 > -, "
         "destination_port 53 > -, checksum 0xc6bf > -, udp_length 10 > -, "
         'payload end 2 "hi", trailer - > 9c400035000ac6bf6869')


def data(seq, text):
    return segment("> PA %d,5001 %s" % (seq, text))


row("all octets are cut off",
    capture_of(opening() + [data(1000, "abcd"), segment("< A 5001,1004"), data(1000, "abcd")]),
    "--rule T_OLD", ["6 EPOCH in " + THERE + " tcp PA seq 1000 ack 5001 len 4 fix era 1 T_OLD: "
                                             "frames 1 out 6; frame 1 total_length 44 > 40, "
     'header_checksum 0x4690 > 0x4694, checksum 0xe2c4 > 0xa78f, payload end 4 "abcd"', "chosen 1"])

row("a sequence number that is ahead by all octets", capture_of([data(1004, ""), data(1000, "abcd")]), "--only fix",
    ["2 EPOCH in " + THERE + " tcp PA seq 1000 ack 5001 len 4 fix T_OLD: frames 2 out 1-2; frame 1 "
                             "total_length 44 > 40, "
     'header_checksum 0x4690 > 0x4694, sequence 1000 > 1004, checksum 0xe2c4 > 0xa78b, payload '
     'front 4 "abcd"', "chosen 1"],
    report=["norm 2", "1 in hold 0 F_HELD", "2 in fix 2 T_OLD", "end 2 2"])

LAST = 2**32 - 2

ROUND = [segment("> S %d" % (LAST - 1)), segment("< SA 5000,%d" % LAST), segment("> A %d,5001" % LAST)]

row("octets are cut off in front of a number that passes 2^32",
    capture_of(ROUND + [data(LAST, "abcd"), segment("< A 5001,2"), data(LAST, "abcdef")]),
    "--rule T_OLD",
    ["6 EPOCH in " + THERE + " tcp PA seq 4294967294 ack 5001 len 6 fix era 1 T_OLD: frames 1 out "
                             "6; frame 1 total_length 46 > 42, "
     'header_checksum 0x468e > 0x4692, sequence 4294967294 > 2, checksum 0x8145 > 0x460d, payload '
     'front 4 "abcd"', "chosen 1"])

row("a sequence number that is too far ahead",
    capture_of([data(1001 + 2**31, "abXd"), data(1000, "abcd")]), "--only fix",
    ["2 EPOCH in " + THERE + " tcp PA seq 1000 ack 5001 len 4 fix T_OLD: frames 2 out 1-2; frame 1 "
                             "sequence 1000 > 2147484649, "
     'checksum 0xe2c4 > 0x6dc3, payload at 2 "c" > "X"', "chosen 1"],
    report=["norm 2", "1 in hold 0 F_HELD", "2 in fix 2 T_OLD", "end 2 2"])

row("two runs of octets that are replaced",
    capture_of(opening() + [data(1000, "abcdefgh"), data(1000, "XbcYYYgh")]), "--rule T_CLASH",
    ["5 EPOCH in " + THERE + " tcp PA seq 1000 ack 5001 len 8 fix era 1 T_CLASH: frames 1 out 5; "
                             "frame 1 checksum 0x2b0a > 0x15f2, "
     'payload at 0 "X" > "a" at 3 "YYY" > "def"', "chosen 1"])

# Lines of a report


def of_line(name, line, last, status):
    row("a line with " + name, capture_of(opening()[:1]), "--only hold", [last], status=status,
        report=["norm 2", line, "end 1 1"])


for name, more in [("16 rules", " ".join(RULES[:16])),
                   ("four eras that ended", "-1:idle:0 -2:reset:0 -3:evicted:0 -4:reopened:0"),
                   ("the greatest eras", "@4294967295 +4294967295 -4294967295:idle:0"),
                   ("the most octets", "-1:idle:18446744073709551615")]:
    of_line(name, "1 in pass 1 " + more, "chosen 0", 0)

for name, more in [("17 rules", " ".join(RULES[:17])),
                   ("five eras that ended", "-1:idle:0 -2:reset:0 -3:evicted:0 "
                                            "-4:reopened:0 -5:idle:0"),
                   ("an era of 33 bits", "@4294967296"), ("an era of 33 bits that begins", "+4294967296"),
                   ("an era of 33 bits that ended", "-4294967296:idle:0"),
                   ("octets of 65 bits", "-1:idle:18446744073709551616"),
                   ("a rule that is none", "T_NONE"), ("an end that is none", "-1:closed:0"),
                   ("an end without octets", "-1:idle")]:
    of_line(name, "1 in pass 1 " + more, "stop report 2", 9)

of_line("255 frames", "1 in fix 255", "no frame 2", 1)

of_line("256 frames", "1 in fix 256", "stop report 2", 9)
