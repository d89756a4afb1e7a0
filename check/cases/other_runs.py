"""Views worked by hand of IN of one run with OUT and REPORT of another, and of hosts."""

from model.formats import UDP
from model.packets import INSIDE, OUTSIDE, capture_of, head, ipv4, record, segment, udp
from cases.views import THERE, counted, ethernet, row

# Files of other runs: what passed is in OUT octet for octet

ONE, OTHER = segment("> S 999"), segment("> S 998")

THROUGH = ["1 EPOCH in " + THERE + " tcp S seq 999 ack 0 len 0 pass frames 1 out 1"]


def other_run(name, source, written, lines, shown, last):
    """IN and OUT of these packets, with this report."""
    row("another run: " + name, b"", "--side in,out,-", shown + [last], status=int(last[:2] == "no"),
        files=[capture_of(source), capture_of(written), "".join(line + "\n" for line in lines).encode()])


other_run("a record has other octets", [ONE, ONE], [ONE, OTHER],
          ["norm 2", "1 in pass 1", "2 in pass 1", "end 2 2"], THROUGH, "no record 2")

other_run("the frame has an octet less", [ONE], [ONE[:-1]], ["norm 2", "1 in pass 1", "end 1 1"], [],
          "no record 1")

other_run("the frame has an octet more", [ONE], [ONE + b"x"], ["norm 2", "1 in pass 1", "end 1 1"], [],
          "no record 1")

other_run("the second frame of a line", [ONE], [ONE, OTHER], ["norm 2", "1 in pass 2", "end 1 2"], [],
          "no record 1")

other_run("a frame is missing before the record is found to be another", [ONE], [ONE, OTHER],
          ["norm 2", "1 in pass 3", "end 1 3"], [], "no frame 3")

other_run("what was rewritten may differ", [OTHER], [ONE], ["norm 2", "1 in fix 1", "end 1 1"],
          ["1 EPOCH in " + THERE + " tcp S seq 998 ack 0 len 0 fix frames 1 out 1; frame 1 sequence 998 > 999, "
           "checksum 0x%s > 0x%s" % (OTHER[36:38].hex(), ONE[36:38].hex())], "chosen 1")

other_run("both engines passed it", [ONE], [OTHER],
          ["norm 2 both", "1 in pass 1", "/1 out pass 1", "end 1 1"], [], "no record 1")

CHANGED = "; by both engines: frame 1 sequence 999 > 998, checksum 0x%s > 0x%s" % (
    ONE[36:38].hex(), OTHER[36:38].hex())

for first, second in [("fix", "pass"), ("pass", "fix"), ("hold", "pass")]:
    other_run("of two engines %s and %s" % (first, second), [ONE], [OTHER],
              ["norm 2 both", "1 in %s 1" % first, "/1 out %s 1" % second, "end 1 1"],
              ["1 EPOCH in " + THERE + " tcp S seq 999 ack 0 len 0 %s given 1" % first,
               "1/1 EPOCH out " + THERE + " tcp S seq 999 ack 0 len 0 %s frames 1 out 1" % second + CHANGED],
              "chosen 1")

other_run("the number is that of the record", [ONE, ONE], [ONE, ONE, OTHER],
          ["norm 2 both", "1 in pass 2", "/1 out pass 1", "/2 out pass 1", "2 in pass 1", "/3 out pass 1",
           "end 2 3"],
          ["1 EPOCH in " + THERE + " tcp S seq 999 ack 0 len 0 pass given 2",
           "1/1 EPOCH out " + THERE + " tcp S seq 999 ack 0 len 0 pass frames 1 out 1",
           "1/2 EPOCH out " + THERE + " tcp S seq 999 ack 0 len 0 pass frames 1 out 2"], "no record 2")

row("another run: a stop as JSON", b"", "--json --summary",
    ['{"event":"stop","status":1,"reason":"no record 1"}'], status=1,
    files=[capture_of([ONE]), capture_of([OTHER]), b"norm 2\n1 in pass 1\nend 1 1\n"])


# Hosts

def to(outside, inside):
    return ipv4(outside, inside, UDP, udp(outside, inside, 1, 2, b""))


def back(outside, inside):
    return ipv4(inside, outside, UDP, udp(inside, outside, 2, 1, b""))


row("hosts: three of each side, the most first, of as many the smaller address",
    capture_of([to(OUTSIDE + 3, INSIDE), to(OUTSIDE + 1, INSIDE + 9), back(OUTSIDE + 2, INSIDE),
                to(OUTSIDE, INSIDE + 10), back(OUTSIDE + 3, INSIDE + 2)]), "--summary",
    ["records 5", "in pass 3 fix 0 hold 0 drop 0", "out pass 2 fix 0 hold 0 drop 0",
     "- pass 0 fix 0 hold 0 drop 0", "frames 5",
     "outside 198.51.100.10 2, 198.51.100.7 1, 198.51.100.8 1",
     "inside 10.0.0.1 2, 10.0.0.3 1, 10.0.0.10 1",
     "eras 0 live 0 reset 0 evicted 0 idle 0 reopened 0 opened in 0 out 0 mid 0"])

row("hosts: of records without a side there are none, and of the first engine alone",
    capture_of([to(OUTSIDE, OUTSIDE + 1), to(OUTSIDE + 1, INSIDE), back(OUTSIDE + 2, INSIDE)]),
    "--summary",
    ["records 3", "in pass 1 fix 0 hold 0 drop 0", "out pass 1 fix 0 hold 0 drop 0",
     "- pass 0 fix 0 hold 0 drop 1", "second in pass 1 fix 0 hold 0 drop 0",
     "second out pass 1 fix 0 hold 0 drop 0", "second - pass 0 fix 0 hold 0 drop 0", "frames 2",
     "outside 198.51.100.8 1, 198.51.100.9 1", "inside 10.0.0.1 2", counted("I_SIDE", 1),
     "eras 0 live 0 reset 0 evicted 0 idle 0 reopened 0 opened in 0 out 0 mid 0"], options="--both")

row("hosts: none where no header can be read", head(link=1) + record(ethernet(bytes(28), b"\x08\x06")),
    "--summary",
    ["records 1", "in pass 1 fix 0 hold 0 drop 0", "out pass 0 fix 0 hold 0 drop 0",
     "- pass 0 fix 0 hold 0 drop 0", "frames 1",
     "eras 0 live 0 reset 0 evicted 0 idle 0 reopened 0 opened in 0 out 0 mid 0"],
    report=["norm 2", "1 in pass 1", "end 1 1"])

row("no flags", capture_of([segment(">  1000")]), "--only fix",
    ["1 EPOCH in " + THERE + " tcp none seq 1000 ack 0 len 0 fix frames 1 out 1", "chosen 1"],
    report=["norm 2", "1 in fix 1", "end 1 1"])
