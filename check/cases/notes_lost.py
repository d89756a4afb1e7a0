"""Notes worked by hand on what is missing in IN: octets that are lost, octets out of order, and
connections whose beginning is in another file."""

from model.formats import TCP
from model.packets import INSIDE, OUTSIDE, capture_of, head, ipv4, opening, record, segment, tcp
from model.sentences import ADVICE
from cases.notes import LOST, MIDDLE, answer, calls, data, no_notes, notes
from cases.views import fragments, row


def lost(inwards, outwards=0):
    return ["note lost in %d out %d:" % (inwards, outwards)]


# lost

END = [data(1004, "efgh"), answer(1008)]

notes("lost in the midst", opening() + END, LOST)

notes("lost outwards", opening() + [answer(1000, "efgh", 5005), data(1000, "", 5009)], lost(0, 4))

# An offset is known if it is at most this far from the greatest one.
FAR = 2**30


def below(at):
    """Four octets outwards at FAR, four at a lower offset, and an acknowledgment of all."""
    return opening() + [answer(1000, "efgh", 5001 + FAR), answer(1000, "abcd", 5001 + at),
                        data(1000, "", 5001 + FAR + 4)]


notes("octets at the least known offset", below(4), lost(0, FAR - 4))

notes("octets one below the least known offset", below(3), lost(0, FAR))

notes("lost in both directions", opening() + [END[0], answer(1008, "x", 5002), data(1008, "", 5003)],
      lost(4, 1))

no_notes("acknowledged, but the sender does not pass over it", opening() + [answer(1004)])

no_notes("passed over, but not acknowledged", opening() + END[:1])

no_notes("passed over, and acknowledged up to there", opening() + [END[0], answer(1000)])

notes("passed over, and acknowledged in part", opening() + [END[0], answer(1002)], lost(2))

notes("one octet is lost", opening() + [data(1000, "abcd"), data(1005, "fg"), answer(1007)], lost(1))

notes("the last octet that is acknowledged is the one that is lost",
      opening() + [data(1000, "abcd"), data(1005, "fg"), answer(1005)], lost(1))

no_notes("what is lost is not acknowledged",
         opening() + [data(1000, "abcd"), data(1005, "fg"), answer(1004)])

notes("a copy hides no loss", opening() + [data(1000, "abcd"), data(1000, "abcd", ident=2),
                                           data(1008, "ijkl"), answer(1012)], lost(4))

notes("a longer copy hides what it has alone",
      opening() + [data(1000, "ab"), data(1001, "bcd"), data(1006, "gh"), answer(1008)], lost(2))

notes("two losses of a stream count both",
      opening() + [data(1000, "a"), data(1002, "c"), data(1005, "f"), answer(1006)], lost(3))

notes("a part within another one", opening() + [data(1000, "abcdef"), data(1002, "c"),
                                                data(1008, "ij"), answer(1010)], lost(2))



def parts(*pairs):
    """Makes segments of a connection, each a number of octets from an offset on, and acknowledges
    the first 104 octets."""
    return opening() + [data(1000 + at, "x" * count) for at, count in pairs] + [answer(1104)]


notes("parts that touch in any order",
      parts((80, 10), (40, 10), (20, 10), (60, 10), (30, 30), (0, 20), (75, 25), (100, 4)), lost(5))

notes("a part over several ones", parts((90, 10), (70, 10), (50, 10), (55, 48), (100, 4)), lost(50))

no_notes("octets that IN has later", opening() + END + [data(1000, "abcd", ident=2)])

notes("a part of them that IN has later", opening() + END + [data(1001, "bc", ident=2)], lost(2))

no_notes("octets that IN has later, in a segment that is dropped",
         opening() + END + [data(1000, "abcd", check=1)])

no_notes("octets that IN has at its end, after a reset",
         opening() + END + [segment("< R 5001"), data(1000, "abcd")])

no_notes("out of order", opening() + [END[0], data(1000, "abcd"), answer(1008)])

notes("the octet of a FIN", opening() + [data(1000, "ab"), segment("> FA 1003,5001"), answer(1004)],
      lost(1))

no_notes("a FIN is an octet",
         opening() + [data(1000, "ab"), segment("> FA 1002,5001"), answer(1003)])

AT_THE_END = [segment("> S %d" % (2**32 - 3)), segment("< SA 5000,%d" % (2**32 - 2)),
              segment("> A %d,5001" % (2**32 - 2))]

notes("numbers that pass 2^32", AT_THE_END + [data(2, "efgh"), answer(6)], LOST)

no_notes("numbers that pass 2^32, and all is there",
         AT_THE_END + [data(2**32 - 2, "abcd"), data(2, "efgh"), answer(6)])

no_notes("an acknowledgment that is too far", opening() + [END[0], answer(1008 + 2**30 + 1)])

notes("an acknowledgment that is just near enough", opening() + [END[0], answer(1008 + 2**30)], LOST)

notes("a segment just near enough", opening() + [data(1000 + 2**30, "e"), answer(1001 + 2**30)],
      lost(2**30))

no_notes("a segment that is too far", opening() + [data(1001 + 2**30, "e"), answer(1002 + 2**30)])

notes("a segment that is too far hides nothing",
      opening() + [data(1005, "efgh"), data(1009 + 2**30 + 1, "i"), answer(1009)], lost(5))

notes("one that is too far acknowledges all the same",
      opening() + [answer(1000, "efgh", 5005), data(1001 + 2**30, "e", 5009)], lost(0, 4))

notes("a segment before the stream hides nothing",
      opening() + [data(990, "0123456789", ident=2)] + END, LOST)

notes("of one that begins before the stream what is in it is there",
      opening() + [data(997, "0123"), data(1006, "gh"), answer(1008)], lost(5))

OTHER = [segment("> S 999", outside_port=40001), answer(1000, seq=5000, outside_port=40001),
         data(1000, "abcdabcd", outside_port=40001)]

notes("each era for itself", opening() + END + OTHER, LOST)

notes("two eras together", opening() + END + OTHER + [data(1010, "x", outside_port=40001),
                                                     answer(1011, outside_port=40001)], lost(6))

for count in (1, 2, 3, 5):
    notes("a loss beside %d gaps that the outside host makes" % count,
          opening() + END + [one for n in range(count) for one in (
              segment("> A 1008,%d" % (5005 + 4 * n)), answer(1008, "abcd", 5001 + 4 * n))],
          LOST + (["note order in 0 out %d:" % count] if count >= 3 else []))


# Segments without an era

notes("a dropped segment without an era", opening() + [data(1000, "abc", check=1)] + END, lost(1))

no_notes("all octets were dropped without an era", opening() + [data(1000, "abcd", check=1)] + END)

notes("stray octets hide nothing", opening() + [data(2000, "abcd", check=1)] + END, LOST)

notes("stray octets of another connection hide nothing",
      opening() + [data(1000, "abcd", check=1, outside_port=40001)] + END, LOST)

notes("a dropped segment without octets", opening() + [data(1000, "", check=1)] + END, LOST)

notes("dropped octets of the other direction", opening() + [answer(1000, "abcd", check=1)] + END, LOST)

notes("a dropped RST has no octets",
      opening() + [segment("> R 1000,5001 abcd", check=1)] + END, LOST)


def without_side(packet):
    """Spoils the checksum of the header, so that no side is read."""
    return packet[:8] + b"\0" + packet[9:]


no_notes("dropped octets without a side", opening() + [without_side(data(1000, "abcd"))] + END)

no_notes("outward ones without a side",
         opening() + [without_side(answer(1000, "abcd")), answer(1000, "efgh", 5005),
                      data(1000, "", 5009)])

notes("inward ones without a side are no outward ones",
      opening() + [without_side(data(1000, "abcd"))] + [answer(1000, "efgh", 5005),
                                                       data(1000, "", 5009)], lost(0, 4))

notes("octets that are dropped before the connection begins", [data(1000, "abcd", check=1)] + opening()
      + END, LOST)

notes("dropped octets are of the last era of their four-tuple",
      opening() + END + [segment("< RA 5001,1008"), segment("> S 7999"),
                         segment("< SA 9000,8000"), data(1000, "abcd", check=1)], LOST)

notes("fragments hide nothing", opening() + fragments(data(1000, "abcdefgh"), 24)[:1] + END, LOST)

notes("last fragments hide nothing", opening() + fragments(data(1000, "abcdefgh"), 24)[1:] + END, LOST)

SNAPPED = head() + b"".join(map(record, opening())) + record(data(1000, "a" * 90)[:60], original=130)

CUT = ["note cut records 1:"]

notes("a snapped record has all its octets",
      SNAPPED + record(data(1090, "efgh")) + record(answer(1094)), CUT)

notes("so has one outwards", head() + b"".join(map(record, opening()))
      + record(answer(1000, "a" * 90)[:40], original=130)
      + b"".join(map(record, [answer(1000, "efghi", 5096), data(1000, "", 5101)])), lost(0, 5) + CUT)

notes("it has no more", SNAPPED + record(data(1092, "gh")) + record(answer(1094)), lost(2) + CUT)

notes("a snapped record without its TCP header has none", head() + b"".join(map(record, opening()))
      + record(data(1000, "abcd")[:39], original=44) + record(END[0]) + record(END[1]), LOST + CUT)


def with_options(seq, octets, ihl=b"", options=b"", flags=0x18):
    """Makes an inward segment with options in both headers."""
    message = tcp(OUTSIDE, INSIDE, 40000, 80, seq, 5001, flags, octets, options=options)
    return ipv4(OUTSIDE, INSIDE, TCP, message, options=ihl)


LONG = with_options(1000, b"abcd", b"\1" * 8, b"\1" * 4)

notes("a snapped record with options has the octets behind them",
      head() + b"".join(map(record, opening())) + record(LONG[:52], original=56)
      + record(END[0]) + record(END[1]), CUT)

notes("a snapped FIN is an octet", head() + b"".join(map(record, opening()))
      + record(with_options(1000, b"abc", flags=0x19)[:40], original=43)
      + record(END[0]) + record(END[1]), CUT)



def snapped(packet):
    """Makes a connection with this packet, of which octets are missing, and with a loss."""
    return head() + b"".join(map(record, opening())) + record(packet, original=60) \
        + record(END[0]) + record(END[1])


notes("a snapped record without payload has none", snapped(segment("> A 1000,5001")), LOST + CUT)

FINISHED = segment("> FA 1000,5001")

notes("a snapped FIN without payload is an octet", snapped(FINISHED), lost(3) + CUT)

notes("so it is with a total length below the headers", snapped(FINISHED[:2] + b"\0\0" + FINISHED[4:]),
      lost(3) + CUT)

# Lines that no run has

LINES = ["norm 2", "1 in pass 1 @1 +1", "2 out pass 1 @1", "3 in pass 1 @1", "4 in drop 1 T_STATE @1",
         "5 in pass 1 @1", "6 out pass 1 @1", "end 6 6"]

no_notes("a dropped segment of the era has octets", opening() + [data(1000, "abcd")] + END,
         report=LINES)

no_notes("a dropped segment passes over nothing",
         opening() + [END[0], answer(1000), answer(1008)],
         report=LINES[:5] + ["5 out pass 1 @1", "6 out pass 1 @1", "end 6 6"])

no_notes("a dropped segment acknowledges nothing", opening() + END,
         report=LINES[:4] + ["4 in pass 1 @1", "5 out drop 1 T_STATE @1", "end 5 5"])

notes("dropped before a number is known",
      [segment("> S 999"), data(1002, "ab"), data(1000, "cd"), data(1004, "ef"), answer(1006)],
      lost(2), report=["norm 2", "1 in drop 1 T_STATE @1", "2 in drop 1 T_STATE @1",
                       "3 in pass 1 @1", "4 in pass 1 @1", "5 out pass 1 @1", "end 5 5"])

no_notes("a line without a side belongs to no half", opening() + [data(1000, "abcd")] + END,
         report=LINES[:4] + ["4 in pass 1 @1", "5 in pass 1 @1", "6 - pass 1 @1", "end 6 6"])

STRAY = LINES[:4] + ["4 %s pass 1", "5 in pass 1 @1", "6 out pass 1 @1", "end 6 6"]

for name, words, found in [("a segment without an era that is not dropped", "in", []),
                           ("one without a side", "-", []), ("one of the other side", "out", LOST)]:
    notes(name, opening() + [data(1000, "abcd")] + END, found,
          report=[line.replace("%s", words) for line in STRAY])

notes("a segment without an era raises no top and acknowledges nothing",
      opening() + [data(1004, "efgh"), answer(1008)],
      [], report=LINES[:4] + ["4 in pass 1", "5 out pass 1 @1", "end 5 5"])


# order

def late(times):
    """Makes as many segments after their acknowledgment."""
    return [one for n in range(times)
            for one in (answer(1004 + 4 * n, ident=0), data(1000 + 4 * n, "abcd", ident=0))]


LATE = ["note order in 3 out 0:"]

notes("three gaps that are filled late", opening() + late(3), LATE)

no_notes("two gaps", opening() + late(2))

notes("octets are lost too", opening() + late(3) + [data(1016, "efgh"), answer(1020)], LOST + LATE)

notes("two gaps, and octets are lost", opening() + late(2) + [data(1012, "efgh"), answer(1016)], LOST)

notes("the newest gap alone is kept", opening() + [answer(1004), answer(1008, ident=0),
                                                  data(1000, "abcd")] + late(4)[4:], LOST)

no_notes("gaps that are filled in part", opening() + late(2) + [answer(1012), data(1008, "abc")])

no_notes("gaps that are filled from the end",
         opening() + late(2) + [answer(1012), data(1010, "cd"), data(1008, "ab")])

notes("gaps that are filled in two parts",
      opening() + late(2) + [answer(1012), data(1008, "ab"), data(1010, "cd")], LATE)

no_notes("two gaps of one side, and one of the other",
         opening() + late(2) + [data(1008, "", 5002), answer(1008, "x")])


def late_outwards(times):
    """Makes as many answers after their acknowledgment."""
    return [one for n in range(times) for one in (
        segment("> A 1000,%d" % (5002 + n), ident=0), answer(1000, "x", 5001 + n, ident=0))]


notes("three gaps outwards", opening() + late_outwards(3), ["note order in 0 out 3:"])

notes("three gaps of one side, and one of the other", opening() + late_outwards(1) + [
    one for n in range(3) for one in (answer(1004 + 4 * n, seq=5002, ident=0),
                                      data(1000 + 4 * n, "abcd", 5002, ident=0))],
      ["note order in 3 out 1:"])


# half

notes("one era of eight begins in the middle", calls(7) + [answer(1000)], MIDDLE)

no_notes("one era of nine", calls(8) + [answer(1000)])


def alone(count, at=0, text="a"):
    """Makes inward segments with payload, each of its own connection."""
    return [data(1000, text, outside_port=51000 + at + n) for n in range(count)]


notes("four segments of no connection", alone(4), ["note half eras 0 segments 4:"])

no_notes("three segments of no connection", alone(3))

no_notes("four of them without payload", alone(4, text=""))

notes("four segments of one connection that is in no record",
      [data(1000 + n, "a", ident=0) for n in range(4)], ["note half eras 0 segments 4:"])


def of_one(count):
    """Makes a connection with as many segments with payload."""
    return opening() + [answer(1000)] + [data(1000 + n, "a", ident=0) for n in range(count)]


notes("four of 32 segments", of_one(28) + alone(4), ["note half eras 0 segments 4:"])

no_notes("four of 33 segments", of_one(29) + alone(4))

notes("four of 32 segments, without payload not counted",
      of_one(28) + [data(1028, "", ident=0)] * 9 + alone(4), ["note half eras 0 segments 4:"])

notes("four of 32 segments, outward ones not counted",
      of_one(28) + [answer(1000, "x", 5001 + n, ident=0) for n in range(9)] + alone(4),
      ["note half eras 0 segments 4:"])

no_notes("of 32 of which one is dropped", of_one(28) + [data(1028, "a", check=1)] + alone(4))

notes("an outward segment begins an era and is none of them",
      calls(8) + [answer(1000, "a", outside_port=51000)] + alone(4, 10),
      ["note half eras 1 segments 4:"])

no_notes("segments behind a RST of the connection",
         opening() + [segment("< R 5001")] + [data(1000 + n, "abcd") for n in range(4)] + [answer(1004)])

no_notes("a SYN that answers begins it", calls(7) + [segment("< SA 5000,1000")])

no_notes("a probe behind a RST is of an era", opening() + [segment("> R 1000,0 ab")] * 4)

notes("beside a loss", opening() + END + alone(4), LOST)

notes("beside three late gaps inwards", opening() + late(3) + alone(4), LATE)

notes("beside three late gaps outwards, which an outside host can make",
      opening() + late_outwards(3) + alone(4),
      ["note order in 0 out 3:", "note half eras 0 segments 4:"])

notes("beside two late gaps inwards, and three outwards",
      opening() + late(2) + [one for n in range(3) for one in (
          segment("> A 1008,%d" % (5002 + n), ident=0), answer(1008, "x", 5001 + n, ident=0))]
      + alone(4), ["note order in 2 out 3:", "note half eras 0 segments 4:"])

row("notes as JSON", capture_of(opening() + END), "--notes --json",
    ['{"event":"note","note":"lost","in":4,"out":0,"advice":"%s"}' % ADVICE["lost"]], status=10)

row("a connection that begins midway, as JSON", capture_of([answer(1000)]), "--notes --json",
    ['{"event":"note","note":"half","eras":1,"segments":0,"advice":"%s"}' % ADVICE["half"]], status=10)
