"""Notes worked by hand: for each of them records on which there is one, and records on which there
just is none; notes_lost.py and notes_unjudged.py have others."""

from model.formats import ICMP, TCP, UDP, pseudo_sum, two
from model.packets import INSIDE, OUTSIDE, capture_of, head, inward, ipv4, opening, outward, record, segment, tcp, udp
from model.sentences import ADVICE, OUTWARDS
from cases.views import fragments, row

GRE, ESP = 47, 50


def notes(name, packets, lines, options="", report=None, status=10):
    """The lines that --notes prints; one that ends with a colon is followed by what is to be done.
    `packets` may be a whole capture."""
    lines = [line + " " + ADVICE[line.split(" ")[1]] if line.endswith(":") else line for line in lines]
    octets = packets if isinstance(packets, bytes) else capture_of(packets)
    row("notes: " + name, octets, "--notes", lines, options, status if lines else 0, report)


def no_notes(name, packets, options="", report=None):
    notes(name, packets, [], options, report)


def ethernets(frames):
    return head(link=1) + b"".join(map(record, frames))


def data(seq, text, ack=5001, **fields):
    return segment("> PA %d,%d %s" % (seq, ack, text), **fields)


def answer(ack, text="", seq=5001, **fields):
    return segment(("< PA %d,%d %s" if text else "< A %d,%d%s") % (seq, ack, text), **fields)


def calls(count):
    return [segment("> S 999", outside_port=50000 + n) for n in range(count)]


LOST = ["note lost in 4 out 0:"]

MIDDLE = ["note half eras 1 segments 0:"]


# one

def acknowledgments(count, **fields):
    return [answer(1000, seq=5000, ident=0, **fields) for _ in range(count)]


notes("eight segments of one direction", acknowledgments(8), MIDDLE + ["note one in 0 out 8 neither 0:"])

notes("seven segments of one direction", acknowledgments(7), MIDDLE)

notes("one segment of the other direction to 256", acknowledgments(256) + [data(1000, "", 5000)],
      MIDDLE + ["note one in 1 out 256 neither 0:"])

notes("one segment of the other direction to 255", acknowledgments(255) + [data(1000, "", 5000)], MIDDLE)

# The header's checksum is wrong, so that no side is read.
NO_SIDE = data(1000, "", 5000)[:8] + b"\1" + data(1000, "", 5000)[9:]

notes("one without a side to 256", acknowledgments(256) + [NO_SIDE], MIDDLE + ["note one in 0 out 256 neither 1:"])

notes("one without a side to 255", acknowledgments(255) + [NO_SIDE], MIDDLE)

BETWEEN = ipv4(INSIDE, INSIDE + 1, TCP, segment("> A 1000,5001")[20:], ident=0)

notes("segments between two inside hosts are of no connection here",
      acknowledgments(9) + [BETWEEN] * 8, MIDDLE + ["note one in 0 out 9 neither 0:"])

no_notes("SYN and RST are of no direction",
         calls(9) + [segment("< RA 0,1000", outside_port=50000 + n) for n in range(8)])

notes("nine segments inwards", [data(1000 + n, "", ident=0) for n in range(9)], ["note one in 9 out 0 neither 0:"])


# card and wrong

def left(packet):
    """The packet with the checksum that its sender leaves to the card."""
    place, protocol = {6: (36, 6), 17: (26, 17)}[packet[9]]
    total = pseudo_sum(int.from_bytes(packet[12:16], "big"), int.from_bytes(packet[16:20], "big"),
                       protocol, len(packet) - 20)
    return packet[:place] + two(total % 65535) + packet[place + 2:]


def asked(count, at=0):
    """This number of datagrams inwards."""
    return [inward(UDP, udp(OUTSIDE, INSIDE, 40000, 53, two(at + n)), ident=0) for n in range(count)]


def answered(count, at=0, check=None):
    return [outward(UDP, udp(INSIDE, OUTSIDE, 53, 40000, two(at + n), check=check), ident=0) for n in range(count)]


OUTWARDS_LEFT = "note card in 0 out 2 neither 0: " + OUTWARDS

notes("2 of 128 outwards are left to the card",
      answered(126) + [left(one) for one in answered(2, 200)], [OUTWARDS_LEFT])

no_notes("2 of 129", answered(127) + [left(one) for one in answered(2, 200)])

no_notes("one of one", [left(one) for one in answered(1)])

notes("of TCP", acknowledgments(3)[:1] + asked(1) + [left(one) for one in acknowledgments(3)[1:]],
      MIDDLE + [OUTWARDS_LEFT])

# The sum of these pseudo headers is a multiple of 65,535: 65,535 has its remainder, and so has 0,
# which is no checksum.
EVEN = 10 * 2**24 + 52138

notes("the remainder is compared",
      [ipv4(OUTSIDE, EVEN, TCP, tcp(OUTSIDE, EVEN, 1, 2, n, 0, 2, check=65535)) for n in (5, 6)],
      ["note card in 2 out 0 neither 0:"])

notes("a checksum of 0 is left to no card",
      [ipv4(OUTSIDE, EVEN, TCP, tcp(OUTSIDE, EVEN, 1, 2, n, 0, 2, check=0)) for n in range(5, 9)],
      ["note wrong in 4 out 0 neither 0:"])

notes("inwards", [left(one) for one in asked(3)], ["note card in 3 out 0 neither 0:"])

notes("both ways", [left(one) for one in asked(1) + answered(2)], ["note card in 1 out 2 neither 0:"])

no_notes("with --offload they are right", [left(one) for one in answered(3)], "--offload")


def without_sum(packet):
    return packet[:10] + b"\0\0" + packet[12:]


notes("IP headers of which 2 of 128 are left to the card", asked(126) + [without_sum(one) for one in answered(2)],
      ["note card in 0 out 0 neither 2:"])

no_notes("2 of 129 IP headers", asked(127) + [without_sum(one) for one in answered(2)])

notes("a length that is left to the card", asked(3)
      + [one[:2] + b"\0\0" + one[4:] for one in answered(2)], ["note card in 0 out 0 neither 2:"])

no_notes("another length that is wrong", asked(3) + [one[:2] + b"\0\1" + one[4:] for one in answered(2)])

notes("4 of 8 are wrong", asked(4) + [one[:26] + b"\0\1" + one[28:] for one in asked(4, 100)],
      ["note wrong in 4 out 0 neither 0:"])

no_notes("4 of 9 are wrong", asked(5) + [one[:26] + b"\0\1" + one[28:] for one in asked(4, 100)])

no_notes("3 of 3 are wrong", [one[:26] + b"\0\1" + one[28:] for one in asked(3)])

notes("IP headers of which 4 of 8 are wrong", asked(4) + [one[:10] + b"\0\1" + one[12:] for one in asked(4)],
      ["note wrong in 0 out 0 neither 4:", "note unjudged records 4 of 8 rules I_SUM 4:"])

no_notes("4 of 9 IP headers", asked(5) + [one[:10] + b"\0\1" + one[12:] for one in asked(4)])

notes("both kinds", [one[:26] + b"\0\1" + one[28:] for one in asked(6)] + [left(one) for one in asked(2, 100)],
      ["note card in 2 out 0 neither 0:", "note wrong in 6 out 0 neither 0:"])


# twice

def different(count, at=0):
    """This number of datagrams, each with an identification and other octets."""
    return [inward(UDP, udp(OUTSIDE, INSIDE, 40000, 53, two(at + n)), ident=n + 1) for n in range(count)]


TWICE = ["note twice records 4:"]

notes("4 of 64 are there twice", different(60) + different(60)[-4:], TWICE)

no_notes("4 of 65", different(61) + different(61)[-4:])

no_notes("3 of 6", different(3) * 2)

notes("each behind itself", [one for one in different(4) for _ in range(2)], TWICE)

no_notes("five records later", different(5) * 2)

notes("four records later", different(4) * 2, TWICE)

no_notes("what is no candidate takes a place", (different(4) + asked(1)) * 2)

notes("what is no candidate takes a place, and there is room", (different(3) + asked(1)) * 3, ["note twice records 6:"])

notes("with another TTL",
      different(4) + [inward(UDP, one[20:], ident=n + 1, ttl=63)
                      for n, one in enumerate(different(4))], TWICE)

notes("with another header checksum", different(1, 9) + [both for one in different(4)
      for both in (one, one[:11] + bytes([one[11] ^ 1]) + one[12:])], TWICE)

no_notes("with another protocol", [ipv4(OUTSIDE, INSIDE, protocol, one[20:], ident=n + 1)
                                   for n, one in enumerate(different(4)) for protocol in (UDP, ICMP)])

UNSUMMED = udp(OUTSIDE, INSIDE, 40000, 53, b"hi", check=0)

no_notes("with another source", [ipv4(src, INSIDE, UDP, UNSUMMED, ident=n + 1) for n in range(4)
                                 for src in (OUTSIDE, OUTSIDE + 2**24)])

no_notes("with another type of service", different(4)
         + [inward(UDP, one[20:], ident=n + 1, tos=1) for n, one in enumerate(different(4))])

no_notes("without an identification", asked(4) * 2)

notes("with other octets behind the total length", different(4) + [one + b"xyz" for one in different(4)], TWICE)

no_notes("fragments", [one for packet in different(4) for one in fragments(packet[:28] + bytes(16), 8)[:1]] * 2)


# full

ONE_FLOW = ["note full flows 1 cells 0 quota 0 frags 0 frag-cells 0:"]


def evicting(*rest):
    """The second SYN evicts the first connection."""
    return calls(2) + list(rest)


notes("a connection that was evicted goes on", evicting(data(1000, "a", outside_port=50000)), ONE_FLOW, "--flows 1")

notes("without octets, too", evicting(data(1000, "", outside_port=50000)), ONE_FLOW, "--flows 1")

notes("it goes on outwards", evicting(answer(1000, seq=5000, outside_port=50000)), ONE_FLOW, "--flows 1")

no_notes("it begins again", evicting(segment("> S 999", outside_port=50000)), "--flows 1")

no_notes("a RST of it", evicting(segment("> R 1000", outside_port=50000)), "--flows 1")

no_notes("evicted and no more", evicting(), "--flows 1")

no_notes("another era of it was evicted",
         evicting(segment("> S 999", outside_port=50000), answer(1000, outside_port=50000)),
         "--flows 1")

FULL = opening() + [answer(1000, seq=5001), data(1000, "abcd")]

notes("no room for an era", FULL + [segment("> S 999", outside_port=40001)], ONE_FLOW, "--flows 1")

notes("no room for octets", FULL + [data(1004, "x" * 500)],
      ["note full flows 0 cells 1 quota 0 frags 0 frag-cells 0:"], "--cells 1")

notes("a quota", FULL + [data(1004, "x" * 500)],
      ["note full flows 0 cells 0 quota 1 frags 0 frag-cells 0:"], "--quota 1")

def held(count, size=592):
    """The first fragments of as many datagrams."""
    return [ipv4(OUTSIDE, INSIDE, UDP, bytes(size), mf=True, ident=n + 1) for n in range(count)]


notes("one datagram too many", held(2), ["note full flows 0 cells 0 quota 0 frags 1 frag-cells 0:"], "--frags 1")

notes("octets of fragments", held(3, 65504),
      ["note full flows 0 cells 0 quota 0 frags 0 frag-cells 2:"], "--frag-cells 256")

notes("full hides half", evicting(data(1000, "a", outside_port=50000),
                                  data(1000, "a", outside_port=50009)), ONE_FLOW, "--flows 1")

row("a full table as JSON", capture_of(held(2)), "--json --notes",
    ['{"event":"note","note":"full","flows":0,"cells":0,"quota":0,"frags":1,"frag_cells":0,'
     '"advice":"%s"}' % ADVICE["full"]], "--frags 1", 10)


# cut

notes("one record that is cut short", head() + b"".join(map(record, asked(500)))
      + record(asked(1)[0], original=31), ["note cut records 1:"])

no_notes("a record that is longer than the packet was", head() + record(asked(1)[0], original=29))
