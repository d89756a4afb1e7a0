"""Notes worked by hand on what norm does not read: packets of no side, IPv4 behind tags and labels,
IPv6, tunnels, and captures of which half or all was not judged."""

from model.formats import TCP, UDP
from model.packets import INSIDE, OUTSIDE, capture_of, head, inward, ipv4, opening, record, udp
from model.sentences import ADVICE, NEITHER, NO_RECORD, NO_SIDE, UNJUDGED
from cases.notes import ESP, GRE, asked, ethernets, no_notes, notes
from cases.views import ethernet, row


def unjudged(count, of, rules, said):
    return "note unjudged records %d of %d rules %s: %s" % (count, of, rules, said)


# foreign

def between(count, dst=INSIDE + 2, src=INSIDE):
    return [ipv4(src, dst, UDP, udp(src, dst, 40000, 53, b"\0" + bytes([n])), ident=0)
            for n in range(count)]


def no_side(count, of):
    return unjudged(count, of, "I_SIDE %d" % count, NO_SIDE)


notes("2 of 3 packets belong to no side", asked(1) + between(2),
      ["note foreign records 2:", no_side(2, 3)])

notes("2 of 4 packets", asked(2) + between(2), [no_side(2, 4)])

no_notes("2 of 5 packets", asked(3) + between(2))

for name, dst in [("the first address of groups", 224 * 2**24),
                  ("a last address of groups", 240 * 2**24 - 2), ("all hosts", OUTSIDE + 248)]:
    notes("packets between others to " + name, between(3, dst, OUTSIDE), [no_side(3, 3)])

for name, dst in [("the address before those of groups", 224 * 2**24 - 2),
                  ("an address that ends in 254", OUTSIDE + 247)]:
    notes("packets between others to " + name, between(3, dst, OUTSIDE),
          ["note foreign records 3:", no_side(3, 3)])

ARP = ethernet(bytes(28), b"\x08\x06")

notes("ARP counts for no packet", ethernets([ARP] * 5 + [ethernet(one) for one in between(1)]),
      ["note foreign records 1:"])


# tagged, ipv6

JUDGED = [ethernet(one) for one in asked(2)]


def beside(frame):
    """Makes a capture of this frame and of two that are judged."""
    return ethernets([frame] + JUDGED)


def tagged(kind, front, packet=asked(1)[0]):
    """Makes a frame of this type with a packet after these octets."""
    return ethernet(bytes.fromhex(front) + packet, bytes.fromhex(kind))


def tags(vlan=0, pppoe=0, mpls=0, said=""):
    return "note tagged vlan %d pppoe %d mpls %d: %s" % (vlan, pppoe, mpls, said)


ONE_VLAN, ONE_PPPOE, ONE_MPLS = (tags(vlan=1, said=ADVICE["tagged"]), tags(pppoe=1, said=NEITHER),
                                 tags(mpls=1, said=NEITHER))

# A label of MPLS, and the last one.
LABEL, LAST = "0001 0040 ", "0001 0140 "

FRONTS = [("8100", "0007 0800", ONE_VLAN), ("88a8", "0007 0800", ONE_VLAN),
          ("8100", "0007 8100 0008 0800", ONE_VLAN), ("88a8", "0007 8100 0008 0800", ONE_VLAN),
          ("8100", "0007 88a8 0008 0800", ONE_VLAN),
          ("8864", "11 00 0001 001e 0021", ONE_PPPOE), ("8847", "0001 0340", ONE_MPLS),
          ("8847", "0001 1f40 40", ONE_MPLS), ("8847", LAST + "4f", ONE_MPLS),
          ("8847", LABEL + LAST, ONE_MPLS), ("8847", LABEL + LABEL + LAST, ONE_MPLS),
          ("8847", 3 * LABEL + LAST, ONE_MPLS)]

for kind, front, note in FRONTS:
    notes("type %s and %s" % (kind, front), beside(tagged(kind, front)), [note], status=0)

for kind, front in [("8847", LAST + "3f"), ("8847", LAST + "50"), ("8100", "0007 0806"),
                    ("88a8", "0007 86dc"),
                    ("8100", "0007 8100 0008 8100 0009 0800"), ("8864", "11 00 0001 001e 0022"),
                    ("8863", "11 00 0001 001e 0021"), ("8848", LAST), ("8847", 4 * LABEL + LAST),
                    ("8847", LABEL)]:
    no_notes("type %s and %s" % (kind, front), beside(tagged(kind, front)))

notes("a frame of 18 octets", beside(ethernet(bytes.fromhex("00070800"), b"\x81\0")), [ONE_VLAN],
      status=0)

notes("a frame of 17 octets, and 0 is read of the next",
      beside(ethernet(bytes.fromhex("000708"), b"\x81\0")), [ONE_VLAN], status=0)

no_notes("a frame of 16 octets", beside(ethernet(bytes.fromhex("0007"), b"\x81\0")))

notes("labels up to the first octet of a packet",
      beside(ethernet(bytes.fromhex(LABEL + LAST + "45"), b"\x88\x47")), [ONE_MPLS], status=0)

no_notes("labels, and no packet", beside(ethernet(bytes.fromhex(LABEL + LAST), b"\x88\x47")))

VLANS, PPPOES, MPLSES = ([tagged(kind, front)] for kind, front in (
    ("8100", "0007 0800"), ("8864", "11 00 0001 001e 0021"), ("8847", LABEL + LAST)))

BOTH = ADVICE["tagged"] + "; " + NEITHER

for name, frames, note in [("VLAN and PPPoE", VLANS + PPPOES * 2, tags(1, 2, 0, BOTH)),
                           ("VLAN and MPLS", VLANS * 2 + MPLSES, tags(2, 0, 1, BOTH)),
                           ("PPPoE and MPLS", PPPOES + MPLSES * 2, tags(0, 1, 2, NEITHER))]:
    notes(name, ethernets(frames + JUDGED * 2), [note], status=0)

row("VLAN and PPPoE, as JSON", ethernets(VLANS + PPPOES * 2 + JUDGED * 2), "--notes --json",
    ['{"event":"note","note":"tagged","vlan":1,"pppoe":2,"mpls":0,"advice":"%s"}' % BOTH])

L_TYPES = UNJUDGED["L_TYPE"]

notes("all tagged", ethernets(VLANS * 3), [tags(vlan=3, said=ADVICE["tagged"]),
                                          unjudged(3, 3, "L_TYPE 3", L_TYPES)])

notes("half of all tagged", ethernets(VLANS + PPPOES + JUDGED),
      [tags(1, 1, 0, BOTH), unjudged(2, 4, "L_TYPE 2", L_TYPES)])

notes("less than half tagged", ethernets(VLANS + PPPOES + JUDGED + JUDGED[:1]), [tags(1, 1, 0, BOTH)],
      status=0)


def version_6(following, destination, octets=40):
    packet = bytes.fromhex("60000000 0014") + bytes([following, 64]) + bytes(16)
    return (packet + bytes([destination]) + bytes(35))[:octets]


ONE_6 = ["note ipv6 records 1:"]

PLAIN_6 = "86dd", ""

for following in (TCP, UDP):
    notes("IPv6 with protocol %d" % following, beside(tagged(*PLAIN_6, version_6(following, 0x20))),
          ONE_6, status=0)

notes("IPv6 up to the first octet of the destination",
      beside(tagged(*PLAIN_6, version_6(TCP, 0xFE, 25))), ONE_6, status=0)

for name, packet in [("an octet less", version_6(TCP, 0, 24)), ("IPv6 to a group", version_6(UDP, 0xFF)),
                     ("ICMP of IPv6", version_6(58, 0x20))]:
    no_notes(name, beside(tagged(*PLAIN_6, packet)))

FRONTS_6 = [("8100", "0007 86dd"), ("88a8", "0007 86dd"), ("8100", "0007 8100 0008 86dd"),
            ("88a8", "0007 8100 0008 86dd"), ("8100", "0007 88a8 0008 86dd"),
            ("8864", "11 00 0001 001e 0057"), ("8847", LAST),
            ("8847", LABEL + LAST), ("8847", 3 * LABEL + LAST)]

for kind, front in FRONTS_6:
    notes("IPv6 behind type %s and %s" % (kind, front),
          beside(tagged(kind, front, version_6(TCP, 0x20))), ONE_6, status=0)
    no_notes("IPv6 to a group behind type %s and %s" % (kind, front),
             beside(tagged(kind, front, version_6(TCP, 0xFF))))
    no_notes("ICMP of IPv6 behind type %s and %s" % (kind, front),
             beside(tagged(kind, front, version_6(58, 0x20))))

for kind, front in [("8864", "11 00 0001 001e 0058"), ("8847", 4 * LABEL + LAST)]:
    no_notes("IPv6, and not behind type %s and %s" % (kind, front),
             beside(tagged(kind, front, version_6(TCP, 0x20))))

SIX = [tagged(*PLAIN_6, version_6(TCP, 0x20))]

notes("half of all are IPv6", ethernets(SIX * 2 + JUDGED),
      ["note ipv6 records 2:", unjudged(2, 4, "L_TYPE 2", L_TYPES)])

notes("IPv6, and half of all only with ICMP",
      ethernets(SIX + [tagged(*PLAIN_6, version_6(58, 0x20))] + JUDGED),
      ["note ipv6 records 1:", unjudged(2, 4, "L_TYPE 2", L_TYPES)])

notes("half is tagged, and less than half is IPv6",
      ethernets(SIX + VLANS * 2 + JUDGED[:1]),
      [tags(vlan=2, said=ADVICE["tagged"]), "note ipv6 records 1:",
       unjudged(3, 4, "L_TYPE 3", L_TYPES)])


# tunnels

for protocol in (4, 41, GRE, ESP, 51, 132):
    notes("protocol %d" % protocol, [inward(protocol, bytes(20))] + asked(2),
          ["note tunnels records 1:"], status=0)

for protocol in (2, 5, 46, 49, 52, 89, 131):
    no_notes("protocol %d" % protocol, [inward(protocol, bytes(20))] + asked(2))

no_notes("a tunnel to a group", [ipv4(OUTSIDE, 224 * 2**24 + 5, GRE, bytes(20))] + asked(2))

notes("half of all are tunnels", [inward(GRE, bytes(20))] + asked(1),
      ["note tunnels records 1:", unjudged(1, 2, "P_PROTO 1", ADVICE["unjudged"])])

notes("half of all are tunnels by lines that no run has", [inward(GRE, bytes(20))] + asked(1),
      ["note tunnels records 1:"], report=["norm 2", "1 in hold 1 P_PROTO", "2 in pass 1", "end 2 2"])

notes("half of all are tagged by lines that no run has", ethernets(VLANS + JUDGED[:1]), [ONE_VLAN],
      report=["norm 2", "1 - hold 1 L_TYPE", "2 in pass 1", "end 2 2"])

notes("half of all are IPv6 by lines that no run has", ethernets(SIX + JUDGED[:1]), ONE_6,
      report=["norm 2", "1 - hold 1 L_TYPE", "2 in pass 1", "end 2 2"])

notes("three that change no status, and one that does",
      ethernets(VLANS + SIX + [ethernet(inward(GRE, bytes(20)))] + JUDGED * 3)
      + record(ethernet(asked(1)[0]), original=100),
      [ONE_VLAN, "note ipv6 records 1:", "note tunnels records 1:", "note cut records 1:"])

notes("a tagged frame that is cut short", ethernets(JUDGED) + record(VLANS[0], original=100),
      ["note cut records 1:"])


# unjudged

notes("no record", [], ["note unjudged records 0 of 0: " + NO_RECORD])

row("no record, as JSON", capture_of([]), "--notes --json",
    ['{"event":"note","note":"unjudged","records":0,"of":0,"by_rule":[],"advice":"%s"}' % NO_RECORD],
    status=10)

RAW_6 = [b"\x60" + bytes(39)] * 3

notes("all of another version", RAW_6, [unjudged(3, 3, "I_VERSION 3", UNJUDGED["I_VERSION"])])

row("the same as JSON", capture_of(RAW_6), "--json --notes",
    ['{"event":"note","note":"unjudged","records":3,"of":3,"by_rule":[{"rule":"I_VERSION","count":3}],'
     '"advice":"%s"}' % UNJUDGED["I_VERSION"]], status=10)

notes("half of all", asked(3) + RAW_6, [unjudged(3, 6, "I_VERSION 3", UNJUDGED["I_VERSION"])])

no_notes("less than half", asked(4) + RAW_6)

SHORT, HEADER, LENGTH, SUM = ([packet] for packet in (
    b"\x45", b"\x44" + asked(1)[0][1:], asked(1)[0][:2] + b"\0\1" + asked(1)[0][4:],
    asked(1)[0][:10] + b"\0\1" + asked(1)[0][12:]))

FROM, TO = [ipv4(0, INSIDE, UDP, bytes(8))], [ipv4(OUTSIDE, 127 * 2**24, UDP, bytes(8))]

OPTIONS, ROUTE = ([inward(UDP, bytes(8), options=octets)] for octets in (
    b"\x94\0\0\0", b"\x83\3\4\0"))

notes("the most first, and of as many the smaller number",
      SUM * 2 + FROM * 3 + SHORT + TO * 2 + HEADER * 3,
      [unjudged(11, 11, "I_HLEN 3, I_SRC 3, I_SUM 2, I_DST 2, I_SHORT 1", ADVICE["unjudged"])])

for rule, packets, said in [("I_SHORT", SHORT, None), ("I_HLEN", HEADER, None), ("I_LEN", LENGTH, None),
                            ("I_SUM", SUM, None), ("I_SRC", FROM, NO_SIDE), ("I_DST", TO, NO_SIDE),
                            ("I_OPT_BAD", OPTIONS, None), ("I_ROUTE", ROUTE, None),
                            ("P_PROTO", [inward(2, bytes(8))], None)]:
    notes("dropped by " + rule, packets + asked(1),
          [unjudged(1, 2, rule + " 1", said or ADVICE["unjudged"])])

no_notes("a later rule judges the payload", [inward(UDP, bytes(7))] * 2)

no_notes("a first rule that changes a packet alone", [one + b"x" for one in asked(2)])

no_notes("fragments that are held", [ipv4(OUTSIDE, INSIDE, UDP, bytes(16), mf=True, ident=n)
                                     for n in (1, 2)])

notes("frames without a type", ethernets([ethernet(b"")[:13]] * 2 + JUDGED),
      [unjudged(2, 4, "L_SHORT 2", ADVICE["unjudged"])])

no_notes("ARP passes", ethernets([ARP] * 2))

notes("an ARP frame that is too long", ethernets([ethernet(bytes(65536), b"\x08\x06")]),
      [unjudged(1, 1, "L_TYPE 1", L_TYPES)])

notes("all are cut short", head() + record(asked(1)[0], original=100) * 2,
      ["note cut records 2:", unjudged(2, 2, "L_SNAP 2", ADVICE["unjudged"])])

notes("the first of several rules, and no run", asked(2),
      [unjudged(1, 2, "I_SRC 1", NO_SIDE)],
      report=["norm 2", "1 in drop 1 T_SUM I_DST I_SRC", "2 in drop 1 I_SRC I_DST", "end 2 2"])

no_notes("a rule that dropped nothing, and no run", asked(2),
         report=["norm 2", "1 in fix 1 I_SRC", "2 in hold 1 I_DST", "end 2 2"])

notes("of two engines the lines of the first", opening(), [],
      report=["norm 2 both", "1 in pass 1", "/1 - drop 1 I_SRC", "2 in pass 1", "/2 - drop 1 I_SRC",
              "3 in drop 1 T_SYN", "/3 - drop 1 I_SRC", "end 3 3"])
