"""Bad input: what becomes of clean packets where they are captured or edited wrongly.

A kind of damage takes a random generator and packets of raw IP, and returns the input of a run:
records, their link, options and prefixes. It names the note that is to find it, if there is one,
and the notes that it may have beside it.
"""

from types import SimpleNamespace

from model.capture import ETHERNET, RAW
from model.formats import TCP, UDP, pseudo_sum, read_ipv4, read_tcp, sum_for, two
from model.packets import head, ipv4, record

PREFIX = "10.0.0.0/8"


def is_inside(number):
    return number >> 24 == 10


def is_outward(packet):
    return is_inside(read_ipv4(packet).src)


def octets_of(packet):
    """How many sequence numbers the octets and the FIN of this packet take."""
    if read_ipv4(packet).protocol != TCP:
        return 0
    segment = read_tcp(packet[20:])
    return len(segment.payload) + (segment.flags & 1)


def input_of(packets, options=(), prefixes=(PREFIX,), link=RAW, removed=None):
    """`removed`: the octets that are no longer there, inwards and outwards."""
    return SimpleNamespace(frames=list(packets), options=list(options), prefixes=list(prefixes), link=link,
                           removed=removed or {"in": 0, "out": 0},
                           original=len)


def capture_of(made):
    records = [record(frame, number // 100, number % 100 * 1000, made.original(frame))
               for number, frame in enumerate(made.frames)]
    return head(link=made.link) + b"".join(records)


# Records are missing

def without(packets, missing):
    """Without the packets at these indices."""
    removed = {"in": 0, "out": 0}
    for at in missing:
        removed["out" if is_outward(packets[at]) else "in"] += octets_of(packets[at])
    return input_of([packet for at, packet in enumerate(packets) if at not in missing], removed=removed)


def with_octets(packets):
    return [at for at, packet in enumerate(packets[:-20]) if octets_of(packet) > 1]


def one_in(parts):
    """One record in this number is missing, at least one with octets."""
    def make(rng, packets):
        return without(packets,
                       {rng.choice(with_octets(packets)),
                        *rng.sample(range(len(packets)), max(0, len(packets) // parts - 1))})
    return make


def in_a_row(count):
    def make(rng, packets):
        at = rng.choice([at for at in with_octets(packets) if at + count < len(packets)])
        return without(packets, set(range(at, at + count)))
    return make


def one_direction(outward):
    return lambda rng, packets: input_of([packet for packet in packets if is_outward(packet) == outward])


def from_the_midst(rng, packets):
    return without(packets, set(range(len(packets) // 3)))


# Records are elsewhere

def exchanged(rng, packets):
    """Of each few records the last one is written before the others, as by a card with several
    queues."""
    packets, at = list(packets), 0
    while at + 8 < len(packets):
        count = rng.randrange(2, 8)
        packets[at:at + count] = packets[at + count - 1:at + count] + packets[at:at + count - 1]
        at += count
    return input_of(packets)


def doubled(often, ttl):
    def make(rng, packets):
        found = []
        for packet in packets:
            found.append(packet)
            if rng.random() < often:
                found.append(routed(packet) if ttl else packet)
        return input_of(found)
    return make


def routed(packet):
    """One router further away."""
    return with_header_sum(packet[:8] + bytes([packet[8] - 1]) + packet[9:])


# Checksums

def with_field(packet, field):
    """The packet with another checksum of TCP or UDP."""
    ip = read_ipv4(packet)
    at = {TCP: 36, UDP: 26}.get(ip.protocol)
    return packet if at is None or ip.mf or ip.offset else packet[:at] + two(field(ip, packet)) + packet[at + 2:]


def left_to_card(ip, packet):
    return pseudo_sum(ip.src, ip.dst, ip.protocol, len(packet) - 20) % 65535


def sums(field, of):
    return lambda rng, packets: input_of([with_field(packet, field) if of(packet) else packet for packet in packets])


def header_sums(rng, packets):
    return input_of([packet[:10] + b"\0\0" + packet[12:] if is_outward(packet) else packet for packet in packets])


def no_lengths(rng, packets):
    return input_of([packet[:2] + b"\0\0" + packet[4:] if is_outward(packet) and len(packet) > 100 else packet
                     for packet in packets])


def always(packet):
    return True


# Attacks, which are no bad input

def forged(rng, packets):
    """At the end the outside host acknowledges octets that were never sent."""
    answers = [packet for packet in packets if read_ipv4(packet).protocol == TCP and not is_outward(packet)
               and octets_of(packet) == 0]
    return input_of(packets + [acknowledging_more(packet) for packet in rng.sample(answers, 10)])


def acknowledging_more(packet):
    ip, ack = read_ipv4(packet), (int.from_bytes(packet[28:32], "big") + 90000) % 2**32
    segment = packet[20:28] + ack.to_bytes(4, "big") + packet[32:36] + two(0) + packet[38:]
    check = sum_for(segment, pseudo_sum(ip.src, ip.dst, TCP, len(segment)))
    return with_header_sum(packet[:4] + two(0) + packet[6:20] + segment[:16] + two(check) + segment[18:])


def with_header_sum(packet):
    front = packet[:10] + b"\0\0" + packet[12:20]
    return front[:10] + two(sum_for(front)) + packet[12:]


# Prefixes, frames and options

def prefixed(prefix):
    return lambda rng, packets: input_of(packets, prefixes=[prefix])


def optioned(*options):
    return lambda rng, packets: input_of(packets, options)


def framed(front):
    """Ethernet frames with these octets from the type on."""
    return lambda rng, packets: input_of([bytes(12) + bytes.fromhex(front) + packet for packet in packets],
                                         link=ETHERNET)


def version_6(rng, packets):
    frames = [bytes(12) + b"\x08\0" + packet for packet in packets]
    packet = bytes.fromhex("6000000000140640") + bytes([32]) + bytes(15) + bytes([32]) + bytes(15) + bytes(20)
    return input_of(frames + [bytes(12) + b"\x86\xdd" + packet] * 3, link=ETHERNET)


def tunnelled(rng, packets):
    ends = read_ipv4(packets[0])
    return input_of([ipv4(ends.src, ends.dst, 47, bytes([0, 0, 8, 0]) + packet, ident=at + 1)
                     for at, packet in enumerate(packets)])


def cut_short(rng, packets):
    made = input_of([packet[:60] for packet in packets])
    made.original = lambda frame: read_ipv4(frame).total
    return made


def kind(name, make, note, *beside):
    return SimpleNamespace(name=name, make=make, note=note, beside=beside)


# Where records are missing, so may be the SYN of a connection.
KINDS = [
    kind("clean", lambda rng, packets: input_of(packets), None),
    kind("clean, Ethernet", framed("0800"), None),
    kind("clean, prefixes swapped", prefixed("198.51.100.0/24"), None),
    kind("clean, both sides", optioned("--both"), None),
    kind("forged acknowledgments", forged, None),
    kind("1 in 500 removed", one_in(500), "lost", "half"),
    kind("1 % removed", one_in(100), "lost", "half"),
    kind("5 % removed", one_in(20), "lost", "half"),
    kind("5 in a row removed", in_a_row(5), "lost", "half"),
    kind("50 in a row removed", in_a_row(50), "lost", "half"),
    kind("exchanged", exchanged, "order", "half", "lost"),
    kind("each doubled", doubled(1, False), "twice"),
    kind("some doubled by a router", doubled(0.2, True), "twice"),
    kind("sums left to the card, outwards", sums(left_to_card, is_outward), "card", "half"),
    kind("sums left to the card", sums(left_to_card, always), "card"),
    kind("header sums left to the card", header_sums, "card", "half", "unjudged"),
    kind("lengths left to the card", no_lengths, "card"),
    kind("sums wrong", sums(lambda ip, packet: 1, always), "wrong"),
    kind("inwards alone", one_direction(False), "one", "half"),
    kind("outwards alone", one_direction(True), "one"),
    kind("from the midst on", from_the_midst, "half", "lost"),
    kind("another prefix", prefixed("192.0.2.0/24"), "foreign", "unjudged"),
    kind("another prefix, not judged", prefixed("192.0.2.0/24"), "unjudged", "foreign"),
    kind("VLAN tags", framed("810000070800"), "tagged", "unjudged"),
    kind("PPPoE", framed("8864110000010010" + "0021"), "tagged", "unjudged"),
    kind("MPLS with two labels", framed("88470001004000020140"), "tagged", "unjudged"),
    kind("another type", framed("88cc"), "unjudged"),
    kind("IPv6", version_6, "ipv6"),
    kind("a tunnel", tunnelled, "tunnels", "unjudged"),
    kind("few connections", optioned("--flows=2"), "full", "lost"),
    kind("few cells", optioned("--cells=1"), "full"),
    kind("few cells each", optioned("--quota=1"), "full"),
    kind("cut short", cut_short, "cut", "unjudged"),
]
