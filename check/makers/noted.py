"""Runs on bad input: clean traffic that is damaged a little, so that the counts of notes are near
the least that makes a note."""

from makers.clean import traffic
from makers.damage import left_to_card, octets_of, with_field
from model.capture import ETHERNET, RAW
from model.formats import ICMP, TCP, UDP, pseudo_sum, read_ipv4, sum_for, two
from model.packets import INSIDE, OUTSIDE, head, icmp, ipv4, record, segment, udp

OPTIONS = [[], [], [], ["--flows=1"], ["--flows=2"], ["--cells=1"], ["--quota=1"], ["--frags=1"], ["--offload"],
           ["--both"], ["--mtu=576"]]

# What follows the type of an Ethernet frame, at the edges of what a note reads.
FRONTS = ["8847 0001 0040 0002 0140 45", "8847 0001 0040 0002 0040 0003 0140 40",
          "8847 0001 0040 0002 0040 0003 0040 0004 0140 40",
          "8847 0001 0040 0002 0040 0003 0040 0004 0040 0005 0140 40",
          "8847 0001 0140 6000 0000 0014 0640" + " 20" * 32,
          "8847 0001 0040 0002 0140 6000 0000 0014 1140" + " 20" * 32,
          "8864 1100 0001 0010 0057 6000 0000 0014 1140" + " 20" * 32,
          "8100 0007 86dd 6000 0000 0014 0640" + " 20" * 32,
          "8100 0007 8100 0007 86dd 6000 0000 0014 0640" + " ff" * 32,
          "88a8 0007 86dd 6000 0000 0014 3a40" + " 20" * 32, "8100 0007 0800", "8100 0007 8100 0007 0800",
          "88a8 0007 8100 0007 0800", "88a8 0007 0800", "8100 0007 86dd", "8100 0007 88a8 0007 0800",
          "8864 1100 0001 0010 0021", "8864 1100 0001 0010 0057", "8847 0001 0140 40", "8847 0001 0040 45",
          "8847 0001 014f 4f", "8847 0001 0150 50", "8847 0001 013f 3f",
          "86dd 6000 0000 0014 0640" + " 20" * 32, "86dd 6000 0000 0014 1140" + " ff" * 32,
          "86dd 6000 0000 0014 3a40" + " 20" * 32, "88cc", "0806"]

PROTOCOLS = [4, 41, 47, 50, 51, 132, 2, 5, 46, 48, 89, 131, 133]


def removed(rng, packets):
    for _ in range(rng.choice([1, 1, 2, 5])):
        at = rng.randrange(len(packets) + 1)
        del packets[at:at + rng.choice([1, 1, 2, 5])]


def delayed(rng, packets):
    """Segments are moved after what acknowledges them: few, one gap less than a note needs."""
    for _ in range(rng.choice([2, 3, 4, 6, 9])):
        at = rng.choice([at for at, packet in enumerate(packets) if octets_of(packet) > 0] or [0])
        packets.insert(min(len(packets), at + rng.randrange(1, 9)), packets.pop(at))


def repeated(rng, packets):
    for _ in range(rng.choice([3, 4, 5, len(packets) // 16, len(packets) // 15, len(packets) // 10])):
        at = rng.randrange(len(packets))
        packets.insert(min(len(packets), at + rng.randrange(1, 7)), packets[at])


def one_sided(rng, packets):
    inside = rng.random() < 0.5
    packets[:] = [packet for packet in packets if (read_ipv4(packet).src >> 24 == 10) == inside
                  or rng.random() < rng.choice([0, 0, 0.01])]


def from_later(rng, packets):
    del packets[:rng.randrange(len(packets))]


def fewer(rng, packets):
    """So few that a half, an eighth or a sixteenth of them is little."""
    at = rng.randrange(len(packets))
    packets[:] = packets[at:at + rng.choice([1, 4, 8, 20, 40])]


def summed(rng, packets):
    """Checksums that are left to the card, or wrong, of few packets or of many."""
    often, field = rng.choice([0.02, 0.1, 0.5, 0.6, 1]), rng.choice([left_to_card, lambda ip, packet: 7])
    for at, packet in enumerate(packets):
        if rng.random() < often:
            packets[at] = with_field(packet, field)


def headed(rng, packets):
    """The checksum or the length of IP headers is 0, or another."""
    often, at, value = rng.choice([0.02, 0.1, 0.6]), rng.choice([2, 10, 10]), rng.choice([0, 0, 1])
    for number, packet in enumerate(packets):
        if rng.random() < often:
            packets[number] = packet[:at] + two(value) + packet[at + 2:]


def strangers(rng, packets):
    """Packets that belong to no side."""
    ends = rng.choice([(INSIDE, INSIDE + 1), (OUTSIDE, OUTSIDE + 1), (OUTSIDE, OUTSIDE | 255),
                       (OUTSIDE, 239 * 2**24 + 250)])
    for number in range(rng.choice([len(packets) // 2, len(packets), len(packets) + 1, 2 * len(packets)])):
        packets.insert(rng.randrange(len(packets) + 1),
                       ipv4(*ends, UDP, udp(*ends, 1, 2, two(number)), ident=number % 65536))


def tunnelled(rng, packets):
    for _ in range(rng.randrange(1, 4)):
        dst = rng.choice([INSIDE, INSIDE, 224 * 2**24 + 1, 10 * 2**24])
        packets.insert(rng.randrange(len(packets) + 1), ipv4(OUTSIDE, dst, rng.choice(PROTOCOLS), bytes(20)))


def in_parts(rng, packets):
    """First or last fragments alone, of datagrams and of segments."""
    for number in range(rng.randrange(1, 6)):
        whole = rng.choice([ipv4(OUTSIDE, INSIDE, UDP, udp(OUTSIDE, INSIDE, 1, 2, bytes(24)), ident=number),
                            segment("> PA 1000,5001 abcdefgh", ident=number),
                            ipv4(OUTSIDE, INSIDE, ICMP, icmp(8, 0, bytes(24)), ident=number)])
        ip, message, cut = read_ipv4(whole), whole[20:], rng.choice([8, 24])
        parts = [ipv4(ip.src, ip.dst, ip.protocol, message[:cut], mf=True, ident=ip.ident),
                 ipv4(ip.src, ip.dst, ip.protocol, message[cut:], offset=cut, ident=ip.ident)]
        for part in rng.sample(parts, rng.choice([1, 1, 2])):
            packets.insert(rng.randrange(len(packets) + 1), part)


def far_away(rng, packets):
    """A sequence number or an acknowledgment at the edge of what is followed."""
    for at, packet in enumerate(packets):
        ip = read_ipv4(packet)
        if ip.protocol == TCP and not ip.mf and not ip.offset and rng.random() < 0.03:
            place = rng.choice([24, 28])
            number = (int.from_bytes(packet[place:place + 4], "big") + rng.choice([1, -1, 2**30, -2**30, 2**31, 100])
                      + rng.choice([0, 0, 1, -1]))
            changed = packet[:place] + (number % 2**32).to_bytes(4, "big") + packet[place + 4:]
            packets[at] = with_right_sum(changed)


def with_right_sum(packet):
    """The packet with the right checksum of TCP."""
    ip = read_ipv4(packet)
    blank = packet[:36] + two(0) + packet[38:]
    return packet[:36] + two(sum_for(blank[20:], pseudo_sum(ip.src, ip.dst, TCP, len(packet) - 20))) + packet[38:]


def forged(rng, packets):
    """One side acknowledges, or is said to, what comes later."""
    for _ in range(rng.choice([2, 3, 4, 6])):
        places = [at for at, packet in enumerate(packets) if read_ipv4(packet).protocol == TCP
                  and octets_of(packet) == 0]
        packet = packets[rng.choice(places or [0])]
        ip = read_ipv4(packet)
        if ip.protocol == TCP and not ip.mf and not ip.offset:
            number = int.from_bytes(packet[28:32], "big") + rng.choice([1, 2, 10, 100, 1000])
            packets.insert(rng.randrange(len(packets) + 1),
                           with_right_sum(packet[:28] + (number % 2**32).to_bytes(4, "big") + packet[32:]))


def stray(rng, packets):
    """Copies of segments, some moved by a few octets, with wrong checksums: of TCP, or of the
    header so that no side is read."""
    for _ in range(rng.choice([1, 3, 6, 12])):
        packet = rng.choice(packets)
        if read_ipv4(packet).protocol != TCP or len(packet) < 40:
            continue
        seq = (int.from_bytes(packet[24:28], "big") + rng.choice([0, 0, 1, -1, 5])) % 2**32
        copy = packet[:24] + seq.to_bytes(4, "big") + packet[28:]
        copy = rng.choice([copy[:36] + b"\0\1" + copy[38:], copy[:10] + b"\0\1" + copy[12:]])
        packets.insert(rng.randrange(len(packets) + 1), copy)
        if rng.random() < 0.5 and packet in packets:
            packets.remove(packet)


def beginnings(rng, packets):
    """Inward segments with payload, each of its own connection or all of one, without its
    beginning."""
    for number in range(rng.choice([3, 4, 5, 8])):
        port = rng.choice([52000 + number, 52000])
        packets.insert(rng.randrange(len(packets) + 1), segment("> PA %d,5001 a" % (1000 + number), outside_port=port))


def unread(rng, packets):
    """As many packets as there are, one more or one less, that are dropped before their payload is
    judged."""
    count = len(packets)
    for _ in range(max(0, count + rng.choice([-1, 0, 0, 1]))):
        packet = packets[0] if rng.random() < 0.1 else ipv4(OUTSIDE, INSIDE, UDP, bytes(8), ident=1)
        kind = rng.choice([b"\x65" + packet[1:], b"\x44" + packet[1:], packet[:10] + b"\0\1" + packet[12:], packet[:9],
                           packet[:9] + b"\2" + packet[10:],
                           ipv4(0, INSIDE, UDP, bytes(8)), ipv4(INSIDE, INSIDE + 1, UDP, bytes(8)),
                           ipv4(OUTSIDE, INSIDE, 2, bytes(8))])
        packets.append(kind)


DAMAGES = [forged, forged, stray, stray, beginnings, unread, removed, removed, delayed, delayed, repeated, repeated,
           one_sided, from_later, fewer, summed, headed, strangers, strangers, tunnelled,
           in_parts, far_away]


# What makes packets that the others could not read.
LAST = [unread]


def framed(rng, packets):
    """The packets in Ethernet frames, and few frames that norm does not read, or as many as there
    are others."""
    frames = [bytes(12) + b"\x08\0" + packet for packet in packets]
    for _ in range(rng.choice([0, 1, 3, 6, len(packets) // 2, len(packets)])):
        frame = bytes(12) + bytes.fromhex(rng.choice(FRONTS)) + rng.choice([b"", b"", packets[0] if packets else b""])
        frames.insert(rng.randrange(len(frames) + 1), frame[:rng.choice([None, None, 13, 14, 17, 18, 20, 22, 38, 39])])
    return frames


def noted_run(rng):
    """The options of a run, and the octets of a capture."""
    if rng.random() < 0.02:
        return [], head(link=rng.choice([ETHERNET, RAW]))
    packets = traffic(rng, rng.choice([1, 5, 20, 40]))
    del packets[rng.choice([9, 17, 33, 50, 50, 80, 80, 300]):]
    for damage in sorted((rng.choice(DAMAGES) for _ in range(rng.choice([1, 1, 1, 2, 3]))), key=LAST.count):
        damage(rng, packets)
        packets = packets or [segment("> S 999")]
    link = rng.choice([ETHERNET, RAW])
    snapped = rng.choice([0, 0, 0, 0, 0.05])
    octets = head(link=link)
    for number, frame in enumerate(framed(rng, packets) if link == ETHERNET else packets):
        short = frame[:-rng.randrange(1, 30)] if rng.random() < snapped else frame
        octets += record(short, number // 50, original=len(frame))
    return rng.choice(OPTIONS), octets
