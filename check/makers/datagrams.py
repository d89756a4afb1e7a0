"""UDP and ICMP messages, and segments by themselves, at the edge of each rule on their headers."""

from makers.world import chance, inside_address, outside_address
from model.formats import ICMP, TCP, UDP, pseudo_sum, sum_for, two
from model.packets import icmp, ipv4, tcp, udp

TYPES = [0, 3, 8, 11, 12, 13, 14, 1, 2, 4, 5, 9, 10, 15, 255]

GOOD_OPTIONS = [b"", b"\1\1\1\1", b"\2\4\5\xb4", b"\1\3\3\7", b"\4\2\1\1", b"\1\1\5\x0a" + b"\0" * 8,
                b"\1\1\5\x12" + b"\1" * 16, b"\1\1\5\x1a" + b"\1" * 24,
                b"\1\1\x08\x0a\0\0\0\1\0\0\0\0", b"\0\0\0\0", b"\1\0\0\0", b"\2\4\5\xb4\1\3\3\x0f\4\2\0\0"]

ODD_OPTIONS = [b"\xfe\4\1\2", b"\2\4\5\xb4\2\4\5\xb4", b"\3\3\1\3\3\2\1\1", b"\3\4\1\1", b"\4\3\0\1", b"\2\3\0\1",
               b"\0\0\0\1", b"\0\1\1\1", b"\0\1\0\0", b"\1\1\x1e\2", b"\x1e\3\7\1", b"\5\2\1\1",
               b"\5\x0b" + b"\0" * 10, b"\5\x22" + b"\0" * 34,
               b"\x08\x09" + b"\0" * 8 + b"\0\0", b"\x1e\2\1\1", b"\3\3\4\3\4\1\0\0",
               b"\5\x0a" + b"\2" * 8 + b"\5\x0a" + b"\3" * 8]

BAD_OPTIONS = [b"\2\5\5\xb4", b"\2\0\0\0", b"\3\1\0\0", b"\1\1\1\2", b"\1\1\1\xfe", b"\x08\x0a\0\0", b"\1\1\5\3"]


def sides(world, inbound):
    outside, inside = outside_address(world), inside_address(world)
    return (outside, inside) if inbound else (inside, outside)


def octets(world, length):
    return bytes(world.rng.randrange(256) for _ in range(length))


def udp_message(world, src, dst):
    rng = world.rng
    message = udp(src, dst, 40000, rng.choice([53, 80]), octets(world, rng.choice([0, 1, 2, 8, 9, 30, 100])))
    choice = rng.randrange(12)
    if choice == 0:
        return message[:rng.choice([0, 1, 6, 7, 8])]
    if choice == 1:
        return udp(src, dst, 40000, 53, b"hi", length=rng.choice([0, 8, 9, 10, 11]))
    if choice in (2, 3):
        return message[:6] + two(rng.choice([0, 0, 1, 65535, rng.randrange(65536)])) + message[8:]
    if choice == 4:
        return zero_udp(src, dst, rng.choice([0, 65535, 1, 65534]))
    return message


def zero_udp(src, dst, check):
    """A message whose right checksum is a zero, with this checksum: one of the two zeros, or a
    wrong one."""
    message = udp(src, dst, 40000, 53, b"\0\0hi", check=0)
    right = sum_for(message, pseudo_sum(src, dst, UDP, len(message)))
    return message[:6] + two(check) + two(right) + message[10:]


def live_connection(world):
    """A four-tuple of which an era is live, from the inside out, or one that nobody knows."""
    live = list(world.engine.live)
    if live and chance(world, 70):
        outside, outside_port, inside, inside_port = world.rng.choice(live)
        return inside, outside, inside_port, outside_port
    return inside_address(world), outside_address(world), 80, world.rng.choice([40000, 50000])


def icmp_quote(world):
    """What an error quotes: a packet from the inside, at the edge of what may be quoted."""
    rng = world.rng
    src, dst, sport, dport = live_connection(world)
    if chance(world, 15):
        src, dst = rng.choice([(dst, src), (src, src), (dst, dst)])
    options = rng.choice([b"", b"", b"\1\1\1\1"])
    version = 4 if chance(world, 93) else rng.choice([0, 5, 6])
    header = None if chance(world, 93) else rng.choice([0, 4, 5, 6, 15])
    ports = two(sport) + two(dport) + b"\0\0\0\0"
    quote = ipv4(src, dst, rng.choice([TCP, TCP, TCP, UDP, ICMP]), ports, options=options, version=version,
                 header=header)
    return quote if chance(world, 80) else quote[:rng.choice([len(quote) - 1, 20, 1, 0])]


def icmp_message(world):
    rng = world.rng
    kind = rng.choice(TYPES[:7] if chance(world, 70) else TYPES)
    rest = octets(world, 4) + (icmp_quote(world) if kind in (3, 11, 12) else octets(world, rng.choice([0, 1, 8, 56])))
    message = icmp(kind, rng.randrange(3), rest)
    choice = rng.randrange(14)
    if choice == 0:
        short = rng.choice([0, 3, 4, 7, 8])
        return icmp(kind, 0, b"\0\0\0\0")[:short]
    if choice == 1:
        return message[:2] + two(rng.randrange(65536)) + message[4:]
    if choice == 2:
        return icmp(0, 0, b"\0" * rng.choice([4, 5, 12]), check=rng.choice([0, 65535]))
    return message


def zero_tcp(world, src, dst):
    """A segment whose right checksum is a zero, with one of the two zeros or a wrong one."""
    flags = world.rng.choice([2, 16, 18])
    made = tcp(src, dst, 41000 + world.rng.randrange(9), 80, world.rng.randrange(2**32), 5, flags, window=0, check=0)
    right = sum_for(made, pseudo_sum(src, dst, TCP, len(made)))
    return made[:14] + two(right) + two(world.rng.choice([0, 65535, 1, 65534])) + made[18:]


def lone_segment(world, src, dst):
    """A segment with a header at the edge of its rules; its numbers are of no connection."""
    rng = world.rng
    if chance(world, 10):
        return zero_tcp(world, src, dst)
    message = octets(world, rng.choice([0, 1, 4]))
    flags = rng.randrange(256) if chance(world, 60) else rng.choice([2, 18, 16, 17, 4, 20])
    fields = {"options": rng.choice(rng.choice([GOOD_OPTIONS, ODD_OPTIONS, BAD_OPTIONS]))}
    if chance(world, 10):
        fields["header"] = rng.choice([0, 4, 5, 6, 15])
    if chance(world, 20):
        fields["reserved"] = rng.randrange(16)
    if chance(world, 20):
        fields["check"] = rng.choice([0, 65535, rng.randrange(65536)])
    made = tcp(src, dst, 41000 + rng.randrange(3), 80, rng.randrange(2**32), rng.randrange(2**32), flags, message,
               **fields)
    return made[:rng.choice([0, 8, 13, 19, 20])] if chance(world, 6) else made


def large_message(world, src, dst):
    """A message as large as a packet can be, or one octet less."""
    rng = world.rng
    length = 65515 - rng.choice([0, 1, 40])
    if chance(world, 50):
        return UDP, udp(src, dst, 40000, 53, bytes([rng.randrange(256)]) * (length - 8))
    return ICMP, icmp(8, 0, bytes([rng.randrange(256)]) * (length - 4))


def any_message(world):
    """Addresses, protocol and message."""
    rng = world.rng
    src, dst = sides(world, chance(world, 65))
    choice = rng.randrange(100)
    if choice < 1:
        return (src, dst) + large_message(world, src, dst)
    if choice < 40:
        return src, dst, UDP, udp_message(world, src, dst)
    if choice < 75:
        return src, dst, ICMP, icmp_message(world)
    return src, dst, TCP, lone_segment(world, src, dst)
