"""IPv4 packets and frames at the edge of each rule on the link and on the header."""

from makers.world import chance, inside_address, near, outside_address, within
from model.capture import ETHERNET
from model.formats import two
from model.packets import address, ipv4

GOOD_OPTIONS = [b"\1\1\1\1", b"\x94\4\0\0", b"\x44\x0c\5\0" + b"\0" * 8, b"\0\0\0\0", b"\0\x83\3\4", b"\x88\4\0\1",
                b"\1\1\1\0", b"\x94\4\0\0" * 10, b"\x07\x07\4\0\0\0\0\0"]

ROUTE_OPTIONS = [b"\x83\3\4\0", b"\x89\3\4\0", b"\1\x83\3\4", b"\x94\4\0\0\x89\7\4\1\2\3\4\0", b"\x83\2\0\0"]

BAD_OPTIONS = [b"\x94\5\0\0", b"\x94\1\0\0", b"\x94\0\0\0", b"\1\1\1\x94", b"\1\1\x94\3", b"\x83\4\1\1\x44\2\x44\3",
               b"\x83\x05\0\0", b"\2\3\4\5"]

EDGE_SOURCES = [address(text) for text in
                ("0.0.0.1", "0.255.255.255", "1.0.0.0", "126.255.255.255", "127.0.0.1", "128.0.0.0",
                 "223.255.255.255", "224.0.0.1", "239.1.2.3", "240.0.0.1", "255.255.255.255")]


def ttl_field(world):
    hops = world.settings.hops
    return {"ttl": within(world.rng.choice([0, 1, hops - 1, hops, hops, hops + 1, hops + 2, 255]), 0, 255)}


def option_field(world):
    return {"options": world.rng.choice(world.rng.choice([GOOD_OPTIONS, GOOD_OPTIONS, ROUTE_OPTIONS, BAD_OPTIONS]))}


def length_fields(world, message):
    """The version, a header length or a total length at its edge."""
    rng = world.rng
    octets = 20 + len(message)
    return rng.choice([{"version": rng.choice([0, 3, 5, 6, 15])}, {"header": rng.choice([0, 4, 5, 6, 15])},
                       {"header": within(octets // 4 + rng.choice([0, 1]), 0, 15)},
                       {"total": rng.choice([0, 19, 20, 21])}, {"total": within(near(world, octets), 0, 65535)},
                       {"total": octets + 1}])


def mark_fields(world):
    rng = world.rng
    return rng.choice([{"reserved": True}, {"df": True}, {"tos": rng.randrange(256)}, {"ident": rng.randrange(65536)},
                       {"check": rng.choice([0, 65535, rng.randrange(65536)])}])


def header_fields(world, message):
    """Mostly none; otherwise one or two fields that are unusual."""
    rng, fields = world.rng, {}
    while chance(world, 15) and len(fields) < 3:
        choice = rng.randrange(10)
        if choice < 3:
            fields.update(ttl_field(world))
        elif choice < 5:
            fields.update(option_field(world))
        elif choice < 6:
            fields.update(length_fields(world, message))
        else:
            fields.update(mark_fields(world))
    return fields


def unusual_addresses(world, src, dst):
    """Addresses of both sides at the edge of what may be a source or a destination."""
    rng = world.rng
    edge = rng.choice(EDGE_SOURCES)
    return rng.choice([(edge, dst), (src, edge), (src, src), (dst, src), (inside_address(world), dst),
                       (src, outside_address(world)), (edge, edge)])


def both_zeros(packet):
    """The same header with the other of the two zeros as its checksum, where the checksum is a
    zero."""
    if packet[10:12] not in (b"\0\0", b"\xff\xff"):
        return packet
    return packet[:10] + (b"\xff\xff" if packet[10:12] == b"\0\0" else b"\0\0") + packet[12:]


def zero_sum_ident(packet):
    """The same packet with that identification which makes the checksum a zero."""
    words = int.from_bytes(packet[10:12], "big")
    ident = (int.from_bytes(packet[4:6], "big") + words) % 65535
    return packet[:4] + two(ident) + packet[6:10] + b"\0\0" + packet[12:]


def packet_of(world, src, dst, protocol, message, **fields):
    """A packet around this message, now and then with unusual fields."""
    if chance(world, 3):
        src, dst = unusual_addresses(world, src, dst)
    if chance(world, 1):
        protocol = world.rng.choice([0, 2, 47, 58, 255])
    fields = dict({"ident": world.rng.randrange(4), "ttl": 64}, **fields)
    fields.update(header_fields(world, message))
    if len(message) + 60 > 65535:
        fields.pop("options", None)
    packet = ipv4(src, dst, protocol, message, **fields)
    if chance(world, 2) and len(packet) >= 20:
        packet = zero_sum_ident(packet)
        if chance(world, 50):
            packet = both_zeros(packet)
    return packet


def padded(world, frame):
    if world.link == ETHERNET and len(frame) < 60 and chance(world, 30):
        return frame + bytes(60 - len(frame))
    if chance(world, 3):
        return frame + world.rng.choice([b"\0", b"x", b"\0" * 4, b"padding"])
    return frame


def frame_of(world, packet):
    """The octets of the record of a packet."""
    rng = world.rng
    if world.link != ETHERNET:
        return padded(world, packet)
    start = rng.choice([b"\2\0\0\0\0\1\2\0\0\0\0\2", bytes(rng.randrange(256) for _ in range(12))])
    kind = two(0x0800)
    if chance(world, 1):
        kind = two(rng.choice([0x0806, 0x86dd, 0x8100, 0x0801, 0, 0x0008]))
    return padded(world, start + kind + packet)


def odd_frame(world):
    """A frame that is no packet at all: ARP, too short, empty, or noise."""
    rng = world.rng
    noise = bytes(rng.randrange(256) for _ in range(rng.choice([0, 1, 13, 14, 19, 20, 33, 34, 60])))
    if world.link != ETHERNET:
        return rng.choice([noise, b"", b"\x45" + noise[1:]])
    if chance(world, 4):
        return bytes(12) + two(0x0806) + bytes(rng.choice([65535, 65536]))
    arp = bytes(12) + two(0x0806) + noise
    return rng.choice([noise, b"", arp, arp, bytes(12) + two(0x0800) + noise, bytes(rng.choice([12, 13]))])


def original_length(world, frame):
    """None for the frame's own, otherwise another: larger where the record was snapped."""
    if chance(world, 97.5):
        return None
    return within(len(frame) + world.rng.choice([1, 1, 1000, -1]), 0, 2**32 - 1)
