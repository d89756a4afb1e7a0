"""Captures as they are in trouble, each with what norm-run is to make of it:
docs/TROUBLESHOOTING.md has the table."""

import gzip

from model.formats import UDP, pseudo_sum, two
from model.packets import INSIDE, OUTSIDE, capture_of, head, opening, record, segment, tcp, udp

# The octets of a segment, and how many segments a conversation has in each direction.
TEXT, TURNS = "abcdefgh", 12

MAC = b"\2\0\0\0\0\1" + b"\2\0\0\0\0\2"

IPV4, VLAN, IPV6 = b"\x08\x00", b"\x81\x00", b"\x86\xdd"

MAKERS = {}


def made(name):
    """Names the file that the function below makes."""
    def keep(make):
        MAKERS[name] = make
        return make
    return keep


def turns(first=0, last=TURNS, **fields):
    """Questions from outside, each answered, with the first TCP header fields that are given."""
    packets = []
    for turn in range(first, last):
        at = turn * len(TEXT)
        packets += [segment("> PA %d,%d %s" % (1000 + at, 5001 + at, TEXT), ident=100 + turn, **fields),
                    segment("< PA %d,%d %s" % (5001 + at, 1000 + at + len(TEXT), TEXT), ident=200 + turn)]
    return packets


def conversation():
    return opening() + turns()


def ethernets(packets, front=MAC + IPV4):
    return head(link=1) + b"".join(record(front + it) for it in packets)


@made("vlan.pcap")
def vlan():
    return ethernets(conversation(), MAC + VLAN + two(7) + IPV4)


@made("ipv6.pcap")
def ipv6():
    """A question and its answer by UDP, again and again."""
    hosts = [b"\x20\x01\x0d\xb8" + bytes(11) + bytes([it]) for it in (1, 2)]
    packets = []
    for turn in range(TURNS):
        for source, target in (hosts, hosts[::-1]):
            message = udp(OUTSIDE, INSIDE, 5353 + turn, 53, TEXT.encode())
            packets.append(b"\x60\0\0\0" + two(len(message)) + bytes([UDP, 64]) + source + target + message)
    return ethernets(packets, MAC + IPV6)


@made("converted.pcap")
def converted():
    """Ethernet frames that were named raw IP."""
    return capture_of([MAC + IPV4 + it for it in conversation()])


@made("empty.pcap")
def empty():
    return head()


@made("one-way.pcap")
def one_way():
    return capture_of([it for at, it in enumerate(conversation()) if at == 0 or at == 2 or at > 2 and at % 2 == 1])


@made("swapped.pcap")
def swapped():
    return capture_of(conversation())


@made("foreign.pcap")
def foreign():
    return capture_of(conversation())


def card_sum(length):
    """The checksum that a sender leaves to its card: the sum of the pseudo header."""
    total = pseudo_sum(INSIDE, OUTSIDE, 6, length)
    while total > 65535:
        total = total % 65536 + total // 65536
    return total


def answered_by_card(packet):
    """The packet with the checksum that its sender leaves to a card."""
    sent = packet[:36] + two(card_sum(len(packet) - 20)) + packet[38:]
    return sent if packet[12:16] == INSIDE.to_bytes(4, "big") else packet


@made("card.pcap")
def card():
    return capture_of([answered_by_card(it) for it in conversation()])


def cooked(octets):
    """The header of cooked mode, of 16 or 20 octets, before each packet."""
    front = bytes([0, 0, 0, 1, 0, 6]) + MAC[:6] + two(0) + IPV4
    if octets == 20:
        front = IPV4 + two(0) + bytes([0, 0, 0, 2, 0, 1, 0, 6]) + MAC[:6] + two(0)
    return head(link={16: 113, 20: 276}[octets]) + b"".join(record(front + it) for it in conversation())


@made("cooked.pcap")
def cooked_1():
    return cooked(16)


@made("any.pcap")
def cooked_2():
    return cooked(20)


@made("packed.pcap.gz")
def packed():
    return gzip.compress(capture_of(conversation()), mtime=0)


@made("cut.pcap")
def cut():
    return capture_of(conversation())[:-5]


@made("repaired.pcap")
def repaired():
    return cut()


@made("joined.pcap")
def joined():
    """Files of one capture, the answers' before the questions'."""
    packets = opening()
    for turn in range(TURNS):
        question, answer = turns(turn, turn + 1)
        packets += [answer, question]
    return capture_of(packets)


@made("lost.pcap")
def lost():
    packets = conversation()
    del packets[7]
    return capture_of(packets)


@made("twice.pcap")
def twice():
    return capture_of([copy for it in conversation() for copy in (it, it)])


@made("middle.pcap")
def middle():
    return capture_of(conversation()[7:])


def block(kind, body):
    body += bytes(-len(body) % 4)
    length = (12 + len(body)).to_bytes(4, "little")
    return kind.to_bytes(4, "little") + length + body + length


@made("two.pcapng")
def two_interfaces():
    """Two interfaces, ext and int; each packet is taken where it arrives."""
    blocks = [block(0x0A0D0D0A, bytes.fromhex("4d3c2b1a01000000ffffffffffffffff"))]
    for name in (b"ext", b"int"):
        blocks.append(block(1, bytes.fromhex("650000000000040002000300") + name + bytes(1) + bytes(4)))
    for packet in conversation():
        number = int(packet[12:16] == INSIDE.to_bytes(4, "big"))
        length = len(packet).to_bytes(4, "little")
        blocks.append(block(6, number.to_bytes(4, "little") + bytes(8) + length + length + packet))
    return b"".join(blocks)


@made("nothing.pcap")
def nothing():
    return b""


@made("virtual.pcap")
def virtual():
    """Each checksum is the sum of the pseudo header, but those of the SYNs."""
    return capture_of(opening() + [it[:36] + two(card_sum(len(it) - 20)) + it[38:] for it in turns()])


@made("router.pcap")
def router():
    """Each packet on both interfaces of a router, in cooked mode: as it comes in, and then with the
    TTL of the next link."""
    records = []
    for packet in conversation():
        nearer = packet[:8] + bytes([packet[8] - 1]) + packet[9:10] + two(
            int.from_bytes(packet[10:12], "big") + 256) + packet[12:]
        for kind, copy in ((0, packet), (4, nearer)):
            records.append(record(bytes([0, kind, 0, 1, 0, 6]) + MAC[:6] + two(0) + IPV4 + copy))
    return head(link=113) + b"".join(records)


def blocks(options, statistics=b""):
    """A pcapng file with one interface of these options."""
    found = block(0x0A0D0D0A, bytes.fromhex("4d3c2b1a01000000ffffffffffffffff"))
    found += block(1, bytes.fromhex("6500000000000400") + options + bytes(4))
    for packet in conversation():
        length = len(packet).to_bytes(4, "little")
        found += block(6, bytes(12) + length + length + packet)
    return found + statistics


@made("offset.pcapng")
def offset():
    return blocks(bytes.fromhex("0e000800") + (1764547200).to_bytes(8, "little"))


@made("dropped.pcapng")
def dropped():
    """With the statistics that dumpcap writes at the end."""
    return blocks(b"", block(5, bytes(12) + bytes.fromhex("05000800") + (7).to_bytes(8, "little") + bytes(4)))


@made("hops.pcap")
def hops():
    """Questions with a TTL of 20."""
    return capture_of(opening() + turns(ttl=20))


@made("snapped.pcap")
def snapped():
    return head() + b"".join(record(it[:44], original=len(it)) for it in conversation())


@made("merged.pcap")
def merged():
    """Questions that the card joined, with the checksum of the first part."""
    packets = []
    for turn in range(0, TURNS):
        text = TEXT.encode() * 200
        message = tcp(OUTSIDE, INSIDE, 40000, 80, 1000 + turn * len(text), 5001, 0x18, text[:8])
        packets.append(segment("> PA %d,5001 " % (1000 + turn * len(text)), payload=text, ident=100 + turn,
                               check=int.from_bytes(message[16:18], "big")))
    return capture_of(opening() + packets)


def write_all(folder):
    """Writes each capture into a folder, under its name."""
    for name, make in MAKERS.items():
        with open("%s/%s" % (folder, name), "wb") as file:
            file.write(make())
