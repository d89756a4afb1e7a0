"""Parts of check/live/bridge: frames of each kind, which count each raises, and what crosses."""

import socket
import struct
import time

from lib.network import INSIDE, OUTSIDE
from lib.talk import PATIENCE
from live.parts import ended, part, require
from live.program import total
from live.raw import caught, ethernet, frames_of, received
from model.packets import address, ipv4, udp

ARP_TYPE, SOL_PACKET, VIRTUAL_HEADER = b"\x08\x06", 263, 15

# Frames of each kind from each side.
EACH = 50

OTHER = {"outside": "hosts", "hosts": "outside"}

# Addresses and a station of no host, so that no host learns or answers what is sent for them.
NOBODY, STATION = {"outside": "198.51.100.77", "hosts": "10.77.0.1"}, b"\2\0\0\0\0\1"


def datagram(source, target, payload=b"counted", **fields):
    here, there = address(source), address(target)
    return ipv4(here, there, 17, udp(here, there, 7, 9, payload), **fields)


def arp(host, **fields):
    """The 28 octets of a host's request for an address of the other side, but for these fields."""
    asked = {"hardware": 1, "protocol": 0x0800, "lengths": (6, 4), "operation": 1, "mac": STATION,
             "sender": NOBODY[host], "target": NOBODY[OTHER[host]], **fields}
    return (struct.pack("!HHBBH", asked["hardware"], asked["protocol"], *asked["lengths"], asked["operation"])
            + asked["mac"] + socket.inet_aton(asked["sender"]) + bytes(6) + socket.inet_aton(asked["target"]))


def kinds(line, host):
    """Pairs of a count's name and a frame that a host sends."""
    here, there = (OUTSIDE, INSIDE) if host == "outside" else (INSIDE, OUTSIDE)

    def frame(kind, payload):
        return ethernet(line, host, OTHER[host], payload, kind)

    yield "given", frame(b"\x08\0", datagram(here, there))
    yield "forged", frame(b"\x08\0", datagram(there, here))
    yield "arp", frame(ARP_TYPE, arp(host))
    yield "forged", frame(ARP_TYPE, arp(host, sender=there))
    yield "unjudged", frame(b"\x86\xdd", bytes.fromhex("6000000000003b40") + bytes(32))
    yield "unjudged", frame(b"\x81\0", b"\0\7\x08\0" + datagram(here, there))
    yield "unjudged", frame(ARP_TYPE, arp(host, hardware=6))
    # norm drops the one and changes the other.
    yield "given", frame(b"\x08\0", datagram(here, there, check=1))
    yield "given", frame(b"\x08\0", datagram(here, there, ttl=1))


@part("counts")
def counted(trial):
    line = trial.line
    with trial.bridge() as bridge:
        before, sent = bridge.counts(), {}
        for host in ("outside", "hosts"):
            with frames_of(line, host, protocol=0) as sender:
                for name, frame in kinds(line, host):
                    sent[name] = sent.get(name, 0) + EACH
                    for _ in range(EACH):
                        sender.send(frame)
        now = ended(bridge)
    for what, count in sent.items():
        risen = total(now, what) - total(before, what)
        # The hosts themselves send ARP and are answered.
        right = risen == count if what in ("forged", "unjudged") else risen >= count
        require(right, "%d frames are counted as %s, of %d" % (risen, what, count))
    return "%d frames of %d kinds: each counted, as the interfaces and the report count them" % (
        sum(sent.values()), sum(sent.values()) // 2 // EACH)


# ARP of a host: what differs from a plain request, with `here` for an address of its side, and
# whether it crosses.
ARP = (
    ("a request", {}, True),
    ("an answer", {"operation": 2}, True),
    ("operation 0", {"operation": 0}, False),
    ("operation 3", {"operation": 3}, False),
    ("operation 65535", {"operation": 65535}, False),
    ("a sender of the other side", {"sender": "there"}, False),
    ("a request for an address of its side", {"target": "here"}, True),
    ("a probe of an address of its side", {"sender": "0.0.0.0", "target": "here"}, True),
    ("a probe of an address of the other side", {"sender": "0.0.0.0", "target": "there"}, False),
    ("other hardware", {"hardware": 6}, False),
    ("another protocol", {"protocol": 0x86dd}, False),
    ("other lengths", {"lengths": (8, 4)}, False),
)


@part("ARP")
def arp_frames(trial):
    """What follows the 28 octets of ARP does not cross: zeros do."""
    line = trial.line
    with trial.bridge() as bridge:
        for host, other in OTHER.items():
            names, wanted = {"here": NOBODY[host], "there": NOBODY[other]}, set()
            with frames_of(line, host, protocol=0) as sender, frames_of(line, other) as taker:
                for number, (_, fields, crosses) in enumerate(ARP):
                    fields = {name: names.get(value, value) if name in ("sender", "target") else value
                              for name, value in fields.items()}
                    octets = arp(host, mac=b"\2\0\0\0\1" + bytes([number]), **fields)
                    sender.send(ethernet(line, host, other, octets + b"\xee" * 18, ARP_TYPE))
                    if crosses:
                        wanted.add((number, octets))
                sender.send(ethernet(line, host, other, arp(host, mac=b"\2\0\0\0\1\xff")[:27], ARP_TYPE))
                frames = received(taker, lambda frame: frame[12:14] == ARP_TYPE and frame[22:27] == b"\2\0\0\0\1")
            found = {(frame[27], frame[14:42]) for frame in frames}
            for number, _ in found ^ wanted:
                what, _, crosses = ARP[number] if number < len(ARP) else ("a frame cut short", None, False)
                require(False, "%s from the %s %s" % (what, host, "does not cross as it was" if crosses else "crosses"))
            require(all(len(frame) <= 60 and not any(frame[42:]) for frame in frames),
                    "octets after those of ARP cross from the %s" % host)
        ended(bridge)
    return "%d kinds each way: requests and answers of their own side cross, with zeros after them" % (len(ARP) + 1)


TAGS = [bytes.fromhex(tag) for tag in ("81000005", "81000000", "8100e005", "88a80005", "88a8000581000005", "91000005")]


@part("tagged frames")
def tagged(trial):
    """A network card, and veth, take the tag off a frame before a packet socket gets it."""
    line, mark = trial.line, b"tagged" * 8
    with trial.bridge() as bridge:
        before = bridge.counts()
        for host, other in OTHER.items():
            here, there = NOBODY[host], NOBODY[other]
            with frames_of(line, host, protocol=0) as sender, frames_of(line, other) as taker:
                for tag in TAGS:
                    sender.send(ethernet(line, host, other, b"", tag) + b"\x08\0" + datagram(here, there, mark))
                    sender.send(ethernet(line, host, other, b"", tag) + ARP_TYPE + arp(host) + mark)
                frames = received(taker, lambda frame: mark in frame or b"\x08\x06" in frame[:22])
            require(not frames, "%d tagged frames cross from the %s" % (len(frames), host))
        now = ended(bridge)
    risen, sent = total(now, "unjudged") - total(before, "unjudged"), 4 * len(TAGS)
    require(risen == sent, "%d frames are counted as unjudged, of %d" % (risen, sent))
    return "%d frames with one tag and with two: none crosses" % sent


@part("merged frames", "ethtool")
def merged(trial):
    """A card that merges segments gives frames that are longer than a slot of the ring."""
    line, offloads = trial.line, ("tx", "sg", "tso", "gso")
    with trial.bridge() as bridge:
        for host, device in (("outside", "eth0"), ("bridge", "ext")):
            for one in offloads:
                line.run(host, "ethtool", "-K", device, one, "on", check=False)
        try:
            with frames_of(line, "outside", protocol=0) as sender:
                sender.setsockopt(SOL_PACKET, VIRTUAL_HEADER, 1)
                frame = ethernet(line, "outside", "hosts", ipv4(address(OUTSIDE), address(INSIDE), 6, bytes(9000)))
                for _ in range(EACH):
                    # Segments of 1,400 octets, whose checksums are still to be filled in.
                    sender.send(struct.pack("=BBHHHH", 1, 1, 54, 1400, 34, 16) + frame[:46] + b"\x50" + frame[47:])
            time.sleep(0.2)
            counts = bridge.counts()
            require(line.answers(PATIENCE), "after frames that were merged nothing passes")
        finally:
            for host, device in (("outside", "eth0"), ("bridge", "ext")):
                for one in reversed(offloads):
                    line.run(host, "ethtool", "-K", device, one, "off", check=False)
        ended(bridge)
        warned = [one for one in bridge.words().splitlines() if "ethtool" in one and "gro" in one]
    cut = counts["outside.truncated"]
    require(cut == EACH, "%d of %d are counted as truncated" % (cut, EACH))
    require(len(warned) == 1, "%d lines warn of it" % len(warned))
    return "%d frames of %d octets: counted, warned of once" % (EACH, len(frame))
