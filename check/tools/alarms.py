"""What is an alarm for norm-run: each attack of which receivers read other octets, and nothing of
what is usual on a mirror port."""

import itertools
import json
import os
from types import SimpleNamespace

from lib.outcome import Fault
from makers.files import make_capture
from model.formats import ACK, ICMP, RST, SYN, UDP, read_ipv4, sum_right, write_ipv4
from model.fragment_rows import datagram_key, is_fragment
from model.packets import INSIDE, OUTSIDE, capture_of, icmp, inward, ipv4, opening, segment, udp
from model.receivers import agree, deliver
from pages.evasion_page import made_capture, read_cases
from receivers.attacks import normalized
from receivers.connections import flat, packets_of_eras
from receivers.packets import is_right, tcp_of
from tools.norm_run_command import INSIDE as PREFIX, equal
from tools.troubles import IPV4, IPV6, MAC, ethernets, turns

# Random attacks on which receivers differ, by seed and number: a search among all takes minutes.
ATTACKS = ("1 6", "1 19", "1 27", "1 64", "1 86")

ROWS = []


def row(test):
    """Keeps a test, which is given a Place and returns nothing, or raises a Fault."""
    ROWS.append(test)
    return test


def judged(place, octets, *words):
    """Returns the status and the evidence of norm-run on a capture."""
    place.put("alarm.pcap", octets)
    _, out, said = place.call("--json", "--force", *words[:-1], "alarm.pcap", words[-1])
    record = json.loads(out)
    return record["status"], record.get("evidence") or said


@row
def each_evasion_is_an_alarm(place):
    """But for the flood, in which no octets are sent."""
    for case in read_cases():
        status, evidence = judged(place, made_capture(case), *case.prose["options"].split(), PREFIX)
        equal("%s: %s" % (case.name, evidence), 0 if case.name == "syn-flood" else 11, status)


# Receivers of what was sent

READERS = (lambda packet, tcp: True, lambda packet, tcp: is_right(packet) and sum_right(packet[:20], 0),
           lambda packet, tcp: read_ipv4(packet).ttl > 20, lambda packet, tcp: tcp.reserved == 0,
           lambda packet, tcp: read_ipv4(packet).header == 20, lambda packet, tcp: tcp.flags & (RST | ACK))


def joined(packets, keep):
    """The packets, with one for the fragments of a datagram; `keep` puts an octet at its offset."""
    held = {}
    for packet in packets:
        ip = read_ipv4(packet)
        if not is_fragment(ip):
            yield packet
            continue
        octets, ends = held.setdefault(datagram_key(ip), ({}, []))
        for place, octet in enumerate(packet[ip.header:ip.total], ip.offset):
            keep(octets, place, octet)
        ends += [] if ip.mf else [ip.offset + ip.total - ip.header]
        if ends and all(place in octets for place in range(ends[0])):
            del held[datagram_key(ip)]
            yield write_ipv4(ip, ip.ttl, bytes(octets[place] for place in range(ends[0])))


def streams(era, packets):
    """What receivers have of the inbound packets of an era, each in its own way."""
    for keep in (dict.setdefault, dict.__setitem__):
        read = [(it, tcp_of(it)) for it in joined([it.octets for it in packets if it.inward], keep)]
        read = [(packet, tcp) for packet, tcp in read if tcp is not None and not tcp.flags & SYN]
        for takes in READERS:
            yield from deliver([packet for packet, tcp in read if takes(packet, tcp)], era.base, 0)


def is_read_in_two_ways(attack):
    for era, packets in zip(attack.eras, packets_of_eras(attack.settings, attack.eras, flat(attack.sent))):
        if any(not agree(*pair) for pair in itertools.combinations(streams(era, packets), 2)):
            return True
    return False


@row
def attacks_that_are_read_in_two_ways(place):
    """Random attacks of which two of these receivers have other octets at one offset."""
    norm = os.path.join(place.environ["PATH"].split(os.pathsep)[0], "norm")
    for name in ATTACKS:
        words, octets, _ = make_capture(name, both=0)
        attack = SimpleNamespace(name=name, kind="random", words=words, octets=octets)
        equal(name + " is read in two ways", True, normalized(norm, attack, place.path) and is_read_in_two_ways(attack))
        at = attack.words.index("IN")
        place.put("alarm.pcap", attack.octets)
        place.wants(11, "--force", *attack.words[1:at], "alarm.pcap", *attack.words[at + 2:])


@row
def attacks_that_no_rule_names_as_such(place):
    """Other octets in a fragment that does not arrive; octets after a reset that no host takes; and
    other octets while norm has no room for either."""
    first, last = segment("> PA 1000,5001 abcdevil")[20:36], segment("> PA 1000,5001 abcdevil")[36:]
    real = bytes(it ^ 1 for it in last)
    attacks = {
        "a fragment": [ipv4(OUTSIDE, INSIDE, 6, first, ident=7, mf=True, ttl=64),
                       ipv4(OUTSIDE, INSIDE, 6, last, ident=7, offset=16, ttl=1),
                       ipv4(OUTSIDE, INSIDE, 6, real, ident=7, offset=16, ttl=64)],
        "a reset with a wrong checksum": [segment("> R 1000", check=1), segment("> PA 1000,5001 abcd")],
        "no room": [segment("> PA 1000,5001 " + it * 300) for it in ("a", "b")]}
    for name, packets in attacks.items():
        status, evidence = judged(place, capture_of(opening() + packets), "--cells", "1", PREFIX)
        equal("%s: %s" % (name, evidence), 11, status)


# What is usual

def of_a_switch():
    """Frames that a switch, a router and hosts send of their own accord."""
    group, own = bytes.fromhex("0180c200000e"), MAC[6:]
    router, outsider, printer = 0xC0000201, 0xCB007109, 0xA9FE0707
    quoted = udp(outsider, 0xCB007101, 4000, 53, b"x")
    yield group + own + b"\x88\xcc" + bytes.fromhex("0207040200000000010403020001060200780000")
    yield group[:5] + b"\0" + own + b"\0\x26" + bytes.fromhex("424203") + bytes(35)
    yield MAC + b"\x08\x06" + bytes.fromhex("0001080006040001") + bytes(20)
    yield MAC + IPV6 + b"\x60\0\0\0\0\x08\x3a\xff" + bytes.fromhex("fe80") + bytes(14) + bytes.fromhex(
        "ff02000000000000000000000000000285007bb800000000")
    for packet in (ipv4(INSIDE + 1, 0xE0000012, 112, b"\x21\1\x64\1" + bytes(12), ttl=255),
                   ipv4(router, 0xE0000012, 112, b"\x21\1\x64\1" + bytes(12), ttl=255),
                   ipv4(0, 0xFFFFFFFF, UDP, udp(0, 0xFFFFFFFF, 68, 67, bytes(300))),
                   ipv4(INSIDE, 0xE00000FB, UDP, udp(INSIDE, 0xE00000FB, 5353, 5353, bytes(20)), ttl=255),
                   ipv4(printer, 0xE00000FB, UDP, udp(printer, 0xE00000FB, 5353, 5353, bytes(20)), ttl=255),
                   ipv4(INSIDE, INSIDE | 255, UDP, udp(INSIDE, INSIDE | 255, 137, 137, bytes(20))),
                   ipv4(router, outsider, ICMP, icmp(3, 1, bytes(4) + ipv4(outsider, 0xCB007101, UDP, quoted)))):
        yield MAC + IPV4 + packet


@row
def a_mirror_port_is_no_alarm(place):
    """Nor do padded frames and scans count as octets of a connection."""
    packets = opening() + turns() + [segment("> A 1096,5097"), segment("> R 7", outside_port=9),
                                     segment("> SF 7", outside_port=9)]
    frames = ethernets(packets)[:24] + b"".join(ethernets([it])[24:] for it in packets)
    padded = MAC + IPV4 + segment("> A 1096,5097") + bytes(6)
    place.put("alarm.pcap", frames + b"".join(ethernet_record(it) for it in [padded, *of_a_switch()]))
    place.wants(0, "alarm.pcap", PREFIX, has=["contradictions 0", "differs 0", "noise 11"])


def ethernet_record(frame):
    return bytes(8) + len(frame).to_bytes(4, "little") * 2 + frame


@row
def usual_traffic_is_no_alarm(place):
    """A late copy, the octet of a keep-alive, the end by a reset, octets past the window that are
    sent again, a connection that began before IN, octets in fragments, and a traceroute."""
    text = segment("> PA 1000,5001 abcdefgh")
    usual = {
        "a late copy": [text, segment("< A 5001,1008"), text],
        "a keep-alive": [text, segment("< A 5001,1008"), segment("> A 1007,5001 x"), segment("< A 5001,1008")],
        "a reset": [text, segment("< A 5001,1008"), segment("> R 1008"), segment("> R 1008")],
        "past the window": [segment("< A 5001,1000", window=4), text, segment("< A 5001,1004", window=8192), text],
        "fragments": [ipv4(OUTSIDE, INSIDE, UDP, part, ident=7, mf=not at, offset=at) for at, part in
                      ((0, udp(OUTSIDE, INSIDE, 7, 8, bytes(24))[:16]), (16, bytes(16)))],
        "a traceroute": [inward(UDP, udp(OUTSIDE, INSIDE, 7, 33434, bytes(12)), ttl=1)]}
    for name, packets in usual.items():
        status, evidence = judged(place, capture_of(opening() + packets), PREFIX)
        equal("%s: %s" % (name, evidence), (0, 0, True), (status, evidence["contradictions"], evidence["records"] > 0))
    status, evidence = judged(place, capture_of([text, segment("< A 5001,1008"), text]), PREFIX)
    if status == 11:
        raise Fault("a connection that began before IN: %s" % evidence)
