"""A capture for each rule, under which its last record but for a few falls, and the words of its
run: from these come the lines that docs/RULES.md shows."""

import os
from types import SimpleNamespace

from model.formats import ICMP, TCP, UDP
from model.packets import (INSIDE, OUTSIDE, address, capture_of, head, icmp, icmp_error, inward,
                           ipv4, opening, outward, record, segment,
                                udp)

TOP = os.path.dirname(os.path.dirname(os.path.dirname(os.path.abspath(__file__))))

PAGE = os.path.join(TOP, "docs", "RULES.md")

HI = inward(UDP, udp(OUTSIDE, INSIDE, 40000, 53, b"hi"))

QUERY = udp(OUTSIDE, INSIDE, 40000, 53, b"sixteen octets..")

ANSWER = udp(INSIDE, OUTSIDE, 53, 40000, b"hi", check=1)

PORT_1 = {"outside_port": 40001}


def raw(*packets, words=""):
    return SimpleNamespace(words=words.split(), octets=capture_of(packets))


def opened(*packets, words="", window=8192):
    return raw(*(opening(window) + list(packets)), words=words)


def captured(link, octets, **fields):
    return SimpleNamespace(words=[], octets=head(link=link) + record(octets, **fields))


def ethernet(kind, octets):
    return bytes(12) + bytes.fromhex(kind) + octets


def piece(first, last, ident=7, more=True, **fields):
    """A fragment of a UDP message with these of its octets."""
    return inward(UDP, QUERY[first:last], ident=ident, mf=more, offset=first, **fields)


def datagram(payload, **fields):
    return inward(UDP, udp(OUTSIDE, INSIDE, 40000, 53, payload), **fields)


def cut(packet, size):
    """The packet of a segment with this number of its octets."""
    return inward(TCP, packet[20:20 + size])


DATA = segment("> PA 1000,5001 abcd")

EXAMPLES = {
    "L_SNAP": captured(101, HI, original=60),
    "L_SHORT": captured(1, bytes(10)),
    "L_TYPE": captured(1, ethernet("86dd", bytes(40))),
    "I_SHORT": raw(HI[:12]),
    "I_VERSION": raw(datagram(b"hi", version=6)),
    "I_HLEN": raw(datagram(b"hi", header=4)),
    "I_LEN": raw(datagram(b"hi", total=0)),
    "I_SUM": raw(datagram(b"hi", check=1)),
    "I_SRC": raw(ipv4(0, address("255.255.255.255"), UDP, udp(0, address("255.255.255.255"), 68, 67, b"hi"))),
    "I_DST": raw(ipv4(INSIDE, address("255.255.255.255"), UDP, udp(INSIDE, address("255.255.255.255"), 68, 67, b"hi"))),
    "I_SIDE": raw(ipv4(INSIDE, INSIDE + 1, UDP, udp(INSIDE, INSIDE + 1, 40000, 53, b"hi"))),
    "I_OPT_BAD": raw(datagram(b"hi", options=bytes.fromhex("44000000"))),
    "I_ROUTE": raw(datagram(b"hi", options=bytes.fromhex("83030400"))),
    "P_PROTO": raw(inward(47, bytes(8))),
    "F_DF": raw(piece(8, 16, df=True)),
    "F_EMPTY": raw(piece(8, 8)),
    "F_ALIGN": raw(piece(0, 7)),
    "F_BIG": raw(inward(UDP, bytes(4), offset=65512)),
    "F_END": raw(piece(8, 16, more=False), piece(16, 24)),
    "F_CLASH": raw(piece(0, 16), inward(UDP, b"otherwise octets", ident=7, mf=True, offset=8)),
    "F_MANY": raw(piece(0, 16), piece(0, 16, ident=8), words="--frags 1"),
    "F_ROOM": raw(inward(UDP, bytes(65512), mf=True), piece(0, 16), words="--frag-cells 256"),
    "U_SHORT": raw(inward(UDP, bytes(4))),
    "U_LEN": raw(inward(UDP, udp(OUTSIDE, INSIDE, 40000, 53, b"hi", length=9))),
    "U_SUM": raw(inward(UDP, udp(OUTSIDE, INSIDE, 40000, 53, b"hi", check=1))),
    "M_SHORT": raw(inward(ICMP, bytes(4))),
    "M_SUM": raw(inward(ICMP, icmp(8, 0, bytes(4), check=1))),
    "M_TYPE": raw(inward(ICMP, icmp(5, 0, bytes(4)))),
    "M_QUOTE": raw(inward(ICMP, icmp_error(3, INSIDE, OUTSIDE, TCP, 80, 40000))),
    "T_SHORT": raw(cut(DATA, 12)),
    "T_HLEN": raw(segment("> PA 1000,5001 abcd", header=4)),
    "T_SUM": opened(segment("> PA 1000,5001 evil", check=1)),
    "T_FLAGS": raw(segment("> SF 999")),
    "T_OPT_BAD": opened(segment("> PA 1000,5001 abcd", options=bytes.fromhex("fe000101"))),
    "T_COLD": raw(segment("> R 1000")),
    "T_STATE": raw(segment("< S 5000"), segment("> SA 999,7000")),
    "T_SYN": opened(segment("> S 7000")),
    "T_RST": opened(segment("> R 1003")),
    "T_FULL": opened(DATA, segment("> S 999", **PORT_1), words="--flows 1"),
    "T_QUOTA": opened(segment("> PA 1000,5001", payload=bytes(300)), words="--quota 1"),
    "T_ROOM": opened(segment("> PA 1000,5001", payload=bytes(300)), words="--cells 1"),
    "I_TRAIL": raw(HI + bytes(6)),
    "I_OPT": raw(datagram(b"hi", options=bytes.fromhex("01010101"))),
    "I_RES": raw(datagram(b"hi", reserved=True)),
    "I_TTL": raw(datagram(b"hi", ttl=1)),
    "F_HELD": raw(piece(0, 16)),
    "F_DONE": raw(piece(0, 16), piece(16, 24, more=False)),
    "U_SUM_OUT": raw(outward(UDP, ANSWER), words="--offload"),
    "T_SUM_OUT": opened(segment("< PA 5001,1000 abcd", check=1), words="--offload"),
    "T_RES": opened(segment("> PA 1000,5001 abcd", reserved=5)),
    "T_URG": opened(segment("> UPA 1000,5001 abcd", urgent=1)),
    "T_OPT": opened(segment("> PA 1000,5001 abcd", options=bytes.fromhex("fe04aabb"))),
    "T_STRIP": raw(segment("> S 999 evil")),
    "C_PROBE": raw(DATA),
    "T_OLD": opened(DATA, segment("< A 5001,1004"), segment("> PA 1000,5001 abXd")),
    "T_WINDOW": opened(segment("> PA 1008,5001 evil"), window=4),
    "T_END": opened(segment("> FA 1000,5001"), DATA),
    "T_CLASH": opened(DATA, segment("> PA 1000,5001 abXd")),
    "E_CUT": opened(segment("> PA 1000,5001", payload=bytes(1100)), words="--mtu 576"),
    "E_MTU": raw(datagram(bytes(572)), words="--mtu 576"),
}


def rows_of(page):
    """By rule: the last cell of its row in the tables of the page."""
    rows = [[cell.strip() for cell in line.strip().strip("|").split("|")]
            for line in page.splitlines() if line.startswith("|")]
    return {row[1]: row[-1] for row in rows if len(row) > 3 and row[0].isdigit()}


def line_for(rule, report):
    """The first line of the report that names the rule, or None."""
    return next((line for line in report.splitlines() if rule in line.split()), None)
