"""Which evidence is worth an alarm: the class of each record that `normview --evidence` prints."""

import ipaddress
import re
import struct
from collections import namedtuple

CLASSES = ("contradictions", "differs", "noise")
CONTRADICTS, DIFFERS, NOISE = CLASSES

# A line of a record as normview prints it, up to what is written for it: normview(1).
LINE = re.compile(r"(?P<record>\d+)(?:/\d+)? \S+ (?P<side>in|out|-) (?P<src>\S+) > (?P<dst>\S+) "
                  r"(?P<proto>ethertype \S+|\S+)(?: (?P<flags>\w+) seq (?P<seq>\d+) ack \d+)?(?: window \d+)?"
                  r"(?: type \d+ code \d+)?(?: id (?P<id>\d+) offset (?P<offset>\d+)(?: more)?)? len (?P<len>\d+) "
                  r"(?P<verdict>pass|fix|hold|drop)\b(?P<rest>.*?) (?:frames|given) \d")

RULE = re.compile(r" ([A-Z]_[A-Z_]+) \(")

# Other octets were sent for an offset or for the end of a datagram.
OTHERS_SENT = {"T_CLASH", "F_CLASH", "F_END"}

# Hosts and monitors differ on whether they take such octets, and no usual sender sends any.
ODD = {"I_HLEN", "I_LEN", "I_SUM", "I_OPT_BAD", "I_ROUTE", "I_OPT", "I_RES", "F_DF", "F_ALIGN", "F_BIG", "U_SHORT",
       "U_LEN", "U_SUM", "T_SHORT", "T_HLEN", "T_SUM", "T_FLAGS", "T_OPT_BAD", "T_RES"}

# Not all octets of the record were forwarded, so norm did not compare them with others.
CUT = {"T_OLD", "T_WINDOW", "T_END", "T_STRIP", "C_PROBE"}

# Octets of memory for what is looked for in IN, with 300 for each record.
MOST = 256 << 20

PROTOCOLS = {"icmp": 1, "tcp": 6, "udp": 17}

# A record about which IN decides. `key` is its connection or its datagram, and `start` its first
# sequence number or its offset. `needs` has the rule for which its octets have to be in another
# record too. `stops` has its flags at which a receiver may end or begin a stream.
Doubt = namedtuple("Doubt", "record key start length needs stops is_fragment")


def ends_of(text):
    """Returns an address and its port, None where there is none."""
    address, _, port = text.partition(":")
    return ipaddress.IPv4Address(address), int(port) if port else None


def network_of(prefix):
    """Returns a prefix as norm reads it: numbers may begin with zeros."""
    return ipaddress.ip_network(re.sub(r"\d+", lambda it: str(int(it[0])), prefix), strict=False)


def is_aside(address):
    """Returns whether an address is that of a group, of all hosts, of one link or of no host."""
    return (address.is_multicast or address.is_link_local or address.is_loopback or address.packed[0] in (0, 255)
            or address.packed[3] == 255)


def doubt_of(found, rules):
    """Returns what is looked for in IN, or None: other octets at the offsets of those that were not
    forwarded, or octets after a segment at which a stream may end or begin."""
    (src, sport), (dst, dport) = ends_of(found["src"]), ends_of(found["dst"])
    record, length, flags = int(found["record"]), int(found["len"]), found["flags"] or ""
    if found["id"]:
        protocol = PROTOCOLS.get(found["proto"]) or int(found["proto"])
        key = src.packed + dst.packed + struct.pack(">BH", protocol, int(found["id"]))
        # The length of a first fragment is without the header of its segment, of at most 60 octets.
        return Doubt(record, key, int(found["offset"]), length + 60, None, "", True)
    if not found["seq"] or "L_SNAP" in rules:
        return None
    is_dropped = found["verdict"] == "drop"
    stops = "".join(it for it in "SRF" if it in flags and (is_dropped or it == "R" and "C_PROBE" in rules))
    if not stops and not (length and (is_dropped or CUT & rules)):
        return None
    needs = "T_OLD" if "T_OLD" in rules else "T_STRIP" if "T_STRIP" in rules and "S" in flags else None
    key = src.packed + dst.packed + struct.pack(">HH", sport, dport)
    return Doubt(record, key, int(found["seq"]) + ("S" in flags), length, needs, stops, False)


def is_odd(found, rules):
    """Returns whether hosts differ on a segment or a message itself."""
    if found["proto"] not in ("tcp", "udp"):
        return False
    if "T_END" in rules and "T_WINDOW" not in rules:
        return True
    # Of a segment in fragments the octets are not looked for in IN.
    if found["proto"] == "tcp" and not found["seq"] and (CUT & rules or all(it.startswith("T_") for it in rules)):
        return True
    return found["len"] != "0" and bool(ODD & rules or "T_URG" in rules and "U" in (found["flags"] or ""))


class Alarm:
    """The classes of the records of evidence, and the doubts about which IN decides."""

    def __init__(self, prefixes):
        self.networks = [network_of(it) for it in prefixes]
        self.counts, self.doubts, self.octets = dict.fromkeys(CLASSES, 0), [], 0
        # The record whose lines are taken, the class of it, and those of earlier ones in doubt.
        self.record, self.kind, self.doubted = None, NOISE, {}

    def take(self, line):
        """Takes a line of evidence; returns its class, None where it is no evidence."""
        found = LINE.match(line)
        if found is None:
            raise ValueError("a line of normview that cannot be read: " + line)
        if found["record"] != self.record:
            self.count()
            self.record, self.kind = found["record"], NOISE
        if found["side"] == "out" or found["verdict"] == "pass":
            return None
        kind, doubt = self.class_of(found)
        self.kind = min(kind, self.kind, key=CLASSES.index)
        if doubt:
            self.doubts.append(doubt)
            self.octets += doubt.length + 300
        return kind

    def count(self):
        """Counts the record whose lines were taken."""
        if self.record is not None:
            self.counts[self.kind] += 1
            if self.doubts and self.doubts[-1].record == int(self.record):
                self.doubted[int(self.record)] = self.kind
        self.record = None

    def is_inside(self, address):
        return any(address in it for it in self.networks)

    def class_of(self, found):
        """Returns the class of a line, and what IN is to decide, or None."""
        rules = set(RULE.findall(found["rest"]))
        if OTHERS_SENT & rules:
            return CONTRADICTS, None
        if found["src"] == "-":
            return NOISE, None
        if found["side"] == "-":
            src, dst = (ends_of(found[it])[0] for it in ("src", "dst"))
            if is_aside(src) or is_aside(dst) or not self.is_inside(src) and not self.is_inside(dst):
                return NOISE, None
            if self.is_inside(src):
                return DIFFERS, None
        if is_odd(found, rules):
            return CONTRADICTS, None
        doubt = doubt_of(found, rules)
        if doubt and self.octets > MOST:
            return CONTRADICTS, None
        return NOISE if found["len"] == "0" and found["verdict"] != "hold" else DIFFERS, doubt

    def decide(self, reasons):
        """Counts the records for which IN has a reason as contradictions."""
        self.count()
        for record in reasons:
            self.counts[self.doubted[record]] -= 1
            self.counts[CONTRADICTS] += 1
