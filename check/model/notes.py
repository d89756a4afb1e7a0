"""The notes of a view: in which way IN is bad, counted over the lines of the first engine, each
with its record. An item is such a line, see the module view_reading."""

from types import SimpleNamespace

from model.capture import ETHERNET
from model.formats import ACK, ICMP, RST, SYN, TCP, UDP, pseudo_sum, read_ipv4, u8, u16
from model.rule_names import RULES
from model.view_fields import message_end
from model.view_reading import (by_side, datagram_of, ethertype, four_tuple, has, has_packet,
                                     is_datagram, is_dropped, is_fragment, is_multicast, is_segment,
                                     is_unfragmented, message_of, names, packet_of, side_of)
from model.view_streams import Streams

# Each count stops there.
MOST = 2**64 - 1

IPV4, VLAN, PROVIDER_VLAN, PPPOE, MPLS, IPV6 = 0x0800, 0x8100, 0x88A8, 0x8864, 0x8847, 0x86DD

# The versions of IP by their numbers in PPP.
PPP = {0x0021: 4, 0x0057: 6}

# Labels of MPLS that are looked at.
MOST_LABELS = 4

TUNNELS = (4, 41, 47, 50, 51, 132)

# Notes on what is in IN, and not on how it was captured: they are warnings only of half of it.
HARMLESS = ("tagged", "ipv6", "tunnels")

# Rules that drop a record before its payload is judged.
EARLY = RULES[:RULES.index("P_PROTO") + 1]


# The four-tuples

class Tuples:
    """The last era of each four-tuple, and the segments of connections whose beginning is in no
    record."""

    def __init__(self):
        self.last, self.ends = {}, {}
        self.all = self.middle = self.probed = self.payloads = self.going_on = 0

    def add(self, item):
        for ended in item.entry.ended:
            self.ends[ended.era] = ended.reason
        self.all += item.entry.begun is not None
        if is_segment(item):
            self.payloads += has_inbound_payload(item)
            if item.entry.side != "-":
                self.add_segment(item, four_tuple(item, item.entry.side))

    def add_segment(self, item, key):
        is_middle = item.entry.begun is not None and not has(item, SYN)
        if key not in self.last:
            self.middle += is_middle
            self.probed += is_probed(item) and has_inbound_payload(item)
        elif self.ends.get(self.last[key]) == "evicted":
            self.going_on += is_middle or is_probed(item)
        if item.entry.begun is not None:
            self.last[key] = item.entry.begun


def has_inbound_payload(item):
    return item.entry.side == "in" and item.length > 0


def is_probed(item):
    """Returns whether a probe is sent in place of a segment without an era."""
    is_alone = item.entry.era is None and item.entry.begun is None
    return names(item, "C_PROBE") and is_alone and not has(item, RST)


# Checksums

def is_left_to_card(item):
    """A field as a stack leaves it to the network card: a sum of the pseudo header alone, or 0."""
    packet = packet_of(item)
    if names(item, "T_SUM", "U_SUM") and (is_segment(item) or is_datagram(item)):
        message = message_of(item)
        field = u16(message, 16 if item.flow.protocol == TCP else 6)
        if field != 0 and field % 65535 == pseudo_sum(
                item.flow.src, item.flow.dst, item.flow.protocol, len(message)) % 65535:
            return True
    return (names(item, "I_SUM") and u16(packet, 10) == 0) or (names(item, "I_LEN") and read_ipv4(packet).total == 0)


class Sums:
    """Wrong checksums by side, and the packets of each side that have one."""

    def __init__(self):
        self.card, self.wrong, self.own = by_side(), by_side(), by_side()

    def add(self, item):
        if not has_packet(item):
            return
        self.own["neither"] += 1
        if is_fragment(item):
            return
        if item.entry.side != "-" and item.flow.protocol in (TCP, UDP):
            self.own[item.entry.side] += 1
        if is_left_to_card(item):
            self.card[side_of(item)] += 1
        elif names(item, "T_SUM", "U_SUM", "I_SUM"):
            self.wrong[side_of(item)] += 1

    def reach(self, counts, least, part):
        """Whether some side has as many, and this part of its own."""
        return any(count >= least and count * part >= self.own[side] for side, count in counts.items())


# Packets that are there twice

class Copies:
    """The octets of the last four records, None of one that is not compared."""

    def __init__(self):
        self.before, self.candidates, self.records = [], 0, 0

    def add(self, item):
        octets = compared_octets(item)
        self.candidates += octets is not None
        self.records += octets is not None and octets in self.before
        self.before = (self.before + [octets])[-4:]


def compared_octets(item):
    """What a router leaves as it is; None of a packet that has no identification to be known by."""
    if not is_unfragmented(item) or item.flow.protocol not in (ICMP, TCP, UDP) or item.flow.ident == 0:
        return None
    packet = packet_of(item)[:message_end(packet_of(item))]
    return packet[:8] + packet[9:10] + packet[12:]


# What norm does not read

def is_unread(item):
    """Returns whether it is an Ethernet frame of a type other than IPv4 and ARP."""
    return names(item, "L_TYPE") and item.link == ETHERNET


def inside_of(item):
    """Returns what such a frame has inside: by which front, which version of IP, and where its
    header begins; None where there is no such header."""
    frame, kind = item.record, ethertype(item)
    if kind == IPV6:
        return "plain", 6, 14
    if kind in (VLAN, PROVIDER_VLAN):
        return inside_of_tags(frame)
    if kind == PPPOE and u16(frame, 20) in PPP:
        return "pppoe", PPP[u16(frame, 20)], 22
    return inside_of_labels(frame) if kind == MPLS else None


def inside_of_tags(frame):
    """Returns the same of a frame with one VLAN tag or two."""
    at = 22 if u16(frame, 16) in (VLAN, PROVIDER_VLAN) else 18
    version = {IPV4: 4, IPV6: 6}.get(u16(frame, at - 2))
    return None if version is None else ("vlan", version, at)


def inside_of_labels(frame):
    """Returns the same of a frame with labels of MPLS, of which the last one is marked."""
    for at in range(14, 14 + 4 * MOST_LABELS, 4):
        if u8(frame, at + 2) % 2 == 1:
            version = u8(frame, at + 4) >> 4
            return ("mpls", version, at + 4) if version in (4, 6) else None
    return None


def tagged_counts(items):
    """Counts IPv4 by what is in front of it."""
    found = [inside_of(item) for item in items if is_unread(item)]
    fronts = [inside[0] for inside in found if inside is not None and inside[1] == 4]
    return {front: fronts.count(front) for front in ("vlan", "pppoe", "mpls")}


def is_ipv6(item):
    """Returns whether it is TCP or UDP in IPv6, and not to a group."""
    inside = inside_of(item) if is_unread(item) else None
    if inside is None or inside[1] != 6:
        return False
    header = item.record[inside[2]:]
    return u8(header, 6) in (TCP, UDP) and len(header) > 24 and header[24] != 0xFF


def is_tunnel(item):
    if not names(item, "P_PROTO") or not has_packet(item):
        return False
    return item.flow.protocol in TUNNELS and not is_multicast(item)


def is_foreign(item):
    if not names(item, "I_SIDE") or not has_packet(item):
        return False
    return not is_multicast(item) and item.flow.dst % 256 != 255


def early_counts(items):
    """Counts the records whose first rule is one of those, and that it dropped: of each how many,
    the most first; of as many the rule with the smaller number."""
    dropped = [item.entry.rules for item in items if is_dropped(item)]
    first = [next(iter(rules), None) for rules in dropped]
    found = [(rule, first.count(rule)) for rule in EARLY if rule in first]
    return dict(sorted(found, key=lambda pair: -pair[1]))


# All notes

def count(items, holds):
    return sum(bool(holds(item)) for item in items)


def added(part, items):
    """Returns the part, with all items in their order."""
    for item in items:
        part.add(item)
    return part


def add_streams(items):
    """Returns the streams and the four-tuples. A line is read with the eras before it."""
    tuples = Tuples()
    streams = Streams(tuples)
    for item in items:
        streams.add(item)
        tuples.add(item)
    return streams, tuples


def one_counts(items):
    """Counts segments with an acknowledgment by side; those that a rule before the sides dropped
    may be of the other one."""
    counts = by_side()
    for item in items:
        is_between = item.entry.side == "-" and names(item, "I_SIDE")
        if is_segment(item) and has(item, ACK) and not has(item, SYN | RST) and not is_between:
            counts[side_of(item)] += 1
    return counts


def is_one(counts):
    most, few = max(counts["in"], counts["out"]), min(counts["in"], counts["out"])
    return most >= 8 and 256 * (few + counts["neither"]) <= most


FULL_RULES = {"flows": "T_FULL", "cells": "T_ROOM", "quota": "T_QUOTA", "frags": "F_MANY",
              "frag_cells": "F_ROOM"}


def full_counts(items, tuples):
    found = {key: count(items, lambda item, rule=rule: names(item, rule))
             for key, rule in FULL_RULES.items()}
    found["flows"] += tuples.going_on
    return found


def is_half(tuples, has_lost, gaps):
    """Returns whether IN begins in mid-connection, and no other note explains that."""
    if has_lost or gaps["in"] >= 3:
        return False
    by_eras = tuples.middle >= 1 and 8 * tuples.middle >= tuples.all
    return by_eras or (tuples.probed >= 4 and 8 * tuples.probed >= tuples.payloads)


def counts_of(items, streams, tuples):
    """Returns the counts of each note, in the order of the notes."""
    sums, copies = added(Sums(), items), added(Copies(), items)
    early = early_counts(items)
    rules = [{"rule": rule, "count": times} for rule, times in early.items()]
    return sums, copies, {
        "lost": {side: streams.lost(side) for side in ("in", "out")},
        "order": streams.gaps,
        "half": {"eras": tuples.middle, "segments": tuples.probed},
        "one": one_counts(items), "card": sums.card, "wrong": sums.wrong,
        "twice": {"records": copies.records},
        "foreign": {"records": count(items, is_foreign)},
        "tagged": tagged_counts(items),
        "ipv6": {"records": count(items, is_ipv6)},
        "tunnels": {"records": count(items, is_tunnel)},
        "full": full_counts(items, tuples),
        "cut": {"records": count(items, lambda item: names(item, "L_SNAP"))},
        "unjudged": {"records": sum(early.values()), "of": len(items), "rules": rules},
    }


def notes_of(items):
    """Returns the notes on the records of these lines, in their order: a name, counts by key, and
    whether the note is a warning."""
    streams, tuples = add_streams(items)
    sums, copies, counts = counts_of(items, streams, tuples)
    has_any = {name: any(values.values()) for name, values in counts.items()}
    foreign, packets = counts["foreign"]["records"], count(items, has_packet)
    has_any.update(
        order=max(streams.gaps.values()) >= 3, half=is_half(tuples, has_any["lost"], streams.gaps),
        one=is_one(counts["one"]), card=sums.reach(sums.card, 2, 64),
        wrong=sums.reach(sums.wrong, 4, 2),
        twice=copies.records >= 4 and 16 * copies.records >= copies.candidates,
        foreign=2 * foreign > packets, unjudged=is_half_of(counts["unjudged"]["records"], items))
    return [new_note(name, values, items) for name, values in counts.items() if has_any[name]]


def is_half_of(number, items):
    return 2 * number >= len(items)


def new_note(name, values, items):
    warns = name not in HARMLESS or is_half_of(sum(values.values()), items)
    values = {key: min(value, MOST) if key != "rules" else value for key, value in values.items()}
    return SimpleNamespace(name=name, counts=values, warns=warns)


def is_bad(notes):
    """Returns whether one of them says that IN is to be captured or read otherwise."""
    return any(note.warns for note in notes)


# Three things of the summary

def completes(item):
    """A fragment of a whole datagram: a rule after those on fragments was the first to hold."""
    if not is_fragment(item) or item.entry.rules == []:
        return False
    first = item.entry.rules[0]
    return RULES.index(first) > RULES.index("F_ROOM") and first != "F_HELD"


def unfinished(items):
    """How many fragments are held for datagrams that were never complete."""
    held = {}
    for item in items:
        key = datagram_of(item) if is_fragment(item) else None
        if completes(item):
            held.pop(key, None)
        elif key is not None and names(item, "F_HELD"):
            held[key] = held.get(key, 0) + 1
    return sum(held.values())


def numbers_of(values):
    """How often each value occurs, in the order in which they are first named."""
    return {value: values.count(value) for value in dict.fromkeys(values)}


def types_of(items):
    frames = [item for item in items if names(item, "L_TYPE") and item.link == ETHERNET and len(item.record) >= 14]
    return numbers_of([ethertype(item) for item in frames if not has_packet(item)])


def protocols_of(items):
    return numbers_of([item.flow.protocol for item in items if names(item, "P_PROTO") and has_packet(item)])
