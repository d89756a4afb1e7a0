"""Receivers of inward frames, one for each policy at an octet that waits already, and whether they
agree."""

from types import SimpleNamespace

from model.eras import near
from model.formats import FIN, read_ipv4, read_tcp

POLICIES = ("First", "Newest", "Left", "Right")


def open_stream(policy, base, start):
    return SimpleNamespace(policy=policy, base=base, start=start, octets=b"", waiting={}, fin=None, ended=False)


def replaces(policy, waiting, begin, end):
    _, old_begin, old_end = waiting
    if policy == "First":
        return False
    if policy == "Newest":
        return True
    return begin < old_begin if policy == "Left" else end > old_end


def take(stream, packet):
    tcp = read_tcp(packet[read_ipv4(packet).header:])
    next_place = stream.start + len(stream.octets)
    begin = near(tcp.seq - stream.base, next_place)
    end = begin + len(tcp.payload)
    for i, octet in enumerate(tcp.payload):
        place = near(tcp.seq + i - stream.base, next_place)
        waiting = stream.waiting.get(place)
        if waiting is None or replaces(stream.policy, waiting, begin, end):
            stream.waiting[place] = (octet, begin, end)
    if tcp.flags & FIN and stream.fin is None:
        stream.fin = near(tcp.seq + len(tcp.payload) - stream.base, next_place)
    while stream.start + len(stream.octets) in stream.waiting:
        stream.octets += bytes([stream.waiting[stream.start + len(stream.octets)][0]])
    if stream.fin == stream.start + len(stream.octets):
        stream.ended = True


def deliver(packets, base, start):
    """What the four receivers have after these packets."""
    streams = [open_stream(policy, base, start) for policy in POLICIES]
    for stream in streams:
        for packet in packets:
            take(stream, packet)
    return streams


def agree(one, other):
    shorter, longer = sorted((one, other), key=lambda stream: len(stream.octets))
    if not longer.octets.startswith(shorter.octets):
        return False
    return not shorter.ended or len(shorter.octets) == len(longer.octets)


def all_agree(streams):
    return all(agree(one, other) for one in streams for other in streams)
