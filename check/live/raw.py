"""Frames that no host sends: forged sides, and SYNs of many sources."""

import socket
import struct
import time

from model.packets import address, ipv4, tcp

IPV4_TYPE, ALL_TYPES, OUTGOING, TCP_PROTOCOL = b"\x08\0", 3, 4, 6

BURST = 64


def frames_of(line, host, device="eth0", protocol=ALL_TYPES):
    """A raw socket on an interface."""
    with line.within(host):
        made = socket.socket(socket.AF_PACKET, socket.SOCK_RAW, socket.htons(protocol))
        made.bind((device, protocol))
    made.settimeout(0.2)
    return made


def ethernet(line, host, other, payload, kind=IPV4_TYPE):
    """A frame from a host to the other one."""
    return line.mac(other) + line.mac(host) + kind + payload


def segment(ends, seq, ack, flags, payload=b""):
    """A packet with a segment between ends, pairs of an address and a port."""
    (source, sport), (target, dport) = ends
    here, there = address(source), address(target)
    return ipv4(here, there, TCP_PROTOCOL, tcp(here, there, sport, dport, seq, ack, flags, payload, window=502))


def caught(taker, seconds, wanted):
    """The first frame that meets `wanted` within these seconds, or None."""
    deadline = time.monotonic() + seconds
    while time.monotonic() < deadline:
        try:
            frame, at = taker.recvfrom(65535)
        except socket.timeout:
            continue
        if at[2] != OUTGOING and wanted(frame):
            return frame
    return None


def received(taker, wanted, seconds=0.3):
    """The frames that meet `wanted`, until none has come for these seconds."""
    found = []
    while (frame := caught(taker, seconds, wanted)) is not None:
        found.append(frame)
    return found


def folded(number):
    number = (number >> 16) + (number & 65535)
    return (number >> 16) + (number & 65535)


def syns(line, target, port, count, first=0):
    """Yields frames of SYNs, each of another source of 192.0.0.0/3 and with right checksums."""
    head = ethernet(line, "outside", "hosts", b"")
    here, there = 0xC0000000, address(target)
    packet = ipv4(here, there, TCP_PROTOCOL, tcp(here, there, 0, port, 0, 0, 2))
    ip_sum, tcp_sum = (65535 - int.from_bytes(packet[10:12], "big") - 0xC000,
                       65535 - int.from_bytes(packet[36:38], "big") - 0xC000)
    start, middle, target_ends, rest = head + packet[:10], packet[16:20], packet[22:24], packet[28:36]
    pack = struct.Struct("!24sHI4sH2sI8sHH").pack
    for number in range(first, first + count):
        source, sport = 0xC1000000 + number * 2654435761 % 0x1E000000, 1024 + number % 60000
        halves = (source >> 16) + (source & 65535)
        ip_check, tcp_check = 65535 - folded(ip_sum + 65535 + halves), 65535 - folded(tcp_sum + 65535 + halves + sport)
        yield pack(start, ip_check, source, middle, sport, target_ends, 0, rest, tcp_check, 0)


def flood(line, target, port, count, rate):
    """Sends `count` SYNs, at most `rate` a second; returns the seconds that it took."""
    sender, begun, sent = frames_of(line, "outside", protocol=0), time.monotonic(), 0
    with sender:
        for frame in syns(line, target, port, count):
            try:
                sender.send(frame)
            except OSError:
                time.sleep(0.001)       # The interface's queue is full.
            sent += 1
            if sent % BURST == 0:
                time.sleep(max(0, begun + sent / rate - time.monotonic()))
    return time.monotonic() - begun
