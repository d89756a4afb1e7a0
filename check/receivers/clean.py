"""Clean traffic: what two Linux hosts send each other, recorded where norm or a router would be.

Each host is a process in its own network namespace, with a TUN device. This script carries packets
between the two devices and records them. TCP connections are opened from either side, with requests
and answers of different lengths; UDP carries datagrams that fit one packet, and some that are
fragmented.
"""

import os
import random
import select
import signal
import socket
import time
from types import SimpleNamespace

from model.packets import capture_of
from receivers import namespace

OUTSIDE, INSIDE = "198.51.100.7", "10.0.0.1"

PORT, LIMIT = 80, 60

HEAD = 8

QUESTIONS = (1, 100, 1000, 1460, 1461, 5000, 20000, 60000)

SETTINGS = {"ipv6/conf/all/disable_ipv6": 1, "ipv4/conf/all/rp_filter": 0}


def start(own, peer, work):
    """Starts a host that runs `work` once both listen; returns its process, its device, and a pipe
    on which it says that it is done."""
    here, there = socket.socketpair()
    process = os.fork()
    if process == 0:
        status = 1
        try:
            namespace.enter()
            device = namespace.open_device("tun0", namespace.TUN)
            namespace.configure(SETTINGS,
                                ["link set lo up", "link set tun0 mtu 1500 up", "addr add %s dev tun0" % own,
                                 "route add %s dev tun0" % peer])
            listener = socket.create_server((own, PORT))
            socket.send_fds(there, [b"device"], [device])
            there.recv(1)
            work(listener)
            there.send(b"done")
            there.recv(1)
            status = 0
        finally:
            os._exit(status)
    there.close()
    here.settimeout(LIMIT)
    _, devices, _, _ = socket.recv_fds(here, 16, 1)
    if not devices:
        raise OSError("no host could be started")
    os.set_blocking(devices[0], False)
    return SimpleNamespace(process=process, device=devices[0], line=here, done=False)


def serve(listener, count):
    """Answers as many connections as are expected: a request has the lengths of itself and of its
    answer in front."""
    for _ in range(count):
        made, _ = listener.accept()
        with made:
            head = exactly(made, HEAD)
            exactly(made, int.from_bytes(head[:4], "big"))
            made.sendall(bytes(int.from_bytes(head[4:], "big")))


def exactly(made, count):
    octets = b""
    while len(octets) < count:
        more = made.recv(count - len(octets))
        if not more:
            raise OSError("the connection ended early")
        octets += more
    return octets


def ask(address, rng, count):
    for number in range(count):
        length, answer = QUESTIONS[number % len(QUESTIONS)], rng.choice(QUESTIONS)
        with socket.create_connection((address, PORT)) as made:
            made.sendall(length.to_bytes(4, "big") + answer.to_bytes(4, "big") + rng.randbytes(length))
            exactly(made, answer)


def send_datagrams(address, rng):
    with socket.socket(socket.AF_INET, socket.SOCK_DGRAM) as made:
        for length in (1, 100, 512, 1472, 1473, 3000, 4000, 8000):
            made.sendto(rng.randbytes(length), (address, 53))


def record(seed, count):
    """The packets of `count` connections from outside, as many from inside, and some datagrams from
    outside, as a capture."""
    def outside(listener):
        ask(INSIDE, random.Random("outside %s" % seed), count)
        send_datagrams(INSIDE, random.Random("datagrams %s" % seed))
        serve(listener, count)

    def inside(listener):
        serve(listener, count)
        ask(OUTSIDE, random.Random("inside %s" % seed), count)

    hosts = [start(OUTSIDE, INSIDE, outside), start(INSIDE, OUTSIDE, inside)]
    packets, deadline = [], time.monotonic() + LIMIT
    try:
        for host in hosts:
            host.line.send(b"!")
        while time.monotonic() < deadline:
            ready, _, _ = select.select([each for host in hosts for each in (host.device, host.line)], [], [], 0.2)
            if not ready and all(host.done for host in hosts):
                return capture_of(packets)
            carry(hosts, packets, ready)
        raise OSError("the hosts did not finish")
    finally:
        for host in hosts:
            host.line.close()
            os.close(host.device)
            os.kill(host.process, signal.SIGKILL)
            os.waitpid(host.process, 0)


def carry(hosts, packets, ready):
    for host, other in (hosts, hosts[::-1]):
        if host.line in ready and not host.done:
            host.done = host.line.recv(16) == b"done"
            if not host.done:
                raise OSError("a host ended early")
        for packet in namespace.packets_from(host.device):
            packets.append(packet)
            os.write(other.device, packet)
