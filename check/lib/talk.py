#!/usr/bin/env python3
"""Traffic between two hosts: a server that answers, and a client that talks in one way.

usage: talk.py serve
       talk.py WAY ADDRESS [OCTETS]          WAY: type, many, fetch, store, ask, ping, open
       talk.py tagged DEVICE
"""

import os
import selectors
import socket
import struct
import sys
import threading

ECHO, FETCH, STORE, ASK = 7001, 7002, 7003, 5353

# Seconds that an answer may take on a machine that does other work.
PATIENCE = 30


def family(address):
    return socket.AF_INET6 if ":" in address else socket.AF_INET


# The server

def echo(peer):
    while True:
        octets = peer.recv(65536)
        if not octets:
            return
        peer.sendall(octets)


def fetch(peer):
    """Sends as many octets as it is asked for."""
    peer.sendall(os.urandom(int(peer.recv(64))))


def store(peer):
    """Reads to the end, and says how much it was."""
    count = 0
    while True:
        octets = peer.recv(65536)
        if not octets:
            break
        count += len(octets)
    peer.sendall(b"%d" % count)


def serve():
    """Answers at each port until it is stopped; prints a line once all are open."""
    ways, selector = {ECHO: echo, FETCH: fetch, STORE: store}, selectors.DefaultSelector()
    for port, answer in ways.items():
        server = socket.create_server(("::", port), family=socket.AF_INET6, dualstack_ipv6=True, backlog=200)
        selector.register(server, selectors.EVENT_READ, answer)
    asked = socket.socket(socket.AF_INET6, socket.SOCK_DGRAM)
    asked.setsockopt(socket.IPPROTO_IPV6, socket.IPV6_V6ONLY, 0)
    asked.bind(("::", ASK))
    selector.register(asked, selectors.EVENT_READ)
    print("open", flush=True)
    while True:
        for key, _ in selector.select():
            if key.data is None:
                octets, peer = asked.recvfrom(4096)
                asked.sendto(octets * 4, peer)
            else:
                threading.Thread(target=talk_to, args=(key.data, key.fileobj.accept()[0]), daemon=True).start()


def talk_to(answer, peer):
    with peer:
        answer(peer)


# The client

def call(address, port):
    peer = socket.create_connection((address, port), timeout=PATIENCE)
    peer.setsockopt(socket.IPPROTO_TCP, socket.TCP_NODELAY, 1)
    return peer


def type_some(address, octets):
    """A keystroke at a time, each echoed."""
    with call(address, ECHO) as peer:
        for number in range(octets or 30):
            peer.sendall(b"%d" % (number % 10))
            peer.recv(64)


def many(address, octets):
    """As many connections at once."""
    peers = [call(address, ECHO) for _ in range(octets or 80)]
    for turn in range(3):
        for peer in peers:
            peer.sendall(b"x" * 100)
        for peer in peers:
            peer.recv(4096)
    for peer in peers:
        peer.close()


def fetch_all(address, octets):
    with call(address, FETCH) as peer:
        peer.sendall(b"%d" % octets)
        while peer.recv(65536):
            pass


def store_all(address, octets):
    with call(address, STORE) as peer:
        peer.sendall(os.urandom(octets))
        peer.shutdown(socket.SHUT_WR)
        peer.recv(64)


def ask(address, octets):
    with socket.socket(family(address), socket.SOCK_DGRAM) as peer:
        peer.settimeout(PATIENCE)
        for number in range(octets or 30):
            peer.sendto(b"question %d" % number, (address, ASK))
            peer.recv(4096)


def checksum(octets):
    total = sum(struct.unpack("!%dH" % (len(octets) // 2), octets))
    total = (total >> 16) + (total & 65535)
    return ~(total + (total >> 16)) & 65535


def ping(address, octets):
    with socket.socket(socket.AF_INET, socket.SOCK_RAW, socket.IPPROTO_ICMP) as peer:
        peer.settimeout(PATIENCE)
        for number in range(octets or 10):
            rest = struct.pack("!HH", os.getpid() & 65535, number) + bytes(range(56))
            peer.sendto(struct.pack("!BBH", 8, 0, checksum(b"\x08\0\0\0" + rest)) + rest, (address, 0))
            peer.recv(4096)


def stay_open(address, octets):
    """Talks, prints a line and waits for one, three times in one connection."""
    with call(address, ECHO) as peer:
        for _ in range(3):
            for _ in range(100):
                peer.sendall(b"x" * octets)
                peer.recv(65536)
            print("talked", flush=True)
            sys.stdin.readline()


def send_tagged(device, octets):
    """Frames with a VLAN tag, of an address that answers nothing."""
    datagram = bytes.fromhex("4500001e00010000401166650a0000020a0000fd9c400009000a00006869")
    with socket.socket(socket.AF_PACKET, socket.SOCK_RAW) as card:
        card.bind((device, 0))
        for _ in range(octets or 20):
            card.send(b"\2" * 12 + bytes.fromhex("810000070800") + datagram + bytes(18))


WAYS = {"type": type_some, "many": many, "fetch": fetch_all, "store": store_all, "ask": ask, "ping": ping,
        "open": stay_open, "tagged": send_tagged}


def main(words):
    if words == ["serve"]:
        serve()
    elif words and words[0] in WAYS:
        WAYS[words[0]](words[1], int(words[2]) if len(words) > 2 else 0)
    else:
        print(__doc__)
        return 2
    return 0


if __name__ == "__main__":
    sys.exit(main(sys.argv[1:]))
