"""Traffic of real programs between the two hosts of a line: ping, HTTP, iperf3, and connections
that talk all the time."""

import hashlib
import json
import os
import random
import re
import shutil
import socket
import subprocess
import sys
import threading
import time
from contextlib import contextmanager

from lib.network import INSIDE, OUTSIDE, TALK
from lib.talk import ECHO, PATIENCE

ADDRESS = {"outside": OUTSIDE, "hosts": INSIDE}

OTHER = {"outside": "hosts", "hosts": "outside"}

WEB, RATES = 8080, 5201

# A server of HTTP that asks no name server.
SERVE = """
import functools, http.server, socketserver, sys
handler = functools.partial(http.server.SimpleHTTPRequestHandler, directory=sys.argv[2])
socketserver.ThreadingTCPServer.allow_reuse_address = True
socketserver.ThreadingTCPServer((sys.argv[1], int(sys.argv[3])), handler).serve_forever()
"""


def ping(line, host, count, length=56):
    """Returns how many echo requests of this length are answered, and the median round trip in
    milliseconds."""
    words = ["ping", "-n", "-i", "0.01", "-c", str(count), "-W", "2", "-s", str(length), "-M", "do",
             ADDRESS[OTHER[host]]]
    times = re.findall(rb"time=([\d.]+) ms", line.run(host, *words, check=False).stdout)
    return len(times), sorted(map(float, times))[len(times) // 2] if times else 0


# Transfers

class Web:
    """A server of HTTP on a host, with a file of random octets."""

    def __init__(self, line, host, folder, octets):
        self.line, self.host, self.folder, self.octets = line, host, os.path.join(folder, "web-" + host), octets
        os.makedirs(self.folder, exist_ok=True)
        with open(os.path.join(self.folder, "file"), "wb") as file:
            for _ in range(octets // 1000000):
                file.write(os.urandom(1000000))
            file.write(os.urandom(octets % 1000000))
        self.sum = sha256(os.path.join(self.folder, "file"))
        self.server = line.start(host, sys.executable, "-c", SERVE, ADDRESS[host], self.folder, str(WEB),
                                 stdout=subprocess.DEVNULL, stderr=subprocess.DEVNULL)
        wait_for_port(line, host, WEB)

    def begin(self, seconds, rate=None):
        """Begins a transfer to the other host, which ends by itself."""
        words = ["curl", "-s", "-S", "-m", str(seconds), "-o", self.taken(),
                 "http://%s:%d/file" % (ADDRESS[self.host], WEB)]
        return self.line.start(OTHER[self.host], *words, *(["--limit-rate", str(rate)] if rate else []),
                               stderr=subprocess.PIPE, text=True)

    def taken(self):
        return os.path.join(self.folder, "taken")

    def fault(self, transfer):
        """Waits for the end of a transfer. Returns what differs from the file, or None."""
        said = transfer.communicate()[1].strip()
        if transfer.returncode != 0:
            return "curl ends with %d: %s" % (transfer.returncode, said)
        if sha256(self.taken()) != self.sum:
            return "another SHA-256 at the other end"
        return None

    def close(self):
        self.line.end(self.server)
        shutil.rmtree(self.folder)


@contextmanager
def web(line, host, folder, octets):
    made = Web(line, host, folder, octets)
    try:
        yield made
    finally:
        made.close()


def sha256(path):
    made = hashlib.sha256()
    with open(path, "rb") as file:
        while octets := file.read(2**20):
            made.update(octets)
    return made.hexdigest()


def wait_for_port(line, host, port, seconds=PATIENCE):
    """Waits until a server on the host listens at the port."""
    listens, deadline = re.compile(r":%04X \w+:0000 0A " % port), time.monotonic() + seconds
    while time.monotonic() < deadline:
        with line.within(host), open("/proc/thread-self/net/tcp", encoding="ascii") as file:
            if listens.search(file.read()):
                return
        time.sleep(0.02)
    raise OSError("no server at port %d" % port)


def iperf(line, reverse, seconds=1):
    """Returns the rate in Gbit/s of a transfer from the outside to the inside, or the reverse,
    and its retransmissions."""
    server = line.start("hosts", "iperf3", "-s", "-1", "-B", INSIDE, "-p", str(RATES), stdout=subprocess.DEVNULL)
    wait_for_port(line, "hosts", RATES)
    words = ["iperf3", "-c", INSIDE, "-t", str(seconds), "-J", "--connect-timeout", "3000"] + ["-R"] * reverse
    try:
        said = json.loads(line.run("outside", *words, check=False).stdout)
    finally:
        line.end(server)
    if "error" in said:
        raise OSError("iperf3: " + said["error"])
    sent, received = said["end"]["sum_sent"], said["end"]["sum_received"]
    return received["bits_per_second"] / 1e9, sent.get("retransmits", 0)


# Connections that talk

class Talk:
    """Connections from the outside to the inside that talk in turn until they are ended: some
    octets, and the same octets back."""

    def __init__(self, line, count, pause=0.0):
        self.line, self.count, self.pause = line, count, pause
        self.exchanges, self.longest, self.fault, self.ended = 0, 0.0, None, threading.Event()
        self.server = line.start("hosts", sys.executable, TALK, "serve", stdout=subprocess.PIPE)
        self.server.stdout.readline()
        self.peers = [self.call() for _ in range(count)]
        self.thread = threading.Thread(target=self.talk, daemon=True)
        self.thread.start()

    def call(self):
        with self.line.within("outside"):
            peer = socket.create_connection((INSIDE, ECHO), timeout=PATIENCE)
        peer.setsockopt(socket.IPPROTO_TCP, socket.TCP_NODELAY, 1)
        return peer

    def talk(self):
        rng = random.Random(1)
        try:
            while not self.ended.is_set():
                begun, said = time.monotonic(), [rng.randbytes(rng.randint(1, 200)) for _ in self.peers]
                for peer, octets in zip(self.peers, said):
                    peer.sendall(octets)
                for peer, octets in zip(self.peers, said):
                    self.take(peer, octets)
                self.longest = max(self.longest, time.monotonic() - begun)
                time.sleep(self.pause)
        except OSError as fault:
            self.fault = "a connection fails: %s" % fault

    def take(self, peer, octets):
        found = b""
        while len(found) < len(octets):
            more = peer.recv(4096)
            if not more:
                raise OSError("it ended early")
            found += more
        if found != octets:
            raise OSError("other octets arrive")
        self.exchanges += 1

    def wait(self, exchanges, seconds=PATIENCE):
        """Waits for this number of exchanges more; returns whether there were in time."""
        wanted, deadline = self.exchanges + exchanges, time.monotonic() + seconds
        while self.exchanges < wanted and self.fault is None and time.monotonic() < deadline:
            time.sleep(0.01)
        return self.exchanges >= wanted

    def close(self):
        self.ended.set()
        self.thread.join(2 * PATIENCE)
        for peer in self.peers:
            peer.close()
        self.line.end(self.server)


@contextmanager
def talking(line, count, pause=0.0):
    made = Talk(line, count, pause)
    try:
        yield made
    finally:
        made.close()
