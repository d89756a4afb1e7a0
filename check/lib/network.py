"""Three network namespaces, an outside host, a router and an inside host, and captures on their
interfaces.

No packet leaves them, and they end with the script.
"""

import glob
import os
import re
import shutil
import signal
import subprocess
import sys
import time
from contextlib import contextmanager

from lib.talk import PATIENCE

TALK = os.path.join(os.path.dirname(os.path.abspath(__file__)), "talk.py")

OUTSIDE, INSIDE, INSIDE_6 = "198.51.100.2", "10.0.0.2", "2001:db8:2::2"

OFFLOADS = ("tx", "tso", "gso", "gro", "lro", "sg")

# What the receivers of a connection take at most: more octets under way would be dropped where they
# wait for a processor that does other work, and sent again.
WINDOWS = "4096 65536 131072"

# The options of a tool's buffer. The large one, 16 MiB, loses nothing while the tool waits for a
# processor; the small one is that of a capture that is to lose packets.
LARGE, SMALL = {"tcpdump": ("-B", "16384"), "dumpcap": ("-B", "16")}, {"tcpdump": ("-B", "64")}

# What a tool says of packets that it dropped.
DROPS = re.compile(r"^([1-9]\d* packets? dropped by kernel|Packets received/dropped on .*: \d+/[1-9].*)$", re.MULTILINE)

# How often a capture is made until its tool drops no packet.
TRIES = 3


def missing():
    """Why there can be no namespaces, or None."""
    if os.geteuid() != 0:
        return "root"
    if shutil.which("ip") is None:
        return "ip"
    name = "norm-try-%d" % os.getpid()
    if subprocess.run(["ip", "netns", "add", name], stderr=subprocess.DEVNULL, check=False).returncode != 0:
        return "the right to make network namespaces"
    subprocess.run(["ip", "netns", "del", name], check=False)
    return None


class Network:
    """`outside` has eth0, `router` has ext and int, `inside` has eth0 and the server."""

    def __init__(self):
        self.names = {name: "norm-%s-%d" % (name, os.getpid()) for name in ("outside", "router", "inside")}
        self.started = []

    def __enter__(self):
        try:
            self.build()
        except BaseException:
            self.__exit__()
            raise
        return self

    def __exit__(self, *_):
        for process in self.started:
            if process.poll() is None:
                process.kill()
            process.wait()
        for name in self.names.values():
            subprocess.run(["ip", "netns", "del", name], stderr=subprocess.DEVNULL, check=False)

    def build(self):
        for name in self.names.values():
            subprocess.run(["ip", "netns", "add", name], check=True)
        for host, device, first, second in (("outside", "ext", "198.51.100.", "2001:db8:1::"),
                                            ("inside", "int", "10.0.0.", "2001:db8:2::")):
            peer = ["peer", "name", device, "netns", self.names["router"]]
            subprocess.run(["ip", "link", "add", "eth0", "netns", self.names[host], "type", "veth", *peer], check=True)
            self.address(host, "eth0", first + "2/24", second + "2/64")
            self.address("router", device, first + "1/24", second + "1/64")
            self.ip(host, "route", "add", "default", "via", first + "1")
            self.ip(host, "-6", "route", "add", "default", "via", second + "1")
        self.run("router", "sh", "-c",
                 "echo 1 > /proc/sys/net/ipv4/ip_forward; echo 1 > /proc/sys/net/ipv6/conf/all/forwarding")
        for host in ("inside", "outside"):
            self.run(host, "sh", "-c", 'echo "$0" > /proc/sys/net/ipv4/tcp_rmem', WINDOWS)
            self.start(host, sys.executable, TALK, "serve", stdout=subprocess.PIPE).stdout.readline()

    def address(self, host, device, *addresses):
        for address in addresses:
            self.ip(host, "address", "add", address, "dev", device, *(["nodad"] if ":" in address else []))
        self.ip(host, "link", "set", device, "up")

    def ip(self, host, *words):
        subprocess.run(["ip", "-netns", self.names[host], *words], check=True)

    def command(self, host, words):
        return ["ip", "netns", "exec", self.names[host], *words]

    def run(self, host, *words, check=True):
        return subprocess.run(self.command(host, words), stdout=subprocess.PIPE, stderr=subprocess.STDOUT, timeout=60,
                              check=check)

    def start(self, host, *words, **more):
        self.started.append(subprocess.Popen(self.command(host, words), **more))
        return self.started[-1]

    def talk(self, way, octets=0, outwards=False, address=None):
        """A client talks with the server of the other host."""
        client, server = ("inside", OUTSIDE) if outwards else ("outside", INSIDE)
        self.run(client, sys.executable, TALK, way, address or server, str(octets))

    def offloads(self, state):
        """Of all interfaces; some of these have none of a kind."""
        for host, device in (("outside", "eth0"), ("router", "ext"), ("router", "int"), ("inside", "eth0")):
            for one in OFFLOADS:
                self.run(host, "ethtool", "-K", device, one, state, check=False)

    @contextmanager
    def capture(self, path, host="router", device=("ext",), words=(), each=(), tool="tcpdump", buffer=LARGE):
        """A capture of what is done meanwhile. `each`: words for each device. Raises `Dropped` if
        the tool drops packets and its buffer is not the small one."""
        devices = [word for one in device for word in ("-i", one, *each)]
        command = [tool, *buffer[tool], *devices, "-w", path, *words,
                   *(["-Z", "root", "-U"] if tool == "tcpdump" else ["-q"])]
        process = self.start(host, *command, stdout=subprocess.DEVNULL, stderr=subprocess.PIPE, text=True)
        wait_for(process, len(device))
        try:
            yield process
            wait_for_end(process)
        finally:
            process.send_signal(signal.SIGCONT)     # A case that fails may leave it stopped.
            process.send_signal(signal.SIGINT)
            said = process.stderr.read()
            if process.wait(timeout=20) != 0:
                raise OSError("%s ended with %d" % (tool, process.returncode))
        if buffer is LARGE:
            refuse_drops(said)


class Dropped(OSError):
    """What the tool of a capture says of the packets that it dropped."""


def refuse_drops(said):
    """Raises `Dropped` with the line of this text that says that packets were dropped."""
    line = DROPS.search(said)
    if line:
        raise Dropped(line[0])


def whole(make):
    """Calls `make`, which makes a capture, and again where its tool drops packets."""
    for _ in range(TRIES - 1):
        try:
            return make()
        except Dropped:
            pass
    return make()


def wait_for(process, devices=1):
    """Waits until the tool reports that it listens, and has a socket for each device."""
    if not any("listening on" in line or line.startswith("File:") for line in process.stderr):
        raise OSError("a capture did not begin")
    deadline = time.monotonic() + PATIENCE
    while running_sockets(process) < devices:
        if time.monotonic() > deadline:
            raise OSError("a capture has no socket")
        time.sleep(0.02)


def running_sockets(process):
    """Counts the packet sockets in the namespace of this process that receive."""
    with open("/proc/%d/net/packet" % process.pid, encoding="ascii") as file:
        return sum(line.split()[5] == "1" for line in file.readlines()[1:])


def wait_for_end(process):
    """Waits until the tool has read what arrived: it gets blocks of packets that are up to a second
    old, and then sleeps."""
    time.sleep(1.1)
    deadline, looks = time.monotonic() + PATIENCE, 0
    while looks < 3 and time.monotonic() < deadline:
        time.sleep(0.1)
        looks = looks + 1 if is_asleep(process) else 0


def is_asleep(process):
    """Returns whether all threads of this process sleep."""
    states = []
    for path in glob.glob("/proc/%d/task/*/stat" % process.pid):
        with open(path, encoding="utf-8") as file:
            states.append(file.read().rpartition(")")[2].split()[0])
    return set(states) == {"S"}
