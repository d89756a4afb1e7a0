"""Three network namespaces in a line: an outside host, a bridge, and the hosts inside. No packet
leaves them, and they end with the script.

`outside` and `hosts` have eth0 each, on one link with `bridge`, which has the other ends: ext
and int. The hosts inside have every address of 10.0.0.0/16. They send what is for any other
address to the outside host, which drops what is not for its own: so nothing answers for the
address of an attacker.
"""

import ctypes
import fcntl
import os
import shutil
import socket
import struct
import subprocess
import threading
import time
from contextlib import contextmanager

from lib.network import INSIDE, OFFLOADS, OUTSIDE, Network, missing

NEW_NETWORK, HARDWARE_ADDRESS = 0x40000000, 0x8927

# Columns of /proc/net/dev.
COLUMNS = {"rx_packets": 1, "rx_dropped": 3, "tx_packets": 9, "tx_dropped": 11}

PREFIX = "10.0.0.0/8"

OUTER, INNER = "ext", "int"

# Kernel parameters of each namespace, below /proc/sys/net.
SETTINGS = {"ipv6/conf/all/disable_ipv6": 1, "ipv6/conf/default/disable_ipv6": 1, "ipv4/conf/all/rp_filter": 0,
            "ipv4/conf/default/rp_filter": 0,
            "ipv4/ip_forward": 0, "ipv4/icmp_ratelimit": 0}


def lacking():
    """Returns why there can be no such line, or None."""
    return missing() or next((tool for tool in ("ethtool", "ping") if shutil.which(tool) is None), None)


class Line(Network):
    """The three namespaces, with the processes that were started in them."""

    def __init__(self):
        super().__init__()
        self.names = {name: "norm-%s-%d" % (name, os.getpid()) for name in ("outside", "bridge", "hosts")}

    def build(self):
        for name in self.names:
            subprocess.run(["ip", "netns", "add", self.names[name]], check=True)
            for path, value in SETTINGS.items():
                self.set(name, path, value)
        self.join_outside()
        self.join_hosts()
        self.ip("hosts", "route", "add", "local", "10.0.0.0/16", "dev", "lo")

    def join_hosts(self):
        """Makes the link of the hosts inside, which a part may have deleted."""
        self.link("hosts", INNER)
        self.ip("hosts", "address", "add", INSIDE + "/8", "dev", "eth0")
        self.route_out()
        self.ip("outside", "neighbour", "flush", "all")

    def join_outside(self):
        """Makes the link of the outside host, which a part may have deleted."""
        self.link("outside", OUTER)
        self.ip("outside", "address", "add", OUTSIDE + "/32", "dev", "eth0")
        self.ip("outside", "route", "add", PREFIX, "dev", "eth0")

    def route_out(self):
        """Sets the route from the hosts inside to all others, which is lost where their
        interface goes down."""
        self.ip("hosts", "route", "replace", "default", "via", OUTSIDE, "dev", "eth0", "onlink")

    def set(self, host, path, value):
        """Sets a kernel parameter of a namespace, if this kernel has it."""
        with self.within(host):
            if os.path.exists("/proc/sys/net/" + path):
                with open("/proc/sys/net/" + path, "w", encoding="ascii") as file:
                    file.write(str(value))

    def link(self, host, device):
        """Makes a pair of interfaces without offloads: what one end sends is whole and has its
        checksum."""
        self.ip(host, "link", "add", "eth0", "type", "veth", "peer", "name", device, "netns", self.names["bridge"])
        for name, one in ((host, "eth0"), ("bridge", device)):
            for offload in OFFLOADS:
                self.run(name, "ethtool", "-K", one, offload, "off", check=False)
            self.ip(name, "link", "set", one, "up")
        self.ip(host, "link", "set", "lo", "up")

    @contextmanager
    def within(self, host):
        """Moves this thread into the namespace: a socket that it opens stays there."""
        libc = ctypes.CDLL(None, use_errno=True)
        with open("/proc/self/task/%d/ns/net" % threading.get_native_id(), "rb") as before, \
                open("/run/netns/" + self.names[host], "rb") as there:
            if libc.setns(there.fileno(), NEW_NETWORK) != 0:
                raise OSError(ctypes.get_errno(), "setns")
            try:
                yield
            finally:
                libc.setns(before.fileno(), NEW_NETWORK)

    def mac(self, host, device="eth0"):
        with self.within(host), socket.socket(socket.AF_INET, socket.SOCK_DGRAM) as made:
            return fcntl.ioctl(made, HARDWARE_ADDRESS, struct.pack("16s16x", device.encode()))[18:24]

    def statistics(self):
        """What the two interfaces of the bridge have counted: the numbers of
        /sys/class/net/*/statistics."""
        with self.within("bridge"), open("/proc/thread-self/net/dev", encoding="ascii") as file:
            found = {name.strip(): numbers.split() for name, _, numbers in (line.partition(":") for line in file)}
        return {(device, name): int(found[device][at]) if device in found else 0 for device in (OUTER, INNER)
                for name, at in COLUMNS.items()}

    @contextmanager
    def plain_bridge(self):
        """Linux's bridge between the two interfaces, in place of norm-bridge."""
        self.ip("bridge", "link", "add", "br0", "type", "bridge", "stp_state", "0", "mcast_snooping", "0")
        try:
            for device in (OUTER, INNER):
                self.ip("bridge", "link", "set", device, "master", "br0")
            self.ip("bridge", "link", "set", "br0", "up")
            yield
        finally:
            self.ip("bridge", "link", "del", "br0")

    def answers(self, seconds=5):
        """Returns whether a host inside answers an echo request of the outside one in time."""
        deadline = time.monotonic() + seconds
        while (left := deadline - time.monotonic()) > 0:
            asked = ["ping", "-n", "-q", "-c", "1", "-i", "0.02", "-w", "%d" % max(1, left),
                     INSIDE]        # It ends early if nothing answers ARP.
            if self.run("outside", *asked, check=False).returncode == 0:
                return True
        return False

    def end(self, process, seconds=0):
        """Kills a process after this time and takes it from the list of those that end with the
        script."""
        try:
            process.wait(seconds)
        except subprocess.TimeoutExpired:
            process.kill()
        process.wait()
        self.started.remove(process)
