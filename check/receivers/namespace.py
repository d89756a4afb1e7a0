"""A network namespace of the script's own, with TUN or TAP devices in it: no packet leaves it, and
it ends with the process."""

import ctypes
import fcntl
import os
import socket
import struct
import subprocess

NEW_NETWORK = 0x40000000

SET_DEVICE, SET_OFFLOAD = 0x400454ca, 0x400454d0

TUN, TAP, NO_HEAD = 0x1, 0x2, 0x1000

PROCESSORS = os.sched_getaffinity(0)


def missing():
    """Returns why no namespace can be made, or None."""
    if os.geteuid() != 0:
        return "root"
    if not os.path.exists("/dev/net/tun"):
        return "/dev/net/tun"
    return None


def enter():
    """Moves this process, and all that it starts from now on, into a network namespace that has no
    device but `lo`."""
    libc = ctypes.CDLL(None, use_errno=True)
    before = os.stat("/proc/self/ns/net").st_ino
    if libc.unshare(NEW_NETWORK) != 0:
        raise OSError(ctypes.get_errno(), "unshare")
    if os.stat("/proc/self/ns/net").st_ino == before or [name for _, name in socket.if_nameindex() if name != "lo"]:
        raise OSError("this is no empty network namespace")
    # The kernel works on a packet where it was written: on one processor packets stay in order.
    processors = sorted(PROCESSORS)
    os.sched_setaffinity(0, {processors[os.getpid() % len(processors)]})


def leave_processor():
    """Lets a program that was started from the namespace run on any processor: it reads a file, and
    no packets."""
    os.sched_setaffinity(0, PROCESSORS)


def open_device(name, kind):
    """Returns the descriptor of a new device without offloads, so that the kernel verifies every
    checksum."""
    device = os.open("/dev/net/tun", os.O_RDWR | os.O_NONBLOCK)
    fcntl.ioctl(device, SET_DEVICE, struct.pack("16sH22x", name.encode(), kind | NO_HEAD))
    fcntl.ioctl(device, SET_OFFLOAD, 0)
    return device


def configure(settings, lines):
    """Sets kernel parameters of the namespace, by their paths below /proc/sys/net, and gives `ip`
    its lines."""
    for path, value in settings.items():
        with open(os.path.join("/proc/sys/net", path), "w", encoding="ascii") as file:
            file.write(str(value))
    subprocess.run(["ip", "-batch", "-"], input="\n".join(lines) + "\n", text=True, check=True, stdout=subprocess.PIPE)


def packets_from(device):
    """Yields what waits in the device."""
    while True:
        try:
            yield os.read(device, 70000)
        except BlockingIOError:
            return
