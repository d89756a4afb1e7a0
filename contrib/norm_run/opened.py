"""How IN is opened: finds out what it is, and which programs turn it into a capture that norm
reads."""

import os
import shutil
import struct
import subprocess
from shlex import quote

from .words import Refused

# The octets that a compressed file begins with, and the program that unpacks it.
PACKED = {b"\x1f\x8b": "gzip", b"\xfd7zXZ\0": "xz", b"\x28\xb5\x2f\xfd": "zstd"}

# The octets that a capture begins with: its byte order, and its name for editcap.
CLASSIC = {b"\xa1\xb2\xc3\xd4": (">", "pcap"), b"\xd4\xc3\xb2\xa1": ("<", "pcap"),
           b"\xa1\xb2\x3c\x4d": (">", "nsecpcap"), b"\x4d\x3c\xb2\xa1": ("<", "nsecpcap")}
SECTION, INTERFACE, STATISTICS = b"\x0a\x0d\x0d\x0a", 1, 5

# Blocks after the packets of a pcapng file: names, statistics, secrets. Options: the offset of
# times, and what the interface and what the system dropped.
TRAILING, OFFSET, DROPPED = (4, STATISTICS, 10), 14, (5, 7)

# Links whose header is removed: its octets, and its name.
HEADERS = {113: (16, "Linux cooked mode, version 1"), 276: (20, "Linux cooked mode, version 2"),
           0: (4, "a NULL header"), 108: (4, "a loopback header")}

# Other links that norm does not read, and what to do.
OTHERS = {9: "PPP: editcap -C 4 (with address octets) or -C 2, -L -T rawip, makes raw IP of it",
          105: "802.11: capture after the access point, on Ethernet",
          127: "802.11: capture after the access point, on Ethernet"}

# Octets that are read ahead.
AHEAD = 65536


def tool(name, use):
    """Returns the path of a program of the system, or refuses."""
    path = shutil.which(name)
    if path is None:
        raise Refused(5, "%s is missing, and %s" % (name, use))
    return path


def front_of(path, unpack):
    """Returns the first octets of a file, unpacked."""
    if unpack is None:
        with open(path, "rb") as file:
            return file.read(AHEAD)
    with subprocess.Popen([*unpack, path], stdout=subprocess.PIPE, stderr=subprocess.DEVNULL) as process:
        front = process.stdout.read(AHEAD)
        process.kill()
    return front


def interfaces_of(front):
    """Yields the link and the options of each interface of a pcapng file, as far as it is read."""
    order = "<" if front[8:12] == b"\x4d\x3c\x2b\x1a" else ">"
    at = 0
    while at + 12 <= len(front):
        kind, length = struct.unpack_from(order + "II", front, at)
        if kind == INTERFACE:
            yield struct.unpack_from(order + "H", front, at + 8)[0], options_of(order, front[at + 16:at + length - 4])
        if length < 12:
            return
        at += length


def options_of(order, octets):
    """Returns the options of a block by their numbers."""
    at, options = 0, {}
    while at + 4 <= len(octets):
        kind, length = struct.unpack_from(order + "HH", octets, at)
        options[kind] = octets[at + 4:at + 4 + length]
        at += 4 + length + -length % 4
    return options


def dropped_by_kernel(path):
    """Returns how many packets were dropped by what the statistics at the end of a pcapng file
    say."""
    dropped = 0
    with open(path, "rb") as file:
        order = "<" if file.read(12)[8:] == b"\x4d\x3c\x2b\x1a" else ">"
        at = file.seek(0, os.SEEK_END)
        while at >= 12:
            file.seek(at - 4)
            length = struct.unpack(order + "I", file.read(4))[0]
            if not 12 <= length <= min(at, AHEAD):
                break
            file.seek(at - length)
            block = file.read(length)
            if struct.unpack_from(order + "I", block)[0] not in TRAILING:
                break
            if block[0 if order == "<" else 3] == STATISTICS:
                options = options_of(order, block[20:-4])
                dropped += sum(int.from_bytes(options.get(it, b""), "little" if order == "<" else "big")
                               for it in DROPPED)
            at -= length
    return dropped


def named_of(path, front, packed):
    """Returns what is to be known of a pcapng file and norm does not look at."""
    named = []
    if any(options.get(OFFSET, b"").strip(b"\0") for _, options in interfaces_of(front)):
        named.append("times have an offset (if_tsoffset), which norm does not look at: editcap -F nsecpcap %s NEW adds "
                     "it, and -t would add it twice" % quote(path))
    dropped = 0 if packed else dropped_by_kernel(path)
    if dropped:
        named.append("%d packets were dropped, as IN says itself: capture again with a greater buffer (-B)" % dropped)
    return named


def form_of(front):
    """Returns the name of the format for editcap and the link, None where there is none."""
    if front[:4] == SECTION:
        return "pcapng", next((link for link, _ in interfaces_of(front)), None)
    order, form = CLASSIC.get(front[:4], (None, None))
    if form is None or len(front) < 24:
        return form, None
    return form, struct.unpack_from(order + "I", front, 20)[0] & 0xFFFF


class Opened:
    """How IN is opened: the commands of a pipe that has the capture, none for a plain file, and
    what they do."""

    def __init__(self, path, link, repair):
        self.path, self.link, self.repair = path, link, repair
        self.commands, self.did, self.named = [], [], []

    def rename(self, path):
        """Replaces the name of IN in what is printed about it."""
        self.commands = [[path if it == self.path else it for it in words] for words in self.commands]
        self.path = path

    def note(self, text):
        if text not in self.did:
            self.did.append(text)


def look(path, repair):
    """Finds out what IN is; returns how it is opened."""
    if os.path.exists(path) and not os.path.isfile(path):
        raise Refused(5, "%s is no regular file: IN is read more than once; give it to standard input, as -" % path)
    try:
        with open(path, "rb") as file:
            start = file.read(6)
    except OSError as fault:
        raise Refused(5, "%s: %s" % (path, fault.strerror)) from None
    if not start:
        raise Refused(4, "%s is empty: not even the head of a capture was written to it" % path)
    packed = next((name for mark, name in PACKED.items() if start.startswith(mark)), None)
    unpack = None if packed is None else [tool(packed, path + " is packed by it"), "-dc"]
    front = front_of(path, unpack)
    form, link = form_of(front)
    opened = Opened(path, link, repair)
    opened.named = named_of(path, front, unpack is not None) if form == "pcapng" else []
    if unpack:
        opened.commands.append([*unpack, path])
        opened.did.append("unpacked by %s" % packed)
    if form and (link in HEADERS or repair):
        edit = [tool("editcap", "removes headers and repairs captures: wireshark-common has it"), "-F", form]
        if link in HEADERS:
            octets, name = HEADERS[link]
            edit += ["-C", str(octets), "-L", "-T", "rawip"]
            opened.did.append("%s: editcap removed the %d octets before IPv4" % (name, octets))
        opened.commands.append([*edit, "-" if unpack else path, "-"])
    return opened


def keep_standard_input(source, path, show):
    """Copies standard input into a file, since each view reads IN again."""
    octets = 0
    with open(path, "wb") as file:
        while True:
            block = source.read(1 << 20)
            if not block:
                return
            file.write(block)
            octets += len(block)
            show(octets)


def shown_command(opened, words):
    """Returns a command on IN as a shell takes it; IN is one of the words."""
    pipe = [" ".join(map(quote, [os.path.basename(it[0]), *it[1:]])) for it in opened.commands]
    words = [("/dev/stdin" if pipe else opened.path) if it == "IN" else it for it in words]
    return " | ".join([*pipe, " ".join(map(quote, words))])
