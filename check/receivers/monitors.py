"""Programs that read streams from a capture: tshark, tcpflow, and libnids by libnids.c beside this
file.

All connections are read from one capture. Each has its own outside address there, and a microsecond
is between two packets. A monitor that does not end before the deadline raises
subprocess.TimeoutExpired.
"""

import glob
import os
import re
import shutil
import socket
import subprocess
import tempfile
import time
from types import SimpleNamespace

from model.formats import SYN, four
from model.eras import near
from model.packets import head, record
from receivers.connections import inside_like, outside_like, renamed, tcp_of

HERE = os.path.dirname(os.path.abspath(__file__))

ETHERNET_HEAD = bytes.fromhex("02000000000202000000000108" + "00")

# What tshark shows for octets that the capture does not have: no receiver delivers it.
MISSING = re.compile(rb"\[\d+ bytes missing in capture file\]")

CHUNK = 100

TAKING_UP = ("tshark", "tcpflow")

# tcpflow's names of files: two ends, with leading zeros. A file with `c1` after them goes on where
# sequence numbers jump, or begins another connection.
FLOW = re.compile(r"(\d+)\.(\d+)\.(\d+)\.(\d+)\.(\d+)-(\d+)\.(\d+)\.(\d+)\.(\d+)\.(\d+)(c1)?")

HEADERS = ("/usr/include/nids.h", "/usr/include/pcap.h")

VERSION_WORDS = {"tshark": ["tshark", "--version"], "tcpflow": ["tcpflow", "-V"]}


def available(folder):
    """The installed monitors, with their versions, and what others need, each with its name. Raises
    a ValueError where the headers of libnids are installed and the build fails."""
    there, absent = {}, []
    for name, words in VERSION_WORDS.items():
        if shutil.which(name) is None:
            absent.append((name, name))
        else:
            done = subprocess.run(words, capture_output=True, text=True, check=False)
            there[name] = re.search(r"\d+(\.\d+)+", done.stdout + done.stderr)[0]
    made = subprocess.run(["cc", "-O1", "-o", os.path.join(folder, "libnids"),
                           os.path.join(HERE, "libnids.c"), "-lnids", "-lpcap"],
                          capture_output=True, text=True, check=False) if shutil.which("cc") else None
    if made is not None and made.returncode == 0:
        there["libnids"] = libnids_version()
    elif made is not None and all(map(os.path.exists, HEADERS)):
        raise ValueError("libnids.c cannot be built: " + made.stderr[-300:])
    else:
        absent.append(("a compiler, libnids-dev and libpcap-dev", "libnids"))
    return there, absent


def libnids_version():
    """That of Debian's package, or that of the shared library's name."""
    if shutil.which("dpkg-query"):
        done = subprocess.run(["dpkg-query", "-W", "-f", "${Version}", "libnids-dev"], capture_output=True, text=True,
                              check=False)
        if done.returncode == 0:
            return done.stdout.split("-")[0]
    names = glob.glob("/usr/lib/*/libnids.so.*") + glob.glob("/usr/lib/libnids.so.*")
    return max((os.path.basename(name).split(".so.")[1] for name in names), key=len, default="of unknown version")


def renumbered(connections, path):
    """The connections, pairs of an era and its packets, in a capture that is written to the
    path."""
    found = []
    for number, (era, packets) in enumerate(connections, 1):
        outside, inside = outside_like(era.key[0], number), inside_like(era.key[2])
        ends = "%s:%d" % (dotted(outside), era.key[1]), "%s:%d" % (dotted(inside), era.key[3])
        found.append(SimpleNamespace(ends=ends, era=era,
                                     packets=[renamed(packet.octets, packet.inward, outside, inside)
                                              for packet in packets],
                                     inward=[packet.octets for packet in packets if packet.inward]))
    with open(path, "wb") as file:
        file.write(capture_file(one for each in found for one in each.packets))
    return SimpleNamespace(path=path, connections=found)


def streams(name, folder, capture, deadline):
    """What a monitor delivers of each connection of a capture: octets or None."""
    readers = {"tshark": read_tshark, "tcpflow": read_tcpflow, "libnids": read_libnids}
    by_ends = readers[name](folder, capture.path, deadline)
    found = [by_ends.get(each.ends) for each in capture.connections]
    if name == "tcpflow":
        found = [octets and octets[:without_gap(each)] for octets, each in zip(found, capture.connections)]
    return found


def dotted(address):
    return socket.inet_ntoa(four(address))


def capture_file(packets):
    records = [record(ETHERNET_HEAD + octets, number // 1000000, number % 1000000)
               for number, octets in enumerate(packets, 10**9)]
    return head(link=1) + b"".join(records)


def spans_of(era, inward):
    """The offsets in the stream at which each of these packets begins and ends."""
    for octets in inward:
        tcp = tcp_of(octets, fragment=True)
        if tcp is not None:
            start = near(tcp.seq + bool(tcp.flags & SYN) - era.base, 0)
            yield start, start + len(tcp.payload)


def start_of(name, era, inward):
    """The offset at which a monitor begins to read. tshark and tcpflow take up a stream in the
    middle: at the first segment that they see, if no SYN from its side precedes it."""
    return next((start for start, _ in spans_of(era, inward)), 0) if name in TAKING_UP else 0


def without_gap(connection):
    """How many octets of the stream there are before the first gap. tcpflow writes zeros into a gap
    and goes on after it."""
    reached = begun = start_of("tcpflow", connection.era, connection.inward)
    for start, end in sorted(spans_of(connection.era, connection.inward)):
        if start <= reached:
            reached = max(reached, end)
    return reached - begun


def run(words, folder, deadline):
    done = subprocess.run(words, capture_output=True, text=True, errors="replace",
                          timeout=max(0, deadline - time.monotonic()), check=False,
                          env={**os.environ, "HOME": folder})
    if done.returncode != 0:
        raise ValueError("%s ended with %d: %s" % (words[0], done.returncode, done.stderr[-200:]))
    return done.stdout


def read_tshark(folder, path, deadline):
    """Streams by their ends; of two connections with the same ends the first."""
    words = ["tshark", "-r", path, "-n", "-Y", "tcp", "-T", "fields"]
    for field in ("tcp.stream", "ip.src", "tcp.srcport", "ip.dst", "tcp.dstport"):
        words += ["-e", field]
    numbers = set()
    for line in run(words, folder, deadline).splitlines():
        number = line.split("\t")[0].split(",")[0]
        # tshark calls a segment with a cut header TCP and gives it no stream.
        if number:
            numbers.add(int(number))
    found = {}
    for start in range(0, max(numbers, default=-1) + 1, CHUNK):
        asked = [number for number in range(start, start + CHUNK) if number in numbers]
        text = run(["tshark", "-r", path, "-n", "-q"]
                   + [word for number in asked for word in ("-z", "follow,tcp,raw,%d" % number)], folder, deadline)
        streams = re.findall(r"Filter: tcp\.stream eq (\d+)\nNode 0: (\S+)\nNode 1: (\S+)\n((?:\t?[0-9a-f]*\n)*)", text)
        for _, one, other, lines in sorted(streams, key=lambda stream: int(stream[0])):
            parts = lines.split("\n")
            found.setdefault((one, other), present("".join(part for part in parts if not part.startswith("\t"))))
            found.setdefault((other, one), present("".join(part[1:] for part in parts if part.startswith("\t"))))
    return found


def present(text):
    """The octets before the first mark of missing ones."""
    return MISSING.split(bytes.fromhex(text))[0]


def read_tcpflow(folder, path, deadline):
    """Streams by their ends; none where tcpflow writes the octets of two ends into several
    files."""
    found = {}
    with tempfile.TemporaryDirectory(dir=folder) as there:
        run(["tcpflow", "-r", path, "-o", there], folder, deadline)
        for name in sorted(os.listdir(there)):
            ends = FLOW.fullmatch(name)
            if ends is not None:
                numbers = [str(int(number)) for number in ends.groups()[:10]]
                key = ".".join(numbers[:4]) + ":" + numbers[4], ".".join(numbers[5:9]) + ":" + numbers[9]
                with open(os.path.join(there, name), "rb") as file:
                    found[key] = None if ends[11] else file.read()
    return found


def read_libnids(folder, path, deadline):
    """Streams by their ends; of two connections with the same ends the first."""
    found = {}
    for line in run([os.path.join(folder, "libnids"), path], folder, deadline).splitlines():
        ends, _, octets = line.partition(" ")
        found.setdefault(tuple(ends.split(">")), bytes.fromhex(octets))
    return found
