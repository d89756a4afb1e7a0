"""TCP stacks that read connections as their inside hosts: lwIP, slirp (libslirp's, which descends
from 4.4BSD) and netstack (gVisor's).

Each is a program that is built from Debian's packages with the sources in stacks/. It gets each
connection as a host does: the inbound packets, and what its own side sends. A reading that does not
begin at the connection's first octet is left out, and so is one with octets that no packet has.
What a stack read before it died counts as a beginning of a stream.

With a folder of source packages (`apt-get source lwip libslirp`) there are variants. The one of
lwIP has windows of 1 GB, SACK and timestamps (`full`), or is as in small devices and keeps no
segment out of order (`small`). The one of slirp has a host that opens, ends and resets (`full`).
"""

import glob
import os
import re
import shutil
import subprocess
import tempfile
import time
from types import SimpleNamespace

from model.eras import near
from model.formats import ACK, FIN, RST, SYN, TCP, URG
from model.packets import ipv4, tcp
from receivers import kernel
from receivers.connections import inside_like, outside_like, renamed
from receivers.packets import ports_at

HERE = os.path.join(os.path.dirname(os.path.abspath(__file__)), "stack_programs")

NETSTACK, GO_SOURCES, NETSTACK_PACKAGE = "netstack", "/usr/share/gocode", "golang-gvisor-gvisor-dev"

# The version of a package that is not installed, or of another system.
UNKNOWN = "of unknown version"

# Stacks whose host only listens and reads.
PASSIVE = ("slirp",)

# The options of lwIP for hosts with ample memory, and for small devices.
LWIP_COMMON = """
unsigned int recorded_iss_hook(void);
#define LWIP_HOOK_TCP_ISN(local, local_port, remote, remote_port) recorded_iss_hook()
#define NO_SYS 1
#define SYS_LIGHTWEIGHT_PROT 0
#define LWIP_NETCONN 0
#define LWIP_SOCKET 0
#define LWIP_IPV6 0
#define LWIP_UDP 0
#define LWIP_ARP 0
#define LWIP_ETHERNET 0
#define LWIP_STATS 0
#define LWIP_SINGLE_NETIF 0
#define MEM_LIBC_MALLOC 1
#define MEMP_MEM_MALLOC 1
#define MEM_ALIGNMENT 8
#define IP_REASSEMBLY 1
#define IP_REASS_MAX_PBUFS 4096
#define TCP_MSS 1460
#define TCP_SND_BUF (4 * TCP_MSS)
#define TCP_SND_QUEUELEN 32
#define MEMP_NUM_TCP_SEG 32
#define CHECKSUM_CHECK_IP 1
#define CHECKSUM_CHECK_TCP 1
"""

LWIP_FULL = """
#define LWIP_WND_SCALE 1
#define TCP_RCV_SCALE 14
#define TCP_WND 0x3fffc000
#define TCP_QUEUE_OOSEQ 1
#define LWIP_TCP_SACK_OUT 1
#define LWIP_TCP_TIMESTAMPS 1
"""

LWIP_SMALL = """
#define TCP_WND 0xffff
#define TCP_QUEUE_OOSEQ 0
#define LWIP_NOASSERT
"""

LWIP_COMPILER = """
#include <stdio.h>
#include <stdlib.h>
#define LWIP_PLATFORM_DIAG(x) do { } while (0)
#define LWIP_PLATFORM_ASSERT(x) abort()
#define LWIP_RAND() ((u32_t)rand())
"""

READING = re.compile(r"([0-9]+) ([0-9a-f]*)(?: base=([0-9]+))?( end)?( died| hung)?")


# Building

def start(folder, sources=None):
    """Starts to build the programs, beside what the caller does meanwhile; `finished` waits for
    them."""
    builds = [build("lwIP", "liblwip-dev", cc(folder, "lwIP", "lwip.c", ["-I/usr/include/lwip"], ["-llwip"])),
              build("slirp", "libslirp-dev", cc(folder, "slirp", "slirp.c", ["-I/usr/include/slirp"], ["-lslirp"])),
              build(NETSTACK, NETSTACK_PACKAGE, ["go", "build", "-o", os.path.join(folder, NETSTACK), "."],
                    cwd=go_folder(folder),
                    env={**os.environ, "GO111MODULE": "off", "GOFLAGS": "", "GOPATH": GO_SOURCES})]
    if sources is not None:
        builds += variants(folder, sources)
    return builds


def build(name, package, words, **settings):
    made = None
    if shutil.which(words[0]) is not None:
        made = subprocess.Popen(words, stdout=subprocess.DEVNULL, stderr=subprocess.PIPE, text=True, **settings)
    return SimpleNamespace(name=name, package=package, made=made)


def cc(folder, name, source, options, libraries):
    sources = [os.path.join(HERE, one) for one in (source, "replay.c")]
    return ["cc", "-O1", "-w", "-I" + HERE] + options + ["-o", os.path.join(folder, name)] + sources + libraries


def go_folder(folder):
    there = os.path.join(folder, "go-" + NETSTACK)
    os.makedirs(there, exist_ok=True)
    for one in ("netstack.go", "replay.c", "replay.h"):
        shutil.copy(os.path.join(HERE, one), there)
    return there


def variants(folder, sources):
    found = []
    for top in glob.glob(os.path.join(sources, "lwip-[0-9]*", "src")):
        core = glob.glob(os.path.join(top, "core", "*.c")) + glob.glob(os.path.join(top, "core", "ipv4", "*.c"))
        for name, options in (("lwIP full", LWIP_FULL), ("lwIP small", LWIP_SMALL)):
            own = os.path.join(folder, name + " options")
            write(os.path.join(own, "lwipopts.h"), LWIP_COMMON + options)
            write(os.path.join(own, "arch", "cc.h"), LWIP_COMPILER)
            found.append(build(name, "liblwip-dev",
                               cc(folder, name, "lwip.c", ["-I" + own, "-I" + os.path.join(top, "include")], core)))
    for top in glob.glob(os.path.join(sources, "libslirp-[0-9]*", "src")):
        found.append(build("slirp full", "libslirp-dev", slirp_words(folder, top)))
    return found


def slirp_words(folder, top):
    own, numbers = os.path.join(folder, "slirp full options"), re.search(r"libslirp-(\d+)\.(\d+)\.(\d+)", top).groups()
    with open(os.path.join(top, "libslirp-version.h.in"), encoding="utf-8") as file:
        text = file.read()
    for word, value in zip(("MAJOR_VERSION", "MINOR_VERSION", "MICRO_VERSION", "VERSION_STRING"),
                           numbers + ('"%s.%s.%s"' % numbers,)):
        text = text.replace("@SLIRP_%s@" % word, value)
    write(os.path.join(own, "libslirp-version.h"), text)
    glib = [subprocess.run(["pkg-config", one, "glib-2.0"], capture_output=True, text=True, check=False).stdout.split()
            for one in ("--cflags", "--libs")]
    return cc(folder, "slirp full", "slirp.c",
              ["-DSLIRP_SOURCES", '-DG_LOG_DOMAIN="Slirp"', "-I" + own, "-I" + top] + glib[0],
              glob.glob(os.path.join(top, "*.c")) + glib[1])


def write(path, text):
    os.makedirs(os.path.dirname(path), exist_ok=True)
    with open(path, "w", encoding="utf-8") as file:
        file.write(text)


def finished(builds):
    """The stacks that were built, with the versions of their packages, and what others need, each
    with its name. Raises a ValueError where the package is installed and the build fails."""
    there, absent = {}, []
    for one, said in [(one, one.made and one.made.communicate()[1]) for one in builds]:
        of_package = version(one.package)
        if one.made is not None and one.made.returncode == 0:
            there[one.name] = of_package
        elif one.made is not None and of_package != UNKNOWN:
            raise ValueError("%s cannot be built: %s" % (one.name, said[-300:]))
        else:
            absent.append(("a compiler and " + one.package, one.name))
    return there, absent


def version(package):
    done = (subprocess.run(["dpkg-query", "-W", "-f", "${Version}", package], capture_output=True, text=True,
                           check=False) if shutil.which("dpkg-query") else None)
    return re.split(r"[-+]", done.stdout)[0] if done is not None and done.returncode == 0 else UNKNOWN


# Reading

def read(name, folder, connections, deadline):
    """For each run of which a stack reads something: its connection, its reading or None, whether
    the stack died, and whether it delivered octets that nobody sent."""
    runs, lines = [], []
    for one in connections:
        for run in one.runs:
            events = conversation(one.era, run, name not in PASSIVE)
            runs += [(one, run)] if events else []
            lines += events
    with tempfile.NamedTemporaryFile("w", dir=folder, encoding="ascii") as file:
        file.writelines(line + "\n" for line in lines)
        file.flush()
        done = subprocess.run([os.path.join(folder, name), file.name], capture_output=True, text=True,
                              errors="replace", timeout=max(0, deadline - time.monotonic()),
                              check=True)
    lines = filter(None, map(READING.fullmatch, done.stdout.splitlines()))
    return [reading_of(name, parts, *runs[int(parts[1])]) for parts in lines]


def reading_of(name, parts, one, run):
    died, octets = parts[5] is not None, bytes.fromhex(parts[2])
    if parts[3] is None or int(parts[3]) != one.era.base:
        return one, None, died, False
    if invented(one.era, run.packets, octets):
        return one, None, died, True
    how = run.how + (parts[5] or "")
    return (one, SimpleNamespace(receiver=name, order=run.order, octets=octets,
                                 ended=parts[4] is not None, how=how), died, False)


def invented(era, packets, octets):
    """Whether an octet is at an offset at which no inbound packet has it. Each URG may take one
    octet out of the stream, so that others follow at lower offsets. Not asked where packets are not
    whole segments."""
    inward = [packet for packet in packets if packet.inward]
    if any(packet.tcp is None for packet in inward):
        return False
    sent, moved = {}, sum(packet.tcp.flags & URG != 0 for packet in inward)
    for packet in inward:
        start = near(packet.tcp.seq + bool(packet.tcp.flags & SYN) - era.base, 0)
        for i, octet in enumerate(packet.tcp.payload):
            sent.setdefault(start + i, set()).add(octet)
    return not all(any(octet in sent.get(i + more, ()) for more in range(moved + 1)) for i, octet in enumerate(octets))


def conversation(era, run, acts):
    """The lines of a connection for the program; none where the recorded handshake is asked for and
    the stack cannot follow it."""
    first = next((packet for packet in run.packets if packet.tcp is not None), None)
    own = run.handshake and first is not None and first.tcp.flags & (SYN | ACK | RST) == SYN and (first.inward or acts)
    if run.handshake and not own:
        return []
    outside, inside, iss = outside_like(era.key[0], 1), inside_like(era.key[2]), (era.sent - 1) % 2**32
    connects = own and not first.inward
    lines = ["= %x %x %x %x %x %d" % (outside, era.key[1], inside, era.key[3], iss, not connects)]
    made = [] if own else made_up(era, outside, inside, iss)
    host = SimpleNamespace(iss=iss, sent=0, ended=False, connects=connects)
    for packet in made + kernel.arranged(run.packets, run.order):
        lines += [fed(renamed(packet.octets, True, outside, inside))] if packet.inward else answered(host, packet.tcp)
    return lines


def made_up(era, outside, inside, iss):
    """A SYN with a segment size of 1,460 octets and a window scale of 14, and the ACK of the
    answer."""
    options, found = bytes((2, 4, 5, 180, 1, 3, 3, 14)), []
    for seq, ack, flags, extra in (((era.base - 1) % 2**32, 0, SYN, options), (era.base, (iss + 1) % 2**32, ACK, b"")):
        message = tcp(outside, inside, era.key[1], era.key[3], seq, ack, flags, window=65535, options=extra)
        found.append(SimpleNamespace(inward=True, octets=ipv4(outside, inside, TCP, message)))
    return found


def fed(octets):
    at = ports_at(octets)
    return "> %d %s" % (at if at is not None and at + 20 <= len(octets) and octets[at + 13] & ACK else 0, octets.hex())


def answered(host, segment):
    """The events of an outbound packet of the recorded host."""
    if segment is None:
        return []
    if host.connects and segment.flags & (SYN | ACK | RST) == SYN:
        host.connects = False
        return ["c"]
    if segment.flags & RST:
        return ["r"]
    end = near(segment.seq + bool(segment.flags & SYN) + len(segment.payload) - host.iss - 1, host.sent)
    lines = ["+ %d" % (end - host.sent)] if end > host.sent and not host.ended else []
    if segment.flags & FIN and end >= host.sent and not host.ended:
        host.ended = True
        lines.append("f")
    host.sent = max(host.sent, end) if lines else host.sent
    return lines
