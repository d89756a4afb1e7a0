"""A Linux router with netfilter in place of norm: packets go in at one side and what it forwards
comes out at the other, in a network namespace.

Inbound packets of an attack are written to the device outside, outbound ones to the one inside,
octet for octet. The router works on a packet before the next one is written, so each packet that it
forwards belongs to a record. Each attack has outside addresses of its own, so that one router
serves all. No time passes between records.
"""

import os
import select
import shutil
import struct
import subprocess
import time
from types import SimpleNamespace

from model.eras import near
from model.formats import ACK, FIN, ICMP, RST, SYN, URG, u32
from model.packets import icmp, ipv4
from receivers import namespace
from receivers.connections import inside_like, inward_of, outside_like, renamed

TRACKING = """
table ip filter {
 chain forward {
  type filter hook forward priority filter; policy accept;
  ct state invalid drop
 }
}
"""

LEGAL = "{ syn, syn|ack, ack, fin|ack, rst, rst|ack }"

# Options of TCP that stay: segment size, window scale and SACK permitted on a SYN, SACK,
# timestamps. Rules name an option by its number.
ON_SYN, ALWAYS = (2, 3, 4), (0, 1, 5, 8)


def strongest():
    """Connection tracking, and before it all that rules can drop or rewrite of what norm drops or
    rewrites."""
    bare = ", ".join("%d . %d" % (20 + 4 * words, words) for words in range(5, 16))
    rules = ["iifname != \"outside\" accept",
             "ip frag-off & 0x3fff != 0 drop",
             "ip frag-off & 0x8000 != 0 ip frag-off set ip frag-off & 0x7fff",
             "ip hdrlength != 5 drop",
             "ip protocol != { icmp, tcp, udp } drop",
             "ip ttl < 64 ip ttl set 64",
             "ip protocol icmp icmp type != { echo-request, echo-reply, destination-unreachable, "
             "time-exceeded, parameter-problem } drop", "ip protocol != tcp accept",
             "tcp doff < 5 drop",
             "tcp flags & (fin|syn|rst|ack) != %s drop" % LEGAL,
             "tcp flags & (syn|rst) != 0 ip length . tcp doff != { %s } drop" % bare,
             "tcp reserved != 0 tcp reserved set 0",
             "tcp urgptr != 0 tcp urgptr set 0"]
    legal = [SYN, SYN | ACK, ACK, FIN | ACK, RST, RST | ACK]
    rules += ["tcp flags == 0x%02x tcp flags set 0x%02x" % (flags, flags & ~URG) for flags in range(256) if flags & URG
              and flags & (FIN | SYN | RST | ACK) in legal]
    rules += ["tcp flags & syn == 0 reset tcp option %d" % kind for kind in ON_SYN]
    rules += ["reset tcp option %d" % kind for kind in range(256) if kind not in ON_SYN + ALWAYS]
    return """
table ip early {
 chain prerouting {
  type filter hook prerouting priority -450; policy accept;
  %s
 }
}
table ip filter {
 chain forward {
  type filter hook forward priority filter; policy accept;
  ct state invalid drop
  meta l4proto tcp ct state new tcp flags & (fin|syn|rst|ack) != syn drop
 }
}
""" % "\n  ".join(rules)


RULES = {"tracking": TRACKING, "strongest": strongest()}

SETTINGS = {
    "ipv4/ip_forward": 1, "ipv4/conf/all/rp_filter": 0, "ipv4/conf/default/rp_filter": 0,
    "ipv4/conf/outside/rp_filter": 0, "ipv4/conf/inside/rp_filter": 0,
    "ipv4/conf/all/send_redirects": 0, "ipv4/conf/all/log_martians": 0, "ipv6/conf/all/disable_ipv6": 1,
    "ipv4/icmp_ratelimit": 0,
    "netfilter/nf_conntrack_tcp_loose": 0, "netfilter/nf_conntrack_tcp_be_liberal": 0,
    "netfilter/nf_conntrack_checksum": 1,
}

PROBE_OUTSIDE, PROBE_INSIDE = 0xE0000000 - 0x100, 0x0AFFFFFE


def missing():
    """Returns why there can be no router, or None."""
    if shutil.which("nft") is None:
        return "nft"
    tried = subprocess.run(["unshare", "--net", "nft", "--check", "--file", "-"], input=RULES["strongest"], text=True,
                           stdout=subprocess.DEVNULL, stderr=subprocess.DEVNULL, check=False)
    return None if tried.returncode == 0 else "the kernel's nf_tables with connection tracking"


def open_router(rules):
    """A router in this process's namespace, which has to be empty."""
    devices = {side: namespace.open_device(side, namespace.TUN) for side in ("outside", "inside")}
    subprocess.run(["nft", "-f", "-"], input=RULES[rules], text=True, check=True)
    namespace.configure(SETTINGS,
                        ["link set outside mtu 65535 up", "link set inside mtu 65535 up",
                         "route add default dev outside", "route add 10.0.0.0/8 dev inside"])
    return SimpleNamespace(devices=devices, attacks=0, probes=0)


def forwarded(router, settings, sent):
    """Pairs of a record's number and a packet that arrived, of those that were sent, in either
    direction."""
    router.attacks += 1
    known, found = {}, []
    for number, octets in sent:
        inward = inward_of(settings, octets)
        if inward is None:
            continue
        ends = (u32(octets, 12), u32(octets, 16)) if inward else (u32(octets, 16), u32(octets, 12))
        new = outside_like(ends[0], router.attacks), inside_like(ends[1])
        known[new] = ends
        write(router.devices["outside" if inward else "inside"], renamed(octets, inward, *new))
        found += [(number, original(packet, at == "inside", known)) for at, packet in settled(router)
                  if original(packet, at == "inside", known)]
    return found


def original(packet, inward, known):
    """The packet with the addresses of the attack; None for one of the router's own."""
    ends = (u32(packet, 12), u32(packet, 16)) if inward else (u32(packet, 16), u32(packet, 12))
    return renamed(packet, inward, *known[ends]) if ends in known else None


def write(device, octets):
    try:
        os.write(device, octets)
    except OSError:
        pass        # The device takes no packet that is not IP.


def settled(router):
    """What comes out at either side, until an echo request that was written after it has come out
    inside."""
    router.probes += 1
    request = icmp(8, 0, struct.pack(">HHI", 1, 1, router.probes))
    write(router.devices["outside"], ipv4(PROBE_OUTSIDE, PROBE_INSIDE, ICMP, request))
    found, deadline = [], time.monotonic() + 5
    while time.monotonic() < deadline:
        for side, device in router.devices.items():
            for packet in namespace.packets_from(device):
                if u32(packet, 16) == PROBE_INSIDE and packet[24:] == request[4:]:
                    return found
                found.append((side, packet))
        select.select(list(router.devices.values()), [], [], 0.05)
    raise OSError("the router forwards nothing")


def faithful(era, sent, arrived):
    """The packets that arrived, up to the first record at which the inside acknowledges what was
    sent and did not arrive. After it the replay is not a conversation that could take place: with
    this router the inside would not have acknowledged it."""
    tops = {"sent": -1, "arrived": -1}
    events = ([(packet.record, 0, "sent", packet) for packet in sent]
              + [(packet.record, 1, "arrived", packet) for packet in arrived if packet.inward])
    for record, _, which, packet in sorted(events, key=lambda event: event[:2]):
        tcp = packet.tcp
        if tcp is None:
            continue
        if packet.inward:
            end = (near(tcp.seq - era.base, max(tops["sent"], 0)) + len(tcp.payload) + bool(tcp.flags & SYN)
                   + bool(tcp.flags & FIN))
            tops[which] = max(tops[which], end)
        elif tcp.flags & ACK and tops["arrived"] < near(tcp.ack - era.base, max(tops["sent"], 0)) <= tops["sent"]:
            return [one for one in arrived if one.record < record]
    return arrived
