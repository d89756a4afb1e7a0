"""What to do next about a run: whole commands, and what the notes of normview do not say."""

import ipaddress
import os
import re
from shlex import quote

from .alarm import network_of
from .opened import shown_command

# Ports of usual servers, above those that are reserved for them.
SERVERS = {1433, 1521, 3306, 3389, 5432, 5900, 6379, 8000, 8080, 8443, 9200}

COOKED = (113, 276)

UNFILLED = ("inbound checksums too are the sum of the pseudo-header: between virtual hosts nobody filled them in, "
            "and what has them is not judged")


def share(name):
    """Returns the path of a program of share/norm, in a checkout of contrib/."""
    return os.path.join(os.path.dirname(os.path.dirname(os.path.abspath(__file__))), name)


def norm_run(asked, *words):
    return " ".join(map(quote, ["norm-run", *words, *asked.prefixes]))


def row_of(path):
    """Returns a pattern of the shell for the files of the rotated capture that this one is of."""
    folder, name = os.path.split(path)
    stem = re.sub(r"([\d_-]*\d)((\.\w+)?)$", "", name) or name
    return quote(os.path.join(folder, stem)) + "*"


def commands_of_note(note, asked, opened):
    """Returns what to do about a note, as commands on this capture."""
    path, name = quote(opened.path), note["note"]
    base = quote(os.path.splitext(opened.path)[0])
    if name == "half":
        return ["%s %s -- %s" % (share("norm-rotated"), row_of(opened.path), norm_run(asked, "-"))]
    if name == "order" and not opened.commands:
        return ["reordercap %s %s-sorted.pcap" % (path, base), norm_run(asked, base + "-sorted.pcap")]
    if name == "twice":
        command = "tcpdump -r %s -w %s-once.pcap inbound" if opened.link in COOKED else "editcap -d %s %s-once.pcap"
        return [command % (path, base), norm_run(asked, base + "-once.pcap")]
    if name == "tagged" and note.get("vlan"):
        return ["tcprewrite --enet-vlan=del -i %s -o %s-untagged.pcap" % (path, base),
                norm_run(asked, base + "-untagged.pcap")]
    if name == "card" and not note.get("in") and not note.get("neither"):
        return [norm_run(asked, "--force", "--offload", opened.path)]
    return []


def prefix_of(asked, lines):
    """Returns the prefix of the host inside that the first line of evidence names."""
    ends = re.search(r" (\S+?)(?::\d+)? > (\S+?)(?::\d+)? ", lines[0]) if lines else None
    hosts = [ipaddress.IPv4Address(it) for it in ends.groups() if it != "-"] if ends else []
    return next((it for it in asked.prefixes if any(host in network_of(it) for host in hosts)), asked.prefixes[0])


def commands_of_evidence(asked, opened, files, evidence):
    """Returns how to see all evidence, and what a host read; replay needs root."""
    prefix = prefix_of(asked, evidence["lines"])
    return [shown_command(opened, ["normview", "--evidence", "IN", *files[:2]]),
            shown_command(opened, [share("replay"), "IN", prefix])]


def is_public(host):
    return not ipaddress.IPv4Address(host).is_private


def may_be_swapped(summary):
    """Returns whether PREFIX may name the other side: nearly all connections were opened from
    inside, as by clients, and these are not private hosts that talk to public ones."""
    eras = summary["era_counts"]
    hosts = [[it["ip"] for it in summary.get(side + "_hosts") or []] for side in ("inside", "outside")]
    if not all(hosts) or eras["opened_out"] == 0 or 8 * eras["opened_out"] < 7 * eras["all"]:
        return False
    return any(map(is_public, hosts[0])) or not any(map(is_public, hosts[1]))


def to_servers(eras):
    """Returns of how many eras the port outside is one of a usual server."""
    ports = [int(it["outside_port"]) for it in eras if it["opened"] == "out"]
    return sum(it < 1024 or it in SERVERS for it in ports)


def of_prefix(summary, eras):
    """Returns what may be wrong with PREFIX, or None."""
    count = to_servers(eras)
    if 8 * count < 7 * len(eras):
        return None
    return ("%d of %d connections were opened from inside, to ports of servers: PREFIX may be of the other side; try %s"
            % (count, len(eras), " ".join(it["ip"] + "/32" for it in summary["outside_hosts"])))
