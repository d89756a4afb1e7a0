"""Reads the worked cases of crates/run_tests/src/cases/. cases.rt there says what the lines of a
case mean, and notation.rt what those of a packet mean."""

import os
import re
from types import SimpleNamespace

from model.formats import ICMP, TCP, UDP
from model.hosts import fields
from model.packets import INSIDE, LETTERS, OUTSIDE, flags_of, ipv4, tcp

SOURCES = os.path.join(os.path.dirname(os.path.dirname(os.path.dirname(os.path.abspath(__file__)))),
                       "crates", "run_tests", "src")

PROTOCOLS = {"UDP": UDP, "ICMP": ICMP, "IGMP": 2}


def source(*names):
    with open(os.path.join(SOURCES, *names), encoding="utf-8") as file:
        return file.read()


def texts(name):
    """Returns the texts of the constants of a source, by their names."""
    return dict(re.findall(r'const (\w+): &str = "\\\n(.*?)";', source(name), re.DOTALL))


USUAL = {"ttl": 64, "port": 40000, "win": 8192, "res": 0, "urg": 0, "ipopt": b"", "opt": b"", "t": 0}

NAMED = dict(re.findall(r'\("(\$\w+)", "(.*?)"\)', source("notation.rt")))

OPENINGS = {name.lower(): text for name, text in texts("cases.rt").items()}


def octets_of(spelled):
    """Returns the octets that a text spells."""
    found = b""
    for part in filter(None, NAMED.get(spelled, spelled).split("+")):
        unit, _, times = part.partition("*")
        octets = bytes.fromhex(unit[2:]) if unit.startswith("0x") else unit.replace("_", " ").encode()
        found += octets * int(times or 1)
    return found


def segment_of(words, marks, sides, ports):
    """Returns the octets of a TCP segment whose flags, numbers and payload are these words."""
    flags, numbers, *payload = words
    seq, _, ack = numbers.partition(",")
    fields = {"window": int(marks.get("win", 8192)), "options": octets_of(marks.get("opt", "")),
              "reserved": int(marks.get("res", 0)), "urgent": int(marks.get("urg", 0)),
              "payload": octets_of("".join(payload))}
    letters = flags + ("U" if "urg" in marks else "")
    made = (*sides, *ports, int(seq), int(ack or 0), flags_of(letters))
    if "sum" in marks:
        return tcp(*made, check=int(marks["sum"]), **fields)
    segment = tcp(*made, **fields)
    return segment[:17] + bytes([segment[17] ^ ("wrongsum" in marks)]) + segment[18:]


def fragment_of(payload, marks):
    """Returns the octets of a fragment, its offset, and whether others follow it."""
    if "part" in marks:
        first, last = (int(it) for it in marks["part"].split(".."))
        return payload[first:last], first, last < len(payload)
    at = marks.get("at", "0")
    return payload, int(at.rstrip("+")), at.endswith("+")


def packet_of(line):
    """Returns the octets of a packet's line."""
    text, _, marked = line.strip().partition("[")
    marks = {name: value for name, _, value in (it.partition("=") for it in marked.rstrip("]").split())}
    sign, kind, *words = text.split()
    if kind == "RAW":
        return octets_of("".join(words))
    outside = int(marks.get("port", 40000))
    sides, ports = ((OUTSIDE, INSIDE), (outside, 80)) if sign == ">" else ((INSIDE, OUTSIDE), (80, outside))
    protocol = PROTOCOLS.get(kind, TCP)
    whole = segment_of([kind, *words], marks, sides, ports) if protocol == TCP else octets_of("".join(words))
    payload, offset, more = fragment_of(whole, marks)
    packet = ipv4(*sides, protocol, payload, ttl=int(marks.get("ttl", 64)), ident=int(marks.get("id", 1)),
                  tos=int(marks.get("tos", 0)), reserved="RF" in marks, df="DF" in marks, mf=more,
                  offset=offset, options=octets_of(marks.get("ipopt", "")))
    link = bytes([2, 0, 0, 0, 0, 1, 2, 0, 0, 0, 0, int(marks["mac"]), 8, 0]) if "mac" in marks else b""
    return link + packet + octets_of(marks.get("trail", ""))


def seconds_of(line):
    """Returns the time of the record of a packet's line."""
    mark = re.search(r"[\[ ]t=(\d+)", line)
    return int(mark[1]) if mark else 0


def spelled(octets):
    """Returns the text that spells these octets."""
    for name, text in NAMED.items():
        if octets_of(text) == octets:
            return name
    text = octets.decode("latin-1").replace(" ", "_")
    return text if re.fullmatch(r"[\w/.!]+", text, re.ASCII) else "0x" + octets.hex()


def line_of(packet, seconds=0):
    """Returns the line that makes a packet of a whole segment between the usual addresses."""
    ip, segment = fields(packet)
    inward = ip.dst == INSIDE
    kept = "".join(letter for letter in "SFRPA" if segment.flags & LETTERS[letter])
    marks = {"ttl": ip.ttl, "port": segment.sport if inward else segment.dport, "win": segment.window,
             "res": segment.reserved, "urg": segment.urgent, "ipopt": packet[20:ip.header],
             "opt": segment.options, "t": seconds}
    told = " ".join("%s=%s" % (name, value if isinstance(value, int) else spelled(value))
                    for name, value in marks.items() if value != USUAL[name])
    words = [">" if inward else "<", kept, "%d,%d" % (segment.seq, segment.ack) if segment.ack else str(segment.seq),
             spelled(segment.payload) if segment.payload else "", "[%s]" % told if told else ""]
    line = " ".join(filter(None, words))
    if packet_of(line) != packet:
        raise ValueError("no line makes the packet %s" % packet.hex())
    return line


def stream_of(text):
    """Returns a stream that receivers deliver: its start, its octets, and whether it ended."""
    start, *words = text.removesuffix(" FIN").split()
    return SimpleNamespace(start=int(start), octets=octets_of("".join(words)), ended=text.endswith(" FIN"))


def case_of(text):
    """Returns a case: `packets` are pairs of a record's octets and its seconds, and `frames` has
    what is written for each record."""
    name, *given = text.split("\n")
    lines = [line for one in given for line in OPENINGS.get(one, one).split("\n") if line]
    options = " ".join(line.removeprefix("run ") for line in lines if line.startswith("run "))
    case = SimpleNamespace(name=name.removeprefix("# "), words=["run", *options.split(), "a", "b", "10.0.0.0/8"],
                           link=1 if "ethernet" in lines else 101, packets=[], lines=[], frames=[],
                           stream=[], stream_out=[])
    for line in lines:
        packet, *said = re.split(" {2,}", line)
        if line[0] in "<>":
            said = [it for it in said if "--both" in options or not it.startswith("/")]
            octets = packet_of(packet)
            case.packets.append((octets, seconds_of(packet)))
            case.lines += said
            case.frames.append([octets] if all(" pass " in it for it in said) else [])
        elif line.startswith("  "):
            case.frames[-1].append(packet_of(line))
        elif line.startswith("stream out "):
            case.stream_out.append(stream_of(line.removeprefix("stream out ")))
        elif line.startswith("stream "):
            case.stream.append(stream_of(line.removeprefix("stream ")))
    return case


def cases():
    """Returns all cases."""
    names = sorted(os.listdir(os.path.join(SOURCES, "cases")))
    found = [text for name in names for text in texts(os.path.join("cases", name)).values()]
    return [case_of(one) for text in found for one in text.strip("\n").split("\n\n")]
