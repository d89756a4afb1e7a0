"""Draws an evasion from its capture, the report and what norm wrote, and the map of the crates from
crates.txt."""

import os
import re
import textwrap

from cases.notation import packet_of
from pages.evasion_page import BASE, TOP, capture_file, check_agreement, first_connection, frames_of, rows
from model.capture import read_head, read_records
from model.formats import TCP, pseudo_sum, read_ipv4, read_tcp, sum_right
from model.fragment_rows import is_fragment
from model.packets import INSIDE, LETTERS
from model.receivers import POLICIES
from model.report import read_report
from pages.svg import Picture, number

FOLDER = os.path.join(TOP, "docs", "pictures")

WIDTH = 820

# The x of each lane, and the two edges of norm's band.
ATTACKER, LEFT, RIGHT, MONITOR, HOST = 36, 330, 466, 716, 784

# The greatest width of an octet's box, and the width of an octet of the TCP header that a fragment
# has.
CELL, HEADER = 13, 3

# The left edges of the columns of the lower part: what receivers read without norm, and with it.
WITHOUT, WITH = 350, 590

INK, PALE, REWRITTEN, DROPPED, HELD, AGREED = "#1e293b", "#64748b", "#b45309", "#b91c1c", "#1d4ed8", "#15803d"

VERDICTS = {"pass": PALE, "fix": REWRITTEN, "hold": HELD, "drop": DROPPED}

# What fills the box of an octet: no difference, sent with two values, rewritten, not read alike by
# all receivers, read alike.
FILLS = {"plain": "#f1f5f9", "clash": "#fee2e2", "rewritten": "#fed7aa", "differ": "#fecaca", "same": "#dcfce7"}

NAMES = (("S", "SYN"), ("F", "FIN"), ("R", "RST"), ("U", "URG"), ("P", "PSH"), ("A", "ACK"))

KINDS_OF_OPTION = {131: "source route", 137: "source route"}

# The legend: the fill of a box or the kind of a mark, and its meaning, in the order in which they
# are shown.
LEGEND = (("clash", "sent with two values"), ("rewritten", "rewritten"), ("cut", "cut off"),
          ("hold", "held"), ("drop", "dropped"))

PAST_NOTE = "Dashed: octets that reached the host past norm and the monitor."

POLICY_NOTE = ("First: the octet that arrived first stays. Newest: the one that arrived last. "
               "Left, Right: the segment that begins further left, or ends further right.")


# What a packet shows

class Shown:
    """A packet as it is drawn: the words over its arrow by name, its octets by offset in the
    stream, and its part of the TCP header."""

    def __init__(self, packet):
        self.packet, ip = packet, read_ipv4(packet)
        self.inward = ip.dst == INSIDE
        self.words, self.marks, self.octets, self.header, self.number = {}, {}, {}, None, None
        if is_fragment(ip):
            self.read_fragment(ip, packet[ip.header:])
        else:
            self.read_segment(ip, packet[ip.header:])
        if ip.ttl != 64:
            self.marks["ttl"] = "TTL %d" % ip.ttl
        if ip.header > 20:
            self.marks["options"] = "IP options: %s" % KINDS_OF_OPTION.get(packet[20], packet[20:ip.header].hex(" "))

    def read_fragment(self, ip, message):
        end = ip.offset + len(message)
        self.words["part"] = "fragment, octets %d:%d%s" % (ip.offset, end, ", more follow" if ip.mf else ", the last")
        self.header = (min(ip.offset, 20), min(end, 20))
        self.octets = {ip.offset + i - 20: octet for i, octet in enumerate(message) if ip.offset + i >= 20}

    def read_segment(self, ip, message):
        tcp = read_tcp(message)
        for letter, name in NAMES:
            if tcp.flags & LETTERS[letter]:
                self.words[name] = name
        begin = tcp.seq + (1 if "SYN" in self.words else 0)
        self.number = tcp.seq
        self.words["seq"] = ("%d:%d" % (begin, begin + len(tcp.payload))
                             if tcp.payload and begin == tcp.seq else "%d" % tcp.seq)
        if tcp.ack:
            self.words["ack"] = "ack %d" % tcp.ack
        self.octets = {begin - BASE + i: octet for i, octet in enumerate(tcp.payload)} if self.inward else {}
        outside_port = tcp.sport if self.inward else tcp.dport
        if outside_port != 40000:
            self.words["port"] = "port %d" % outside_port
        shown = (("window", tcp.window != 8192, "window %d" % tcp.window),
                 ("urgent", tcp.urgent, "urgent pointer %d" % tcp.urgent),
                 ("reserved", tcp.reserved, "reserved bits %d" % tcp.reserved),
                 ("sum", not sum_right(message, pseudo_sum(ip.src, ip.dst, TCP, len(message))), "wrong checksum"))
        self.marks.update((name, text) for name, holds, text in shown if holds)


def words_of(shown, before, which):
    """Returns the words of a packet: those that norm changed in its colour, those that it removed
    struck through.

    The range of a packet's octets is changed only if its first number is: octets that are cut off
    are drawn as such.
    """
    own = getattr(shown, which)
    old = own if before is None else getattr(before, which)
    pairs = []
    for name in [*old, *(name for name in own if name not in old)]:
        same = own.get(name) == old.get(name) or name == "seq" and before is not None and shown.number == before.number
        changed = {} if same else {"fill": REWRITTEN, "font_weight": "bold"}
        text = own.get(name, old.get(name))
        pairs += [(text, dict(changed, text_decoration="line-through") if name not in own else changed),
                  (" " if which == "words" else ", ", {})]
    return pairs[:-1]


def clashing(packets):
    """Returns the offsets at which packets have different octets."""
    found = {}
    for shown in packets:
        for place, octet in shown.octets.items():
            found.setdefault(place, set()).add(octet)
    return {place for place, octets in found.items() if len(octets) > 1}


# One evasion

class EvasionDrawing:
    """The drawing of one evasion: its records from the top down, and below them what receivers read
    without norm and with it."""

    def __init__(self, case, came, report, frames):
        self.case, self.entries = case, read_report(report).entries
        self.came = [Shown(packet) for packet in came]
        self.frames = [[Shown(packet) for packet in packets] for packets in frames]
        self.past = {place: Shown(packet_of(line)) for place, line in case.past}
        self.clash = clashing([*self.came, *self.past.values()])
        self.room = HEADER * 20 + 4 if any(shown.header for shown in self.came) else 0
        most = max((place + 1 for shown in self.came for place in shown.octets), default=1)
        self.cell = min(CELL, (LEFT - ATTACKER - 20 - self.room) // most)
        self.seen = set()
        self.picture = Picture(WIDTH, case.title, case.prose["attack"] + " " + case.prose["answer"])
        self.y = 0

    def drawn(self):
        self.picture.text(16, 26, self.case.title, 16, font_weight="bold")
        self.lanes_begin = len(self.picture.parts)
        self.y = 78
        for place, (shown, entry, frames) in enumerate(zip(self.came, self.entries, self.frames)):
            if place in self.past:
                self.draw_past(self.past[place])
            self.draw_record(shown, entry, frames)
        self.put_lanes()
        self.draw_legend()
        self.draw_readings()
        return self.picture.written(self.y + 8)

    def put_lanes(self):
        """Puts the heads and lines of the lanes under all that is drawn over them."""
        lanes = Picture(WIDTH, "", "")
        lanes.rect(LEFT, 58, RIGHT - LEFT, self.y - 58, "#eef2ff", "#c7d2fe", rx=4)
        for x, name, anchor in ((ATTACKER, "attacker", "middle"), ((LEFT + RIGHT) / 2, "norm", "middle"),
                                (MONITOR, "monitor", "middle"), (HOST, "host", "middle")):
            lanes.text(x, 50, name, 12, font_weight="bold", text_anchor=anchor)
        for x in (ATTACKER, MONITOR, HOST):
            lanes.line(x, 58, x, self.y, "#94a3b8", stroke_width=1, stroke_dasharray="3 3")
        self.picture.parts[self.lanes_begin:self.lanes_begin] = lanes.parts

    def draw_record(self, shown, entry, frames):
        """Draws a record, its verdict in the band, and its frames."""
        frame = frames[0] if frames else None
        before = shown if shown.header is None else None
        bottoms = [self.draw_packet(shown, None, self.y, shown.inward)]
        if frame:
            bottoms.append(self.draw_packet(frame, before, self.y, not shown.inward))
        arrow = max(bottoms) + 7 * (len(entry.ended) > 0)
        self.picture.text(8, arrow + 3, "%d" % entry.number, 9.5, fill=PALE)
        self.draw_arrows(shown, entry, frame, arrow)
        self.y = max(arrow + 17, self.draw_verdict(entry, arrow) + 12)
        for other in frames[1:]:
            bottom = self.draw_packet(other, None, self.y, False)
            self.picture.arrow(RIGHT, HOST, bottom, REWRITTEN)
            self.picture.add("circle", cx=MONITOR, cy=bottom, r=3, fill=REWRITTEN)
            self.y = bottom + 17

    def draw_packet(self, shown, before, y, left):
        """Draws the words and octets of a packet left or right of norm; returns the height of its
        arrow."""
        x = ATTACKER + 12 if left else RIGHT + 10
        self.picture.text(x, y, words_of(shown, before, "words"), 10.5, mono=True, xml__space="preserve")
        marks = words_of(shown, before, "marks")
        if marks:
            y += 14
            self.picture.text(x, y, marks, 10.5, mono=True, fill=DROPPED if left and shown.inward else INK,
                              xml__space="preserve")
        if shown.octets or shown.header or before and before.octets:
            self.draw_octets(shown, before, x + (self.room if left else 0), y + 5, left)
            y += 20
        return y + 7

    def draw_octets(self, shown, before, x, y, left):
        if shown.header and shown.header[0] < shown.header[1]:
            begin, end = (x - self.room + HEADER * place for place in shown.header)
            self.picture.rect(begin, y, end - begin - 1, 15, "#e2e8f0", "#94a3b8")
            if end - begin > 36:
                self.picture.text((begin + end) / 2, y + 11, "header", 9, fill=PALE, text_anchor="middle")
        old = shown.octets if before is None else before.octets
        for place in sorted({*old, *shown.octets}):
            octet = shown.octets.get(place)
            if octet is None:
                self.draw_cut(x + self.cell * place, y, old[place])
                continue
            kind = "rewritten" if octet != old.get(place) else "clash" if left and place in self.clash else "plain"
            self.seen.add(kind)
            self.draw_octet(x + self.cell * place, y, octet, FILLS[kind],
                            REWRITTEN if kind == "rewritten" else "#94a3b8")

    def draw_octet(self, x, y, octet, fill, stroke, **more):
        self.picture.rect(x, y, self.cell, 15, fill, stroke, **more)
        self.picture.text(x + self.cell / 2, y + 11.5, chr(octet), 11, mono=True, text_anchor="middle")

    def draw_cut(self, x, y, octet):
        """Draws an octet that norm cut off."""
        self.seen.add("cut")
        self.picture.rect(x, y, self.cell, 15, "none", REWRITTEN, stroke_dasharray="2 2")
        self.picture.text(x + self.cell / 2, y + 11.5, chr(octet), 11, mono=True, fill="#94a3b8", text_anchor="middle")
        self.picture.line(x, y + 8, x + self.cell, y + 8, REWRITTEN, stroke_width=1.5)

    def draw_arrows(self, shown, entry, frame, y):
        """Draws the arrow to norm and the one from it; a cross where the packet is dropped, two
        bars where it is held."""
        goes = entry.verdict in ("pass", "fix")
        colour = VERDICTS[entry.verdict] if entry.verdict != "pass" else INK
        edge, start, far = (LEFT, ATTACKER, HOST) if shown.inward else (RIGHT, HOST, ATTACKER)
        self.picture.arrow(start, edge if goes else edge - 14, y, INK if goes else colour)
        if frame:
            self.picture.arrow(RIGHT if shown.inward else LEFT, far, y, colour)
        if not shown.inward or frame:
            self.picture.add("circle", cx=MONITOR, cy=y, r=3, fill=colour if shown.inward else INK)
        if not goes:
            self.seen.add(entry.verdict)
            self.draw_stop(edge - 6, y, entry.verdict)

    def draw_stop(self, x, y, verdict):
        """Draws a cross for a drop, two bars for a hold."""
        ends = ((-6, -6, 6, 6), (-6, 6, 6, -6)) if verdict == "drop" else ((-3, -6, -3, 6), (3, -6, 3, 6))
        for left, top, right, bottom in ends:
            self.picture.line(x + left, y + top, x + right, y + bottom, VERDICTS[verdict], stroke_width=2.5)

    def draw_verdict(self, entry, y):
        """Draws the verdict and its rules at the height of the arrow, and the eras that end
        below."""
        era = ", era %d" % entry.era if len({entry.era for entry in self.entries}) > 2 else ""
        lines = [(" ".join([entry.verdict, *entry.rules[:1]]) + era, VERDICTS[entry.verdict])]
        lines += [(rule, VERDICTS[entry.verdict]) for rule in entry.rules[1:]]
        lines += [("era %d ends: %s" % (ended.era, ended.reason), REWRITTEN) for ended in entry.ended]
        y += 4 - 7 * (len(lines) - 1)
        for place, (text, colour) in enumerate(lines):
            self.picture.text((LEFT + RIGHT) / 2, y + 14 * place, text, 11, fill=colour, text_anchor="middle",
                              font_weight="bold" if colour != PALE else None)
        return y + 14 * (len(lines) - 1)

    def draw_legend(self):
        """Draws what the colours and marks of this picture mean, after the title."""
        x = WIDTH - 16
        for kind, text in reversed([pair for pair in LEGEND if pair[0] in self.seen]):
            x -= 5.8 * len(text) + 4
            self.picture.text(x, 26, text, 10, fill=PALE)
            x -= 12
            if kind in FILLS:
                self.picture.rect(x - 5, 17, 11, 11, FILLS[kind], REWRITTEN if kind == "rewritten" else "#94a3b8")
            elif kind == "cut":
                self.picture.rect(x - 5, 17, 11, 11, "none", REWRITTEN, stroke_dasharray="2 2")
                self.picture.line(x - 5, 22.5, x + 6, 22.5, REWRITTEN, stroke_width=1.5)
            else:
                self.draw_stop(x, 22.5, kind)
            x -= 16

    def draw_past(self, shown):
        """Draws a packet that reaches the host past norm and the monitor, and so is in no
        capture."""
        bottom = self.draw_packet(shown, None, self.y, True)
        self.picture.line(ATTACKER, bottom, ATTACKER + 8, bottom, PALE, stroke_width=1.5, stroke_dasharray="5 4")
        self.picture.arrow(ATTACKER, HOST, bottom, PALE, stroke_dasharray="5 4")
        self.picture.text((LEFT + RIGHT) / 2, bottom - 5, "another way", 11, fill=PALE, text_anchor="middle",
                          font_style="italic")
        self.picture.text(RIGHT + 10, bottom - 5, "past norm and the monitor", 10.5, fill=PALE, font_style="italic")
        self.y = bottom + 16

    def draw_readings(self):
        """Draws the receivers with the octets that they read of what arrived, and of what norm
        wrote."""
        came = first_connection([shown.packet for shown in self.came])
        went = first_connection([shown.packet for frames in self.frames for shown in frames])
        found = rows(self.case, came, went)
        self.y += 24
        if found:
            self.draw_heads()
        differ = differing(found)
        for row in found:
            label = (row.label if len(row.policies) == len(POLICIES) else "%s (%s)"
                     % (row.label, ", ".join(row.policies)))
            lines = textwrap.wrap(label, 50)
            for place, line in enumerate(lines):
                self.picture.text(28, self.y + 11 + 14 * place, line, 11)
            for x in (WITHOUT, WITH):
                self.draw_own(x, row.start)
            self.draw_stream(WITHOUT, row.of_came, row.start, lambda place: "differ" if place in differ else "plain")
            self.draw_stream(WITH, row.of_written, row.start, lambda place: "same")
            self.y += 10 + 14 * len(lines)
        if any(len(row.policies) < len(POLICIES) for row in found):
            self.picture.text(28, self.y + 6, POLICY_NOTE, 9.5, fill=PALE)
            self.y += 16
        if self.past:
            self.picture.text(28, self.y + 6, PAST_NOTE, 9.5, fill=PALE)
            self.y += 16
        for line in textwrap.wrap(self.case.prose["answer"].replace("`", ""), 116):
            self.picture.text(16, self.y + 12, line, 12, fill=INK)
            self.y += 17

    def draw_heads(self):
        self.picture.line(16, self.y - 12, WIDTH - 16, self.y - 12, "#cbd5e1")
        for x, text, colour in ((16, "Octets that receivers read", INK), (WITHOUT, "without norm", DROPPED),
                                (WITH, "with norm", AGREED)):
            self.picture.text(x, self.y + 6, text, 12, fill=colour, font_weight="bold")
        self.y += 20

    def draw_own(self, x, start):
        """Draws the octets below `start` that the receiver has from packets past norm."""
        for shown in self.past.values():
            for place in sorted(place for place in shown.octets if place < start):
                self.draw_octet(x + self.cell * place, self.y, shown.octets[place], "none", "#94a3b8",
                                stroke_dasharray="2 2")

    def draw_stream(self, x, stream, start, kind):
        places = [start + i for i in range(len(stream.octets))]
        for place, octet in zip(places, stream.octets):
            self.draw_octet(x + self.cell * place, self.y, octet, FILLS[kind(place)], "#94a3b8")
        if not places:
            self.picture.text(x + self.cell * start, self.y + 11, "nothing", 11, fill=PALE, font_style="italic")
        if stream.ended:
            self.picture.text(x + (self.cell * len(places) + 8 if places else 58), self.y + 11,
                              "and the end of the stream", 11, fill=PALE)


def differing(found):
    """Returns the offsets at which not all receivers read the same of what arrived."""
    reads = [{row.start + i: octet for i, octet in enumerate(row.of_came.octets)} for row in found]
    places = {place for read in reads for place in read}
    return {place for place in places if len({read.get(place) for read in reads}) > 1}


def evasion_drawing(case, report, written):
    """Draws an evasion, from the file of its capture."""
    with open(capture_file(case), "rb") as file:
        octets = file.read()
    came = [record.octets for record in read_records(octets, read_head(octets))[0]]
    frames = frames_of(case, report, written)
    check_agreement(case, first_connection([packet for packets in frames for packet in packets]))
    return EvasionDrawing(case, came, report, frames).drawn()


# norm between two networks: the boxes of the drawing, each with its left edge, top, width, height
# and words.

BOXES = ((16, 46, 150, 62, ("outside", "the untrusted network")), (300, 30, 214, 94, ()),
         (648, 16, 156, 44, ("hosts", "10.0.0.0/8")),
         (648, 94, 156, 44, ("monitor", "at a mirror port")))


def inline_drawing():
    """Draws norm between the untrusted network and the protected hosts with their monitor."""
    picture = Picture(WIDTH, "norm inline",
                      "Packets of the untrusted network reach the hosts and their monitor only "
                      "through norm, which writes what all of them read alike.")
    for x, y, width, height, words in BOXES:
        picture.rect(x, y, width, height, "#eef2ff" if words else "#fef3c7", "#c7d2fe" if words else REWRITTEN, rx=4)
        for place, text in enumerate(words):
            picture.text(x + width / 2, y + height / 2 - 3 + 16 * place, text, 12 - place, text_anchor="middle",
                         font_weight=None if place else "bold",
                         fill=PALE if place else INK)
    picture.text(407, 50, "norm-bridge", 12, text_anchor="middle", font_weight="bold")
    picture.rect(352, 62, 110, 44, "#ffffff", REWRITTEN, rx=4)
    picture.text(407, 81, "norm run", 12, mono=True, text_anchor="middle")
    picture.text(407, 97, "proved", 10.5, text_anchor="middle", fill=AGREED)
    for x, name in ((308, "OUTSIDE"), (506, "INSIDE")):
        picture.text(x, 118, name, 9.5, fill=PALE, text_anchor="start" if x == 308 else "end")
    for x, to_x, y, colour in ((166, 352, 72, DROPPED), (352, 166, 96, INK), (462, 590, 72, AGREED),
                               (590, 462, 96, INK)):
        picture.arrow(x, to_x, y, colour)
    picture.text(233, 64, "any packets", 10.5, fill=DROPPED, text_anchor="middle")
    picture.text(552, 64, "read alike", 10.5, fill=AGREED, text_anchor="middle")
    picture.line(590, 38, 590, 116, INK, stroke_width=3)
    picture.text(590, 30, "switch", 10.5, fill=PALE, text_anchor="middle")
    for y in (38, 116):
        picture.arrow(590, 648, y, AGREED)
    return picture.written(152)


# The map of the crates

CRATES = os.path.join(TOP, "crates.txt")

def layers_of(text):
    """Returns the layers of crates.txt, lowest first: the comment over each, and for each crate the
    crates that it uses."""
    layers = []
    for line in text.splitlines():
        if line.startswith("#"):
            layers.append((line[1:].strip().rstrip("."), {}))
        elif line.strip():
            name, _, used = line.partition(":")
            layers[-1][1][name.split()[0]] = used.split()
    layers = [(title, crates) for title, crates in layers if crates]
    names = {name for _, crates in layers for name in crates}
    return [(title, {name: [low for low in used if low in names] for name, used in crates.items()})
            for title, crates in layers]


def longest_chain(uses, top):
    """Returns the crates of one of the longest chains of uses below a crate, itself first; of equal
    ones the next crate is the one that uses most, then the first."""
    depths = {}
    for name, used in uses.items():
        depths[name] = 1 + max((depths[low] for low in used), default=0)
    chain = [top]
    while uses[chain[-1]]:
        chain.append(max(uses[chain[-1]], key=lambda low: (depths[low], len(uses[low]))))
    return chain


# The columns of the map: the titles of the layers, the chain, and the other crates.
TITLES, CHAIN, OTHERS = 28, 250, 420

BOX, STEP = 112, 30


def crates_drawing():
    """Draws the layers of crates.txt, the highest at the top, with one of the longest chains below
    the program norm; the other crates are listed."""
    with open(CRATES, encoding="ascii") as file:
        layers = layers_of(file.read())
    uses = {name: used for _, crates in layers for name, used in crates.items()}
    chain = longest_chain(uses, "norm")
    picture = Picture(WIDTH, "The crates",
                      "The crates in layers, with one of the longest chains of uses: " + " uses ".join(chain))
    picture.text(16, 26, "The crates in layers", 16, font_weight="bold")
    picture.text(16, 46,
                 "An arrow leads to a crate that is used: one of the longest chains below the "
                 "program norm, of %d crates. The others of a layer are at the "
                 "right." % len(chain), 10.5, fill=PALE)
    y, places = 60, {}
    for title, crates in reversed(layers):
        own = [name for name in chain if name in crates]
        listed = textwrap.wrap(", ".join(name for name in crates if name not in chain), 62)
        titles = textwrap.wrap(title, 32)
        height = max(STEP * len(own) + 8, 15 * max(len(listed), len(titles)) + 12)
        picture.rect(16, y, WIDTH - 32, height, "#f8fafc", "#e2e8f0", rx=4)
        for x, lines, colour in ((TITLES, titles, PALE), (OTHERS, listed, INK)):
            for place, line in enumerate(lines):
                picture.text(x, y + height / 2 + 4 + 15 * (place - (len(lines) - 1) / 2), line, 10.5, fill=colour)
        for place, name in enumerate(own):
            places[name] = y + height / 2 + STEP * (place - (len(own) - 1) / 2)
        y += height + 6
    for upper, lower in zip(chain, chain[1:]):
        top, bottom = places[upper] + 10, places[lower] - 10
        picture.line(CHAIN + BOX / 2, top, CHAIN + BOX / 2, bottom - 6, HELD, stroke_width=1.5)
        picture.add("path", d="M%s %sl-4 -7l8 0z" % (number(CHAIN + BOX / 2), number(bottom)), fill=HELD)
    for name in chain:
        picture.rect(CHAIN, places[name] - 10, BOX, 20, "#eef2ff", HELD, rx=4)
        picture.text(CHAIN + BOX / 2, places[name] + 4, name, 11, text_anchor="middle", font_weight="bold")
    return picture.written(y + 4)


def kept_in(picture):
    """Returns the source in a picture that it is made from."""
    found = re.search(r"<metadata><!\[CDATA\[(.*?)\]\]></metadata>", picture, flags=re.S)
    return found[1] if found else None
