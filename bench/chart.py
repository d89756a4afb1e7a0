"""Draws speeds as a chart of bars: norm's next to those of other programs, for each kind of
capture."""

import json
import os
import sys

sys.path.insert(0, os.path.join(os.path.dirname(os.path.dirname(os.path.abspath(__file__))), "check"))

from pages.svg import Picture  # noqa: E402

WIDTH, LEFT, RIGHT = 820, 330, 50

# The programs, with their labels and colours.
PROGRAMS = (("norm", "norm", "#1d4ed8"), ("relay", "C program (bench/relay)", "#94a3b8"),
            ("tcpdump", "tcpdump -r -w", "#fcd34d"))

BAR, GAP = 10, 9

# What the records of a kind are.
KINDS = {
    "udp": "packets of 100 octets that pass",
    "ethernet": "64 to 1,400 octets, the TTL of every fourth is raised",
    "tcp-64": "64 connections, a fifth of the segments sent twice",
    "tcp-4096": "4,096 connections, as above",
    "tcp-60000": "60,000 connections, as above",
    "fragments": "datagrams of up to 4,000 octets in three fragments",
    "syns": "each SYN evicts a connection from a full table",
    "held-syns": "SYNs, each connection of a full table holds an octet",
    "chains": "SYNs of 1,024 connections in one chain",
    "pool-one": "segments of one octet, one connection holds all cells",
    "pool-many": "segments of one octet, each connection holds sixteen cells",
    "pool-end": "the last octet of a connection with all cells, repeated",
    "lone-fragments": "first fragments of datagrams never complete",
    "resets": "resets, most of them unexpected",
    "drops": "eight rules on the form of a packet",
    "wrong-sums": "UDP and TCP with wrong checksums",
}


def figures(results, note):
    """Returns what the chart shows: for each kind the millions of records a second of each program,
    to three digits."""
    rates = lambda result: {name: float("%.3g" % (result.records / result.runs[name][0] / 1e6))
                            for name, *_ in PROGRAMS if result.runs.get(name)}
    return {"note": note, "kinds": {result.kind: rates(result) for result in results}}


def read(text):
    return json.loads(text)


def drawn(shown):
    """Draws the chart."""
    picture = Picture(WIDTH, "Speed", "Millions of records a second of norm, a C program and "
                                      "tcpdump for each kind of capture")
    picture.add("metadata", "<![CDATA[%s]]>" % json.dumps(shown))
    picture.text(16, 26, "Millions of records a second", 16, font_weight="bold")
    picture.text(16, 44, shown["note"], 10.5, fill="#64748b")
    x = 16
    for _, label, colour in PROGRAMS:
        picture.rect(x, 57, 12, 12, colour)
        picture.text(x + 18, 67, label, 11)
        x += 46 + 6 * len(label)
    most = max(rate for rates in shown["kinds"].values() for rate in rates.values())
    axis, y = len(picture.parts), 86
    for kind, rates in shown["kinds"].items():
        bars = [(colour, rates[name], name) for name, _, colour in PROGRAMS if name in rates]
        middle = y + BAR * len(bars) / 2
        picture.text(LEFT - 10, middle + (-2 if kind in KINDS else 4), kind, 11, text_anchor="end", font_weight="bold")
        if kind in KINDS:
            picture.text(LEFT - 10, middle + 10, KINDS[kind], 10, text_anchor="end", fill="#64748b")
        for colour, rate, name in bars:
            length = max(rate / most * (WIDTH - LEFT - RIGHT), 1)
            picture.rect(LEFT, y, length, BAR - 1, colour)
            picture.text(LEFT + length + 5, y + BAR - 2, "%.3g" % rate, 8.5,
                         fill="#1e293b" if name == "norm" else "#64748b")
            y += BAR
        y += GAP
    picture.line(LEFT, 80, LEFT, y - GAP + 4, "#94a3b8")
    put_axis(picture, axis, most, y - GAP + 4)
    return picture.written(y + 14)


def put_axis(picture, at, most, bottom):
    """Draws a line and a number for each million in the background of the bars, which begin at this
    part of the picture."""
    lines = Picture(WIDTH, "", "")
    for million in range(int(most) + 1):
        x = LEFT + million / most * (WIDTH - LEFT - RIGHT)
        if million:
            lines.line(x, 80, x, bottom, "#e2e8f0")
        lines.text(x, bottom + 14, "%d" % million, 9, fill="#64748b", text_anchor="middle")
    picture.parts[at:at] = lines.parts
