"""Pcapng files at an edge that random ones seldom reach, worked by hand: name, octets, status,
lines of the report, and the written capture."""

from model.blocks import interface_block, section_block, simple_block
from cases.runs import HEAD, UDP_HI

BEGUN = section_block() + interface_block()

SECTIONS = [
    ("eleven octets behind a block", BEGUN + bytes.fromhex("05000000 08000000 000000"), 4,
     ["norm 2", "stop cut 48"], bytes.fromhex("4d3cb2a1") + HEAD[4:]),
    ("a simple packet before an interface", section_block() + simple_block(octets=UDP_HI), 3,
     ["norm 2", "stop block 28"], b""),
]
