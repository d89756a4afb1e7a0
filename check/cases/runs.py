"""All worked runs: those of crates/run_tests/src/cases/, and two that are too long to be written
down. Beside them are packets that are given in octets."""

from types import SimpleNamespace

from cases.notation import cases, packet_of
from model.packets import segment

SYN_999 = bytes.fromhex("4500002800010000 40064694 c6336407 0a000001 9c400050 000003e7 00000000 50022000 bb2f0000")
UDP_HI = bytes.fromhex("4500001e00010000 40114693 c6336407 0a000001 9c400035 000ac6bf 6869")
ABCD = bytes.fromhex("4500002c00010000 40064690 c6336407 0a000001 9c400050 000003e8 00001389 50182000 e2c40000"
                     "61626364")
HEAD = bytes.fromhex("d4c3b2a1 02000400 00000000 00000000 00000400 65000000")

WORDS = ["run", "a", "b", "10.0.0.0/8"]


def long_run(name, packets, lines):
    """A run in which each packet that passes is written as it is, and no other."""
    frames = [[packet] if " pass " in line else [] for packet, line in zip(packets, lines)]
    return SimpleNamespace(name=name, words=WORDS, link=101, packets=[(packet, 0) for packet in packets],
                           lines=lines, frames=frames, stream=[], stream_out=[])


ROWS = cases() + [
    long_run("as many eras as may be live by default, and one more",
             [segment("> S 999", 20000 + i) for i in range(4097)],
             ["%d in pass 1 @%d +%d" % (n, n, n) for n in range(1, 4097)]
             + ["4097 in pass 1 @4097 +4097 -1:evicted:0"]),
    long_run("as many datagrams as may be held by default, and one more",
             [packet_of("> UDP a*8 [at=0+ id=%d]" % i) for i in range(257)],
             ["%d in hold 0 F_HELD" % n for n in range(1, 257)] + ["257 in drop 0 F_MANY"])]

assert packet_of("> S 999") == segment("> S 999") == SYN_999
assert packet_of("> PA 1000,5001 abcd") == segment("> PA 1000,5001 abcd") == ABCD
assert packet_of("> UDP $SUMMED") == UDP_HI
