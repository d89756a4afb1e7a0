"""Makes captures past the default of each option and past 2^16 of what is counted.

Their reports are known without the model: each record passes, or is held, up to the one that no
longer fits.
"""

from lib.bench import captures
from makers.hostile import INSIDE, opened
from model.formats import ACK, SYN

OUTSIDE = 0x64400000

RECORDS, ERAS, FLOWS = 120_000, 70_000, 65536


def eras(out):
    """70,000 connections of one SYN each and messages between them; the clock goes on, and the last
    message has a TTL that is too low. Returns the lines of its report with `--flows 65536`."""
    lines, number = [], 0
    for record in range(1, RECORDS + 1):
        out.seconds = 1 + record // 100
        if record % 2 == 0 and record <= 2 * (RECORDS - ERAS):
            ttl = 1 if record == 2 * (RECORDS - ERAS) else 64
            out.packet(captures.udp_packet(OUTSIDE, 4000, INSIDE, 53, record % 65536, 160, ttl=ttl))
            lines.append("%d in %s" % (record, "pass 1" if ttl == 64 else "fix 1 I_TTL"))
            continue
        number += 1
        out.tcp(0x65000000 + number, 1024, INSIDE, 80, number, 0, SYN)
        ended = " -%d:evicted:0" % (number - FLOWS) if number > FLOWS else ""
        lines.append("%d in pass 1 @%d +%d%s" % (record, number, number, ended))
    return lines


def octets(out, count):
    """Single octets of a connection, each in another cell."""
    opened(out, OUTSIDE, 1024, INSIDE, 1000, 14)
    for number in range(count):
        out.tcp(OUTSIDE, 1024, INSIDE, 80, 1000 + 256 * number, 5001, ACK, b"a", 0x6100)


def pieces(out, datagrams, each):
    """Fragments of this number of datagrams, each with this number of cells."""
    for number in range(each):
        for datagram in range(datagrams):
            out.piece(OUTSIDE, INSIDE, datagram, captures.MORE | 32 * number, b"abcdefgh")


def silent(out, seconds):
    """A connection that says nothing for this time."""
    opened(out, OUTSIDE, 1024, INSIDE, 1000)
    out.seconds += seconds
    out.tcp(OUTSIDE, 1024, INSIDE, 80, 1000, 5001, ACK, b"a", 0x6100)


def two_pieces(out, seconds):
    """A fragment, and after this time another that differs from it."""
    out.piece(OUTSIDE, INSIDE, 1, captures.MORE, b"abcdefgh")
    out.seconds += seconds
    out.piece(OUTSIDE, INSIDE, 1, captures.MORE, b"abcdefgX")


# Of each option: its greatest value, a capture that just needs it, one that needs one more, and how
# the last record is judged then. With less than the greatest the first capture is judged so, too.
GREATEST = [
    ("--cells", 262144, lambda out, more: octets(out, 262144 + more), "drop 0 T_ROOM @1"),
    ("--frags", 4096, lambda out, more: pieces(out, 4096 + more, 1), "drop 0 F_MANY"),
    ("--idle", 10**6, lambda out, more: silent(out, 10**6 + more), "fix 1 C_PROBE -1:idle:0"),
    ("--frag-time", 3600, lambda out, more: two_pieces(out, 3600 + more), "hold 0 F_HELD"),
]
