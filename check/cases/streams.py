"""What worked runs show of the laws of check/receivers/stream_laws.py: what each law needs, and why
no more is true. `worked` compares their lines and frames, `promises` what the laws read of them."""

from cases.runs import ROWS

# From the name of a case to what it shows: what the first of two eras lacks of a quiet end,
# "nothing", or the name of another law.
SHOWN = {
    # Two eras of one four-tuple
    "an idle end after which nothing is written again": "nothing",
    "an idle end with octets that nobody acknowledged": "unacknowledged octets",
    "an eviction with a FIN that nobody acknowledged": "an open FIN",
    "a late acknowledgment begins an era below what was acknowledged": "an earlier acknowledgment",
    "sequence numbers repeat after 2^32 octets that were acknowledged and never seen": "repeated numbers",
    # Senders that contradict nobody: no T_CLASH, and yet other rules
    "acknowledged octets that are sent again": "agreeing",
    "a sender that resets and uses its port again": "agreeing",
    # Records that contradict each other at an offset, but not the stream there: no T_CLASH
    "an octet past the window, and another one once the window has room": "contradicting",
    "an octet that was replaced is not in the stream": "replaced",
    # The recorded host
    "a wrong checksum between other addresses": "recorded",
}


def rows():
    """Returns these cases, each with what it shows."""
    found = {one.name: one for one in ROWS}
    return [(found[name], what) for name, what in SHOWN.items()]
