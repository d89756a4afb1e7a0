"""The grammar of a classic capture: a head, a list of records, and the end or the first fault with
its place."""

from types import SimpleNamespace

HEAD, RECORD_HEAD, LONGEST, MOST = 24, 16, 262144, 2**32 - 1

ETHERNET, RAW = 1, 101

# The first four octets tell the order of all numbers and the unit of the fraction.
FORMS = {
    bytes.fromhex("d4c3b2a1"): ("little", False),
    bytes.fromhex("a1b2c3d4"): ("big", False),
    bytes.fromhex("4d3cb2a1"): ("little", True),
    bytes.fromhex("a1b23c4d"): ("big", True),
}


def number(octets, at, size, order):
    return int.from_bytes(octets[at:at + size], order)


def read_head(octets):
    """The head, or the name of its fault."""
    if len(octets) < HEAD:
        return "cut"
    if octets[:4] not in FORMS:
        return "magic"
    order, nano = FORMS[octets[:4]]
    if (number(octets, 4, 2, order), number(octets, 6, 2, order)) != (2, 4):
        return "version"
    link = number(octets, 20, 4, order)
    if link not in (ETHERNET, RAW):
        return "link"
    return SimpleNamespace(order=order, nano=nano, link=link)


def record_at(octets, at, head, before):
    """The record at this place, "end", or the name of the fault there."""
    left = len(octets) - at
    if left == 0:
        return "end"
    if left < RECORD_HEAD:
        return "cut"
    seconds, fraction, captured, original = (number(octets, at + 4 * i, 4, head.order) for i in range(4))
    if captured > LONGEST:
        return "long"
    if before == MOST:
        return "many"
    if left - RECORD_HEAD < captured:
        return "cut"
    start = at + RECORD_HEAD
    return SimpleNamespace(seconds=seconds, fraction=fraction, original=original, offset=at, side=None,
                           octets=octets[start:start + captured])


def read_records(octets, head):
    """All records before the end or the first fault, with its name and its place."""
    records = []
    at = HEAD
    while True:
        record = record_at(octets, at, head, len(records))
        if isinstance(record, str):
            return records, record, at
        records.append(record)
        at += RECORD_HEAD + len(record.octets)


def write_head(head):
    magic = [octets for octets, form in FORMS.items() if form == (head.order, head.nano)][0]
    numbers = ((2, 2), (4, 2), (0, 4), (0, 4), (LONGEST, 4), (head.link, 4))
    return magic + b"".join(value.to_bytes(size, head.order) for value, size in numbers)


def write_record(head, seconds, fraction, frame):
    numbers = (seconds, fraction, len(frame), len(frame))
    return b"".join(value.to_bytes(4, head.order) for value in numbers) + frame
