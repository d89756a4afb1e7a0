"""Shrinks a capture on which two programs differ to the few records that matter.

Parts of the capture are left out, first halves and then ever smaller runs of records, as long as
the programs differ on the rest. Then options are left out in the same way.
"""

import time

from model.built import MARKS
from model.capture import FORMS, HEAD, RECORD_HEAD, number

# Seconds until the smallest capture that was found so far is taken.
SECONDS = 60

SECTION = bytes.fromhex("0a0d0d0a")


def parts_of(octets):
    """The head of a capture, and its records; of a pcapng file its first block, and the others.

    A part that cannot be cut out, as a cut record, reaches to the end of the file.
    """
    ends = block_ends(octets) if octets[:4] == SECTION else record_ends(octets)
    starts = [0, *ends]
    parts = [octets[start:end] for start, end in zip(starts, [*ends, len(octets)]) if start < end]
    return parts[:1], parts[1:]


def record_ends(octets):
    """The offsets at which the head and whole records of a classic capture end."""
    order, _ = FORMS.get(octets[:4], ("little", False))
    at, ends = HEAD, []
    while at <= len(octets):
        ends.append(at)
        if at + RECORD_HEAD > len(octets):
            break
        at += RECORD_HEAD + number(octets, at + 8, 4, order)
    return ends


def block_ends(octets):
    """The offsets at which whole blocks of a pcapng file end."""
    at, ends, order = 0, [], "little"
    while at + 12 <= len(octets):
        if octets[at:at + 4] == SECTION:
            order = "little" if octets[at + 8:at + 12] == bytes.fromhex("4d3c2b1a") else "big"
        length = number(octets, at + 4, 4, order)
        if length < 12 or length % 4 or at + length > len(octets):
            break
        at += length
        ends.append(at)
    return ends


def fewest(items, differs, until):
    """The items that are left when no run of them can be left out; `differs` is asked of a list."""
    size = len(items)
    while size > 0:
        at, before = 0, len(items)
        while at < len(items) and time.monotonic() < until:
            fewer = items[:at] + items[at + size:]
            if differs(fewer):
                items = fewer
            else:
                at += size
        # Single items are tried again until none of them can be left out.
        size = size // 2 if size > 1 else int(len(items) < before and time.monotonic() < until)
    return items


def options_of(words):
    """The options of a command line, each as a list of its one or two words."""
    options = []
    for word in words:
        if options and len(options[-1]) == 1 and takes_value(options[-1][0]):
            options[-1].append(word)
        else:
            options.append([word])
    return options


def takes_value(word):
    return word.startswith("--") and "=" not in word and word[2:] not in MARKS


def shrunk(octets, words, differs, seconds=SECONDS):
    """Returns a smaller capture and fewer words of options on which the programs still differ, the
    numbers of the records or blocks that are left, and how many there were.

    `differs` is asked of a capture and words of options.
    """
    until = time.monotonic() + seconds
    head, parts = parts_of(octets)

    def joined(numbered):
        return b"".join([*head, *(part for _, part in numbered)])

    left = fewest(list(enumerate(parts, 1)), lambda fewer: differs(joined(fewer), words), until)
    options = fewest(options_of(words), lambda fewer: differs(joined(left), sum(fewer, [])), until)
    return joined(left), sum(options, []), [number for number, _ in left], len(parts)
