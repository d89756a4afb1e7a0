"""The grammar of a pcapng file: blocks in sections, and the end or the first fault with its
place."""

from types import SimpleNamespace

from model.capture import ETHERNET, LONGEST, MOST, RAW, number, read_head, read_records

# The first four octets of a section block, in either byte order.
SECTION = b"\x0a\x0d\x0d\x0a"

# The octets of a section block that tell its byte order.
ORDERS = {bytes.fromhex("4d3c2b1a"): "little", bytes.fromhex("1a2b3c4d"): "big"}

# The least block: its kind, its length, and its length again.
LEAST = 12

MOST_INTERFACES = 64

# The options of an interface that are looked at.
NAME, UNIT = 2, 9

# From the option's value to the number of units in a second.
UNITS = {b"\6": 10**6, b"\x09": 10**9}


def padded(length):
    return length + -length % 4


def block_at(octets, at, file, before):
    """The block at this place, "end", or the name of the fault there."""
    left = len(octets) - at
    if left == 0:
        return "cut" if file.link is None else "end"
    if left < LEAST:
        return "cut"
    if before == MOST:
        return "many"
    order = ORDERS.get(octets[at + 8:at + 12]) if octets[at:at + 4] == SECTION else file.order
    if order is None:
        return "magic"
    length = number(octets, at + 4, 4, order)
    if length < LEAST or length % 4 != 0:
        return "block"
    if left < length:
        return "cut"
    if number(octets, at + length - 4, 4, order) != length:
        return "block"
    return SimpleNamespace(kind=number(octets, at, 4, order), order=order, octets=octets[at:at + length], offset=at)


# What a block does to the file. Each answers the name of its fault, a record, or None.

def section(file, block):
    if len(block.octets) < 28:
        return "block"
    if number(block.octets, 12, 2, block.order) != 1:
        return "version"
    file.order, file.interfaces = block.order, []
    return None


def first_options(area, order):
    """The value of the first option with each code, or None where one reaches past the area."""
    values, at = {}, 0
    while at < len(area):
        code, length = number(area, at, 2, order), number(area, at + 2, 2, order)
        if code == 0:
            return values
        if at + 4 + padded(length) > len(area):
            return None
        values.setdefault(code, area[at + 4:at + 4 + length])
        at += 4 + padded(length)
    return values


def interface(file, block):
    if len(block.octets) < 20:
        return "block"
    link, snapped = number(block.octets, 8, 2, block.order), number(block.octets, 12, 4, block.order)
    if link not in (ETHERNET, RAW) or file.link not in (None, link):
        return "link"
    options = first_options(block.octets[16:-4], block.order)
    if len(file.interfaces) == MOST_INTERFACES or options is None or options.get(UNIT, b"\6") not in UNITS:
        return "block"
    file.link = link
    file.interfaces.append(SimpleNamespace(name=options.get(NAME), units=UNITS[options.get(UNIT, b"\6")],
                                           snapped=snapped))
    return None


def simple_packet(file, block):
    """It names neither an interface nor a time: they are the section's first one, and that of the
    packet before."""
    if len(block.octets) < 16 or not file.interfaces:
        return "block"
    original = number(block.octets, 8, 4, block.order)
    captured = min(original, file.interfaces[0].snapped or original)
    return packet(file, block, file.interfaces[0], file.time, 12, captured, original)


def enhanced_packet(file, block):
    if len(block.octets) < 32:
        return "block"
    which, high, low, captured, original = (number(block.octets, 8 + 4 * i, 4, block.order) for i in range(5))
    if which >= len(file.interfaces):
        return "block"
    units = file.interfaces[which].units
    seconds, fraction = divmod(high * 2**32 + low, units)
    return packet(file, block, file.interfaces[which], (seconds, fraction * (10**9 // units)), 28, captured, original)


def packet(file, block, seen_at, time, start, captured, original):
    """`time` is in seconds and nanoseconds; `start` is the place of the first captured octet in the
    block."""
    if captured > LONGEST:
        return "long"
    if start + padded(captured) + 4 > len(block.octets) or time[0] >= 2**32:
        return "block"
    file.time = time
    side = None if file.inside is None else "out" if seen_at.name == file.inside else "in"
    return SimpleNamespace(seconds=time[0], fraction=time[1], original=original, offset=block.offset, side=side,
                           octets=block.octets[start:start + captured])


def obsolete_packet(_file, _block):
    return "block"


def passed_over(_file, _block):
    return None


KINDS = {0x0a0d0d0a: section, 1: interface, 2: obsolete_packet, 3: simple_packet, 6: enhanced_packet}


def read_sections(octets, inside):
    """The link of the first interface, all records before the end or the first fault, with its name
    and its place.

    Where an inside interface is named, each record has its side. The link is None where no
    interface block stands whole.
    """
    file = SimpleNamespace(order=None, interfaces=[], link=None, time=(0, 0), inside=inside)
    records, at, before = [], 0, 0
    while True:
        block = block_at(octets, at, file, before)
        if isinstance(block, str):
            return file.link, records, block, at
        made = KINDS.get(block.kind, passed_over)(file, block)
        if isinstance(made, str):
            return file.link, records, made, at
        if made is not None:
            records.append(made)
        at, before = at + len(block.octets), before + 1


def read_input(octets, inside):
    """The written head, all records before the end or the first fault, with its name and its place.

    There is no head where the fault stands in that of a classic capture, or before a pcapng file's
    first interface ends.
    """
    if octets[:4] == SECTION:
        link, records, fault, at = read_sections(octets, inside)
        return link and SimpleNamespace(order="little", nano=True, link=link), records, fault, at
    head = read_head(octets)
    if isinstance(head, str):
        return None, [], head, 0
    if inside is not None:
        return None, [], "block", 0
    return (head,) + read_records(octets, head)
