"""Makes the blocks of a pcapng file: right ones, and wrong ones where a field is named."""

from model.pcapng import ORDERS, SECTION, padded


def numbers(order, *pairs):
    """Each number with its size in octets."""
    return b"".join((value % 256**size).to_bytes(size, order) for value, size in pairs)


def block(order, kind, body, keep=None, tail=b"", first=None, last=None):
    """Of the body `keep` octets stay, and `tail` follows; `first` and `last` stand in place of the
    right length."""
    body = body[:keep] + tail
    lengths = [12 + len(body) if given is None else given for given in (first, last)]
    return numbers(order, (kind, 4), (lengths[0], 4)) + body + numbers(order, (lengths[1], 4))


def option(order, code, value, length=None, pad=b"\0"):
    """`length` in place of the right one."""
    head = numbers(order, (code, 2), (len(value) if length is None else length, 2))
    return head + value + pad * (padded(len(value)) - len(value))


def section_block(order="little", kind=int.from_bytes(SECTION, "big"), magic=None, major=1, minor=0, size=2**64 - 1,
                  options=b"", **wrong):
    told = {name: octets for octets, name in ORDERS.items()}[order] if magic is None else magic
    return block(order, kind, told + numbers(order, (major, 2), (minor, 2), (size, 8)) + options, **wrong)


def interface_block(order="little", kind=1, link=101, reserved=0, snapped=0, options=b"", **wrong):
    return block(order, kind, numbers(order, (link, 2), (reserved, 2), (snapped, 4)) + options, **wrong)


def simple_block(order="little", kind=3, octets=b"", original=None, pad=b"\0", options=b"", **wrong):
    head = numbers(order, (len(octets) if original is None else original, 4))
    return block(order, kind, head + octets + pad * (padded(len(octets)) - len(octets)) + options, **wrong)


def enhanced_block(order="little", kind=6, which=0, time=0, octets=b"", captured=None, original=None, pad=b"\0",
                   options=b"", **wrong):
    """`time` is in units of the interface."""
    lengths = [len(octets) if given is None else given for given in (captured, original)]
    head = numbers(order, (which, 4), (time >> 32, 4), (time, 4), (lengths[0], 4), (lengths[1], 4))
    return block(order, kind, head + octets + pad * (padded(len(octets)) - len(octets)) + options, **wrong)


def other_block(order="little", kind=5, body=b"", **wrong):
    return block(order, kind, body, **wrong)
