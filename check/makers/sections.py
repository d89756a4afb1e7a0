"""Right pcapng files: the packets of a world in sections with their interfaces, and other blocks
between them.

A file is a plan: a list of pairs of a maker of `model.blocks` and its fields.
"""

from types import SimpleNamespace

from makers.world import chance
from model.blocks import enhanced_block, interface_block, option, other_block, section_block, simple_block
from model.capture import ETHERNET
from model.formats import read_ipv4
from model.pcapng import MOST_INTERFACES, NAME, UNIT, UNITS
from model.words import side_of

SNAPPED = [0, 0, 65535, 262144, 2**32 - 1, 1, 20, 40, 60, 100]

PASSED_OVER = [0, 4, 5, 7, 8, 9, 10, 11, 0xbad, 0x40000bad, 0x7777, 0x80000001, 0x0a0d0d0b, 0x0d0a0a0d, 0xffffffff]


def open_file(world):
    """Packets of this world go into the blocks of a pcapng file."""
    world.file = SimpleNamespace(plan=[], order=None, interfaces=[], time=(0, 0))
    world.record_of = record_in_a_block
    return world


def add(world, make, **fields):
    world.file.plan.append((make, dict(order=world.file.order, **fields)))


def noise(world, most):
    return bytes(world.rng.randrange(256) for _ in range(world.rng.randrange(most + 1)))


def names_near(world):
    """Names for interfaces: that of the inside one, and what only looks like it."""
    inside = world.settings.inside or b"in"
    return ([inside] * 8
            + [None, None, b"", b"ex", inside + b"\0", inside[:-1], inside + b"x", inside * 300, inside.swapcase(),
               b" " + inside])


def interface_options(world, name, unit):
    """The name and the unit, others before, between and after them, and what is not read any
    more."""
    rng, order = world.rng, world.file.order
    listed = [] if name is None else [(NAME, name)]
    listed += [(UNIT, unit)] if unit != b"\6" or chance(world, 40) else []
    rng.shuffle(listed)
    while chance(world, 25):
        listed.insert(rng.randrange(len(listed) + 1), (rng.choice([1, 3, 8, 11, 12, 14, 2988, 65535]), noise(world, 9)))
    if name is not None and chance(world, 10):
        listed.append((NAME, rng.choice(names_near(world)) or b"other"))
    if any(code == UNIT for code, _ in listed) and chance(world, 10):
        listed.append((UNIT, rng.choice([b"\6", b"\x09", b"\0", b"", b"\6\6"])))
    octets = b"".join(option(order, code, value, pad=rng.choice([b"\0", b"x"])) for code, value in listed)
    if chance(world, 50):
        return octets
    end = option(order, 0, b"", length=rng.choice([0, 0, 0, 0, 1, 4, 65535]))
    return (octets + end
            + (rng.choice([option(order, UNIT, b"\0"), option(order, NAME, b"in"), b"\2\0\xff\xff"])
               if chance(world, 15) else b""))


def add_interface(world):
    rng, unit = world.rng, world.rng.choice(list(UNITS))
    name, snapped = rng.choice(names_near(world)), rng.choice(SNAPPED)
    add(world, interface_block, link=world.link, reserved=rng.choice([0, 0, 1, 65535]), snapped=snapped,
        options=interface_options(world, name, unit))
    world.file.interfaces.append(SimpleNamespace(name=name, unit=unit, snapped=snapped))


def add_section(world, interfaces):
    rng, file = world.rng, world.file
    file.order, file.interfaces = rng.choice(["little", "big"]), []
    options = rng.choice([b"", b"", option(file.order, 4, b"check"), noise(world, 3) * 4])
    add(world, section_block, minor=rng.choice([0, 0, 0, 1, 2, 65535]),
        size=rng.choice([2**64 - 1, 2**64 - 1, 0, 28, 2**63]), options=options)
    for _ in range(interfaces):
        add_other(world)
        add_interface(world)


def add_other(world):
    """Now and then a block without a packet."""
    while chance(world, 8):
        add(world, other_block, kind=world.rng.choice(PASSED_OVER), body=noise(world, 6) * 4)


def side_wanted(world, frame):
    """That of the packet's addresses."""
    ip = read_ipv4(frame[14 if world.link == ETHERNET else 0:])
    return side_of(world.settings, None, ip.src, ip.dst)


def side_seen(world, which):
    inside = world.settings.inside
    return None if inside is None else "out" if world.file.interfaces[which].name == inside else "in"


def pick_interface(world, frame):
    """Mostly one on the side that the packet's addresses tell."""
    all_of_them = range(len(world.file.interfaces))
    fitting = [which for which in all_of_them if side_seen(world, which) == side_wanted(world, frame)]
    return world.rng.choice(fitting if fitting and chance(world, 85) else all_of_them)


def record_in_a_block(world, frame, original):
    """Writes a block with the frame, and before it what a file may have there; the record that is
    read of it."""
    file = world.file
    while not file.interfaces or chance(world, 3):
        add_section(world, world.rng.choice([0, 1, 2, 2, 3]))
    while chance(world, 6) and len(file.interfaces) < MOST_INTERFACES:
        add_interface(world)
    add_other(world)
    return simple_record(world, frame, original) if chance(world, 10) else enhanced_record(world, frame, original)


def packet_fields(world):
    return {"pad": world.rng.choice([b"\0", b"x"]), "options": world.rng.choice([b"", b"", noise(world, 2) * 4])}


def simple_record(world, frame, original):
    captured = min(original, world.file.interfaces[0].snapped or original)
    octets = (frame + bytes(captured))[:captured]
    add(world, simple_block, octets=octets, original=original, **packet_fields(world))
    return read_as(world, 0, octets, original)


def enhanced_record(world, frame, original):
    file, which = world.file, pick_interface(world, frame)
    units = UNITS[file.interfaces[which].unit]
    fraction = world.rng.choice([0, 1, units - 1, world.rng.randrange(units)])
    file.time = (world.seconds, fraction * (10**9 // units))
    add(world, enhanced_block, which=which, time=world.seconds * units + fraction, octets=frame, original=original,
        **packet_fields(world))
    return read_as(world, which, frame, original)


def read_as(world, which, octets, original):
    seconds, fraction = world.file.time
    return SimpleNamespace(seconds=seconds, fraction=fraction, octets=octets, offset=0, original=original,
                           side=side_seen(world, which))


def octets_of(plan):
    return b"".join(make(**fields) for make, fields in plan)
