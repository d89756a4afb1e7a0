"""One thing off in a pcapng file, at the edge of each rule of its grammar: some are just right."""

from makers.sections import add, add_interface, add_section, noise, octets_of
from makers.world import chance
from model.blocks import enhanced_block, interface_block, option, other_block, section_block, simple_block
from model.capture import LONGEST
from model.pcapng import MOST_INTERFACES, NAME, UNIT, UNITS

# The octets that a body has at least, by its maker.
LEAST = {section_block: 16, interface_block: 8, enhanced_block: 20, simple_block: 4, other_block: 0}

# Fields that are off, whatever the byte order.
WRONG = {section_block: [{"magic": bytes(4)}, {"major": 2}, {"keep": 12}, {"first": 13}, {"last": 0}],
         interface_block: [{"link": 113}, {"options": b"\xff\xff\xff\xff"}, {"keep": 4}, {"first": 2**32 - 4},
                           {"last": 0}],
         enhanced_block: [{"which": 65}, {"captured": LONGEST + 1}, {"captured": LONGEST}, {"time": 2**64 - 1},
                          {"keep": 16}, {"first": 11}, {"last": 0}],
         simple_block: [{"original": LONGEST + 1}, {"keep": 0}, {"keep": 4}, {"first": 2**32 - 1}, {"last": 0},
                        {"kind": 2}]}

KINDS = [0, 1, 2, 2, 2, 3, 4, 5, 6, 7, 10, 0x0a0d0d0a, 0x01000000, 0x02000000, 0x03000000, 0x06000000, 0x80000006]


def any_block(world, *makers):
    """The fields of a block of one of these makers, mostly of the first few; a new block where
    there is none."""
    plan = world.file.plan
    fitting = [fields for make, fields in plan if make in makers]
    if not fitting:
        add(world, makers[0])
        return plan[-1][1]
    return world.rng.choice(fitting)


def off_length(world):
    """One of the two lengths is another one."""
    plan, rng = world.file.plan, world.rng
    at = rng.randrange(len(plan))
    make, fields = plan[at]
    right = len(make(**fields))
    swapped = int.from_bytes(right.to_bytes(4, "little"), "big")
    values = ([right + step for step in (-12, -4, -2, -1, 1, 2, 4, 12)]
              + [0, 4, 8, 11, 12, 13, 16, 2**31, 2**32 - 4, 2**32 - 1, swapped])
    value = rng.choice(values)
    for name in rng.choice([["first"], ["last"], ["first", "last"]]):
        fields[name] = max(0, value)


def off_multiple(world):
    """As many octets more that the length is no multiple of 4, or is again."""
    _, fields = world.rng.choice(world.file.plan)
    fields["tail"] = bytes(world.rng.choice([1, 2, 3, 4, 8]))


def off_least(world):
    """A body of about the least size of its kind."""
    make = world.rng.choice(list(LEAST))
    fields = any_block(world, make)
    least = LEAST[make]
    fields["keep"] = world.rng.choice([0, max(0, least - 4), max(0, least - 4), least, least, least + 4,
                                       max(0, least - 1)])


def off_options(world):
    """Options that end at the area's end, or past it; invalid units."""
    fields, rng = any_block(world, interface_block), world.rng
    order = fields["order"]
    area = rng.choice([b"", b"", option(order, NAME, b"in"), option(order, 11, noise(world, 6))])
    value = noise(world, 7)
    reaching = option(order, rng.choice([NAME, 3, UNIT, 11]), value,
                      length=len(value) + rng.choice([0, 1, 2, 3, 4, 8, 65535 - len(value)]))
    units = ([bytes([n]) for n in (0, 3, 5, 6, 7, 8, 9, 10, 12, 0x86, 0x89)]
             + [b"", b"\6\6", b"\6\0", b"\x09\0\0\0", b"\0\0\0\x06"])
    unit = option(order, UNIT, rng.choice(units))
    end = option(order, 0, b"", length=rng.choice([0, 0, 3, 4, 65535]))
    right = option(order, UNIT, rng.choice(list(UNITS)))
    fields["options"] = area + rng.choice([reaching, reaching, unit, unit, unit + right, right + unit, end,
                                           end + reaching, end + unit,
                                           right + reaching, reaching + end])


def off_count(world):
    """As many interfaces as a section may have, or one more."""
    for _ in range(world.rng.choice([1, 2])):
        add_section(world, 1)
        goal = MOST_INTERFACES + world.rng.choice([0, 0, 1])
        while len(world.file.interfaces) < goal:
            add_interface(world)
        one_packet(world, which=world.rng.choice([goal - 1, goal, 0]))


def one_packet(world, **fields):
    """A packet that is a datagram inwards or noise, at the end of the file."""
    add(world, enhanced_block, **dict({"octets": noise(world, 40)}, **fields))


def off_interface(world):
    """The last interface that a section has described, and one that it has not."""
    count = len(world.file.interfaces)
    choice = world.rng.choice([count, count, count - 1, 64, 2**31, 2**32 - 1])
    if chance(world, 50):
        one_packet(world, which=choice)
    else:
        any_block(world, enhanced_block)["which"] = choice


def off_captured(world):
    """A captured length at the largest one, or at the end of the block."""
    rng = world.rng
    if chance(world, 50):
        fields = any_block(world, enhanced_block)
        fields["captured"] = max(0, len(fields.get("octets", b"")) + rng.choice([-5, -1, 1, 1, 2, 3, 4, 5, 8]))
        return
    length = LONGEST + rng.choice([0, 1])
    standing = bytes(length if chance(world, 60) else rng.choice([0, length - 4, length - 1]))
    one_packet(world, octets=standing, captured=rng.choice([length, length, length, 2**32 - 1, 2**32 - 3, 2**32 - 4]),
               original=rng.choice([length, None]))


def off_snapped(world):
    """A simple packet under a bound on what is captured, without one, and at the largest captured
    length."""
    rng = world.rng
    if chance(world, 60):
        add_section(world, 0)
        add(world, interface_block, link=world.link,
            snapped=rng.choice([0, 0, 1, 7, 8, 9, LONGEST, LONGEST + 1, 2**32 - 1]))
    octets = noise(world, 20)
    original = rng.choice([len(octets), len(octets) + 1, len(octets) + 4, LONGEST, LONGEST + 1, LONGEST + 1, 2**32 - 1,
                           0])
    if original in (LONGEST, LONGEST + 1) and chance(world, 60):
        octets = bytes(original - rng.choice([0, 0, 4]))
    add(world, simple_block, octets=octets, original=original)


def off_time(world):
    """The last time that a record can have, and the first that it can't."""
    rng = world.rng
    unit = rng.choice(list(UNITS))
    units = UNITS[unit]
    times = [2**32 * units - 1, 2**32 * units, 2**32 * units + 1, 2**64 - 1, 2**63, 2**64 - 2**32]
    if chance(world, 50):
        any_block(world, enhanced_block)["time"] = rng.choice(times)
        return
    add_section(world, 0)
    add(world, interface_block, link=world.link, options=option(world.file.order, UNIT, unit))
    add(world, simple_block, octets=noise(world, 30))
    one_packet(world, time=rng.choice(times[:3]))
    add(world, simple_block, octets=noise(world, 30))


def off_section(world):
    """An invalid byte order, or another version."""
    fields, rng = any_block(world, section_block), world.rng
    magics = [bytes(4), b"\x1a\x2b\x3c\x4d", b"\x4d\x3c\x2b\x1a", b"\x3c\x4d\x1a\x2b", b"\x4d\x3c\x2b\x1b",
              b"\x1a\x2b\x4d\x3c", b"\xd4\xc3\xb2\xa1"]
    if chance(world, 60):
        fields["magic"] = rng.choice(magics)
    else:
        fields["major"], fields["minor"] = rng.choice([0, 1, 1, 2, 256, 257, 65535]), rng.choice([0, 1, 2, 256])


def off_link(world):
    any_block(world, interface_block)["link"] = world.rng.choice([0, 1, 1, 101, 101, 113, 257, 25856, 100, 102, 65535])


def off_kind(world):
    """A block is given another kind, or one of another kind comes in between."""
    plan, rng = world.file.plan, world.rng
    if chance(world, 50):
        rng.choice(plan)[1]["kind"] = rng.choice(KINDS)
        return
    at = rng.randrange(len(plan) + 1)
    order = plan[max(0, at - 1)][1]["order"]
    plan.insert(at,
                (other_block,
                 {"order": order, "kind": rng.choice(KINDS), "body": rng.choice([b"", noise(world, 10) * 4])}))


def off_order(world):
    """A block in the other byte order."""
    fields = world.rng.choice(world.file.plan)[1]
    fields["order"] = "big" if fields["order"] == "little" else "little"


def off_twice(world):
    """Two things off in one block: the first of them is told."""
    make = world.rng.choice(list(WRONG))
    fields = any_block(world, make)
    for wrong in world.rng.sample(WRONG[make], 2):
        fields.update(wrong)


def off_place(world):
    """A block is left out, doubled or moved: a section without interfaces, packets before them, a
    first block that is no section."""
    plan, rng = world.file.plan, world.rng
    at = rng.choice([0, 0, 1, rng.randrange(len(plan))]) % len(plan)
    one = plan[at]
    if chance(world, 50) and len(plan) > 1:
        del plan[at]
    if chance(world, 60):
        plan.insert(rng.choice([0, 1, rng.randrange(len(plan) + 1)]), (one[0], dict(one[1])))


def off_interfaces(world):
    """A file, or its last section, without an interface, and perhaps a packet there."""
    if chance(world, 50):
        world.file.plan.clear()
    add_section(world, 0)
    if chance(world, 60):
        make = world.rng.choice([enhanced_block, simple_block, other_block])
        add(world, make, **world.rng.choice([{}] + WRONG.get(make, [])))


OFF = [off_length, off_length, off_multiple, off_least, off_options, off_options, off_count, off_interface,
       off_captured, off_snapped, off_time,
       off_section, off_link, off_kind, off_order, off_twice, off_twice, off_place, off_interfaces]


def starts_of(plan):
    """Where each block starts, and where the file ends."""
    places = [0]
    for make, fields in plan:
        places.append(places[-1] + len(make(**fields)))
    return places


def cut(world, octets):
    """Cut anywhere, mostly in or after the head of a block or before its end; or with some octets
    more."""
    rng = world.rng
    if chance(world, 20):
        return (octets
                + rng.choice([bytes(rng.randrange(1, 30)), noise(world, 14),
                              b"\x0a\x0d\x0d\x0a" * rng.randrange(1, 4)]))
    places = starts_of(world.file.plan)
    place = rng.choice([rng.choice(places) + rng.randrange(-13, 14), rng.randrange(min(60, len(octets)) + 1),
                        rng.randrange(len(octets) + 1)])
    return octets[:max(0, place)]


def changed(world, octets):
    """A few octets are others, mostly in the heads of blocks."""
    rng, octets = world.rng, bytearray(octets)
    places = starts_of(world.file.plan)
    for _ in range(rng.choice([1, 1, 1, 2, 3])):
        at = rng.choice([rng.choice(places) + rng.randrange(36), rng.randrange(len(octets))])
        if at < len(octets):
            octets[at] = rng.choice([0, 1, 2, 3, 4, 6, 9, 12, 101, 255, octets[at] ^ 1 << rng.randrange(8),
                                     rng.randrange(256)])
    return bytes(octets)


def spoilt(world):
    """The octets of the file with one or two things off."""
    if not chance(world, 75):
        octets = octets_of(world.file.plan)
        return world.rng.choice([cut, changed])(world, octets)
    for _ in range(world.rng.choice([1, 1, 1, 1, 2])):
        world.rng.choice(OFF)(world)
    octets = octets_of(world.file.plan)
    return cut(world, octets) if chance(world, 3) else octets
