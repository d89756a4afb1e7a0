"""What a capture is made in: the random numbers, the settings, and the model that has seen the
records so far.

The model runs beside the maker, so that a maker can ask where an era stands and choose numbers at
its edges. With both sides protected `behind` is a world too, that of the second engine: what goes
inwards there goes outwards here.
"""

from types import SimpleNamespace

from model.both_sides import open_engines, step_engines
from model.packets import address
from model.words import is_trusted

INSIDES = [address(text) for text in ("10.0.0.1", "10.0.0.2", "10.255.255.255", "10.0.0.0")]
OUTSIDES = [address(text) for text in ("198.51.100.7", "198.51.100.8", "11.0.0.0", "9.255.255.255")]


def open_world(rng, settings, link):
    engines = open_engines(settings, link)
    world = open_side(rng, engines.first)
    world.behind = None if engines.behind is None else open_side(rng, engines.behind)
    world.engines, world.record_of, world.seconds = engines, classic_record, rng.choice([0, 0, 1, 1000000, 2**32 - 10])
    world.records, world.entries, world.entries_behind, world.written = [], [], [], []
    return world


def open_side(rng, engine):
    """What the makers of packets know of."""
    return SimpleNamespace(rng=rng, engine=engine, settings=engine.settings, link=engine.link)


def classic_record(world, frame, original):
    return SimpleNamespace(seconds=world.seconds, fraction=world.rng.randrange(1000000), octets=frame, offset=0,
                           side=None,
                           original=original)


def add_record(world, frame, original=None):
    """Steps the model over one more record."""
    record = world.record_of(world, frame, len(frame) if original is None else original)
    entry, behind, written = step_engines(world.engines, record)
    world.records.append(record)
    world.entries.append(entry)
    world.entries_behind += behind
    world.written.append(written)


def live_era(world, key):
    return world.engine.live.get(key)


def chance(world, percent):
    return world.rng.random() * 100 < percent


def near(world, *numbers):
    """One of these numbers, or one beside it."""
    return world.rng.choice(numbers) + world.rng.choice([0, 0, 0, -1, 1])


def within(number, low, high):
    return max(low, min(high, number))


def pass_time(world):
    """Mostly little time passes; sometimes just as much as a limit allows, or one second more;
    sometimes less than none."""
    rng, settings = world.rng, world.settings
    if chance(world, 88):
        return
    steps = [0, 1, 1, settings.frag_time, settings.frag_time + 1, -1]
    if chance(world, 20):
        steps += [settings.idle, settings.idle + 1, -3]
    world.seconds = within(world.seconds + rng.choice(steps), 0, 2**32 - 1)


def dropped_later(world):
    """A record that the first engine drops, at a time that the second one sees nothing of: there no
    era is idle."""
    before, idle = world.seconds, world.settings.idle
    world.seconds = within(before + world.rng.choice([1, idle, idle + 1, 2 * idle]), 0, 2**32 - 1)
    add_record(world, b"")
    world.seconds = world.rng.choice([before, before, world.seconds])


def some_address(world, usual, trusted):
    known = [one for one in usual if is_trusted(world.settings, one) == trusted]
    return world.rng.choice(known or usual)


def inside_address(world):
    """A trusted one: for the second engine it is an outside one."""
    return some_address(world, OUTSIDES if world.settings.mirror else INSIDES, True)


def outside_address(world):
    return some_address(world, INSIDES if world.settings.mirror else OUTSIDES, False)
