"""Whole captures with their words: heads of all forms, settings near their ends, and files with a
fault."""

import random

from makers.conversations import conversation, either_way
from makers.datagrams import any_message
from makers.faults import spoilt
from makers.fragments import fragmented_messages, many_blocks
from makers.headers import frame_of, odd_frame, original_length, packet_of
from makers.sections import add_section, octets_of, open_file
from makers.world import add_record, chance, dropped_later, open_world, pass_time
from model.built import MARKS, OPTIONS, RANGES, WHOLE
from model.capture import ETHERNET, RAW
from model.packets import head, record
from model.words import read_words

VALUES = {
    "hops": [0, 1, 5, 30, 63, 64, 254],
    "flows": [1, 1, 2, 3, 4, 65536],
    "cells": [1, 2, 3, 5, 8, 262144],
    "frags": [1, 2, 3, 4096],
    "frag-cells": [256, 256, 257, 258, 300, 65536],
    "idle": [1, 2, 5, 3600],
    "frag-time": [1, 2, 5, 3600],
    "seed": [0, 7, 2**64 - 1],
    "quota": [1, 2, 3, 5, 262144],
    "mtu": [576, 577, 600, 1500, 65535],
    "inside": ["in", "in", "in", "ex", "0", "x-", "a b", "lo=0", "=", "é" * 32, "n" * 64],
}

BAD_NAMES = ["", "-", "-in", "--", "--hops=3", "n" * 65, "é" * 32 + "n", "é" * 33]

PREFIXES = ["10.0.0.0/8", "10.0.0.0/8", "10.0.0.0/8", "10.255.0.1/8", "010.0.0.0/08", "10.0.0.0/9", "10.0.0.1/32",
            "8.0.0.0/5"]

MORE_PREFIXES = ["192.168.0.0/16", "203.0.113.7/32", "198.51.100.8/32", "128.0.0.0/1", "0.0.0.0/0", "11.0.0.0/24"]

BAD_PREFIXES = ["0010.0.0.0/8", "10.0.0/8", "10.0.0.0", "10.0.0.0/", "10.0.0.0/33", "256.0.0.0/8", "10.0.0.0/008",
                "1000.0.0.0/8",
                "10.0.0.0.0/8", "10..0.0/8", "10.0.0.0/8 ", "a.0.0.0/8", "10.0.0.0/+8", "/8", "10.0.0.0/8/8"]


def option_words(rng, name, value):
    number = str(value)
    if name in RANGES and rng.random() < 0.1:
        number = number.rjust(rng.choice([2, 20]), "0")
    return ["--%s=%s" % (name, number)] if rng.random() < 0.5 else ["--" + name, number]


def good_words(rng, built, inside=0.01, both=0.2):
    """`inside` and `both` say how often these options stand; the second has none of those beside it
    that would be refused."""
    words = []
    often = {"offload": 0.25, "inside": inside, "both": both}
    names = [name for name in built.options if rng.random() < often.get(name, 0.3)]
    if "both" in names:
        names = [name for name in names if name not in ("inside", "mtu")]
    rng.shuffle(names)
    for name in names:
        words += ["--" + name] if name in MARKS else option_words(rng, name, rng.choice(VALUES[name]))
    prefixes = [rng.choice(PREFIXES)]
    while built.prefixes > 1 and rng.random() < 0.15 and len(prefixes) < built.prefixes:
        prefixes.append(rng.choice(MORE_PREFIXES[:4] if rng.random() < 0.9 else MORE_PREFIXES))
    if built.prefixes > 1 and rng.random() < 0.01:
        prefixes = ["10.0.0.0/8"] * 16
    return ["run"] + words + ["IN", "OUT"] + prefixes


def both_words(rng):
    """Both sides protected: once, twice, with a value, and beside the options with which it does
    not stand."""
    beside = rng.choice([["--inside=in"], ["--inside", "in"], ["--mtu=600"], ["--mtu", "600"],
                         ["--offload"], ["--hops=3"]])
    return [["--both"], ["--both"] + beside, beside + ["--both"],
            rng.choice([["--both"] * 2, ["--both="], ["--both=1"], ["--both=both"], ["--both", "1"], ["--bot"],
                        ["-both"], ["--Both"], ["--mirror"]])]


def spoilt_words(rng, words):
    """Invalid arguments, or ones that look invalid."""
    at = rng.randrange(len(words) + 1)
    name = rng.choice(OPTIONS)
    low, high = RANGES.get(name, (0, 0))
    named = rng.choice(BAD_NAMES + VALUES["inside"])
    more = rng.choice([["--inside=" + named], ["--inside", named], ["--inside=in", "--inside", named],
                       ["--%s=%d" % (name, high + 1)], ["--%s=%d" % (name, high)], ["--%s" % name], ["--%s=" % name],
                       ["--%s=%d" % (name, low - 1)], ["--%s" % name, str(low)], ["--offload=1"],
                       ["--hops=" + "0" * 20],
                       ["--hops=" + "0" * 21], ["--help"], ["-h"], ["--"], ["-"], [""], ["--hop=3"], ["--unknown"],
                       ["x"],
                       ["--hops=1", "--hops", "1"], ["--hops=٣"], ["--hops=+3"], ["--hops= 3"], ["--hops=0x3"],
                       ["--version"]]
                      + both_words(rng))
    choice = rng.randrange(8)
    if choice < 3:
        return words[:1] + more + words[1:]
    if choice < 4:
        return words[:at] + more + words[at:]
    if choice < 5:
        return words + rng.choice([[rng.choice(BAD_PREFIXES)], ["10.0.0.0/8"] * 15] + [["10.0.0.0/8"] * 16] * 2)
    if choice < 6:
        return words[:-1] + [rng.choice(BAD_PREFIXES)]
    if choice < 7:
        return [word if word != "OUT" else "IN" for word in words]
    return rng.choice([words[:-1], words[1:], [], ["run"], ["load", "1", "1"][:rng.randrange(1, 4)],
                       ["walk"] + words[1:]])


def sources(world):
    """The makers of packets of this capture; with both sides protected some of them work from the
    inside, and some either way."""
    if world.behind is None:
        return sources_of_side(world)
    chosen = sources_of_side(world.behind) + [either_way(world) for _ in range(world.rng.choice([0, 1, 1, 2]))]
    return chosen + (sources_of_side(world) if chance(world, 50) else [])


def sources_of_side(world):
    rng = world.rng
    chosen = [conversation(world) for _ in range(rng.choice([0, 1, 1, 2, 3]))]
    if chance(world, 45):
        chosen.append(fragmented_messages(world))
    if chance(world, 6) and world.settings.frag_cells < 400:
        chosen.append(many_blocks(world))
    if not chosen or chance(world, 40):
        chosen.append(messages(world))
    return chosen


def messages(world):
    while True:
        src, dst, protocol, message = any_message(world)
        yield packet_of(world, src, dst, protocol, message)


def fill(world, count):
    chosen = sources(world)
    for _ in range(count):
        pass_time(world)
        if world.behind is not None and chance(world, 2):
            dropped_later(world)
        if chance(world, 2):
            frame = odd_frame(world)
        else:
            source = world.rng.choice(chosen)
            packet = next(source, None)
            if packet is None:
                chosen.remove(source)
                chosen = chosen or [messages(world)]
                continue
            frame = frame_of(world, packet)
        add_record(world, frame, original_length(world, frame))


def faulty_head(rng, order, nano, link):
    return rng.choice([head(order, nano, link, magic=bytes(4)), head(order, nano, link, magic=b"\x0a\x0d\x0d\x0a"),
                       head(order, nano, link, version=(2, 3)), head(order, nano, link, version=(4, 2)),
                       head(order, nano, rng.choice([0, 113, 100, 102, 1 << 24])), head(order, nano, link)[:-1], b""])


def file_octets(world, order, nano):
    """The octets of the capture; few of them have a faulty head, a record too long, or are cut."""
    rng = world.rng
    start = head(order, nano, world.link, rest=rng.choice([(0, 0, 65535), (0, 0, 262144), (2**32 - 1, 5, 0)]))
    octets = start + b"".join(record(one.octets, one.seconds, one.fraction, one.original, order=order)
                              for one in world.records)
    if chance(world, 2):
        return faulty_head(rng, order, nano, world.link) + octets[24:]
    if chance(world, 2):
        return octets + record(b"abc", captured=rng.choice([4, 262144, 262145, 2**32 - 1]), order=order)
    if chance(world, 4):
        return octets[:rng.randrange(len(octets) + 1)]
    return octets


def make_words(number, built=WHOLE):
    """Words, most of them refused or nearly so."""
    rng = random.Random(number)
    words = good_words(rng, built)
    return spoilt_words(rng, words) if rng.random() < 0.8 else words


def make_capture(number, built=WHOLE, both=0.2):
    """The words and the octets of the capture with this number, and what the model made of it."""
    rng = random.Random(number)
    words = good_words(rng, built, both=both)
    settings = read_words(words, built).settings
    world = open_world(rng, settings, rng.choice([ETHERNET, RAW]))
    fill(world, rng.choice([0, 3, 10, 10, 30, 30, 60, 60, 100, 100]))
    octets = file_octets(world, rng.choice(["little", "big"]), rng.random() < 0.5)
    if chance(world, 7):
        words = spoilt_words(rng, words)
    return words, octets, world


def make_pcapng(number, built=WHOLE, both=0.05):
    """The same in blocks, most of them with one thing off."""
    rng = random.Random("pcapng " + number)
    words = good_words(rng, built, inside=0.6, both=both)
    world = open_file(open_world(rng, read_words(words, built).settings, rng.choice([ETHERNET, RAW])))
    fill(world, rng.choice([0, 1, 3, 3, 10, 10, 30, 60]))
    if not world.file.plan:
        add_section(world, 1)
    octets = spoilt(world) if chance(world, 65) else octets_of(world.file.plan)
    if chance(world, 3):
        words = spoilt_words(rng, words)
    return words, octets, world
