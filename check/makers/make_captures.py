#!/usr/bin/env python3
"""Makes random captures near the edge of every rule.

usage: check/makers/make_captures.py SEED COUNT [FOLDER]

Capture number i is made from SEED and i alone. With FOLDER each is written as FOLDER/i.pcap, and
its words, one per line, as FOLDER/i.words, in which IN and OUT stand for the two names. At the end
the rules that the model named in them are printed, each with its number of records, and, with both
sides protected, of frames in the second engine. The rules that it never named follow.
"""

import os
import sys

sys.path.insert(0, os.path.dirname(os.path.dirname(os.path.abspath(__file__))))

from makers.files import make_capture  # noqa: E402
from model.rule_names import RULES  # noqa: E402


def count(counts, names):
    for name in names:
        counts[name] = counts.get(name, 0) + 1


def main(seed, number, folder=None):
    rules, behind, records, ends = {}, {}, 0, {}
    for i in range(number):
        words, octets, world = make_capture("%s %d" % (seed, i))
        records += len(world.records)
        for entry in world.entries:
            count(rules, entry.rules)
        for entry in world.entries_behind:
            count(behind, entry.rules)
        for entry in world.entries + world.entries_behind:
            count(ends, [ended.reason for ended in entry.ended])
        if folder is not None:
            os.makedirs(folder, exist_ok=True)
            with open(os.path.join(folder, "%d.pcap" % i), "wb") as file:
                file.write(octets)
            with open(os.path.join(folder, "%d.words" % i), "w", encoding="utf-8") as file:
                file.write("".join(word + "\n" for word in words))
    print("%d captures, %d records" % (number, records))
    for rule in RULES:
        print("%8d %8d %s" % (rules.get(rule, 0), behind.get(rule, 0), rule))
    print("eras ended: " + ", ".join("%s %d" % pair for pair in sorted(ends.items())))
    print("never: " + " ".join(rule for rule in RULES if rule not in rules))


if __name__ == "__main__":
    if len(sys.argv) not in (3, 4):
        sys.exit(__doc__)
    main(sys.argv[1], int(sys.argv[2]), *sys.argv[3:])
