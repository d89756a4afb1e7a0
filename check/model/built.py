"""What a program has: the words and the version of its report.

The model knows all words. A program that has only a part of them is compared with that part: a
missing word is refused.
"""

from types import SimpleNamespace

# The option that a program takes, with the least and the greatest number.
RANGES = {
    "hops": (0, 254),
    "flows": (1, 65536),
    "cells": (1, 262144),
    "frags": (1, 4096),
    "frag-cells": (256, 65536),
    "idle": (1, 1000000),
    "frag-time": (1, 3600),
    "seed": (0, 2**64 - 1),
    "quota": (1, 262144),
    "mtu": (576, 65535),
}

# The option that takes a name, with the least and the greatest number of its octets.
NAMED = {"inside": (1, 64)}

# The option that is one word.
MARKS = ["offload", "both"]

OPTIONS = [*RANGES, *NAMED, *MARKS]


def built(options, prefixes, load, report_version):
    return SimpleNamespace(options=list(options), prefixes=prefixes, load=load, report_version=report_version)


# Everything.
WHOLE = built(OPTIONS, 16, True, 2)

# What the program of this repository has today.
BUILT = built(OPTIONS, 16, True, 2)
