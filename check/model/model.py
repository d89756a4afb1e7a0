#!/usr/bin/env python3
"""Runs the model as the program is run.

usage: check/model/model.py [--whole] run OPTION* IN OUT PREFIX+
       check/model/model.py --whole load SEED COUNT
       check/model/model.py view OPTION* IN OUT REPORT

The last form is what normview does. Without --whole the model does what the program has today, with
it all that the rules say. It prints the report, writes OUT and ends with the status.
"""

import os
import sys

sys.path.insert(0, os.path.dirname(os.path.dirname(os.path.abspath(__file__))))

from model.built import BUILT, WHOLE  # noqa: E402
from model.run import run  # noqa: E402
from model.view import view_files  # noqa: E402
from model.words import read_words  # noqa: E402


def main(words):
    if words[:1] == ["view"]:
        status, text = view_files(words[1:])
        sys.stdout.write(text)
        return status
    has = BUILT
    if words[:1] == ["--whole"]:
        has, words = WHOLE, words[1:]
    command = read_words(words, has)
    octets = b""
    if not isinstance(command, int) and command.kind == "run":
        with open(command.input, "rb") as file:
            octets = file.read()
    status, written, report = run(words, octets, has)
    if not isinstance(command, int) and command.kind == "run":
        with open(command.output, "wb") as file:
            file.write(written)
    sys.stdout.write(report)
    return status


if __name__ == "__main__":
    sys.exit(main(sys.argv[1:]))
