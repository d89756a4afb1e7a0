"""The programs that a check runs: one form of argument for all checks, --norm PROGRAM, --normaudit
PROGRAM and --normview PROGRAM."""

import os
import signal
import sys

# A check that is stopped ends by an exception, so that its temporary folder goes too.
signal.signal(signal.SIGTERM, lambda *_: sys.exit(1))

TOP = os.path.dirname(os.path.dirname(os.path.dirname(os.path.abspath(__file__))))


def standard(name):
    """Where a built program stands."""
    return os.path.join(TOP, "crates", name, "out", name)


def add_program(words, name="norm"):
    """Adds the argument that names the program. A name cannot be cut short: `--norm` would be taken
    for `--normview`."""
    words.allow_abbrev = False
    words.add_argument("--" + name, metavar="PROGRAM", default=standard(name),
                       help="the built program; crates/%s/out/%s if it is left out" % (name, name))


def found(program):
    """Returns the program's absolute path; ends with 2 where it is not there."""
    program = os.path.abspath(program)
    if not os.access(program, os.X_OK):
        print("%s is not there: build it as README.md says, or name one by --norm, --normaudit or --normview"
              % program, file=sys.stderr)
        sys.exit(2)
    return program
