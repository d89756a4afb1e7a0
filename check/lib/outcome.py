"""How the parts of a check are run, and how it says what is not run, what differs and how it
ends."""

import os
import shutil
import subprocess
import sys
import time

from lib.programs import TOP

# The running script, named from check/.
CHECK = os.path.relpath(os.path.abspath(sys.argv[0]), os.path.join(TOP, "check"))

# What a part may raise besides a Fault where the programs do not do what it takes for granted.
BROKEN = (OSError, subprocess.SubprocessError, KeyError, ValueError)


class Fault(Exception):
    """What differs from what is wanted."""


def lacking(needs):
    """Returns those of these needs that this machine lacks: programs, files, or `root`."""
    exists = {"root": os.geteuid() == 0}
    return [need for need in needs
            if not exists.get(need, os.path.exists(need) if need.startswith("/") else shutil.which(need))]


def skip(needs, part=None):
    """Prints that the check, or this part of it, is not run; `needs` is what the system lacks."""
    name = CHECK + (", " + part if part else "")
    print("%s: not run, since it needs: %s" % (name, needs if isinstance(needs, str) else " ".join(needs)), flush=True)


class Parts:
    """Runs the parts of a check, prints a line for each, and counts them."""

    def __init__(self):
        self.passed = self.failed = self.skipped = 0

    def run(self, name, needs, work):
        """Runs `work`, which returns what it measured, if anything, or raises a Fault."""
        missing = lacking(needs)
        if missing:
            skip(missing, name)
            self.skipped += 1
            return
        begun = time.monotonic()
        try:
            said = work() or "passed"
            self.passed += 1
        except Fault as fault:
            said = "FAULT: %s" % fault
            self.failed += 1
        except BROKEN as fault:
            said = "FAULT: %s: %s" % (type(fault).__name__, fault)
            self.failed += 1
        print("%-42s %s, %.1f s" % (name, said, time.monotonic() - begun), flush=True)

    def end(self):
        """Prints the last line, and returns the status: 1 where a part failed or none was
        chosen."""
        skipped = ", %d skipped" % self.skipped if self.skipped else ""
        print("%d passed, %d failed%s" % (self.passed, self.failed, skipped))
        return 1 if self.failed or not self.passed + self.skipped else 0
