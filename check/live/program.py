"""A running norm-bridge: how it is built, begun and ended, what it counts, its report, and what the
kernel shows of its process."""

import glob
import os
import re
import signal
import subprocess
import time
from contextlib import contextmanager

from live.network import INNER, OUTER, PREFIX
from lib.outcome import lacking
from lib.programs import TOP
from lib.talk import PATIENCE
from model.pcapng import read_input

SOURCE = os.path.join(TOP, "contrib", "bridge")

# The engine, unless the environment names another library, as `rt lib` leaves it, and where one
# library is made of it.
LIBRARY = os.path.join(TOP, "contrib", "lib")

BUILT = os.path.join(TOP, "crates", "norm_c", "out", "libnorm_c.a")

# The words with which an engine is opened, in the memory of the process.
ENGINE = re.compile(rb"run (?:[!-~]+ )*" + re.escape(PREFIX.encode()) + rb"(?: [!-~]+)*")

# The line of counts: of each side, and of norm.
COUNTS = re.compile(r"norm-bridge: (outside: received \d.*)")

COUNT = re.compile(r"(\S+) (\d+)")

VERDICTS = ("pass", "fix", "hold", "drop")


def built(folder):
    """Compiles norm-bridge from contrib/bridge. Returns its path, or None and why not."""
    library = os.environ.get("NORM_LIB")
    missing = lacking(("cc", "make", library or BUILT))
    if missing:
        return None, " ".join(missing)
    path, made = os.path.join(folder, "norm-bridge"), os.path.join(folder, "libnorm.a")
    if not library:
        make(LIBRARY, "OUT=" + made)
    make(SOURCE, "OUT=" + path, "NORM_LIB=" + os.path.abspath(library or made))
    return path, None


def make(folder, *words):
    made = subprocess.run(["make", "-s", "-C", folder, *words], stdout=subprocess.DEVNULL, stderr=subprocess.PIPE,
                          text=True, check=False)
    if made.returncode != 0:
        raise OSError(folder + " does not compile: " + made.stderr.splitlines()[0])


class Bridge:
    """The process, in the namespace of the bridge; standard error goes to a file."""

    def __init__(self, line, folder, words, before=()):
        self.line, self.folder, self.base = line, folder, None
        self.said = os.path.join(folder, "said")
        with open(self.said, "wb") as file:
            self.process = line.start("bridge", *before, *words, stdin=subprocess.DEVNULL, stdout=subprocess.DEVNULL,
                                      stderr=file)

    def words(self):
        """Returns what it wrote to standard error."""
        with open(self.said, encoding="utf-8", errors="replace") as file:
            return file.read()

    def of_process(self, name):
        """The names of what the kernel shows of its process."""
        return glob.glob("/proc/%d/%s" % (self.process.pid, name))

    def engines(self):
        """The words of its engines, as its memory has them."""
        found = set()
        with open("/proc/%d/maps" % self.process.pid, encoding="utf-8") as maps, \
                open("/proc/%d/mem" % self.process.pid, "rb", buffering=0) as memory:
            for area in maps:
                ends, rights, *_, name = area.split(" ", 5)
                if rights.startswith("rw") and not name.strip().startswith(("socket:", "/memfd:")):
                    begin, end = (int(one, 16) for one in ends.split("-"))
                    memory.seek(begin)
                    found.update(one.decode() for one in ENGINE.findall(memory.read(end - begin)))
        return found

    def counts(self):
        """Asks it for its counts, and returns them."""
        earlier = len(COUNTS.findall(self.words()))
        self.process.send_signal(signal.SIGUSR1)
        deadline = time.monotonic() + PATIENCE
        while time.monotonic() < deadline:
            lines = COUNTS.findall(self.words())
            if len(lines) > earlier:
                return read_counts(lines[-1])
            time.sleep(0.02)
        raise OSError("norm-bridge prints no counts")

    def end(self, seconds=PATIENCE):
        """Asks it to end; returns its status."""
        if self.process.poll() is None:
            self.process.terminate()
        return self.ended(seconds)

    def ended(self, seconds):
        """Returns its status once it has ended by itself, or None if it has not."""
        try:
            return self.process.wait(seconds)
        except subprocess.TimeoutExpired:
            return None

    def last_counts(self):
        lines = COUNTS.findall(self.words())
        if not lines:
            raise OSError("norm-bridge prints no counts: " + self.words()[-200:])
        return read_counts(lines[-1])

    def close(self):
        self.line.end(self.process)


def read_counts(line):
    """Numbers by names such as `outside.received`."""
    found = {}
    for group in line.split("; "):
        name, _, words = group.partition(": ")
        found.update((name + "." + what, int(number)) for what, number in COUNT.findall(words))
    return found


def total(counts, what):
    """The count of both sides."""
    return counts["outside." + what] + counts["inside." + what]


@contextmanager
def bridged(line, program, folder, options=(), after=(), before=()):
    """norm-bridge between the two interfaces, once a ping passes. `after`: words after the prefix.
    `before`: words of the command that runs it."""
    made = Bridge(line, folder, [program, *options, OUTER, INNER, PREFIX, *after], before)
    try:
        if not line.answers(PATIENCE):
            raise OSError("nothing passes norm-bridge: " + made.words()[-300:])
        yield made
    finally:
        made.close()


def captured(path):
    """The time and the octets of each record of a capture, which ends after a whole record."""
    with open(path, "rb") as file:
        head, records, fault, at = read_input(file.read(), None)
    if head is None or fault != "end":
        raise OSError("%s is cut at %d" % (os.path.basename(path), at))
    return [(record.seconds + record.fraction / 10**9, record.octets) for record in records]


def reported(folder):
    """What the reports of the run in this folder have, added up: records, frames, and lines of each
    verdict; None if one has no end. A part of a report has its time in its name."""
    found, ends = dict.fromkeys(("records", "frames", *VERDICTS), 0), 0
    names = [re.fullmatch(r"(report(?:\.\d+)?)(-.*)?", name) for name in os.listdir(folder)]
    for name in filter(None, names):
        with open(os.path.join(folder, name[0]), encoding="ascii", errors="replace") as file:
            for words in map(str.split, file):
                if words[0] == "end":
                    found["records"] += int(words[1])
                    found["frames"] += int(words[2])
                    ends += 1
                elif words[0] != "norm":
                    found[words[2]] += 1
    return found if ends == len({name[1] for name in filter(None, names)}) > 0 else None
