"""What the tests of the adapters share: runs to try them on, programs that are run, and faults that
are counted."""

import glob
import itertools
import os
import subprocess
from types import SimpleNamespace

from makers.files import make_capture
from model.built import WHOLE
from lib.outcome import lacking
from lib.programs import TOP

CONTRIB = os.path.abspath(os.environ.get("CONTRIB") or os.path.join(TOP, "contrib"))


class Test:
    """A test of one adapter: its faults, how much it compared, and what it needs and has not."""

    def __init__(self, name):
        self.name, self.compared, self.faults, self.skipped = name, 0, [], []

    def same(self, what, wanted, found):
        self.compared += 1
        if wanted != found:
            self.faults.append("%s: expected %s\n  found %s" % (what, wanted, found))

    def lacks(self, *tools):
        """Whether a tool is missing."""
        self.skipped += lacking(tools)
        return bool(self.skipped)


def run(words, folder, **more):
    """Runs a program with its own home, so that no settings of the user matter."""
    env = dict(os.environ, HOME=folder, XDG_CONFIG_HOME=folder, LC_ALL="C.UTF-8", TZ="UTC")
    return subprocess.run(words, stdout=subprocess.PIPE, stderr=subprocess.PIPE, env=env,
                          timeout=300, check=False, **more)


def write(path, octets):
    with open(path, "wb") as file:
        file.write(octets)
    return path


def normed(asked, folder, name, given, options=(), prefixes=("10.0.0.0/8",)):
    """A run of norm on the capture `given`: its files and the text of its report."""
    out, report = os.path.join(folder, name + ".out.pcap"), os.path.join(folder, name + ".txt")
    done = run([asked.norm, "run", *options, given, out, *prefixes], folder)
    write(report, done.stdout)
    return SimpleNamespace(name=name, given=given, out=out, report=report,
                           text=done.stdout.decode("ascii"), status=done.returncode)


def other_records(one, other):
    """Whether two runs, of which the second may be None, have different numbers of records: no tool
    can take the report of one for that of the other."""
    return other is not None and record_count(one) != record_count(other)


def record_count(one):
    return sum(line[:1].isdigit() for line in one.text.splitlines())


VARIANTS = [], ["--both"], ["--mtu", "576"], ["--flows", "2"]


def example_runs(asked, folder, is_each_in_all=True):
    """Runs on the examples: each with all options, or each with the next ones of them in turn."""
    for number, place in enumerate(sorted(glob.glob(os.path.join(TOP, "examples", "*.pcap")))):
        for options in VARIANTS if is_each_in_all else [VARIANTS[number % len(VARIANTS)]]:
            name = "-".join([os.path.basename(place)[:-5]] + [word.strip("-") for word in options])
            one = normed(asked, folder, name, place, options)
            if one.status != 0:
                raise SystemExit("%s: norm ends with %d" % (name, one.status))
            yield one


def random_runs(asked, folder, statuses=(0, 4)):
    """Runs on random captures near the edge of every rule, every third with both sides protected;
    those with another status are left out."""
    made = number = 0
    while made < asked.count:
        words, octets, _ = make_capture("tools %d %d" % (asked.seed, number), WHOLE, both=0.33)
        number += 1
        given = write(os.path.join(folder, "random-%d.pcap" % number), octets)
        at = words.index("IN")
        one = normed(asked, folder, "random-%d" % number, given, words[1:at], words[at + 2:])
        if one.status in statuses and len(one.text.splitlines()) > 2:
            made += 1
            yield one
        for path in (one.given, one.out, one.report):
            if os.path.exists(path):
                os.remove(path)


def few_runs(asked, folder, one_of):
    """A run on each example, and one in this number of the random runs to the end that are asked
    for."""
    return itertools.chain(example_runs(asked, folder, is_each_in_all=False),
                           itertools.islice(random_runs(asked, folder, (0,)),
                                            max(1, asked.count // one_of)))
