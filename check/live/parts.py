"""The parts of check/live/bridge: how they are listed, and what they are given."""

import os
import shutil
import tempfile
import time
from contextlib import contextmanager

from lib.outcome import Fault
from lib.talk import PATIENCE
from live.network import INNER, OUTER
from live.program import VERDICTS, bridged, reported, total

# What becomes of a frame that was received: one of these.
FATES = ("given", "arp", "forged", "unjudged", "too-long", "truncated")

# A part is a name, the programs of the system that it needs, and a function that returns what it
# measured.
PARTS = []


def part(name, *needs):
    """Adds the function that follows to the parts."""
    def add(work):
        PARTS.append((name, needs, work))
        return work
    return add


def require(fact, what):
    if not fact:
        raise Fault(what)


class Trial:
    """What a part is given: the line, the words of the command line, and a folder."""

    def __init__(self, line, asked, folder):
        self.line, self.asked, self.folder = line, asked, folder

    @contextmanager
    def place(self):
        made = tempfile.mkdtemp(dir=self.folder)
        os.chmod(made, 0o777)           # norm-bridge becomes another user.
        try:
            yield made
        finally:
            shutil.rmtree(made, ignore_errors=True)

    @contextmanager
    def bridge(self, *options, after=(), before=(), rested=True):
        """norm-bridge with a report, in its own folder. `rested`: nothing talks yet, so that its
        counts can be compared with those of the interfaces."""
        with self.place() as folder, \
                bridged(self.line, self.asked.bridge, folder,
                        ["--report", os.path.join(folder, "report"), *options], after, before) as made:
            made.base = base(made) if rested else None
            yield made


# Counts

def rest(line, seconds=5):
    """Waits until the interfaces of the bridge have counted nothing for a moment; returns what
    they have counted, or None if they do not rest."""
    deadline, before = time.monotonic() + seconds, None
    while time.monotonic() < deadline:
        now = line.statistics()
        if now == before:
            return now
        before = now
        time.sleep(0.3)
    return None


def base(bridge, seconds=5):
    """What the interfaces and the bridge have counted at rest: an interface counts also what
    arrives before it is read. None if there is no rest."""
    while (before := rest(bridge.line, seconds)) is not None:
        earlier, counts = bridge.counts(), bridge.counts()
        is_read = total(earlier, "received") == total(counts, "received")
        if is_read and bridge.line.statistics() == before:
            return before, counts
    return None


def ended(bridge, is_reported=True):
    """Ends the bridge at rest, and compares its counts with those of the report, if that is whole,
    and of the interfaces, if it began at rest. Returns the counts."""
    settled = base(bridge, PATIENCE) if bridge.ended(0) is None else None
    status = bridge.end()
    require(status == 0, "asked to end, it ends with %s: %s" % (status, bridge.words()[-200:].strip()))
    counts, report = bridge.last_counts(), reported(bridge.folder)
    facts = list(sums(counts)) + list(sums_of_norm(counts, report) if is_reported else ())
    if bridge.base is not None:
        # The interfaces alone count what arrives while it ends, such as the ends of connections.
        now = bridge.line.statistics()
        same = settled is None or now == settled[0]
        facts += sums_of_interfaces(bridge.base, (now, counts) if same else settled)
    for fact, what in facts:
        require(fact, what + ": " + shown(counts))
    return counts


def shown(counts):
    return " ".join("%s %d" % pair for pair in counts.items() if pair[1])


# What has to be equal, each with what it means if it is not.

def sums(counts):
    """Each frame that was received is counted once more."""
    for side in ("outside", "inside"):
        received, known = counts[side + ".received"], sum(counts[side + "." + what] for what in FATES)
        yield received == known, "it received %d frames %s, and counts what became of %d" % (received, side, known)


def sums_of_interfaces(before, after):
    """The frames that the interfaces counted, at rest."""
    for side, device in (("outside", OUTER), ("inside", INNER)):
        risen = {what: after[1][side + "." + what] - before[1][side + "." + what]
                 for what in ("received", "kernel", "sent")}
        arrived, sent = (after[0][device, what] - before[0][device, what] for what in ("rx_packets", "tx_packets"))
        taken = risen["received"] + risen["kernel"]
        yield taken == arrived, "%d frames arrived %s, and it counts %d" % (arrived, side, taken)
        yield risen["sent"] == sent, "%d frames were sent %s, and it counts %d" % (sent, side, risen["sent"])


def sums_of_norm(counts, report):
    """What norm was given and wrote, by its report."""
    if report is None:
        yield False, "the report has no end"
        return
    wanted = {"records": total(counts, "given"), "frames": counts["norm.wrote"]}
    yield wanted.items() <= report.items(), "the report has %s, and it counts %s" % (report, wanted)
    lines, lost = {verdict: (report[verdict], counts["norm." + verdict]) for verdict in VERDICTS}, counts["kept.lost"]
    # Those that are lost are missing in the report, or in the files of --keep alone.
    yield (sum(many - few for few, many in lines.values()) <= lost and all(few <= many for few, many in lines.values()),
           "lines of the report, and records counted: %s, %d of them as lost" % (lines, lost))
    out, sent = wanted["frames"] + total(counts, "arp"), total(counts, "sent") + total(counts, "failed")
    yield out == sent, "%d frames were to be sent, and it counts %d" % (out, sent)
