"""Parts of check/live/bridge: it is ended, killed or stopped, it starts in mid-connection, links go
down, an interface vanishes, a disk is full or slow."""

import glob
import os
import re
import signal
import subprocess
import time
from contextlib import closing

from live.fates import datagram, kinds
from live.kept import captured
from live.network import INNER, OUTER
from lib.network import INSIDE, OUTSIDE
from lib.talk import PATIENCE
from live.parts import ended, part, require, sums_of_norm
from live.program import COUNTS, reported, total
from live.raw import caught, ethernet, frames_of
from live.traffic import talking, web

# A transfer of this size at this rate lasts three seconds.
OCTETS, RATE = 30 * 10**6, "10M"

CONNECTIONS = 20

HOSTS = ("outside", "hosts")


class Some:
    """Frames that a bridge would pass, ARP among them, from either side."""

    def __init__(self, line):
        self.line = line
        self.frames = [(frames_of(line, host, protocol=0),
                        [frame for name, frame in kinds(line, host) if name in ("given", "arp")]) for host in HOSTS]

    def passed(self, seconds):
        """Sends them, and returns how many frames the bridge sends in this time."""
        before = self.line.statistics()
        for sender, frames in self.frames:
            for frame in 10 * frames:
                sender.send(frame)
        time.sleep(seconds)
        now = self.line.statistics()
        return sum(now[device, "tx_packets"] - before[device, "tx_packets"] for device in (OUTER, INNER))

    def close(self):
        for sender, _ in self.frames:
            sender.close()


def nothing_passes(line, what):
    """Neither interface of the bridge sends anything."""
    with closing(Some(line)) as some:
        passed = some.passed(0.2)
    require(passed == 0, "%s, %d frames pass" % (what, passed))


@part("signals")
def signals(trial):
    """With its standard descriptors closed, too: what it says goes into no frame."""
    line = trial.line
    for one in (signal.SIGINT, signal.SIGTERM):
        with trial.bridge("--every", "1") as bridge:
            bridge.process.send_signal(signal.SIGHUP)
            bridge.process.send_signal(signal.SIGPIPE)
            bridge.counts()
            require(line.answers(PATIENCE), "after SIGHUP and SIGPIPE nothing passes")
            earlier = len(COUNTS.findall(bridge.words()))
            time.sleep(3.5)
            printed = len(COUNTS.findall(bridge.words())) - earlier
            require(2 < printed < 6, "in 3.5 seconds it prints its counts %d times, and not each second" % printed)
            bridge.process.send_signal(one)
            status = bridge.ended(PATIENCE)
            require(status == 0, "%s: it ends with %s" % (one.name, status))
            for fact, what in sums_of_norm(bridge.last_counts(), reported(bridge.folder)):
                require(fact, what)
    closed = ("sh", "-c", 'exec "$0" "$@" <&- >&- 2>&-')
    with trial.bridge("--every", "1", before=closed, rested=False) as bridge:
        with frames_of(line, "outside") as outside, frames_of(line, "hosts") as hosts:
            bridge.process.send_signal(signal.SIGUSR1)
            for taker in (outside, hosts):
                require(caught(taker, 1.1, lambda frame: b"received" in frame) is None, "a line leaves as a frame")
        require(bridge.end() == 0, "with closed descriptors it does not end with 0")
    return "SIGINT and SIGTERM end it with 0 and its counts, SIGUSR1 prints them, SIGHUP and SIGPIPE do not end it"


# Takes the place of write(2): a file is not written to as long as another one exists.
SLOW = r"""
#define _GNU_SOURCE
#include <stdlib.h>
#include <sys/stat.h>
#include <sys/syscall.h>
#include <unistd.h>
ssize_t write(int fd, const void *octets, size_t count) {
    struct stat about;
    while (fd > 2 && fstat(fd, &about) == 0 && S_ISREG(about.st_mode) && access(getenv("SLOW"), F_OK) == 0)
        usleep(10000);
    return syscall(SYS_write, fd, octets, count);
}
"""


class Disk:
    """A disk that takes nothing while this goes on; `words` begin a bridge that writes to it."""

    def __init__(self, folder):
        self.path, library = os.path.join(folder, "slow"), os.path.join(folder, "slow.so")
        subprocess.run(["cc", "-shared", "-fPIC", "-x", "c", "-o", library, "-"], input=SLOW, text=True, check=True)
        self.words = ("env", "LD_PRELOAD=" + library, "SLOW=" + self.path)

    def __enter__(self):
        with open(self.path, "wb"):
            pass

    def __exit__(self, *_):
        os.remove(self.path)


@part("slow disk")
def slow_disk(trial):
    """Files lose records, which are counted, and the link none. Later records are kept again."""
    line, count = trial.line, 30000
    frame = ethernet(line, "outside", "hosts", datagram(OUTSIDE, INSIDE, bytes(1400)))
    with trial.place() as place, trial.place() as folder:
        disk = Disk(place)
        with trial.bridge("--keep", folder, before=disk.words) as bridge:
            with disk, frames_of(line, "outside", protocol=0) as sender:
                before = line.statistics()[INNER, "tx_packets"]
                for number in range(count):
                    sender.send(frame)
                    if number % 50 == 0:
                        time.sleep(0.002)
                time.sleep(0.5)
                passed = line.statistics()[INNER, "tx_packets"] - before
                require(line.answers(1), "while the disk is slow nothing passes")
            deadline = time.monotonic() + PATIENCE
            while "begins after a gap" not in bridge.words() and time.monotonic() < deadline:
                time.sleep(0.1)
            mark = ethernet(line, "outside", "hosts", datagram(OUTSIDE, INSIDE, b"kept again"))
            with frames_of(line, "outside", protocol=0) as sender:
                sender.send(mark)
            counts = ended(bridge)
        files = {name: captured(os.path.join(folder, name)) for name in os.listdir(folder) if name.startswith("in-")}
    kept = [octets for records in files.values() for _, octets in records]
    require(passed >= 0.9 * count, "while the disk is slow %d frames of %d pass" % (passed, count))
    require(counts["kept.lost"] > 0 and mark in kept, "%d records are counted as lost, and later ones are%s kept" % (
        counts["kept.lost"], "" if mark in kept else " not"))
    require(len(kept) + counts["kept.lost"] == total(counts, "given"), "%d records are kept, %d lost, of %d" % (
        len(kept), counts["kept.lost"], total(counts, "given")))
    require(any("gap" in name for name in files), "no file names the gap: " + " ".join(files))
    return "%d of %d frames pass, %d records kept of %d, in %d files" % (
        passed, count, len(kept), total(counts, "given"), len(files))


@part("second signal")
def second_signal(trial):
    """The first one waits for a disk that takes nothing; the second one does not."""
    line = trial.line
    with trial.place() as place:
        disk = Disk(place)
        with trial.bridge(before=disk.words) as bridge, disk:
            line.answers(1)
            require(bridge.end(0.5) is None, "it does not wait for its files")
            status = bridge.end(3)
    require(status == 1, "it ends with %s" % status)
    return "ends it at once with 1, though its files are not written"


@part("bridge killed", "curl")
def killed(trial):
    line = trial.line
    with trial.bridge("--jobs", "2") as bridge, web(line, "outside", trial.folder, OCTETS) as server:
        transfer = server.begin(60, RATE)
        time.sleep(0.5)
        require(transfer.poll() is None, "the transfer has ended before the bridge was killed")
        bridge.process.kill()
        require(bridge.ended(PATIENCE) == -signal.SIGKILL, "it is killed, and does not end")
        line.end(transfer)
        nothing_passes(line, "the bridge is killed")
        require(not line.answers(1), "the bridge is killed, and a ping is answered")
    return "nothing passes"


@part("cold start", "curl")
def cold(trial):
    line = trial.line
    with web(line, "outside", trial.folder, OCTETS) as server:
        with trial.bridge() as bridge:
            with talking(line, CONNECTIONS, 0.01) as talker:
                require(talker.wait(10 * CONNECTIONS), "the connections do not begin: %s" % talker.fault)
                transfer = server.begin(60, RATE)
                time.sleep(0.3)
                early(bridge)
                nothing_passes(line, "the bridge has ended")
                with trial.bridge(rested=False) as second:
                    require(talker.wait(10 * CONNECTIONS),
                            "the connections do not go on: %s" % (talker.fault or "they are silent"))
                    fault = server.fault(transfer)
                    require(fault is None, "the transfer: %s" % fault)
                    talker.ended.set()
                    talker.thread.join(2 * PATIENCE)
                    ended(second)
    return ("ended in a transfer with status 0 and its counts, and started again: it and %d connections go on"
            % CONNECTIONS)


def early(bridge):
    """Ends the bridge in mid-transfer: frames that it read are sent, and the counts are right."""
    status = bridge.end()
    require(status == 0, "asked to end in a transfer, it ends with %s: %s" % (status, bridge.words()[-200:].strip()))
    for fact, what in sums_of_norm(bridge.last_counts(), reported(bridge.folder)):
        require(fact, what)


@part("overload")
def overload(trial):
    """The bridge stands still while more arrives from both sides than there is memory for."""
    line, count = trial.line, 60000
    with trial.bridge() as bridge:
        before = bridge.counts()
        bridge.process.send_signal(signal.SIGSTOP)
        for host in HOSTS:
            frame = next(frame for name, frame in kinds(line, host) if name == "given")
            with frames_of(line, host, protocol=0) as sender:
                for _ in range(count):
                    sender.send(frame + bytes(1400))
        bridge.process.send_signal(signal.SIGCONT)
        require(line.answers(PATIENCE), "the bridge goes on, and nothing passes")
        counts = ended(bridge)
    dropped = [counts[side + ".kernel"] - before[side + ".kernel"] for side in ("outside", "inside")]
    require(all(dropped), "it is stopped while %d frames arrive from each side, and counts %s as dropped" % (
        count, dropped))
    return ("stopped while %d frames of %d octets arrive from each side: %d and %d dropped by the kernel, and each "
            "counted" % (count, len(frame) + 1400, *dropped))


@part("links down")
def links(trial):
    line = trial.line
    with trial.bridge(rested=False) as bridge:
        with talking(line, CONNECTIONS, 0.01) as talk:
            for what, host, device in (("an interface of the bridge", "bridge", INNER),
                                       ("the other end of its link", "hosts", "eth0"),
                                       ("the other interface of the bridge", "bridge", OUTER)):
                require(talk.wait(5 * CONNECTIONS),
                        "%s goes down: the connections do not talk before: %s" % (what, talk.fault))
                line.ip(host, "link", "set", device, "down")
                time.sleep(0.5)
                line.ip(host, "link", "set", device, "up")
                line.route_out()
                require(bridge.ended(0.3) is None,
                        "%s goes down, and the bridge ends: %s" % (what, bridge.words()[-200:].strip()))
                require(talk.wait(5 * CONNECTIONS),
                        "%s was down, and the connections do not go on: %s" % (what, talk.fault))
        counts = ended(bridge)
    require(total(counts, "failed") > 0, "no frame is counted as failed")
    return "three of them: %d connections go on, %d frames failed" % (CONNECTIONS, total(counts, "failed"))


@part("interface gone")
def gone(trial):
    line = trial.line
    for device, join in ((OUTER, line.join_outside), (INNER, line.join_hosts)):
        with trial.bridge("--jobs", "2") as bridge:
            try:
                line.ip("bridge", "link", "del", device)
                status = bridge.ended(PATIENCE)
            finally:
                join()
            said = [one for one in bridge.words().splitlines() if re.search(r"\b%s\b.*\bgone\b" % device, one)]
            require(status == 1, "%s vanishes, and the bridge ends with %s and not 1" % (device, status))
            require(len(said) == 1, "%s vanishes, and %d lines say so: %s" % (
                device, len(said), bridge.words()[-200:].strip()))
    return "either interface: status 1, and one line"


@part("full disk", "curl")
def full(trial):
    line = trial.line
    with trial.place() as folder, web(line, "outside", trial.folder, OCTETS) as server:
        mounted = ["sh", "-c", 'mount -t tmpfs -o size=2m,mode=0777 tmpfs "$0" && exec "$@"', folder]
        with trial.bridge("--keep", folder, before=mounted) as bridge:
            fault = server.fault(server.begin(60))
            require(fault is None, "the transfer: %s" % fault)
            kept = glob.glob("/proc/%d/root%s/*" % (bridge.process.pid, folder))
            require(kept, "nothing was kept")
            for path in kept:
                if path.endswith(".pcap"):
                    captured(path)      # It has whole records.
            said = [one for one in bridge.words().splitlines() if "space" in one or "full" in one]
            require(len(said) >= 1, "no line says that the disk is full: %s" % bridge.words()[-200:].strip())
            ended(bridge, is_reported=False)
        with trial.bridge("--keep", folder, "--strict", before=mounted) as bridge:
            transfer = server.begin(60)
            status = bridge.ended(PATIENCE)
            line.end(transfer)
            require(status == 1, "with --strict it ends with %s and not 1" % status)
            nothing_passes(line, "the bridge has ended")
    return "%d files kept, one line, and the transfer ends with its SHA-256; with --strict: status 1" % len(kept)
