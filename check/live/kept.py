"""Parts of check/live/bridge: privileges of its process, the files that it keeps, and what normview
and normaudit say of them."""

import os
import re
import subprocess
import time
from contextlib import ExitStack

from live.fates import NOBODY, OTHER, STATION, datagram, kinds
from live.network import INNER, OUTER, PREFIX
from live.parts import ended, part, require
from live.program import bridged, captured
from live.raw import frames_of
from live.traffic import ping, talking, web

NOBODY_ID = "65534"

# How it is started: by root, who has more groups; and by another user with the one capability that
# it needs, as the unit does.
STARTS = {
    "root": ("setpriv", "--groups", "0,4,20"),
    "a user with CAP_NET_RAW": ("setpriv", "--reuid", NOBODY_ID, "--regid", NOBODY_ID, "--clear-groups",
                                "--inh-caps", "+net_raw", "--ambient-caps", "+net_raw"),
}

# What /proc/PID/status has of a thread that has no privilege.
NONE = "0" * 16
STATUS = {"Uid": 4 * [NOBODY_ID], "Gid": 4 * [NOBODY_ID], "NoNewPrivs": ["1"], "CapInh": [NONE], "CapPrm": [NONE],
          "CapEff": [NONE], "CapAmb": [NONE]}


@part("privileges", "setpriv")
def privileges(trial):
    threads = 0
    for what, before in STARTS.items():
        with trial.place() as folder, trial.bridge("--jobs", "3", "--keep", folder, before=before) as bridge:
            wanted_of = {**STATUS, "CapBnd": [NONE]} if what == "root" else STATUS
            for path in bridge.of_process("task/*/status"):
                with open(path, encoding="utf-8") as file:
                    found = {name: words.split() for name, _, words in (line.partition(":") for line in file)}
                threads += 1
                for name, wanted in wanted_of.items():
                    require(found[name] == wanted, "started by %s: %s is %s" % (what, name, found[name]))
                require(set(found["Groups"]) <= {NOBODY_ID}, "started by %s: Groups is %s" % (what, found["Groups"]))
            for path in bridge.of_process("mem"):
                require(os.stat(path).st_uid == 0, "started by %s: its memory is open to its user" % what)
            ended(bridge)
    require(threads >= 8, "%d threads in two runs of three engines and a writer" % threads)
    return "%d threads without capabilities and groups, and with no new privileges; not dumpable" % threads


# Frames of each side, PAUSE seconds after each other: a file may grow past SIZE by what comes in 20
# milliseconds.
COUNT, PAUSE, SIZE = 300, 0.004, 65536

MODES = {0o600, 0o640}

# The routers after the bridge: the default of norm.
HOPS = "30"


def paced(line):
    """Sends numbered frames from either side."""
    with ExitStack() as stack:
        senders = [(host, stack.enter_context(frames_of(line, host, protocol=0))) for host in OTHER]
        for number in range(COUNT):
            for host, sender in senders:
                packet = datagram(NOBODY[host], NOBODY[OTHER[host]], b"paced %05d" % number + bytes(1200))
                sender.send(STATION + STATION[:5] + b"\2" + b"\x08\0" + packet)
            time.sleep(PAUSE)


def joined(folder, kind):
    """The files of a kind, in one, and their sizes. The last report has no time in its name."""
    names = sorted((name for name in os.listdir(folder) if name.split("-")[0] == kind),
                   key=lambda name: (name == kind, name))
    octets = []
    for name in names:
        with open(os.path.join(folder, name), "rb") as file:
            octets.append(file.read())
    head = 0 if kind == "report" else 24
    return b"".join(one[head if at else 0:] for at, one in enumerate(octets)), [len(one) for one in octets]


def numbers_in(folder, kind, source):
    """The numbers and times of the frames of a side in the files of a kind, each a capture."""
    found = []
    for name in sorted(os.listdir(folder)):
        if name.startswith(kind + "-"):
            for time, octets in captured(os.path.join(folder, name)):
                number = re.search(rb"paced (\d{5})", octets)
                if number and octets[26:30] == bytes(map(int, source.split("."))):
                    found.append((int(number[1]), time))
    return found


@part("kept files", "ping")
def kept(trial):
    line = trial.line
    with trial.place() as folder, trial.bridge("--keep", folder, "--rotate", "64K") as bridge:
        before, begun = len(bridge.of_process("fd/*")), time.time()
        paced(line)
        time.sleep(0.2)
        after = len(bridge.of_process("fd/*"))
        ended(bridge)
        for kind in ("in", "out"):
            for host in OTHER:
                numbers, times = zip(*numbers_in(folder, kind, NOBODY[host]))
                require(numbers == tuple(range(COUNT)), "the files of %s lack frames from the %s" % (kind, host))
                require(begun - 1 < times[0] < times[-1] < time.time() + 1 and len(set(times)) == COUNT
                        and list(times) == sorted(times), "the times of the frames from the %s in %s" % (host, kind))
        sizes, counts = joined(folder, "in")[1], {}
        for kind in ("in", "out", "report"):
            counts[kind] = len(joined(folder, kind)[1])
        modes = {os.stat(os.path.join(folder, name)).st_mode & 0o777 for name in os.listdir(folder)}
        lines = joined(folder, "report")[0].decode().splitlines()
        require(joined(bridge.folder, "report")[0].decode().splitlines() == lines, "the report is not the one kept")
    require(len(sizes) > 2 and all(SIZE <= size < 2 * SIZE - 8192 for size in sizes[:-1]), "files of %s" % sizes)
    require(modes <= MODES, "modes of the files: %s" % " ".join(map(oct, modes)))
    require(after == before, "%d descriptors before and %d after %d files" % (before, after, sum(counts.values())))
    return "%d files of IN, %d of OUT, each frame in its order; %d descriptors before and after" % (
        counts["in"], counts["out"], after)


@part("old reports")
def old_reports(trial):
    """An older report is moved aside, and a link in its place is not followed."""
    line, program = trial.line, trial.asked.bridge
    with trial.place() as folder:
        path, aside = os.path.join(folder, "report"), os.path.join(folder, "aside")
        for name in (path, aside):
            with open(name, "w", encoding="ascii") as file:
                file.write("old\n")
            os.chmod(name, 0o666)
        for _ in range(2):
            with bridged(line, program, folder, ["--report", path]) as bridge:
                require(bridge.end() == 0, "it ends: " + bridge.words()[-200:])
        found = sorted(os.path.getsize(os.path.join(folder, name)) for name in os.listdir(folder) if name != "said")
        require(len(found) == 4 and found[:2] == [4, 4] and found[2] > 20, "files of %s octets" % found)
        link = os.path.join(folder, "link")
        os.symlink(aside, link)
        words = [program, "--report", link, OUTER, INNER, PREFIX]
        line.end(line.start("bridge", *words, stderr=subprocess.DEVNULL), 1)
        require(os.path.getsize(aside) == 4, "a link in place of the report is followed")
    return "two of them kept under another name, a link not followed"


@part("kept and audited", "normview", "normaudit", "curl")
def audited(trial):
    line, asked = trial.line, trial.asked
    with trial.place() as folder, trial.bridge("--keep", folder, "--rotate", "1M") as bridge, \
            web(line, "outside", trial.folder, 5 * 10**6) as server, talking(line, 20) as talk:
        fault = server.fault(server.begin(60))
        require(fault is None and talk.wait(100), "the transfer: %s; %s" % (fault, talk.fault))
        ping(line, "outside", 20)
        paced(line)
        for host in OTHER:
            with frames_of(line, host, protocol=0) as sender:
                for _, frame in kinds(line, host):
                    sender.send(frame)
        talk.ended.set()
        talk.thread.join()
        ended(bridge)
        paths = {kind: os.path.join(bridge.folder, kind) for kind in ("in", "out", "report")}
        for kind, path in paths.items():
            with open(path, "wb") as file:
                file.write(joined(folder, kind)[0])
        view = subprocess.run([asked.normview, *paths.values()], stdout=subprocess.PIPE, stderr=subprocess.STDOUT,
                              text=True, check=False)
        audit = subprocess.run([asked.normaudit, paths["out"], paths["report"], HOPS], stdout=subprocess.PIPE,
                               stderr=subprocess.STDOUT, text=True, check=False)
    require(view.returncode == 0, "normview ends with %d: %s" % (view.returncode, view.stdout.strip()[-200:]))
    require(audit.stdout.startswith("yes "), "normaudit says " + audit.stdout.strip())
    return "normview ends with 0, normaudit says " + audit.stdout.strip()
