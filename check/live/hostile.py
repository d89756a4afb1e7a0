"""Parts of check/live/bridge: attacks from outside, as a real server and monitors read them; forged
sides; a flood of SYNs."""

import itertools
import multiprocessing
import socket
import subprocess
import sys
import time
from types import SimpleNamespace

from lib.network import INSIDE, OUTSIDE, TALK, whole
from lib.outcome import skip
from lib.talk import ECHO, PATIENCE
from live.attacks import of_two_eras, played
from live.parts import ended, part, require
from live.program import total
from live.raw import caught, ethernet, flood, frames_of, segment
from live.traffic import talking
from model.formats import ACK, RST, read_ipv4, read_tcp
from model.receivers import agree
from receivers import monitors
from receivers.attacks import chosen

# SYNs a second, and connections that norm follows: a connection that is silent until
# as many others began is evicted, and goes on after a probe and a retransmission.
CONNECTIONS, RATE, FLOWS = 100, 50000, 65536

# Seconds of a round while SYNs come: a frame that is lost is sent again after 0.2, and after 0.4 s.
LONGEST = 3


@part("attacks", "tcpdump")
def attacks(trial):
    return whole(lambda: attacked_twice(trial))


def attacked_twice(trial):
    """Plays the attacks with a plain bridge and with norm-bridge."""
    line = trial.line
    with trial.place() as folder:
        versions, absent = monitors.available(folder)
        require(versions, "no monitor: tshark, tcpflow or libnids")
        asked = SimpleNamespace(norm=None, count=trial.asked.random, seed=trial.asked.seed, files=[],
                                prefixes="", in_for_out=False)
        every = list(chosen(asked, folder, time.monotonic() + 40))
        with line.plain_bridge():
            plain, names = played(line, every, list(versions), folder)
        with trial.place() as kept, trial.bridge("--keep", kept) as bridge:
            found, names = played(line, every, names, folder)
            ended(bridge)
            twice = of_two_eras(kept)
    faults, across = (split(found, names, lambda one, both=both: (one.ends in twice) == both)
                      for both in (False, True))
    require(not faults, "%d of %d: %s" % (len(faults), len(every), shown(every, faults)))
    for one in absent + [("more time", name) for name in versions if name not in names]:
        skip(*one)
    differ = split(plain, names)
    require(names and differ, "nobody reads other octets behind a plain bridge: nothing was tried")
    return "%d: the server and %s read other octets in %d with a plain bridge, in 0 with norm (%d octets read)%s" % (
        len(every), ", ".join(names), len(differ), octets_of(found),
        "; left out: %d connections in two eras, %d of which differ" % (len(twice), len(across)))


def octets_of(every):
    return sum(len(one.octets) for connections in every for connection in connections for one in connection.readings)


def split(every, names, wanted=lambda connection: True):
    """The numbers of the attacks of which two of the server and these monitors read other octets,
    each with two readings."""
    found = {}
    for number, connections in enumerate(every):
        for connection in filter(wanted, connections):
            readings = [one for one in connection.readings if one.receiver in ("server", *names)]
            for one, other in itertools.combinations(readings, 2):
                if not agree(one, other):
                    found.setdefault(number, (one, other))
    return found


def shown(every, faults):
    """Three of the attacks of which two read other octets."""
    parts = ["%s: %s reads %r, and %s %r"
             % (every[number].name, one.receiver, one.octets[:40], other.receiver, other.octets[:40])
             for number, (one, other) in itertools.islice(faults.items(), 3)]
    return "; ".join(parts)


# Frames with an address of the other side

class Opened:
    """A connection of the outside host to the inside one, whose numbers are known from its
    frames."""

    def __init__(self, line):
        self.server = line.start("hosts", sys.executable, TALK, "serve", stdout=subprocess.PIPE)
        self.server.stdout.readline()
        self.line, self.taker = line, frames_of(line, "outside")
        with line.within("outside"):
            self.peer = socket.create_connection((INSIDE, ECHO), timeout=PATIENCE)
        self.peer.settimeout(PATIENCE)
        self.ends = (INSIDE, ECHO), (OUTSIDE, self.peer.getsockname()[1])

    def talk(self, count=5):
        """Whether octets come back each time, and of how many; then the numbers of the last
        segment are known."""
        for number in range(count):
            try:
                self.peer.sendall(b"%d" % (number % 10) * 100)
                got = 0
                while got < 100:
                    more = self.peer.recv(4096)
                    if not more:
                        return False
                    got += len(more)
            except OSError:
                return False
            frame = caught(self.taker, PATIENCE, self.answers)
            if frame is None:
                return False
            tcp = self.segment_of(frame)
            self.following, self.acked = (tcp.seq + len(tcp.payload)) % 2**32, tcp.ack
        return True

    def segment_of(self, frame):
        ip = read_ipv4(frame[14:])
        return read_tcp(frame[14 + ip.header:14 + ip.total])

    def answers(self, frame):
        """Whether a frame is a segment of the server with octets."""
        return (frame[12:14] == b"\x08\0" and frame[23] == 6 and frame[26:30] == socket.inet_aton(INSIDE)
                and len(self.segment_of(frame).payload) > 0)

    def close(self):
        self.peer.close()
        self.taker.close()
        self.line.end(self.server)


@part("forged sides")
def forged_sides(trial):
    line = trial.line
    with trial.bridge() as bridge:
        opened = Opened(line)
        try:
            forge_all(line, opened)
        finally:
            opened.close()
        counts = ended(bridge)
    forged = total(counts, "forged")
    require(forged == len(FORGERIES), "%d forged frames are counted, of %d" % (forged, len(FORGERIES)))
    return ("%d dropped and counted: acknowledgments and resets of the other side; the connection goes on"
            % len(FORGERIES))


# A forged frame: what it is, the host that sends it, whether the inside is its source, the flags,
# how far ahead of the sequence and of the acknowledgment it is.
FORGERIES = (
    ("an acknowledgment ahead", "outside", True, ACK, 0, 100),
    ("a reset", "outside", True, RST, 0, 0),
    ("a reset with an acknowledgment", "outside", True, RST | ACK, 0, 0),
    ("an acknowledgment ahead, from within", "hosts", False, ACK, 0, 100),
    ("a reset, from within", "hosts", False, RST, 0, 0),
)


def forge_all(line, opened):
    """Sends each forgery in the connection, which has to go on, and which no host may get."""
    require(opened.talk(), "the connection does not begin")
    for what, host, of_inside, flags, ahead, acked in FORGERIES:
        other = "hosts" if host == "outside" else "outside"
        seq, ack = ((opened.following + ahead, opened.acked + acked) if of_inside
                    else (opened.acked + ahead, opened.following + acked))
        packet = segment(opened.ends if of_inside else opened.ends[::-1], seq % 2**32, ack % 2**32, flags)
        with frames_of(line, host, protocol=0) as sender, frames_of(line, host) as taker, \
                frames_of(line, other) as across:
            sender.send(ethernet(line, host, other, packet))
            for each in (taker, across):
                require(caught(each, 0.2, lambda frame: frame[14:54] == packet[:40]) is None, "%s passes" % what)
        require(opened.talk(), "after %s the connection does not go on" % what)


# A flood

@part("flood of SYNs")
def flooded(trial):
    line, count = trial.line, trial.asked.count
    with trial.bridge(after=("--", "--flows", str(FLOWS))) as bridge, talking(line, CONNECTIONS) as talk:
        require(talk.wait(CONNECTIONS), "the connections do not begin: %s" % talk.fault)
        before, begun = talk.exchanges, time.monotonic()
        sender = multiprocessing.get_context("fork").Process(
            target=flood, args=(line, INSIDE, ECHO, count, RATE), daemon=True)
        sender.start()
        sender.join(90)
        require(sender.exitcode == 0, "the sender ends with %s" % sender.exitcode)
        seconds, exchanges = time.monotonic() - begun, talk.exchanges - before
        require(talk.wait(10 * CONNECTIONS),
                "after the flood the connections do not go on: %s" % (talk.fault or "they are silent"))
        require(talk.fault is None, talk.fault)
        longest = talk.longest
        talk.ended.set()
        talk.thread.join(2 * PATIENCE)
        counts = ended(bridge)
    require(longest < LONGEST, "the longest round of the connections takes %.2f s" % longest)
    return ("%d SYNs in %.1f s, %d exchanges of %d connections meanwhile, the longest round %.2f s; "
            "%d frames dropped by the kernel, all counted" % (
                count, seconds, exchanges, CONNECTIONS, longest, total(counts, "kernel")))
