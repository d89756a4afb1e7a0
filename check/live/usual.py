"""Parts of check/live/bridge: traffic that has to pass as it does without a bridge, in one thread
and in several."""

import os
import re
import time

from live.network import INNER, OUTER, PREFIX
from live.fates import NOBODY, OTHER, datagram
from live.parts import ended, part, require, shown
from live.program import bridged, total
from live.raw import caught, ethernet, frames_of
from live.traffic import iperf, ping, talking, web
from receivers.packets import packets_in

OCTETS, CONNECTIONS = 10**8, 100

HOSTS = ["10.0.1.%d" % number for number in range(1, 31)]


@part("ping", "ping")
def pings(trial):
    line = trial.line
    with trial.bridge() as bridge:
        for device in (OUTER, INNER):
            # A card has to take frames for other stations.
            said = line.run("bridge", "ip", "-d", "link", "show", device).stdout
            require(b" promiscuity 1" in said, "%s is not promiscuous" % device)
        for host in ("outside", "hosts"):
            line.ip(host, "neighbour", "flush", "all")
        found = {(host, length): ping(line, host, 20, length) for host in ("outside", "hosts") for length in (56, 1472)}
        for (host, length), (count, _) in found.items():
            require(count == 20,
                    "%d of 20 echo requests of %d octets from the %s are answered: %s"
                    % (count, length, host, shown(bridge.counts())))
        ended(bridge)
    return "80 echo requests answered both ways, %.2f ms the median" % max(time for _, time in found.values())


@part("transfers", "curl")
def transfers(trial):
    line = trial.line
    with trial.bridge() as bridge, web(line, "hosts", trial.folder, OCTETS) as out, \
            web(line, "outside", trial.folder, OCTETS) as inwards:
        with talking(line, CONNECTIONS) as talk:
            begun, both = time.monotonic(), [(one, one.begin(60)) for one in (out, inwards)]
            for one, transfer in both:
                fault = one.fault(transfer)
                require(fault is None, "the transfer from the %s: %s" % (one.host, fault))
            seconds, exchanges = time.monotonic() - begun, talk.exchanges
            require(talk.fault is None, talk.fault)
        counts = ended(bridge)
    return ("%d MB of HTTP each way with one SHA-256, beside %d exchanges of %d connections, in %.1f s; "
            "%d frames counted" % (
                OCTETS // 10**6, exchanges, CONNECTIONS, seconds, total(counts, "given")))


@part("iperf3", "iperf3")
def rates(trial):
    with trial.bridge() as bridge:
        found = [iperf(trial.line, reverse) for reverse in (False, True)]
        ended(bridge)
    return "%.2f Gbit/s inwards (%d retransmissions), %.2f outwards (%d)" % (*found[0], *found[1])


def inside_of(packet):
    """The address inside."""
    return int.from_bytes(packet[12:16] if packet[12] == 10 else packet[16:20], "big")


def judged(folder, jobs):
    """By each thread how many packets it judged, which are those of its hosts."""
    found = [0] * jobs
    for name in os.listdir(folder):
        number = re.fullmatch(r"in-.*\.(\d+)-\d+\.pcap", name)
        if number is None:
            continue
        with open(os.path.join(folder, name), "rb") as file:
            packets = packets_in(file.read())
        found[int(number[1])] += len(packets)
        strange = [packet for packet in packets if inside_of(packet) % jobs != int(number[1])]
        require(not strange, "thread %s judges packets of a host of another one" % number[1])
    return found


def with_jobs(trial, jobs):
    """Each host inside has one of the threads, with all fragments. Returns what each judged."""
    line = trial.line
    with trial.place() as kept, trial.bridge("--jobs", str(jobs), "--keep", kept) as bridge:
        for host in HOSTS:
            for source, target in (("outside", host), ("hosts", "198.51.100.2")):
                # Two fragments of a datagram that norm joins, since the route has a smaller MTU.
                words = ["ping", "-n", "-q", "-c", "1", "-W", "5", "-s", "1200", "-M", "dont", target]
                words += ["-I", host] if source == "hosts" else []
                done = line.run(source, *words, check=False)
                require(done.returncode == 0,
                        "no answer of %s to the %s: %s" % (target, source, shown(bridge.counts())))
        with web(line, "outside", trial.folder, OCTETS // 4) as server:
            fault = server.fault(server.begin(60))
            require(fault is None, "the transfer: %s" % fault)
        ended(bridge)
        found = judged(kept, jobs)
    return found


@part("several threads", "curl", "ping")
def several(trial):
    line, counts = trial.line, []
    line.ip("outside", "route", "add", "10.0.1.0/24", "dev", "eth0", "mtu", "lock", "800")
    try:
        for jobs in (3, 5):
            counts.append(with_jobs(trial, jobs))
            require(all(counts[-1]), "of %d threads some judge nothing: %s" % (jobs, counts[-1]))
    finally:
        line.ip("outside", "route", "del", "10.0.1.0/24", "dev", "eth0")
    return "%d hosts with fragments and a transfer; packets of each thread: %s" % (
        len(HOSTS), ", and ".join(" + ".join(map(str, each)) for each in counts))


@part("sixteen prefixes", "ping")
def sixteen(trial):
    line, more = trial.line, ["172.16.%d.0/24" % number for number in range(1, 16)]
    for host, words in (("hosts", ("address", "add", "172.16.15.1/32", "dev", "lo")),
                        ("outside", ("route", "add", "172.16.15.0/24", "dev", "eth0"))):
        line.ip(host, *words)
    try:
        with trial.bridge(after=more) as bridge:
            done = line.run("outside", "ping", "-n", "-q", "-c", "1", "-W", "5", "172.16.15.1", check=False)
            require(done.returncode == 0, "a host of the 16th prefix does not answer")
            ended(bridge)
    finally:
        line.ip("outside", "route", "del", "172.16.15.0/24", "dev", "eth0")
        line.ip("hosts", "address", "del", "172.16.15.1/32", "dev", "lo")
    return "a host of the last one answers"


def value_of(words, option):
    found = re.search(r" %s[= ](\d+)" % option, words)
    return int(found[1]) if found else None


@part("words of the engines")
def engine_words(trial):
    """The words with which the engines are opened, as the memory of the process has them: another
    seed each time, the smaller MTU, and a share of each table."""
    line, seeds = trial.line, []
    for jobs, options, wanted in ((1, ("--cells", "9000"), {"--cells": 9000}),
                                  (3, ("--cells", "9000"), {"--cells": 3000, "--flows": 4096 // 3}),
                                  (3, ("--seed", "77"), {"--seed": 77, "--frags": 256 // 3})):
        line.ip("bridge", "link", "set", INNER, "mtu", "1480")
        try:
            with trial.bridge("--jobs", str(jobs), after=("--", *options)) as bridge:
                engines = bridge.engines()
                ended(bridge)
        finally:
            line.ip("bridge", "link", "set", INNER, "mtu", "1500")
        require(engines, "no words of an engine are in its memory")
        for words in engines:
            for option, number in {"--mtu": 1480, **wanted}.items():
                require(value_of(words, option) == number, "%s is not %d: %s" % (option, number, words))
            require(words.endswith(PREFIX), "the prefix is not the last word: " + words)
        seeds.append({value_of(words, "--seed") for words in engines})
    require(None not in seeds[0] | seeds[1] and not seeds[0] & seeds[1], "the seeds of two runs: %s" % seeds[:2])
    return "another seed in each run, the smaller MTU, tables in equal shares"


@part("without norm", "ping")
def without_norm(trial):
    """Frames pass unchanged, with a wrong checksum too, and tagged ones do not."""
    line, program = trial.line, trial.asked.bridge
    with trial.place() as folder, bridged(line, program, folder, ["--without-norm"]) as bridge:
        for host, other in OTHER.items():
            wrong = bytearray(ethernet(line, host, other, datagram(NOBODY[host], NOBODY[other], b"without norm")))
            wrong[24] ^= 1
            with frames_of(line, host, protocol=0) as sender, frames_of(line, other) as taker:
                sender.send(wrong[:12] + b"\x81\0\0\5" + wrong[12:])
                sender.send(wrong)
                for _ in range(2):
                    frame = caught(taker, 1, lambda frame: b"without norm" in frame)
                    require(frame in (bytes(wrong), None), "a frame is changed, or a tagged one crosses")
                    require(_ or frame, "a frame does not cross")
        require("without" in bridge.words().lower(), "no line says that norm is not there")
        status = bridge.end()
        require(status == 0, "it ends with %s" % status)
    return "frames with wrong checksums cross unchanged both ways, tagged ones do not"
