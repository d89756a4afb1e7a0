"""Parts of check/live/bridge: what is refused before anything passes, and what is warned of."""

import os
import re
import signal
import subprocess
import time

from live.network import INNER, OUTER, PREFIX
from lib.outcome import skip
from lib.programs import TOP
from lib.talk import PATIENCE
from live.parts import part, require
from live.program import Bridge

PAGE = os.path.join(TOP, "docs", "norm-bridge.8")

# Invalid words. OUT, IN and NET are the two interfaces and a prefix that nothing is wrong with.
REFUSED = [
    "", "OUT", "OUT IN", "OUT OUT NET", "none IN NET", "OUT none NET", "OUT IN 10.0.0.0", "OUT IN 10.0.0.0/33",
    "OUT IN 10.0.0/8", "OUT IN 10.0.0.256/8", "OUT IN 10.0.0.0/", "OUT IN +1.0.0.0/8", "OUT IN 1.0.0.0/8x",
    "OUT IN " + " ".join("10.%d.0.0/16" % n for n in range(17)), "--nothing OUT IN NET", "-x OUT IN NET",
    "--help OUT", "--version OUT", "--norm norm OUT IN NET", "--restart OUT IN NET", "--strict=yes OUT IN NET",
    "--strict --strict OUT IN NET", "--user", "--user= OUT IN NET", "--user root OUT IN NET",
    "--user no-such-user OUT IN NET", "--every 0 OUT IN NET", "--every 86401 OUT IN NET", "--every x OUT IN NET",
    "--every 1x OUT IN NET", "--jobs 0 OUT IN NET", "--jobs 65 OUT IN NET", "--jobs 2 --jobs 3 OUT IN NET",
    "--rotate 63K OUT IN NET", "--rotate 1025G OUT IN NET", "--rotate 1T OUT IN NET",
    "--rotate 99999999999G OUT IN NET", "--rotate K OUT IN NET", "--report /nowhere/report OUT IN NET",
    "--report FIFO OUT IN NET", "--report /dev/null OUT IN NET", "--report FOLDER OUT IN NET",
    "--keep /nowhere OUT IN NET", "OUT IN NET -- --both", "OUT IN NET -- --inside x", "OUT IN NET -- --inside=x",
    "OUT IN NET -- --hops", "OUT IN NET -- --hops 255", "OUT IN NET -- --flows 0", "OUT IN NET -- --nothing",
    "OUT IN NET -- --mtu 1501", "OUT IN NET -- --mtu 575", "--jobs 3 OUT IN NET -- --cells 0",
    "--without-norm --report FOLDER/report OUT IN NET", "--without-norm --keep FOLDER OUT IN NET",
    "--without-norm OUT IN NET -- --hops 3",
]


def refusal(trial, words):
    """What is wrong with a refusal: it is one line with the status 2, and nothing is opened."""
    line = trial.line
    process = line.start("bridge", "timeout", "-s", "KILL", "5", trial.asked.bridge, *words, stdin=subprocess.DEVNULL,
                         stdout=subprocess.PIPE, stderr=subprocess.PIPE, text=True)
    shown, said = process.communicate()
    line.end(process)
    there = "none" in words or "no such interface" not in said
    if process.returncode == 2 and shown == "" and there and re.fullmatch(r"norm-bridge: [^\n]+\n", said):
        return None
    return "%s: status %d: %s" % (" ".join(words), process.returncode, (shown + said).strip()[-200:])


@part("invalid arguments")
def invalid_arguments(trial):
    line = trial.line
    with trial.place() as folder:
        os.mkfifo(os.path.join(folder, "fifo"))
        named = {"OUT": OUTER, "IN": INNER, "NET": PREFIX, "FIFO": folder + "/fifo", "FOLDER": folder,
                 "FOLDER/report": folder + "/report"}
        wrong = [refusal(trial, [named.get(word, word) for word in words.split()]) for words in REFUSED]
    usual = [OUTER, INNER, PREFIX]
    for address in ("192.0.2.1/32", "2001:db8::1/64"):
        if ":" in address and not os.path.exists("/proc/sys/net/ipv6"):
            skip("IPv6 in the kernel", "an interface with an IPv6 address")
            continue
        line.set("bridge", "ipv6/conf/%s/disable_ipv6" % INNER, int(":" not in address))
        line.ip("bridge", "address", "add", address, "dev", INNER)
        wrong.append(refusal(trial, usual))
        line.set("bridge", "ipv6/conf/%s/disable_ipv6" % INNER, 1)
        line.ip("bridge", "address", "flush", "dev", INNER)
    with line.plain_bridge():
        wrong.append(refusal(trial, usual))
    wrong.append(refusal(trial, ["lo", INNER, PREFIX]))
    require(not any(wrong), "; ".join(filter(None, wrong)))
    return "%d refused, each by one line" % len(wrong)


@part("help")
def help_text(trial):
    text = subprocess.run([trial.asked.bridge, "--help"], stdout=subprocess.PIPE, text=True, check=True).stdout
    with open(PAGE, encoding="utf-8") as file:
        page = re.sub(r"\\-", "-", file.read())
    options = re.search(r"(?s)\n\.SH OPTIONS(.*?)\n\.SH ", page)[1]
    named = set(re.findall(r"(?m)^\.BI? +(--[a-z-]+)|^\.BR (--help)", options))
    named = {first or second for first, second in named} - {"--name"}
    listed = set(re.findall(r"(?m)^  (--[a-z-]+)", text))
    require(text.count("\n") <= 40, "the help text has %d lines" % text.count("\n"))
    require(named == listed, "the help text or the page alone has: %s" % " ".join(sorted(named ^ listed)))
    return "%d options, those of the page" % len(listed)


@part("waiting for a link")
def waiting(trial):
    """While it waits for a link, signals do not kill it, and an address that comes is refused."""
    line = trial.line
    line.ip("bridge", "link", "set", OUTER, "down")
    try:
        with trial.place() as folder:
            bridge = Bridge(line, folder, [trial.asked.bridge, OUTER, INNER, PREFIX])
            time.sleep(0.5)
            for one in (signal.SIGUSR1, signal.SIGHUP):
                bridge.process.send_signal(one)
            require(bridge.ended(0.5) is None, "it waits for a link, and ends: " + bridge.words()[-200:])
            line.ip("bridge", "address", "add", "192.0.2.1/32", "dev", INNER)
            line.ip("bridge", "link", "set", OUTER, "up")
            status = bridge.ended(PATIENCE)
            bridge.close()
            require(status == 2, "an interface has an address once the link is up, and it ends with %s" % status)
    finally:
        line.ip("bridge", "address", "flush", "dev", INNER)
        line.ip("bridge", "link", "set", OUTER, "up")
    return "signals do not end it; an address that came meanwhile is refused"
