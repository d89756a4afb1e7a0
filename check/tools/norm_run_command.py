"""norm-run itself: what it writes and does not write, its words, its page on a terminal, and its
object."""

import hashlib
import importlib.util
import json
import os
import pty
import re
import signal
import subprocess
import time

from lib.outcome import Fault, skip
from lib.programs import TOP
from model.packets import INSIDE as LOCAL, OUTSIDE, capture_of, ipv4, opening, segment
from tools.troubles import MAKERS

NORM_RUN = os.path.join(TOP, "contrib", "norm-run")

EXAMPLES, PAGE = os.path.join(TOP, "examples"), os.path.join(TOP, "docs", "norm-run.1")

INSIDE = "10.0.0.0/8"

ROWS = []


def row(test):
    """Keeps a test, which is given a Place and returns nothing, or raises a Fault."""
    ROWS.append(test)
    return test


class Place:
    """A folder with a capture of an overlap, and the programs on the path."""

    def __init__(self, path, programs):
        self.path = path
        self.environ = {"PATH": programs + os.pathsep + os.environ["PATH"], "HOME": path, "TERM": "xterm"}
        with open(os.path.join(EXAMPLES, "overlap.pcap"), "rb") as file:
            self.put("in.pcap", file.read())

    def put(self, name, octets):
        path = os.path.join(self.path, name)
        os.makedirs(os.path.dirname(path), exist_ok=True)
        with open(path, "wb") as file:
            file.write(octets)
        return path

    def get(self, name):
        with open(os.path.join(self.path, name), "rb") as file:
            return file.read()

    def files(self):
        """The names of the files in the folder, hidden ones too, but of programs that were put
        there."""
        return sorted(it for it in os.listdir(self.path) if it not in ("false", "in.pcap", "other"))

    def false_program(self, name, script):
        os.chmod(self.put("false/" + name, ("#!/bin/bash\n%s\n" % script).encode()), 0o755)
        if not self.environ["PATH"].startswith(self.path):
            self.environ["PATH"] = os.path.join(self.path, "false") + os.pathsep + self.environ["PATH"]

    def call(self, *words, given=b""):
        done = subprocess.run([NORM_RUN, *words], cwd=self.path, env=self.environ, input=given, stdout=subprocess.PIPE,
                              stderr=subprocess.PIPE, timeout=300, check=False)
        return done.returncode, done.stdout.decode(), done.stderr.decode()

    def wants(self, status, *words, has=(), given=b""):
        """Runs norm-run; compares its status, and what it prints with what that is to have."""
        found, out, said = self.call(*words, given=given)
        missing = [it for it in has if it not in out + said]
        if found != status or missing or "Traceback" in said:
            raise Fault("%s: status %d and not %d; without %s:\n%s%s" % (words, found, status, missing, out, said))
        return out


WRITTEN = ["in.pcap.norm.json", "in.pcap.norm.pcap", "in.pcap.norm.txt"]


def equal(what, wanted, found):
    if wanted != found:
        raise Fault("%s: %s and not %s" % (what, found, wanted))


@row
def the_files_of_a_run(place):
    place.wants(11, "in.pcap", INSIDE, has=["contradictions 1", "differs 0", "noise 0", "audit     yes 1 5",
                                            "outside   198.51.100.7 5"])
    equal("the files", WRITTEN, place.files())
    record = json.loads(place.get("in.pcap.norm.json"))
    for name, path in (("in", "in.pcap"), ("out", "in.pcap.norm.pcap"), ("report", "in.pcap.norm.txt")):
        equal("the sum of " + name, hashlib.sha256(place.get(path)).hexdigest(), record["sha256"][name])
    equal("the record", [["in.pcap", INSIDE], [INSIDE], 30, 11, "end 5 5"],
          [record[it] for it in ("words", "prefixes", "hops", "status", "end")])
    equal("contradictions", 1, record["evidence"]["contradictions"])


@row
def nothing_is_written_over(place):
    for name in WRITTEN:
        place.put(name, b"earlier")
        place.wants(6, "in.pcap", INSIDE, has=[name, "--force"])
        equal(name, b"earlier", place.get(name))
        os.unlink(os.path.join(place.path, name))
    place.put(WRITTEN[1], b"earlier")
    place.wants(11, "--force", "in.pcap", INSIDE)
    equal("the files", WRITTEN, place.files())


@row
def another_run_meanwhile(place):
    """A file of this name is made while norm runs: it stays, and nothing else is written."""
    place.false_program("normaudit", "echo other > in.pcap.norm.txt; echo 'yes 1 5'")
    place.wants(6, "in.pcap", INSIDE, has=["in.pcap.norm.txt is there already"])
    equal("the files", WRITTEN[2:], place.files())
    equal("the report", b"other\n", place.get("in.pcap.norm.txt"))


@row
def a_run_that_is_stopped(place):
    """Of SIGTERM while norm runs: no file stays, and no process."""
    place.false_program("norm", "echo $$ > other; exec sleep 60")
    process = subprocess.Popen([NORM_RUN, "in.pcap", INSIDE], cwd=place.path, env=place.environ)
    deadline = time.monotonic() + 20
    while not os.path.exists(os.path.join(place.path, "other")) and time.monotonic() < deadline:
        time.sleep(0.05)
    time.sleep(0.2)
    process.send_signal(signal.SIGTERM)
    equal("the status", 128 + signal.SIGTERM, process.wait(20))
    equal("the files", [], place.files())
    if os.path.exists("/proc/%d" % int(place.get("other"))):
        raise Fault("norm goes on")


@row
def a_run_that_fails(place):
    """The status is norm's, and no file stays."""
    for status in (3, 4, 5, 6, 7, 8):
        place.false_program("norm", "echo 'norm: why it ends' >&2; exit %d" % status)
        place.wants(status, "in.pcap", INSIDE, has=["why it ends"])
        equal("the files", [], place.files())


@row
def an_audit_that_says_no(place):
    place.false_program("normaudit", "echo 'no 3 octet'; exit 1")
    place.wants(1, "in.pcap", INSIDE, has=["no 3 octet", "SECURITY.md"])
    equal("the files", WRITTEN, place.files())


@row
def steps_that_fail(place):
    """Without --keep-going the first is the last; the status is that of the first either way."""
    place.false_program("normaudit", "echo 'normaudit: why' >&2; exit 8")
    out = place.wants(8, "in.pcap", INSIDE, has=["audit: the audit: normaudit: why"])
    equal("a step after it", False, "evidence" in out)
    place.wants(8, "--force", "--keep-going", "in.pcap", INSIDE, has=["why", "contradictions 1"])


@row
def standard_input(place):
    place.wants(11, "-", INSIDE, has=["stdin.norm.in"], given=place.get("in.pcap"))
    equal("the files", ["stdin.norm." + it for it in ("in", "json", "pcap", "txt")], place.files())
    equal("what is kept", place.get("in.pcap"), place.get("stdin.norm.in"))
    place.wants(3, "--force", "--into", ".", "-", INSIDE, given=b"no capture" * 9)


@row
def another_folder(place):
    os.mkdir(os.path.join(place.path, "other"))
    place.wants(11, "--into", "other", "in.pcap", INSIDE)
    equal("the files", WRITTEN, sorted(os.listdir(os.path.join(place.path, "other"))))
    place.wants(6, "--into", "nowhere", "in.pcap", INSIDE, has=["nowhere"])


@row
def what_is_printed(place):
    equal("--quiet", "", place.wants(11, "--quiet", "in.pcap", INSIDE))
    out = place.wants(11, "--json", "--force", "in.pcap", INSIDE)
    equal("--json", json.loads(place.get("in.pcap.norm.json")), json.loads(out))
    none = place.put("other/none.pcap", b"no capture" * 9)
    out = place.wants(3, "--json", "--into", "other", none, INSIDE)
    equal("--json of a failure", 3, json.loads(out)["status"])
    place.wants(0, "--help", has=["usage: norm-run"])
    place.wants(0, "--version", has=["norm 0.", "normview 0."])


def on_terminal(place, *words, **more):
    """What norm-run prints where standard output and standard error are a terminal."""
    master, slave = pty.openpty()
    process = subprocess.Popen([NORM_RUN, *words], cwd=place.path, env={**place.environ, **more}, stdout=slave,
                               stderr=slave)
    os.close(slave)
    said = b""
    while True:
        try:
            block = os.read(master, 65536)
        except OSError:
            break
        if not block:
            break
        said += block
    os.close(master)
    process.wait()
    return said.decode("utf-8", "replace")


@row
def a_terminal(place):
    """Colours and progress are for a terminal; NO_COLOR takes the colours, --quiet both."""
    said = on_terminal(place, "in.pcap", INSIDE)
    equal("a colour", True, "\x1b[33m" in said)
    equal("no colour", False, "\x1b[33m" in on_terminal(place, "--force", "in.pcap", INSIDE, NO_COLOR="1"))
    _, out, error = place.call("--force", "in.pcap", INSIDE)
    equal("elsewhere", False, "\x1b" in out + error)
    norm = subprocess.check_output(["which", "norm"], env=place.environ, text=True).strip()
    slowly = "exec 9< in.pcap; head -c 100 <&9 > /dev/null; [ $1 != run ] || sleep 1.5; exec %s \"$@\" 9<&-"
    place.false_program("norm", slowly % norm)
    said = on_terminal(place, "--force", "in.pcap", INSIDE)
    equal("progress", True, "norm: 100 octets of %d octets, " % len(place.get("in.pcap")) in said and " left" in said)
    equal("progress, quiet", "", on_terminal(place, "--quiet", "--force", "in.pcap", INSIDE))


@row
def a_configuration(place):
    place.put(".config/norm/run.toml", b'prefixes = ["10.0.0.0/8"]\nhops = 1\n')
    is_read = importlib.util.find_spec("tomllib") is not None
    place.put("other/tomllib.py", b"raise ImportError\n")
    place.environ["PYTHONPATH"] = os.path.join(place.path, "other")
    place.wants(2, "in.pcap", has=["run.toml", "3.11"])
    place.wants(11, "--config", "/dev/null", "in.pcap", INSIDE)
    del place.environ["PYTHONPATH"]
    for name in WRITTEN:
        os.unlink(os.path.join(place.path, name))
    if not is_read:
        return skip("Python 3.11", "norm-run: a configuration that is read")
    place.wants(11, "in.pcap", has=["--hops 1 10.0.0.0/8", "behind at most 1 router"])
    place.wants(0, "--force", "--hops", "2", "in.pcap", "198.51.100.0/24", has=["--hops 2 198.51.100.0/24"])
    place.wants(2, "--force", "--config", "/dev/null", "in.pcap", has=["no PREFIX"])
    for text in (b"prefixes = 3\n", b"hops = 300\n", b"hop = 3\n", b"hops = \n"):
        place.put("other/run.toml", text)
        place.wants(2, "--force", "--config", "other/run.toml", "in.pcap", INSIDE, has=["other/run.toml: "])


REFUSED = [
    ("--hop 3 in.pcap 10.0.0.0/8", "no option --hop; the nearest is --hops"),
    ("--hops 300 in.pcap 10.0.0.0/8", "0 to 254"),
    ("--forse in.pcap 10.0.0.0/8", "the nearest is --force"), ("--hops in.pcap 10.0.0.0/8", "and not 'in.pcap'"),
    ("--both=1 in.pcap 10.0.0.0/8", "takes no value"), ("--force --force in.pcap 10.0.0.0/8", "given twice"),
    ("run in.pcap 10.0.0.0/8", "leave 'run' out"), ("in.pcap out.pcap 10.0.0.0/8", "names OUT itself"),
    ("in.pcap 10.0.0.1", "10.0.0.1/32"), ("in.pcap 10.0.0.256/8", "over 255"), ("in.pcap 10.0.0.0/33", "over 32"),
    ("in.pcap fe80::/10", "IPv4"), ("in.pcap ten", "such as 10.0.0.0/8"), ("10.0.0.0/8 in.pcap", "IN goes before"),
    ("in.pcap", "no PREFIX"), ("", "IN is missing"), ("--mtu 600 --both in.pcap 10.0.0.0/8", "--both goes neither"),
    ("in.pcap" + " 10.0.0.0/8" * 17, "at most 16"),
]


@row
def refused_words(place):
    """Each names the word and what would be right, and nothing is run."""
    for words, text in REFUSED:
        place.wants(2, *words.split(), has=[text, "see norm-run --help"])
    place.wants(5, "nowhere.pcap", INSIDE, has=["nowhere.pcap: No such file"])
    place.wants(5, ".", INSIDE, has=["no regular file"])
    equal("the files", [], place.files())


@row
def standard_output_that_takes_nothing(place):
    """The files exist, and the status is that of an output, not of files that exist."""
    for closed, words in (("> /dev/full", "--force"), (">&-", "--force"), (">&-", "--force --quiet")):
        done = subprocess.run(["sh", "-c", "%s %s in.pcap %s %s" % (NORM_RUN, words, INSIDE, closed)], cwd=place.path,
                              env=place.environ, stderr=subprocess.PIPE, text=True, check=False)
        equal("%s %s" % (words, closed), (11, "") if "quiet" in words else (
            7, "norm-run: standard output: No space left on device; the files are written: %s\n" % " ".join(
                WRITTEN[it] for it in (1, 2, 0))), (done.returncode, done.stderr))
        equal("the files", WRITTEN, place.files())


@row
def what_follows_a_finding(place):
    """The commands of the page run as they are printed; the second one reads octets of a segment in
    fragments, and says what it lacks of what the host acknowledged."""
    whole = segment("> PA 1000,5001 GET /evil")
    parts = [ipv4(OUTSIDE, LOCAL, 6, whole[20 + at:20 + end], ident=7, mf=end == 24, offset=at)
             for at, end in ((0, 24), (24, len(whole)))]
    place.put("in.pcap", capture_of(opening() + parts + [segment("< A 5001,1009"), segment("> PA 1009,5001 x", ttl=9),
                                                          segment("< A 5001,1010")]))
    out = place.wants(10, "in.pcap", INSIDE)
    first, second = [it[10:] for it in out.splitlines() if it.startswith(("next ", "          /"))]
    for command, text in ((first, "chosen 3"), (second, "read b'GET /evilx'"),
                          (second.replace("replay ", "replay --routers 9 "), "acknowledged 10 octets, and this one 9")):
        done = subprocess.run(command, shell=True, cwd=place.path, env=place.environ, stdout=subprocess.PIPE,
                              stderr=subprocess.STDOUT, text=True, check=False)
        if text not in done.stdout:
            raise Fault("%s: without %s: %s" % (command, text, done.stdout))


what_follows_a_finding.needs = ("root", "/dev/net/tun", "ip")


@row
def a_packed_capture_that_is_cut(place):
    packed = place.put("other/cut.pcap.gz", MAKERS["packed.pcap.gz"]()[:-40])
    found, out, said = place.call("--into", "other", packed, INSIDE)
    equal("the status", True, found in (4, 5))
    equal("what to do", True, "--repair" in said)
    place.wants(0, "--repair", "--into", "other", packed, INSIDE, has=["gzip read what is whole"])


@row
def the_page_of_the_manual(place):
    """Options and statuses of docs/norm-run.1 are those of --help."""
    _, out, _ = place.call("--help")
    helped = set(re.findall(r"^  (--[a-z-]+)", out, re.MULTILINE))
    with open(PAGE, encoding="utf-8") as file:
        page = file.read().replace("\\-", "-")
    equal("the options", helped, set(re.findall(r"^\.TP\n\.B[RI]? (--[a-z-]+)", page, re.MULTILINE)))
