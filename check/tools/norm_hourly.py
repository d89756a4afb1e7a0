"""norm-hourly on folders of captures: each test has a folder, the variables, and the status and
lines of calls."""

import fcntl
import os
import shutil
import subprocess
import time

from model.formats import UDP
from model.packets import INSIDE, OUTSIDE, capture_of, ipv4, record, segment, udp
from tools.troubles import MAKERS, conversation
from lib.outcome import Fault
from lib.programs import TOP

HOURLY = os.path.join(TOP, "contrib", "systemd", "norm-hourly")

SERVICE = os.path.join(TOP, "contrib", "systemd", "norm-hourly.service")

OVERLAP = os.path.join(TOP, "examples", "overlap.pcap")

# The exposure that `systemd-analyze security` gives the unit at most, in tenths.
EXPOSURE = 30

ROWS = []


def row(test):
    """Keeps a test, which is given a Folder and returns nothing, or raises a Fault."""
    test.needs = ()
    ROWS.append(test)
    return test


def needing(*programs):
    """Keeps what a test needs of the system."""
    def keep(test):
        test.needs = programs
        return test
    return keep


class Folder:
    """A folder of hours, with the programs on the path."""

    def __init__(self, path, programs):
        self.path = path
        self.path_variable = programs + os.pathsep + os.environ["PATH"]

    def hour(self, number, octets, age=7200):
        """Writes the capture of an hour of one day, as old as is said."""
        name = os.path.join(self.path, "in-20260101-%02d0000.pcap" % number)
        with open(name, "wb") as file:
            file.write(octets)
        then = time.time() - age
        os.utime(name, (then, then))
        return os.path.basename(name)

    def hours(self, *captures):
        """Writes captures of hours one after another, the first of hour 0. Returns the first's
        name."""
        return [self.hour(number, octets) for number, octets in enumerate(captures)][0]

    def environ(self, **more):
        return {"PATH": self.path_variable, "HOME": self.path, "PREFIXES": "10.0.0.0/8", "FREE": "0", **more}

    def call(self, **more):
        done = subprocess.run([HOURLY], cwd=self.path, env=self.environ(**more), stdout=subprocess.PIPE, stderr=subprocess.STDOUT,
                              text=True, timeout=300, check=False)
        return done.returncode, done.stdout

    def wants(self, status, *texts, **more):
        """Calls norm-hourly, and compares its status, and what its lines are to have."""
        found, said = self.call(**more)
        missing = [it for it in texts if it not in said]
        if found != status or missing:
            raise Fault("status %d and not %d; without %s:\n%s" % (found, status, missing, said))
        return said

    def has(self, name):
        return os.path.exists(os.path.join(self.path, name))


def clean():
    return MAKERS["swapped.pcap"]()


def overlap():
    with open(OVERLAP, "rb") as file:
        return file.read()


def two_hours(name, first, status, *texts, **variables):
    """Keeps a test of two hours, of which `first` makes the first; the other is clean."""
    def test(folder):
        folder.hours(first(), clean())
        folder.wants(status, *texts, **variables)
    test.__name__ = name
    row(test)


@row
def every_finished_hour_once(folder):
    """As after a time without calls, for which the timer is persistent: one call judges all that
    wait."""
    names = [folder.hour(hour, clean()) for hour in range(3)]
    folder.wants(0, names[0] + ": status 0", names[1] + ": status 0, end 27 27, audit yes 1 27")
    if folder.has(names[2] + ".norm.json") or not folder.has(names[1] + ".norm.json"):
        raise Fault("the newest is judged, or an older one is not")
    if folder.wants(0) != "":
        raise Fault("a second call says something")
    with open(os.path.join(os.path.dirname(HOURLY), "norm-hourly.timer"), encoding="ascii") as file:
        if "Persistent=yes" not in file.read().splitlines():
            raise Fault("the timer is not persistent")


@row
def evidence_is_given_to_alert(folder):
    folder.hours(overlap(), clean())
    folder.wants(11, "evidence: contradictions 1, differs 0, noise 0", ALERT="tee alert.txt")
    with open(os.path.join(folder.path, "alert.txt"), encoding="utf-8") as file:
        if "T_CLASH" not in file.read():
            raise Fault("the alert has no record")


two_hours("an_alert_that_fails_is_a_failure", overlap, 1, "ALERT: false ended with 1", ALERT="false")
two_hours("a_note_that_warns_fails", MAKERS["lost.pcap"], 1, "status 10", "note lost")
two_hours("an_empty_hour_fails", MAKERS["empty.pcap"], 1, "status 10", "note unjudged")
two_hours("a_run_that_is_not_audited_fails", clean, 1, "audit none", OPTIONS="--both")


@row
def what_differs_is_a_line_a_day(folder):
    """A fragmented answer each hour: no alert, no failure, and one line once the day is over."""
    late = clean() + record(udp_part(0)) + record(udp_part(16))
    for hour in (22, 23):
        folder.hour(hour, late)
    os.rename(os.path.join(folder.path, folder.hour(0, clean())),
              os.path.join(folder.path, "in-20260102-000000.pcap"))
    said = folder.wants(0, "20260101: 2 captures, differs 4, noise 0", ALERT="tee alert.txt")
    if folder.has("alert.txt") or said.count("captures") != 1:
        raise Fault("an alert, or other lines:\n" + said)
    folder.wants(0)


def udp_part(at):
    message = udp(OUTSIDE, INSIDE, 7, 8, bytes(24))
    return ipv4(OUTSIDE, INSIDE, UDP, message[at:at + 16], ident=7, mf=not at, offset=at)


@row
def connections_of_the_hour_before(folder):
    """The note half is no failure where they were open then, and one where they were not."""
    packets = conversation()
    folder.hours(capture_of(packets[:9]), capture_of(packets[9:]), clean())
    folder.wants(0, "note half", "1 connections were open before")
    folder.hour(3, MAKERS["middle.pcap"](), age=5000)
    folder.hour(4, clean())
    folder.hour(2, capture_of([segment("> S 7", outside_port=9)]))
    folder.wants(1, "in-20260101-030000.pcap: status 10", "note half")


@row
def output_that_is_full(folder):
    """What could not be printed is judged again."""
    folder.hours(overlap(), clean())
    with open("/dev/full", "w", encoding="ascii") as full:
        done = subprocess.run([HOURLY], cwd=folder.path, env=folder.environ(), stdout=full, stderr=subprocess.PIPE,
                              text=True, check=False)
    if (done.returncode, done.stderr) != (1, "norm-hourly: [Errno 28] No space left on device\n"):
        raise Fault("%d %s" % (done.returncode, done.stderr))
    folder.wants(11, "contradictions 1")


@row
def names_without_a_time(folder):
    folder.hour(0, overlap())
    os.rename(os.path.join(folder.path, folder.hour(1, clean())), os.path.join(folder.path, "in-20260230-000000.pcap"))
    os.symlink("nowhere", os.path.join(folder.path, "in-20260101-020000.pcap"))
    folder.hour(3, clean())
    folder.wants(11, "in-20260230-000000.pcap: no time", "in-20260101-020000.pcap: no time, or no file",
                 "contradictions 1")


@row
def a_call_that_is_stopped(folder):
    """SIGTERM ends norm-run too."""
    folder.hours(clean(), clean())
    false_program(folder, "norm", "[ $1 = run ] && echo $$ > pid; exec sleep 60")
    process = subprocess.Popen([HOURLY], cwd=folder.path, env=folder.environ())
    deadline = time.monotonic() + 30
    while not folder.has("pid") and time.monotonic() < deadline:
        time.sleep(0.1)
    time.sleep(0.3)
    process.terminate()
    if process.wait(30) != 143:
        raise Fault("status %d" % process.returncode)
    with open(os.path.join(folder.path, "pid"), encoding="ascii") as file:
        if os.path.exists("/proc/%d" % int(file.read())):
            raise Fault("norm goes on")


@row
def an_audit_that_says_no_fails(folder):
    """As of a program that writes something else than norm."""
    folder.hours(clean(), clean())
    false_program(folder, "normaudit", "echo 'no 1 plain'; exit 1")
    folder.wants(1, "status 1", "audit no 1 plain")


@needing("tcpdump")
@row
def a_report_too_large_is_judged_in_parts(folder):
    """Of a norm whose report has more than an audit reads, if it is not of a part."""
    folder.hours(clean(), clean())
    norm = shutil.which("norm", path=folder.path_variable)
    more = "%s \"$@\" || exit; case \"$*\" in *.parts*) ;; run*) head -c 67108865 /dev/zero ;; esac" % norm
    false_program(folder, "norm", more)
    view = shutil.which("normview", path=folder.path_variable)
    small = "[ \"$(stat -c %%s \"$(eval echo \\${$#})\")\" -lt 67108864 ] && exec %s \"$@\"; exit 9" % view
    false_program(folder, "normview", small)
    said = folder.wants(0, "its report is too large for an audit: in 2 parts", "1-of-2.pcap: status 0")
    if not folder.has("in-20260101-000000.pcap.parts/done"):
        raise Fault("the parts are not done:\n" + said)


@needing("tcpdump")
@row
def hours_in_parts(folder):
    folder.hours(overlap(), clean())
    folder.wants(11, "1-of-2.pcap: status 11", "contradictions 1", PARTS="2")
    if folder.wants(0, PARTS="2") != "":
        raise Fault("a second call says something")


@row
def a_missing_hour_is_named_once(folder):
    for hour in (0, 2, 3):
        folder.hour(hour, clean())
    folder.wants(1, "missing between in-20260101-000000.pcap and in-20260101-020000.pcap")
    folder.wants(0)


@row
def a_file_that_is_written_waits(folder):
    name = folder.hour(0, clean(), age=1)
    folder.hour(1, clean())
    folder.wants(0, name + ": written to less than 60 seconds ago")
    if folder.has(name + ".norm.json"):
        raise Fault("it is judged")
    folder.wants(0, name + ": status 0", SETTLED="0")


@row
def a_file_that_grows_in_a_run_fails(folder):
    name = folder.hours(clean(), clean())
    norm = shutil.which("norm", path=folder.path_variable)
    false_program(folder, "norm", "%s \"$@\"; status=$?; [ \"$1\" != run ] || echo >> %s; exit $status" % (norm, name))
    folder.wants(1, name + ": status 5", "is it still written?")
    if folder.has(name + ".norm.json"):
        raise Fault("it is judged")


@row
def two_at_once(folder):
    folder.hours(clean(), clean())
    lock = os.open(folder.path, os.O_RDONLY)
    try:
        fcntl.flock(lock, fcntl.LOCK_SH)
        folder.wants(12, "another one is at work")
    finally:
        os.close(lock)
    folder.wants(0)


@row
def a_disk_that_is_nearly_full(folder):
    name = folder.hours(clean(), clean())
    folder.wants(13, name + ": the disk has", FREE="100")
    if folder.has(name + ".norm.json"):
        raise Fault("it is judged")


@row
def files_are_kept_for_some_days(folder):
    old, new = folder.hour(0, clean(), age=3 * 86400), folder.hour(1, clean(), age=86400)
    folder.hour(2, clean())
    folder.wants(0, old + ": removed after 2 days", KEEP="2")
    if folder.has(old) or folder.has(old + ".norm.pcap") or not folder.has(new):
        raise Fault("other files are removed")


@row
def what_a_killed_run_left_is_removed(folder):
    for name, age in ((".norm-run-old", 2 * 86400), (".norm-run-new", 3600)):
        os.mkdir(os.path.join(folder.path, name))
        os.utime(os.path.join(folder.path, name), (time.time() - age, time.time() - age))
    folder.hours(clean(), clean())
    folder.wants(0, ".norm-run-old: left by a run that was killed: removed")
    if folder.has(".norm-run-old") or not folder.has(".norm-run-new"):
        raise Fault("another folder is removed")


@row
def what_was_not_judged_is_not_removed(folder):
    name = folder.hour(0, b"no capture", age=3 * 86400)
    folder.hour(1, clean())
    folder.wants(1, name + ": status", KEEP="2")
    if not folder.has(name):
        raise Fault("it is removed")


@needing("editcap")
@row
def a_cut_hour_is_repaired_and_fails(folder):
    name = folder.hours(MAKERS["cut.pcap"](), clean())
    folder.wants(1, name + ": it ends in mid-record", name + ": status 0, end 26 26")
    folder.wants(0)


@needing("tcpdump")
@row
def a_cut_hour_in_parts_fails_once(folder):
    name = folder.hours(MAKERS["cut.pcap"](), clean())
    said = folder.wants(1, name + ": it ends in mid-record", "of-2.pcap: status 0, end 26 26", PARTS="2")
    if said.count("mid-record") != 1:
        raise Fault("it is named twice:\n" + said)
    folder.wants(0, PARTS="2")


@row
def malformed_variables(folder):
    folder.wants(2, "PREFIXES", PREFIXES="")
    folder.wants(2, "PARTS", PARTS="0")


@needing("systemd-analyze")
@row
def what_the_unit_exposes(folder):
    """By systemd-analyze."""
    unit = os.path.join(folder.path, "norm-hourly.service")
    with open(SERVICE, encoding="ascii") as file, open(unit, "w", encoding="ascii") as copy:
        copy.write("".join("ExecStart=/bin/true\n" if it.startswith("ExecStart=") else it for it in file))
    done = subprocess.run(["systemd-analyze", "security", "--offline=yes", "--threshold=%d" % EXPOSURE, unit],
                          stdout=subprocess.PIPE, stderr=subprocess.STDOUT, text=True, check=False)
    if "exposure level" not in done.stdout:
        raise Fault("systemd-analyze ends with %d: %s" % (done.returncode, done.stdout))
    if done.returncode != 0:
        raise Fault("its exposure is %d or more:\n%s" % (EXPOSURE // 10, done.stdout))


def false_program(folder, name, script):
    """Puts a script in place of a program, before it on the path."""
    place = os.path.join(folder.path, "false")
    os.makedirs(place, exist_ok=True)
    path = os.path.join(place, name)
    with open(path, "w", encoding="ascii") as file:
        file.write("#!/bin/bash\n%s\n" % script)
    os.chmod(path, 0o755)
    if not folder.path_variable.startswith(place):
        folder.path_variable = place + os.pathsep + folder.path_variable
