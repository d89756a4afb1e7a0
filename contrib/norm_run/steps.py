"""What is asked of a finished run: its notes, its summary, its audit and its evidence."""

import json
import os
import subprocess
from types import SimpleNamespace

from . import advice
from .again import reasons_of
from .alarm import CLASSES, CONTRADICTS, DIFFERS, Alarm
from .made import RUNNING, program, run_on
from .opened import OTHERS
from .words import Refused, words_of

# Lines of evidence that are kept for the page, of contradictions and of the rest.
MOST_LINES = 5

# The octets of a report that an audit reads.
MOST_AUDITED = 67108864

class Files:
    """The three files of a run, and where they are until they are whole."""

    def __init__(self, out, report, folder):
        self.out, self.report = out, report
        self.out_part, self.report_part = os.path.join(folder, "out.pcap"), os.path.join(folder, "report.txt")


def run_norm(asked, opened, files, progress):
    """Runs norm; returns the last line of its report. Refuses with its status where that is not
    0."""
    words = [program("norm"), "run", *words_of(asked.options), "IN", files.out_part, *asked.prefixes]
    with open(files.report_part, "wb") as report:
        status, said = run_on(opened, words, report, progress, "norm")
    with open(files.report_part, "rb") as report:
        report.seek(max(0, os.path.getsize(files.report_part) - 200))
        last = (report.read().decode("ascii", "replace").splitlines() or [""])[-1]
    if status != 0:
        said = (said or last).replace(files.out_part, files.out)
        raise Refused(status, said + advice_on(status, last, opened))
    return last


def advice_on(status, last, opened):
    """Returns what to do where norm stopped."""
    if status == 4 and not opened.repair and os.path.getsize(opened.path):
        return "\nIN ends in mid-record: with --repair norm-run reads what is whole"
    if last.startswith("stop link"):
        return "\nthe link type of IN is %s; %s" % (opened.link, OTHERS.get(opened.link, "see RECIPES, Other links"))
    if last.startswith("stop magic"):
        return "\nIN is neither pcap nor pcapng: editcap -F pcap IN NEW may read it"
    return ""


def view(opened, files, words, progress, what, output):
    """Runs a view of the files with these words; returns its status. Refuses where it failed."""
    status, said = run_on(opened, [program("normview"), *words, "IN", files.out_part, files.report_part], output,
                          progress, what)
    if status not in (0, 10, 11):
        raise Refused(status, said or "normview ended with %d" % status)
    return status


def events_of(opened, files, words, progress, what):
    """Returns the status and the objects of a view as JSON."""
    events = []
    status = view(opened, files, [*words, "--json"], progress, what, lambda line: events.append(json.loads(line)))
    return status, events


def notes(asked, opened, files, progress):
    """Returns the notes on IN, and whether one warns."""
    status, events = events_of(opened, files, ["--notes"], progress, "notes")
    return {"warns": status == 10, "notes": events}


def summary(asked, opened, files, progress):
    """Returns the object of the summary, with what may be wrong with PREFIX."""
    _, events = events_of(opened, files, ["--summary"], progress, "summary")
    found, rows = next(it for it in events if it["event"] == "summary"), []
    if advice.may_be_swapped(found):
        view(opened, files, ["--table", "eras"], progress, "eras", lambda line: rows.append(line.split("\t")))
    found["prefix"] = advice.of_prefix(found, [dict(zip(rows[0], it)) for it in rows[1:]]) if rows else None
    return found


def audit(asked, opened, files, progress):
    """Audits OUT for the hops of the run; returns its status and its line, or why there is none."""
    for option in ("--both", "--mtu"):
        if option in asked.options:
            return {"status": None, "said": "none: of a run with %s there is no audit" % option}
    octets = os.path.getsize(files.report_part)
    if octets > MOST_AUDITED:
        raise Refused(9, "the report has %d octets, and an audit reads %d: divide IN by host (norm-part)"
                      % (octets, MOST_AUDITED))
    words = [program("normaudit"), files.out_part, files.report_part, str(asked.options["--hops"])]
    process = subprocess.Popen(words, stdout=subprocess.PIPE, stderr=subprocess.PIPE, text=True)
    RUNNING.append(process)
    said, why = process.communicate()
    RUNNING.clear()
    if process.returncode not in (0, 1):
        raise Refused(process.returncode if process.returncode > 0 else 128 - process.returncode,
                      "the audit: %s" % (why.strip() or said.strip()))
    return {"status": process.returncode, "said": said.strip()}


class Chosen:
    """The lines of an evidence view: the class of each record, how many there are, and the first
    lines of some records."""

    def __init__(self, prefixes, wanted=()):
        self.alarm, self.wanted, self.chosen = Alarm(prefixes), wanted, None
        self.lines = {name: [] for name in CLASSES}

    def take(self, line):
        first, _, rest = line.partition(" ")
        if first == "chosen":
            self.chosen = int(rest)
        elif first not in (*CLASSES, "stop"):
            kind = CONTRADICTS if int(first.partition("/")[0]) in self.wanted else self.alarm.take(line)
            if kind and len(self.lines[kind]) < MOST_LINES:
                self.lines[kind].append(line)


def evidence(asked, opened, files, progress):
    """Returns the records that a host may have read otherwise: their counts by class, which are not
    those of normview, and the first of them."""
    def of_view(*more):
        chosen = Chosen(asked.prefixes, *more)
        return chosen, view(opened, files, ["--evidence"], progress, "evidence", chosen.take)

    chosen, status = of_view()
    alarm, lines = chosen.alarm, chosen.lines
    reasons = reasons_of(opened, alarm.doubts)
    alarm.decide(reasons)
    if sum(alarm.counts.values()) != chosen.chosen or (status == 11) != (chosen.chosen > 0):
        raise Refused(5, "the evidence of normview ends with %d and counts %s records" % (status, chosen.chosen))
    if reasons and len(lines[CONTRADICTS]) < MOST_LINES:
        lines = of_view(set(reasons))[0].lines
    shown = ["%s%s" % (it, "; " + reasons[int(it.split()[0])] if it.split()[0].isdigit() and int(it.split()[0]) in
                       reasons else "") for it in lines[CONTRADICTS] + lines[DIFFERS]]
    return {"found": alarm.counts[CONTRADICTS] > 0, "records": chosen.chosen, **alarm.counts,
            "lines": shown[:MOST_LINES]}


STEPS = {"notes": notes, "audit": audit, "evidence": evidence, "summary": summary}


def all_steps(asked, opened, files, progress):
    """Makes each step; returns what they found, and those that failed: with --keep-going it goes on
    after one."""
    found, failed = SimpleNamespace(**dict.fromkeys(STEPS)), []
    for name, step in STEPS.items():
        try:
            setattr(found, name, step(asked, opened, files, progress))
        except Refused as fault:
            failed.append({"step": name, "status": fault.status, "why": str(fault)})
            if not asked.keep_going:
                break
    return found, failed


def status_of(found, failed):
    """Returns the status of norm-run, and the word for it."""
    if failed:
        return failed[0]["status"], "failed"
    if found.audit["status"] == 1:
        return 1, "no"
    if found.evidence["found"]:
        return 11, "evidence"
    return (10, "warning") if found.notes["warns"] else (0, "nothing")
