"""The page that norm-run prints for a run, for a reader at a terminal."""

import os
import sys

from .alarm import CLASSES
from .advice import UNFILLED, commands_of_evidence, commands_of_note
from .words import words_of

RED, YELLOW, GREEN, BOLD = "31", "33", "32", "1"

MEANINGS = {"contradictions": "a host and a monitor may have read different octets",
            "differs": "octets that were dropped or changed, and none that differ",
            "noise": "no octets of a connection: not IPv4, to groups, scans"}

VERDICTS = {"failed": (RED, "not finished"),
            "no": (RED, "the audit says no: keep the files, and report it (SECURITY.md)"),
            "evidence": (RED, "a host and a monitor may have read different octets"),
            "warning": (YELLOW, "IN may be bad: see the notes"), "nothing": (GREEN, "nothing was found")}


def painted(text, colour):
    """Returns the text in a colour, where standard output is a terminal and NO_COLOR is not set."""
    if not sys.stdout.isatty() or os.environ.get("NO_COLOR") or os.environ.get("TERM") == "dumb":
        return text
    return "\033[%sm%s\033[0m" % (colour, text)


def row(name, text, colour=None):
    print("%s %s" % (painted("%-9s" % name, BOLD), painted(text, colour) if colour else text))


def hosts(summary, side):
    return ", ".join("%s %d" % (it["ip"], it["count"]) for it in summary.get(side + "_hosts") or []) or "no host"


def print_summary(found):
    if found.summary is None:
        return
    eras = found.summary["era_counts"]["all"]
    row("records", "%d, frames %d, eras %d" % (found.summary["records"], found.summary["frames"], eras))
    row("outside", hosts(found.summary, "outside"))
    row("inside", hosts(found.summary, "inside"))
    if found.summary["prefix"]:
        row("prefix", found.summary["prefix"], YELLOW)
    rules = sorted(found.summary["rule_counts"], key=lambda it: -(it["in"] + it["out"] + it["neither"]))
    if rules:
        row("rules", ", ".join("%s %d" % (it["rule"], it["in"] + it["out"] + it["neither"]) for it in rules[:6]))


def print_notes(found, opened):
    for text in opened.named:
        row("note", text, YELLOW)
    if found.notes is None:
        return
    if not found.notes["notes"]:
        row("notes", "none", GREEN)
    for note in found.notes["notes"]:
        counts = ["%s %s" % (name, shown(value)) for name, value in note.items()
                  if name not in ("event", "note", "advice")]
        row("note", "%s %s: %s" % (note["note"], " ".join(counts), note["advice"]), YELLOW)
        if note["note"] == "card" and note["in"]:
            row("", UNFILLED, YELLOW)


def shown(value):
    """Returns the value of a count as text; the rules of `unjudged` are objects."""
    if isinstance(value, list):
        return ", ".join("%s %d" % (it["rule"], it["count"]) for it in value) or "none"
    return str(value)


def print_audit(found, hops):
    if found.audit is None:
        return
    said = found.audit["said"]
    if found.audit["status"] is None:
        row("audit", said, YELLOW)
        return
    word, *numbers = said.split(" ")
    if word == "yes" and numbers[0] == "0":
        row("audit", "%s: no connection of TCP was followed, so that this says nothing of streams" % said, YELLOW)
    else:
        row("audit", "%s, behind at most %d routers" % (said, hops), GREEN if word == "yes" else RED)


def print_evidence(found):
    if found.evidence is None:
        return
    records = found.evidence["records"]
    row("evidence", "records that a host may have read otherwise: %d" % records if records else "none",
        YELLOW if records else GREEN)
    for name in CLASSES if records else ():
        row("", "%s %d: %s" % (name, found.evidence[name], MEANINGS[name]),
            RED if name == "contradictions" and found.evidence[name] else None)
    for line in found.evidence["lines"]:
        print("  " + line)


def print_next(asked, opened, found, ends):
    """Prints the commands that follow, each whole."""
    commands = [it for note in (found.notes or {"notes": []})["notes"] for it in commands_of_note(note, asked, opened)]
    if found.evidence and found.evidence["contradictions"] + found.evidence["differs"]:
        commands += commands_of_evidence(asked, opened, ends.files, found.evidence)
    for command, name in zip(commands, ["next", *[""] * len(commands)]):
        row(name, command)


def print_page(asked, opened, found, ends):
    """Prints the page of a run that norm finished."""
    row("IN", "%s (norm-run %s %s)" % (opened.path, " ".join(words_of(asked.options)), " ".join(asked.prefixes)))
    for did in opened.did:
        row("opened", did)
    print_summary(found)
    print_notes(found, opened)
    print_audit(found, asked.options["--hops"])
    print_evidence(found)
    for it in ends.failed:
        row("failed", "%s: %s" % (it["step"], it["why"]), RED)
    row("files", " ".join(ends.files))
    print_next(asked, opened, found, ends)
    colour, text = VERDICTS[ends.word]
    if ends.word == "evidence" and found.notes["warns"]:
        text += "; but IN may be bad: see the notes first"
    row("status", "%d: %s" % (ends.status, text), colour)
