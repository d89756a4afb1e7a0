"""A view of a finished run: the capture that it read, the capture that it wrote, and its report,
explained record by record.

The three files are read in step: their heads, then for each line of the report its record and its
frames. In a report of a run with both sides protected the frames are those of the second engine's
lines, which follow the line of their record.
"""

from model.notes import is_bad, notes_of
from model.view_choice import CLASSES, class_of, is_chosen
from model.view_eras import eras_of
from model.view_firsts import Firsts
from model.view_input import Ended, open_files
from model.view_items import records_of
from model.view_lists import (TABLES, chosen_fields, era_fields, evidence_fields, note_fields,
                                   record_fields, stop_fields, summary_fields)
from model.view_texts import PRINTERS, heading
from model.view_words import has_choice, read_view_words

# The statuses of a view of whole files that has a warning, or evidence.
BAD, EVIDENCE = 10, 11


def view(words, files):
    """The status and the output; `files` are the octets of the three files, None for one that
    cannot be read."""
    asked, lines = read_view_words(words), []
    try:
        if asked is None:
            raise Ended(2, "stop words")
        status = add_lines(asked, files, lines)
    except Ended as ended:
        last = PRINTERS["json" if "--json" in words else "text"](stop_fields(ended.status, ended.reason))
        return ended.status, "".join(lines) + last
    return status, "".join(lines)


def view_files(words):
    """The same of the files that the words name, as the program reads them."""
    asked = read_view_words(words)
    return view(words, [] if asked is None else [read_file(name) for name in asked.names])


def read_file(name):
    try:
        with open(name, "rb") as file:
            return file.read()
    except OSError:
        return None


def form_of(asked):
    return "table" if asked.table is not None else "json" if asked.json else "text"


def add_lines(asked, files, lines):
    """Adds all that is printed. Returns the status."""
    add = lambda fields: lines.append(PRINTERS[form_of(asked)](fields))  # noqa: E731
    run = open_files(files)
    if asked.table == "records":
        lines.append(heading(TABLES["records"]))
    items, classes, firsts = [], [], Firsts()
    for of_record in records_of(run):
        items += of_record
        if asked.evidence:
            firsts.add(of_record)
        if is_chosen(asked, of_record):
            classes.append(class_of(of_record))
            for item in of_record if prints_records(asked) else []:
                add(record_fields(item))
    notes = notes_of([item for item in items if item.by == "first"])
    if has_choice(asked):
        add_counts(asked, classes, add)
    elif asked.table != "records":
        add_eras(asked, run, items, add, lines)
        for note in notes if asked.table is None else []:
            add(note_fields(note))
    return status_of(asked, classes, notes)


def status_of(asked, classes, notes):
    if asked.evidence and classes:
        return EVIDENCE
    return BAD if asked.notes and is_bad(notes) else 0


def prints_records(asked):
    if asked.notes or asked.summary:
        return False
    return asked.json or has_choice(asked) or asked.table == "records"


def add_counts(asked, classes, add):
    """Adds how many records are chosen, and what they are evidence of; a table has neither."""
    if asked.table is None:
        add(chosen_fields(len(classes)))
    if asked.table is None and asked.evidence:
        add(evidence_fields({name: classes.count(name) for name in CLASSES}))


def add_eras(asked, run, items, add, lines):
    """Adds the summary, or the names of a table's columns, and the eras; of these nothing where
    notes alone are asked for."""
    if asked.notes:
        return
    eras = eras_of(run, items)
    if asked.table == "eras":
        lines.append(heading(TABLES["eras"]))
    else:
        add(summary_fields(items, eras, run.both))
    for era in eras if not asked.summary else []:
        add(era_fields(era))
