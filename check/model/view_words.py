"""The words of a view: what is asked, or that they are refused."""

from types import SimpleNamespace

from model.rule_names import RULES
from model.view_lists import SIDES, TABLES, VERDICTS
from model.words import read_number, read_prefix, take_option

CHOICES = ("rule", "era", "only", "side", "host")

# The words of a list of each of these options.
LISTED = {"rule": RULES, "only": VERDICTS, "side": SIDES}


def read_list(text, known):
    """One or more of the known words, each once, or None."""
    words = text.split(",")
    return words if len(set(words)) == len(words) and all(word in known for word in words) else None


def read_era(text):
    """The engine and the number of an era, or None."""
    by, colon, digits = text.rpartition(":")
    number = read_number(digits, 1, 2**32 - 1)
    if number is None or by + colon not in ("", "second:"):
        return None
    return (by or "first", number)


def read_host(text):
    """A prefix, of an address the one of all its bits, or None."""
    prefix = read_prefix(text if "/" in text else text + "/32")
    return None if isinstance(prefix, str) else prefix


def read_value(name, text):
    """The value of this option, or None where it is refused."""
    if name in LISTED:
        return read_list(text, LISTED[name])
    if name == "table":
        return text if text in TABLES else None
    return read_era(text) if name == "era" else read_host(text)


# The options without a value.
MARKS = ["json", "notes", "evidence", "summary"]

OPTIONS = SimpleNamespace(names=[*MARKS, "table", *CHOICES], marks=MARKS, read=read_value)


def read_view_words(words):
    """What is asked, or None for invalid arguments."""
    asked = SimpleNamespace(table=None, **dict.fromkeys(MARKS, False), **dict.fromkeys(CHOICES))
    seen = []
    while words and words[0].startswith("-"):
        words = take_option(words, OPTIONS, asked, seen)
        if words is None:
            return None
    if len(words) != 3 or any(word == "" or word.startswith("-") for word in words):
        return None
    if not go_together(asked):
        return None
    asked.names = words
    return asked


def has_choice(asked):
    return asked.evidence or any(getattr(asked, choice) is not None for choice in CHOICES)


def go_together(asked):
    """Returns whether there is one format, a table of eras has all of them, and the notes alone are
    those on all records; a table has no end that could be asked for alone."""
    if asked.notes and (asked.table is not None or asked.summary or has_choice(asked)):
        return False
    if asked.table is not None and (asked.json or asked.summary):
        return False
    return not (asked.table == "eras" and has_choice(asked))
