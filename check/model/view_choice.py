"""Which records are chosen: of each choice some line of the record meets it; and what a chosen
record is evidence of."""

from model.view_reading import is_dropped, names
from model.view_words import CHOICES
from model.words import prefix_holds


def meets(asked, choice, item):
    """Returns whether this line, or its record, meets the choice."""
    value, entry = getattr(asked, choice), item.entry
    if choice == "rule":
        return any(rule in value for rule in entry.rules)
    if choice == "only":
        return entry.verdict in value
    if choice == "era":
        return value in [(item.by, number) for number in eras_named(entry)]
    if choice == "side":
        return item.by == "first" and entry.side in value
    return has_host(asked, value, item)


def has_host(asked, prefix, item):
    """Returns whether a record is of this prefix. As evidence, one without a header may be."""
    if item.flow is None:
        return asked.evidence
    return any(prefix_holds(prefix, address) for address in (item.flow.src, item.flow.dst))


def is_chosen(asked, items):
    """Returns whether the record of these lines is chosen."""
    given = [choice for choice in CHOICES if getattr(asked, choice) is not None]
    if asked.evidence and not any(map(is_evidence, items)):
        return False
    return all(any(meets(asked, choice, item) for item in items) for choice in given)


def eras_named(entry):
    """Returns the era that the line belongs to, the one that it begins, and those that it ends."""
    numbers = [entry.era, entry.begun] + [ended.era for ended in entry.ended]
    return [number for number in numbers if number is not None]


# Evidence

CLASSES = ("contradictions", "differs", "noise")


def is_from_outside(item):
    return item.entry.side in ("in", "-")


def is_evidence(item):
    return is_from_outside(item) and item.entry.verdict != "pass"


def class_of(items):
    """Returns the first class that fits a chosen record."""
    if any(is_from_outside(item) and names(item, "T_CLASH", "F_CLASH") for item in items):
        return "contradictions"
    is_noise = all(is_dropped(item) and names(item, "T_COLD", "T_FLAGS")
                   for item in items if is_evidence(item))
    return "noise" if is_noise and items[0].length == 0 else "differs"
