"""Which definitions a reader of public contracts has to believe, and which are those of private
contracts alone (see `statement`)."""
import os
import re

from proofs import contracts, definitions

# The contract that README and docs/PROVED.md give first.
HEADLINE = "bridge_run::runner::run"

# A sentence of each page, with the figures in it.
FIGURES = {
    "README.md": "To know what it says, read {run} definitions ({run_lines} lines).",
    "docs/PROVED.md":
        "The contract of `run` rests on {run} definitions ({run_lines} lines), all public "
        "contracts on {believed} ({believed_lines} lines); {working} more ({working_lines} "
        "lines), in `specs/working`, are those of private contracts.",
}


def rested_on(found, clauses):
    """Returns the definitions that clauses rest on."""
    todo, seen = [], {}
    for clause in clauses:
        todo += found.named_in(clause.text, {}, *clause.scope, clause.bound)
    while todo:
        one = todo.pop()
        if id(one) not in seen:
            seen[id(one)] = one
            todo += found.names_of(one)
    return [it for it in seen.values() if isinstance(it, definitions.Definition)]


def unused(found):
    """Returns the definitions that no contract of the code rests on."""
    used = set(map(id, rested_on(found, contracts.clauses())))
    return [it for it in found.all() if id(it) not in used]


def misplaced(found, believed):
    """Returns a line for each definition in the wrong place."""
    wanted = set(map(id, believed))
    for it in found.all():
        where = f"{it.place}: {it.name}"
        if id(it) in wanted and it.module.is_working:
            yield f"{where}: a public contract rests on it, so it belongs in specs/"
        if id(it) not in wanted and not it.module.is_working:
            yield f"{where}: no public contract rests on it, so it belongs in specs/working/"


def figures(found, clauses, believed):
    """Returns the numbers of definitions and of their lines."""
    wanted = set(map(id, believed))
    parts = {
        "run": rested_on(found, [it for it in clauses if it.function == HEADLINE]),
        "believed": believed,
        "working": [it for it in found.all() if id(it) not in wanted],
    }
    counts = {}
    for name, part in parts.items():
        counts[name] = f"{len(part):,}"
        counts[name + "_lines"] = f"{sum(len(it.lines) for it in part):,}"
    return counts


def with_figures(page, text, counts):
    """Returns the text of a page with these figures in its sentence, or None if it has no such
    sentence."""
    pieces = re.split(r"\{(\w+)\}", FIGURES[page])
    parts = [re.escape(it).replace(r"\ ", r"\s+") for it in pieces[::2]]
    match = re.search("([0-9,]+)".join(f"({it})" for it in parts), text)
    if not match:
        return None
    said = list(match.groups())
    said[1::2] = [counts[name] for name in pieces[1::2]]
    return text[: match.start()] + "".join(said) + text[match.end() :]


def compare(found, write):
    """Prints the definitions in the wrong place and the pages with other figures, and returns
    whether there is one. With `write` the pages get the figures."""
    clauses = contracts.clauses()
    believed = rested_on(found, [it for it in clauses if it.public])
    faults = list(misplaced(found, believed))
    counts = figures(found, clauses, believed)
    for page in FIGURES:
        path = os.path.join(definitions.TOP, page)
        with open(path, encoding="utf-8") as file:
            text = file.read()
        new = with_figures(page, text, counts)
        if new is None:
            faults.append(f"{page} has no sentence with the figures")
        elif new != text and write:
            with open(path, "w", encoding="utf-8") as file:
                file.write(new)
        elif new != text:
            faults.append(f"{page} has other figures; --apart --write writes them")
    print("\n".join(faults) or FIGURES["docs/PROVED.md"].format(**counts))
    return bool(faults)
