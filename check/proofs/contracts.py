"""The clauses of the crates' code, each with whether a user of the crate can name what it is about
(see `statement`)."""
import glob
import os
import re
from typing import NamedTuple

from pages import public_items
from proofs import definitions

# Comments, strings and characters, which have no clauses.
SKIPPED = re.compile(r"""//[^\n]*|/\*.*?\*/|b?"(?:\\.|[^"\\])*"|b?'(?:\\[^'\n]*|[^\\'\n])'""",
                     re.DOTALL)
WORD = re.compile(r"[A-Za-z_]\w*|[{}()\[\];#,]")
CLOSED = {"(": ")", "[": "]", "{": "}"}
CLAUSE = re.compile(r"\b(?:requires|ensures|decreases|invariant)\b\*?\s*\w*\s*\{"
                    r"|\bghost \w+\s*[:=]\s*\{")
GENERICS = r"(?:<(?:[^<>]|<[^<>]*>)*>)?"
IMPL = re.compile(rf"impl\b{GENERICS}\s+(?:([\w:]+){GENERICS}\s+for\s+)?&?([\w:]+)")
CONST_FN = re.compile(r"const\s+fn\b")
CONTRACT = re.compile(r"\b(?:requires|ensures|decreases)\b")


class Clause(NamedTuple):
    """A clause: its file, its text, the names in scope, whether it is public, the names that are
    bound in it, and the name of its function, if it has one."""

    path: str
    text: str
    scope: tuple
    public: bool
    bound: tuple = ()
    function: "str | None" = None


class Reader:
    """Reads the clauses of a source file."""

    def __init__(self, crate, names, structs, path):
        self.crate, self.names, self.structs, self.path = crate, names, structs, path
        module = os.path.splitext(path)[0].split(os.sep)[3:]
        self.module = () if module in (["lib"], ["main"]) else tuple(module)
        with open(os.path.join(definitions.TOP, path), encoding="utf-8") as file:
            self.text = SKIPPED.sub(lambda match: re.sub(r"[^\n]", " ", match[0]), file.read())
        self.clauses = []
        for match in re.finditer(r"\bstruct (\w+)[^;{]*\{", self.text):
            at = match.end() - 1
            structs[self.module, match[1]] = self.text[at : self.end_of(at)]

    def end_of(self, at):
        """Returns the index after the group of brackets that opens at `at`."""
        stack = []
        for match in re.compile(r"[()\[\]{}]").finditer(self.text, at):
            if match[0] in CLOSED:
                stack.append(CLOSED[match[0]])
            elif stack.pop() != match[0]:
                break
            elif not stack:
                return match.end()
        raise SystemExit(f"{self.path}: a bracket is not closed")

    def find(self, at, wanted):
        """Returns where the first of these signs is, outside of brackets."""
        while self.text[at] not in wanted:
            at = self.end_of(at) if self.text[at] in CLOSED else at + 1
        return at

    def scoped(self, at, end, above):
        """Returns the names of `above` with those of the `ghost use` lines of a block."""
        taken, aliases = dict(above[0]), dict(above[1])
        depth = 0
        for line in self.text[at:end].split("\n"):
            if not depth:
                definitions.read_use(line.strip(), taken, aliases)
            depth += len(re.findall(r"[({\[]", line)) - len(re.findall(r"[)}\]]", line))
        return taken, aliases

    def add(self, at, end, *about):
        """Notes the clauses between two places."""
        while match := CLAUSE.search(self.text, at, end):
            at = self.end_of(match.end() - 1)
            self.clauses.append(Clause(self.path, self.text[match.end() : at - 1], *about))

    def read(self, at, end, scope, owner=None):
        """Reads the items between two places, which are those of `owner` if it is not None."""
        scope = self.scoped(at, end, scope)
        shown = False
        while True:
            match = WORD.search(self.text, at, end)
            if not match:
                return
            word, at = match[0], match.end()
            if word in CLOSED:
                at = self.end_of(match.start())
            elif word == "pub":
                shown = not re.match(r"\s*\(", self.text[at:])
                continue
            elif word == "fn":
                at = self.function(match.start(), scope, owner, shown)
            elif word in ("struct", "enum", "trait", "impl", "mod"):
                at = self.group(word, match.start(), scope)
            elif word == "ghost":
                at = self.ghost(match.start(), scope, owner)
            elif word in ("unsafe", "async", "extern") or CONST_FN.match(self.text, match.start()):
                continue
            elif word in ("use", "const", "static", "type"):
                at = self.find(at, ";") + 1
            shown = False

    def ghost(self, start, scope, owner):
        """Reads a ghost item of an implementation or a trait, and returns the index after it."""
        end = self.find(start, ";") + 1
        hides = owner and owner.hides(self.text[start:end])
        self.add(start, end, scope, bool(owner and owner.public and not hides))
        return end

    def function(self, start, scope, owner, shown):
        """Reads the clauses of a function and those in its body, and returns the index after it."""
        name = re.match(r"fn\s+(\w+)", self.text[start:])[1]
        path = "::".join((self.crate.name, *self.module, name))
        public = owner.shows(shown) if owner else (self.module, name) in self.names
        at = self.find(start, "(")
        end = self.end_of(at)
        bound = ["result", "self", *re.findall(r"(\w+)\s*:[^:]", self.text[at:end])]
        self.add(at, end, scope, public)
        while True:
            stop = self.find(end, "{;")
            if self.text[stop] == ";" or not CONTRACT.search(self.text, end, stop):
                break
            begin, end = end, self.end_of(stop)
            self.add(begin, end, scope, public, bound, path)
        if self.text[stop] == ";":
            return stop + 1
        end = self.end_of(stop)
        self.add(stop, end, scope, False)
        return end

    def group(self, word, start, scope):
        """Reads a type, a trait, an implementation or a module, and returns the index after it."""
        stop = self.find(start, "{;")
        if word == "struct" and self.text[stop] == ";" or word == "mod":
            return stop + 1 if self.text[stop] == ";" else self.end_of(stop)
        end = self.end_of(stop)
        owner = Owner(self, word, self.text[start:stop], self.text[stop:end])
        if word in ("trait", "impl"):
            self.read(stop + 1, end - 1, scope, owner)
            return end
        inner = self.scoped(stop + 1, end - 1, scope)
        for match in CLAUSE.finditer(self.text, stop, end):
            at = self.end_of(match.end() - 1)
            text = self.text[match.end() : at - 1]
            public = owner.public and not owner.hides_fields(text)
            self.clauses.append(Clause(self.path, text, inner, public))
        return end


class Owner:
    """What items are in: a type, a trait or an implementation."""

    def __init__(self, reader, word, head, body):
        self.word, self.of_trait = word, word == "trait"
        self.open = self.closed = frozenset()
        if word == "impl":
            match = IMPL.match(head)
            self.of_trait = bool(match[1])
            place = self.place(reader, match[2])
            trait = self.place(reader, match[1]) if match[1] else None
            self.public = place in reader.names and (not trait or trait in reader.names)
            body = reader.structs.get(place, "")
        else:
            name = re.match(rf"{word}\s+(\w+)", head)[1]
            self.public = (reader.module, name) in reader.names
        if word in ("struct", "impl") and body:
            fields = re.findall(r"(?:^|[{,])\s*(pub(?:\([^)]*\))? )?(?!ghost)(\w+):", body)
            self.open = {name for mark, name in fields if mark == "pub "}
            self.closed = {name for mark, name in fields if mark != "pub "}

    @staticmethod
    def place(reader, path):
        """Returns where a type or trait is defined in this crate, or None."""
        module = reader.crate.modules.get(reader.module)
        return module and reader.crate.place_of(module, [it for it in re.split("(::)", path) if it])

    def shows(self, shown):
        """Returns whether a function in it is public, which has `pub` if `shown`."""
        return self.public and (shown or self.of_trait)

    def hides(self, text):
        """Returns whether a ghost item is an invariant of private fields alone."""
        match = re.match(r"ghost invariant = \{ λ (\w+)\.", text)
        return bool(match) and not set(re.findall(rf"\b{match[1]}\.(\w+)", text)) & self.open

    def hides_fields(self, text):
        """Returns whether a clause of a struct names private fields alone."""
        named = set(re.findall(r"\w+", text))
        return bool(named & self.closed) and not named & self.open


def is_tests(crate):
    """Returns whether a crate has tests alone."""
    return crate.endswith("_tests")


def clauses():
    """Returns the clauses of all crates."""
    found = []
    public_items.TOP = definitions.TOP
    for folder in sorted(glob.glob(os.path.join(definitions.TOP, "crates", "*", "src"))):
        name = os.path.basename(os.path.dirname(folder))
        crate = public_items.Crate(name)
        names = crate.public_names()[0] if crate.modules and not is_tests(name) else {}
        paths = sorted(glob.glob(os.path.join(folder, "**", "*.rt"), recursive=True))
        structs = {}
        readers = [Reader(crate, names, structs, os.path.relpath(path, definitions.TOP))
                   for path in paths]
        for reader in readers:
            reader.read(0, len(reader.text), ({}, {}))
            found += reader.clauses
    return found
