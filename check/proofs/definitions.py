"""The definitions in the crates' specs/ folders and what each of them names (see `statement`)."""
import glob
import os
import re

from proofs.free_names import names_in_clause, names_in_definition

TOP = os.path.dirname(os.path.dirname(os.path.dirname(os.path.abspath(__file__))))

BEGINS = re.compile(r"(?:(?:abbrev|unfoldable) (?:pub )?|(?:pub )?record |(?:pub )?data )([^\s:(]+)")


class Definition:
    """A definition: its file, its first line, its comment, its text and the names that it uses."""

    def __init__(self, module, name, line, comment, lines):
        self.module, self.name, self.line, self.comment, self.lines = module, name, line, comment, lines

    @property
    def place(self):
        return f"{self.module.path}:{self.line}"

    def fields(self):
        """Returns the lines of a record's fields or a type's constructors by name."""
        found = {}
        for line in self.lines[1:]:
            field = re.match(r"  (?:pub )?([\w']+) :", line)
            if field:
                name = field[1]
                found[name] = line
            elif found:
                found[name] += "\n" + line
        return found


class Module:
    """A file of definitions, with the names that it takes from others."""

    def __init__(self, crate, path):
        self.crate, self.path = crate, path
        name = os.path.splitext(path)[0].replace(os.sep, ".").removeprefix("crates.")
        self.key = "Rattle." + name
        self.is_working = ".specs.working." in self.key
        self.own, self.taken, self.aliases = {}, {}, {}
        with open(os.path.join(TOP, path), encoding="utf-8") as file:
            self.read(unindented(file.read().split("\n")))

    def read(self, lines):
        comment = []
        at = 0
        while at < len(lines):
            line = lines[at]
            begins = BEGINS.match(line)
            if line.startswith("--"):
                comment.append(line)
            elif begins:
                end = end_of(lines, at + 1)
                found = Definition(self, begins[1], at + 1, comment, lines[at:end])
                self.own[begins[1]] = found
                if re.match(r"(?:pub )?data ", line):
                    for name in found.fields():
                        self.own.setdefault(name, found)
                comment = []
                at = end - 1
            else:
                read_use(line, self.taken, self.aliases)
                comment = []
            at += 1


def unindented(lines):
    """Returns the lines with those inside of `module _ .. where` moved to the left margin."""
    depth, moved = 0, []
    for line in lines:
        if line.strip():
            depth = min(depth, (len(line) - len(line.lstrip())) // 2)
        moved.append(line[2 * depth :])
        if moved[-1].startswith("module _"):
            depth += 1
    return moved


def end_of(lines, at):
    """Returns the index after the lines of a definition; a blank line inside is followed by an
    indented one."""
    while at < len(lines):
        line = lines[at]
        if line.startswith("--") or BEGINS.match(line):
            return at
        if not line and not (at + 1 < len(lines) and lines[at + 1].startswith("  ")):
            return at
        at += 1
    return at


def read_use(line, taken, aliases):
    """Notes what a line `use MODULE.{NAMES}` or `use MODULE as ALIAS` brings in."""
    match = re.match(r"(?:pub |ghost )?use (Rattle\.[\w.]+?)(?:\.\{(.*)\}| as (\w+));?$", line)
    if not match:
        return
    if match[3]:
        aliases[match[3]] = match[1]
        return
    for part in filter(None, (it.strip() for it in (match[2] or "").split(","))):
        name, _, other = part.partition(" as ")
        taken[other or name] = (match[1], name)


class Definitions:
    """All definitions, by the path of their module."""

    def __init__(self):
        self.modules = {}
        pattern = os.path.join(TOP, "crates", "*", "specs", "**", "*.antt")
        for path in sorted(glob.glob(pattern, recursive=True)):
            at = os.path.relpath(path, TOP)
            if not at.endswith("/Lib.antt"):
                module = Module(at.split(os.sep)[1], at)
                self.modules[module.key] = module

    def found(self, key, name):
        """Returns the definition of a name in a module, or its type of the code, or None."""
        declared = re.match(r"Rattle\.(\w+)\.specs\.declared\.([\w.]+)$", key)
        if declared:
            path = declared[2].split(".")
            if path[-1] == "TheConstants":
                return declared_constant(declared[1], name)
            if path[-1] == "TheVariants":
                path.pop()
            return declared_type(declared[1], path[-1])
        module = self.modules.get(key)
        if not module:
            return None
        if name in module.own:
            return module.own[name]
        if name in module.taken:
            return self.found(*module.taken[name])
        return None

    def all(self):
        """Returns the definitions of all modules."""
        found = [it for module in self.modules.values() for it in module.own.values()]
        return list(dict.fromkeys(found))

    def meant(self, token, own, taken, aliases):
        """Returns what a name means, or None, and whether it is a constructor."""
        first, _, rest = token.partition(".")
        if first in aliases and rest:
            key, name = aliases[first], rest.partition(".")[0]
        elif first in own:
            return own[first], own[first].name != first
        elif first in taken:
            key, name = taken[first]
        else:
            return None, False
        found = self.found(key, name)
        is_of_data = isinstance(found, Definition) and found.name != name
        return found, is_of_data or key.endswith(".TheVariants")

    def kinds(self, own, taken, aliases):
        """Returns functions of a name: whether it is a constructor, and a member of a module."""

        def is_member(token):
            return token.partition(".")[0] in aliases and bool(self.meant(token, *scope)[0])

        scope = own, taken, aliases
        return lambda token: self.meant(token, *scope)[1], is_member

    def named_in(self, text, own, taken, aliases, bound=()):
        """Returns what a clause names, in the order of first naming; names that it binds itself,
        and those in `bound`, are left out."""
        scope = own, taken, aliases
        names = names_in_clause(text, bound, self.kinds(*scope))
        return [it for it in dict.fromkeys(self.meant(it, *scope)[0] for it in names) if it]

    def names_of(self, definition):
        """Returns the definitions that a definition names."""
        if isinstance(definition, Type):
            return []
        module = definition.module
        scope = module.own, module.taken, module.aliases
        names = names_in_definition(definition.name, definition.lines, self.kinds(*scope))
        found = dict.fromkeys(self.meant(it, *scope)[0] for it in names)
        return [it for it in found if it and it is not definition]


class Type:
    """A struct or an enum of the code."""

    def __init__(self, name, path, line, lines):
        self.name, self.path, self.line, self.lines = name, path, line, lines

    @property
    def place(self):
        return f"{self.path}:{self.line}"


class Constant(Type):
    """A constant of the code."""

    @property
    def value(self):
        return re.match(r"pub const \w+: \w+ = (.*);", self.lines[0])[1]


DECLARED = {}


def declared_type(crate, name):
    """Returns the struct or enum of a crate's code, or None."""
    return declared(crate, name, r"(?:struct|enum)", Type)


def declared_constant(crate, name):
    """Returns the constant of a crate's code, or None."""
    return declared(crate, name, "const", Constant)


def declared(crate, name, word, kind):
    if (crate, name) not in DECLARED:
        DECLARED[crate, name] = None
        for path in sorted(glob.glob(os.path.join(TOP, "crates", crate, "src", "**", "*.rt"), recursive=True)):
            with open(path, encoding="utf-8") as file:
                lines = file.read().split("\n")
            for at, line in enumerate(lines):
                if re.match(rf"pub {word} {name}\b", line):
                    end = at
                    while not re.match(r"\}|.*;$", lines[end]):
                        end += 1
                    DECLARED[crate, name] = kind(name, os.path.relpath(path, TOP), at + 1, lines[at : end + 1])
    return DECLARED[crate, name]
