"""The public items of a crate's source files, with their `///` comments (see `surface`)."""
import os
from collections import namedtuple

from pages.signatures import CLAUSES, doc_of, end_of_group, enum_text, find_outside, function_text, parted
from pages.signatures import rendered, short, split_generics, struct_text, tokens_of

TOP = os.path.dirname(os.path.dirname(os.path.dirname(os.path.abspath(__file__))))

# Types: each has its own heading.
TYPES = ("struct", "enum", "trait", "type", "union")

# An item as it is read: whether it is public, its first word, the tokens after that, and the lines
# of its comment.
Read = namedtuple("Read", "public word tokens doc")


class Item:
    """A public item: its kind, its shortest public path below the crate, its text, its comment, the
    comments of its fields or variants, the items in it, and the traits that it implements."""

    def __init__(self, kind, name, text, doc, parts=()):
        self.kind, self.name, self.text, self.doc, self.parts = kind, name, text, doc, parts
        self.inner, self.traits = [], []


class Module:
    """Contents of a source file: items by name, uses, modules and implementations."""

    def __init__(self, path, head=()):
        self.path, self.head = path, head
        self.items, self.uses, self.inner = {}, {}, {}
        self.given, self.impls = [], []


class Crate:
    """The modules of a crate, read from its source files; a program has none."""

    def __init__(self, name):
        self.name = name
        self.root = os.path.join(TOP, "crates", name, "src")
        self.modules = {}
        if os.path.exists(os.path.join(self.root, "lib.rt")):
            self.read_file((), os.path.join(self.root, "lib.rt"))

    def read_file(self, path, file):
        with open(file, encoding="utf-8") as source:
            text = source.read()
        head = []
        for line in text.split("\n"):
            if not line.startswith("//!"):
                break
            head.append(line[3:].removeprefix(" "))
        self.read_items(path, tokens_of(text), head)

    def read_items(self, path, tokens, head=()):
        module = Module(path, head)
        self.modules[path] = module
        at = 0
        while at < len(tokens):
            at = self.read_item(module, tokens, at)

    def read_item(self, module, tokens, at):
        """Reads the item at `at`, and returns the index after it."""
        begin, tested = at, False
        while tokens[at] == "#":
            group = at + 1 if tokens[at + 1] == "[" else at + 2
            end = end_of_group(tokens, group)
            tested = tested or tokens[group + 1 : group + 4] == ["cfg", "(", "test"]
            at = end
            if at >= len(tokens):
                return at
        if tokens[at] == "ghost":
            return find_outside(tokens, at, {";"}) + 1
        if tokens[at] == "macro_rules":
            return end_of_group(tokens, at + 3)
        public = tokens[at] == "pub" and tokens[at + 1] != "("
        if tokens[at] == "pub":
            at = at + 1 if public else end_of_group(tokens, at + 1)
        while tokens[at] in ("unsafe", "async", "extern", '"C"') or (tokens[at] == "const" and tokens[at + 1] == "fn"):
            at += 1
        word = tokens[at]
        if word == "mod":
            return self.read_mod(module, tokens, at, public, tested)
        end = self.end_of_item(module, tokens, at)
        if tested:
            return end
        if word == "use":
            for name, path in used(tokens[at + 1 : end - 1]):
                module.uses[name] = path
                if public:
                    module.given.append((name, path))
        elif word == "impl":
            module.impls.append(tokens[at + 1 : end])
        else:
            doc = doc_of(tokens[begin : at + 1])
            module.items[str(tokens[at + 1])] = Read(public, str(word), tokens[at + 1 : end], doc)
        return end

    def end_of_item(self, module, tokens, at):
        """Returns the index after the item whose first word is at `at`."""
        word = tokens[at]
        if word in ("use", "const", "static", "type"):
            return find_outside(tokens, at, {";"}) + 1
        if word == "struct":
            end = find_outside(tokens, at, {";", "{"})
            return end_of_group(tokens, end) if tokens[end] == "{" else end + 1
        if word in ("enum", "trait", "union", "impl"):
            return end_of_group(tokens, find_outside(tokens, at, {"{"}))
        if word == "fn":
            return end_of_function(tokens, at)
        said = " ".join(tokens[at : at + 8])
        raise SystemExit("%s, module %s: what is `%s`?" % (self.name, "::".join(module.path), said))

    def read_mod(self, module, tokens, at, public, tested):
        name = str(tokens[at + 1])
        path = module.path + (name,)
        if not tested:
            module.inner[name] = public
        if tokens[at + 2] != ";":
            end = end_of_group(tokens, at + 2)
            if not tested:
                self.read_items(path, tokens[at + 3 : end - 1])
            return end
        if not tested:
            base = os.path.join(self.root, *path)
            self.read_file(path, base + ".rt" if os.path.exists(base + ".rt") else os.path.join(base, "mod.rt"))
        return at + 3

    def resolve(self, module, path):
        """Returns the module path and the name that a path means in this crate, or None."""
        if path[0] == "crate":
            base, path = (), path[1:]
        elif path[0] == "self":
            base, path = module.path, path[1:]
        elif path[0] == "super":
            base = module.path
            while path and path[0] == "super":
                base, path = base[:-1], path[1:]
        elif path[0] in module.inner:
            base = module.path
        elif len(path) == 1 and path[0] in module.items:
            return module.path, path[0]
        elif len(path) == 1 and path[0] in module.uses:
            used_path = module.uses[path[0]]
            return self.resolve(module, used_path) if used_path != path else None
        else:
            return None
        target = self.modules.get(base + tuple(path[:-1])) if path else None
        if target is None:
            return None
        if path[-1] in target.items:
            return target.path, path[-1]
        return self.resolve(target, target.uses[path[-1]]) if path[-1] in target.uses else None

    def public_names(self):
        """Returns the shortest public path of each definition, and the items of other crates that
        are made public again."""
        names, foreign, reached = {}, [], [()]
        for path in reached:
            module = self.modules[path]
            reached += [path + (inner,) for inner, public in module.inner.items() if public]
            for name, read in module.items.items():
                if read.public:
                    note(names, (path, name), path + (name,))
            for name, used_path in module.given:
                found = self.resolve(module, used_path)
                if found:
                    note(names, found, path + (name,))
                else:
                    foreign.append((path + (name,), used_path))
        return names, foreign

    def items(self):
        """Returns the public items by the path of their module, in the order of the sources."""
        if () not in self.modules:
            return {}
        names, foreign = self.public_names()
        found, types = {path: [] for path in self.modules}, {}
        for path, module in self.modules.items():
            for name, read in module.items.items():
                if (path, name) in names:
                    item = made("::".join(names[path, name]), read)
                    found[path].append(item)
                    types[path, name] = item
        for shown, path in foreign:
            found[shown[:-1]].append(Item("use", "::".join(shown), "use " + "::".join(path), []))
        for module in self.modules.values():
            for tokens in module.impls:
                self.add_impl(module, tokens, names, types)
        return {path: items for path, items in found.items() if items}

    def add_impl(self, module, tokens, names, types):
        """Adds the public methods of an implementation to its type, or the trait."""
        generics, rest = split_generics(tokens)
        end = find_outside(rest, 0, {"{", "where"})
        head, body = rest[:end], rest[find_outside(rest, 0, {"{"}) + 1 : -1]
        at = find_outside(head, 0, {"for"})
        of = self.place_of(module, head[at + 1 :] if at < len(head) else head)
        item = types.get(of)
        if at == len(head):
            if item:
                item.inner += [made(name, read) for name, read in items_in(body) if read.public]
            return
        trait = self.resolve(module, bare(head[:at]))
        if head[0] == "Model" or (of and of not in names) or (trait and trait not in names):
            return
        of_trait, of_type = rendered(short(head[:at])), rendered(short(head[at + 1 :]))
        text = "impl" + rendered(generics) + " " + of_trait + " for " + of_type
        if item:
            item.traits.append(text)

    def place_of(self, module, tokens):
        """Returns where the type that these tokens name is defined in this crate, or None."""
        path = bare(tokens)
        found = self.resolve(module, path)
        if not found:
            named = [(at, path[-1]) for at, it in self.modules.items() if path[-1] in it.items]
            found = named[0] if len(named) == 1 else None
        return found


def bare(tokens):
    """Returns the path that tokens name, without generics."""
    return [str(part) for part in tokens[: find_outside(tokens, 0, {"<"})] if part != "::"]


def note(names, definition, path):
    if definition not in names or len(path) < len(names[definition]):
        names[definition] = path


def end_of_function(tokens, at):
    """Returns the index after a function. Each clause has its own braces; the body follows them."""
    while True:
        at = find_outside(tokens, at, {"{", ";"} | CLAUSES)
        if tokens[at] == ";":
            return at + 1
        if tokens[at] == "{":
            return end_of_group(tokens, at)
        while tokens[at] != "{":
            at += 1
        at = end_of_group(tokens, at)


def items_in(body):
    """Gives the functions and constants of the body of a trait or an implementation."""
    inner = Module(("body",))
    reader = Crate("")
    at = 0
    while at < len(body):
        at = reader.read_item(inner, body, at)
    return [(name, read) for name, read in inner.items.items() if read.word in ("fn", "const")]


def made(name, read):
    """Returns the public item of this name; the items of a trait are in it."""
    last = name.split("::")[-1]
    word, tokens = read.word, read.tokens
    if word == "fn":
        return Item("fn", name, "fn " + name + function_text(tokens[1:]), read.doc)
    if word in ("const", "static"):
        end = find_outside(tokens, 0, {";"})
        text = rendered(short(tokens[1:end]))
        # A text of several lines is in its source alone.
        return Item("const", name, word + " " + name + (text.partition(" = ")[0] if "\n" in text else text), read.doc)
    if word == "type":
        return Item("type", name, "type " + last + rendered(short(tokens[1:-1])).replace("= ", " = ", 1), read.doc)
    if word in ("struct", "enum"):
        generics, body = split_generics(tokens[1:])
        text, parts = (struct_text if word == "struct" else enum_text)(last, generics, body)
        return Item(word, name, text, read.doc, parts)
    end = find_outside(tokens, 0, {"{"})
    item = Item("trait", name, "trait " + last + rendered(short(tokens[1:end])), read.doc)
    item.inner = [made(inner, it) for inner, it in items_in(tokens[end + 1 : -1])]
    return item


def used(tokens):
    """Gives the names that a use makes, each with its path."""
    if "{" in tokens:
        at = tokens.index("{")
        before = [str(part) for part in tokens[:at] if part != "::"]
        for part in parted(tokens[at + 1 : end_of_group(tokens, at) - 1]):
            for name, path in used(part):
                yield name, before + path
        return
    path = [str(part) for part in tokens if part != "::"]
    if "as" in path:
        yield path[-1], path[: path.index("as")]
    elif path and path[-1] == "self":
        yield path[-2], path[:-1]
    elif path:
        yield path[-1], path
