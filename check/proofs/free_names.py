"""The names that a text of definitions or clauses uses, without those that it binds itself."""
import re

TOKEN = re.compile(r"""--[^\n]*|"[^"]*"|[A-Za-z_][\w']*(?:\.(?:[A-Za-z_][\w']*|\d+))*"""
                   r"""|\.[\w']+|\d+|[^\s\w()\[\]{};,]+|\S""")
NAME = re.compile(r"[A-Za-z_]")
CLOSED = {"(": ")", "[": "]", "{": "}"}


class Reader:
    """Reads tokens; `names` gets those that are used free. `kinds` says of a name whether it is a
    constructor in a pattern, and no variable, and whether it is a member of a module."""

    def __init__(self, text, kinds):
        self.tokens = [it for it in TOKEN.findall(text) if not it.startswith(("--", '"'))]
        self.is_constructor, self.is_member = kinds
        self.names = []

    def end_of(self, at):
        """Returns the index of the bracket that closes the one at `at`."""
        stack = []
        while True:
            token = self.tokens[at]
            if token in CLOSED:
                stack.append(CLOSED[token])
            elif stack and token == stack[-1]:
                stack.pop()
                if not stack:
                    return at
            at += 1

    def use(self, token, scope):
        """Notes a name, unless it is bound. A member of a module is named even where a variable has
        the module's name."""
        first, _, member = token.partition(".")
        if first not in scope or member and self.is_member(token):
            self.names.append(token)

    def pattern(self, at, end, scope):
        """Reads a pattern: its constructors are used, and its variables bound."""
        for token in self.tokens[at:end]:
            if NAME.match(token):
                if self.is_constructor(token):
                    self.names.append(token)
                elif "." not in token:
                    scope.add(token)

    def binders(self, at, end):
        """Returns the names that a group binds, as `(x y : T)` does, and where the type begins."""
        begin = at
        while at < end and NAME.match(self.tokens[at]):
            at += 1
        if begin < at < end and self.tokens[at] == ":":
            return self.tokens[begin:at], at + 1
        return [], begin

    def function(self, at, end, scope):
        """Reads the variables after a `λ`, and returns the index after its dot."""
        while at < end and self.tokens[at] != ".":
            if self.tokens[at] in CLOSED:
                close = self.end_of(at)
                names, begin = self.binders(at + 1, close)
                if names:
                    self.read(begin, close, scope)
                    scope.update(names)
                else:
                    self.pattern(at + 1, close, scope)
                at = close
            else:
                self.pattern(at, at + 1, scope)
            at += 1
        return at + 1

    def cases(self, at, end, scope):
        """Reads the cases between square brackets."""
        while at < end:
            stop = bar = at
            while bar < end and self.tokens[bar] != "|":
                bar = self.end_of(bar) + 1 if self.tokens[bar] in CLOSED else bar + 1
            while stop < bar and self.tokens[stop] != "↦":
                stop = self.end_of(stop) + 1 if self.tokens[stop] in CLOSED else stop + 1
            inner = set(scope)
            if stop < bar:
                self.pattern(at, stop, inner)
                at = stop + 1
            self.read(at, bar, inner)
            at = bar + 1

    def group(self, at, scope):
        """Reads a group of brackets, and returns the index after it."""
        end = self.end_of(at)
        if self.tokens[at] == "[":
            self.cases(at + 1, end, scope)
            return end + 1
        names, begin = self.binders(at + 1, end)
        if names:
            self.read(begin, end, set(scope))
            scope.update(names)
        else:
            self.read(at + 1, end, set(scope), self.tokens[at] == "{")
        return end + 1

    def read(self, at, end, scope, labelled=False):
        """Reads the tokens between two indices; a name before `=` in braces is a label."""
        first, field, lets = at, [], []
        while at < end:
            token, following = self.tokens[at], self.tokens[at + 1 : at + 2]
            at += 1
            if token in CLOSED:
                at = self.group(at - 1, scope)
            elif token == "λ":
                at = self.function(at, end, scope)
            elif token == "let":
                lets.append(self.tokens[at])
                at += 1
            elif token == "in" and lets:
                scope.add(lets.pop())
            elif NAME.match(token) and following == [":"]:
                # A field is bound after its type.
                scope.update(field)
                field = [token]
            elif NAME.match(token):
                is_first = at - 1 == first or self.tokens[at - 2] == ";"
                if not (labelled and is_first and following == ["="]):
                    self.use(token, scope)


def equations(lines):
    """Returns the lines of a definition's signature, and those of each of its equations."""
    parts = [[lines[0]]]
    for line in lines[1:]:
        if NAME.match(line):
            parts.append([])
        parts[-1].append(line)
    return parts


def names_in_clause(text, bound, kinds):
    """Returns the names that a clause uses free."""
    reader = Reader(text, kinds)
    reader.read(0, len(reader.tokens), set(bound))
    return reader.names


def names_in_definition(name, lines, kinds):
    """Returns the names that a definition uses free."""
    signature, *rest = equations(lines)
    begins = re.sub(r"^(?:(?:abbrev|unfoldable|pub|record|data) )+", "", "\n".join(signature))
    found = names_in_clause(begins.removeprefix(name), (), kinds)
    for part in rest:
        reader = Reader("\n".join(part), kinds)
        scope, at = set(), 0
        while reader.tokens[at] != "=":
            at = reader.end_of(at) + 1 if reader.tokens[at] in CLOSED else at + 1
        reader.pattern(1, at, scope)
        reader.read(at + 1, len(reader.tokens), scope)
        found += reader.names
    return found
