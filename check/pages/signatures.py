"""Signatures of public items: their tokens, and their text on one line (see `surface`)."""
import re

TOKEN = re.compile(
    r"""(?P<doc>///[^\n]*)
      | (?P<skip>\s+|//[^\n]*|/\*.*?\*/)
      | (?P<string>b?r(?P<hashes>\#*)".*?"(?P=hashes)|b?"(?:\\.|[^"\\])*")
      | (?P<char>b?'(?:\\[^']*'|[^\\'\n]'))
      | (?P<life>'[a-z_][a-z0-9_]*)
      | (?P<word>\w+)
      | (?P<sign>->|::|=>|\.\.|.)""",
    re.VERBOSE | re.DOTALL,
)
OPEN = {"(": ")", "[": "]", "{": "}"}
CLAUSES = {"requires", "ensures", "decreases", "using", "invariant", "where", "terminates"}


class Token(str):
    """A token, with the lines of the `///` comment before it."""

    doc = ()


def tokens_of(text):
    """Returns the tokens of a source text, without white space and comments; a token has the `///`
    comment before it."""
    tokens, doc = [], []
    for match in TOKEN.finditer(text):
        if match.group("doc") is not None:
            doc.append(match.group("doc")[3:].removeprefix(" "))
        elif match.group("skip") is None:
            token = Token(match.group(0))
            if doc:
                token.doc, doc = tuple(doc), []
            tokens.append(token)
    return tokens


def doc_of(tokens):
    """Returns the lines of the `///` comments before these tokens."""
    return [line for token in tokens for line in getattr(token, "doc", ())]


def end_of_group(tokens, at):
    """Returns the index after the group of brackets that opens at `at`."""
    stack = []
    while at < len(tokens):
        token = tokens[at]
        if token in OPEN:
            stack.append(OPEN[token])
        elif stack and token == stack[-1]:
            stack.pop()
            if not stack:
                return at + 1
        at += 1
    raise SystemExit("a bracket is not closed")


def end_of_angles(tokens, at):
    """Returns the index after the generics that open at `at`."""
    depth = 0
    while at < len(tokens):
        if tokens[at] in OPEN:
            at = end_of_group(tokens, at)
            continue
        if tokens[at] == "<":
            depth += 1
        elif tokens[at] == ">":
            depth -= 1
            if depth == 0:
                return at + 1
        at += 1
    raise SystemExit("generics are not closed")


def find_outside(tokens, at, wanted):
    """Returns the index of the first token of `wanted` outside of brackets, or the end."""
    while at < len(tokens):
        if tokens[at] in wanted:
            return at
        at = end_of_group(tokens, at) if tokens[at] in OPEN else at + 1
    return at


def parted(tokens, sign=","):
    """Splits tokens at the signs outside of brackets and generics."""
    parts, part, at = [], [], 0
    while at < len(tokens):
        if tokens[at] in OPEN:
            end = end_of_group(tokens, at)
        elif tokens[at] == "<":
            end = end_of_angles(tokens, at)
        else:
            end = at + 1
        if tokens[at] == sign:
            parts.append(part)
            part = []
        else:
            part = part + tokens[at:end]
        at = end
    if part:
        parts.append(part)
    return parts


def rendered(tokens):
    """Returns tokens as text, spaced as the formatter does on one line."""
    text = ""
    last = ""
    for token in tokens:
        if last and re.match(r"[\w']", token) and re.match(r"[\w']", last):
            text += " "
        elif (last.startswith("'") or last == "mut") and token in ("[", "(", "&"):
            text += " "
        elif token in ("->", "=>", "=", "+", "{", "}") or last in ("->", "=>", "=", "+", "{", "}", ",", ":", ";"):
            text += " "
        text += token
        last = token
    return text.strip().replace("{ }", "{}")


def short(tokens):
    """Removes module paths, trailing commas and underscores of numbers."""
    found, at = [], 0
    while at < len(tokens):
        token = tokens[at]
        if at + 1 < len(tokens) and tokens[at + 1] == "::" and re.fullmatch(r"[a-z_]\w*", token):
            at += 2
            continue
        if token == "::" and (at == 0 or tokens[at - 1] in "(,<&"):
            at += 1
            continue
        if token[0].isdigit():
            found.append(token.replace("_", ""))
        elif token == "," and at + 1 < len(tokens) and tokens[at + 1] in (")", ">", "]", "}"):
            pass
        else:
            found.append(token)
        at += 1
    return found


def split_generics(tokens):
    """Returns the generics at the front, and what follows them."""
    if tokens and tokens[0] == "<":
        end = end_of_angles(tokens, 0)
        return short(tokens[:end]), tokens[end:]
    return [], tokens


def function_text(tokens):
    """Returns the signature of a function after its name, which `tokens` follow."""
    at, generics = 0, []
    if tokens[at] == "<":
        end = end_of_angles(tokens, at)
        generics, at = short(tokens[at:end]), end
    end = end_of_group(tokens, at)
    parameters = []
    for part in parted(tokens[at + 1 : end - 1]):
        if part[0] != "ghost":
            parameters.append(rendered(short(part[1:] if part[0] == "mut" else part)))
    last = find_outside(tokens, end, {"{", ";"} | CLAUSES)
    answer = " " + rendered(short(tokens[end:last])) if tokens[end : end + 1] == ["->"] else ""
    return rendered(generics) + "(" + ", ".join(parameters) + ")" + answer


def without_attributes(tokens):
    """Returns a field or variant without attributes and ghost uses before it, and the lines of its
    comment."""
    at = 0
    while at < len(tokens) and tokens[at] == "#":
        at = end_of_group(tokens, at + 1)
    while at + 1 < len(tokens) and tokens[at] == "ghost" and tokens[at + 1] == "use":
        at = find_outside(tokens, at, {";"}) + 1
    return tokens[at:], doc_of(tokens[: at + 1])


def fields_of(tokens, public_only):
    """Returns the text and comment of each field, and whether some are private."""
    kept, hidden = [], False
    for part in parted(tokens):
        part, doc = without_attributes(part)
        if not part or part[0] == "ghost":
            continue
        if public_only:
            if part[0] != "pub" or part[1] == "(":
                hidden = True
                continue
            part = part[1:]
        kept.append((rendered(short(part)), doc))
    return kept, hidden


def struct_text(name, generics, body):
    """Returns the text of a struct, and the names of its public fields with their comments; `body`
    follows its generics."""
    head = "struct " + name + rendered(generics)
    if not body or body[0] == ";":
        return head, []
    kept, hidden = fields_of(body[1 : end_of_group(body, 0) - 1], True)
    texts = [text for text, _ in kept]
    if body[0] == "(":
        if not kept:
            return head + " { .. }", []
        inside = ", ".join(["pub " + text for text in texts] + [".."] * hidden)
        return head + "(" + inside + ")", [("0", doc) for _, doc in kept if doc]
    if not kept and not hidden:
        return head + " {}", []
    docs = [(text.partition(":")[0], doc) for text, doc in kept if doc]
    return head + " { " + ", ".join(texts + [".."] * hidden) + " }", docs


def enum_text(name, generics, body):
    """Returns the text of an enum, and the names of its variants with their comments; `body`
    follows its generics."""
    variants, docs = [], []
    for part in parted(body[1:-1]):
        part, doc = without_attributes(part)
        if not part or part[0] == "ghost":
            continue
        part = part[: find_outside(part, 0, {"="})]
        if len(part) > 1 and part[1] == "{":
            kept, _ = fields_of(part[2:-1], False)
            variants.append(part[0] + " { " + ", ".join(text for text, _ in kept) + " }")
        else:
            variants.append(rendered(short(part)))
        if doc:
            docs.append((str(part[0]), doc))
    return "enum " + name + rendered(generics) + " { " + ", ".join(variants) + " }", docs
