"""Parts of Markdown pages that scripts write."""

import textwrap

WIDTH = 100


def anchor(title):
    return title.lower().replace(" ", "-")


def wrapped(text):
    return "\n".join(textwrap.wrap(" ".join(text.split()), WIDTH, break_on_hyphens=False, break_long_words=False))


def table(head, rows):
    lines = ["| %s |" % " | ".join(head), "|" + "---|" * len(head)] + ["| %s |" % " | ".join(row) for row in rows]
    return "\n".join(lines)
