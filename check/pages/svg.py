"""Writes SVG: shapes and text at given coordinates, in fonts that every system has, one element a
line."""

from xml.sax.saxutils import escape, quoteattr

SANS = "DejaVu Sans, Verdana, Arial, sans-serif"
MONO = "DejaVu Sans Mono, Menlo, Consolas, monospace"


def number(value):
    """Writes a number with at most one digit after the point."""
    return "%g" % round(value, 1)


def attributes(values):
    """Writes the attributes of an element; `__` in a name becomes `:`, `_` becomes `-`, and None
    leaves the attribute out."""
    return "".join(" %s=%s" % (name.replace("__", ":").replace("_", "-"),
                               quoteattr(number(value) if isinstance(value, (int, float))
                                         else value))
                   for name, value in values.items() if value is not None)


class Picture:
    """A picture of a fixed width, whose height is known at the end."""

    def __init__(self, width, title, described):
        self.width, self.title, self.described = width, title, described
        self.parts = []

    def add(self, element, inside=None, **values):
        end = "/>" if inside is None else ">%s</%s>" % (inside, element)
        self.parts.append("<%s%s%s" % (element, attributes(values), end))

    def rect(self, x, y, width, height, fill, stroke=None, **more):
        self.add("rect", x=x, y=y, width=width, height=height, fill=fill, stroke=stroke, **more)

    def line(self, x, y, to_x, to_y, stroke, **more):
        self.add("line", x1=x, y1=y, x2=to_x, y2=to_y, stroke=stroke, **more)

    def text(self, x, y, words, size, fill="#1e293b", mono=False, **more):
        """Adds a line of text; `words` is a text, or pairs of a text and its own attributes."""
        pairs = [(words, {})] if isinstance(words, str) else words
        inside = "".join(escape(word) if not own else "<tspan%s>%s</tspan>" % (attributes(own), escape(word))
                         for word, own in pairs)
        self.add("text", inside, x=x, y=y, font_family=MONO if mono else SANS, font_size=size, fill=fill, **more)

    def arrow(self, x, to_x, y, stroke, **more):
        """Adds a horizontal arrow with its head at `to_x`."""
        back = 7 if to_x > x else -7
        self.line(x, y, to_x - back, y, stroke, stroke_width=1.5, **more)
        corners = (to_x, y, to_x - back, y - 4, to_x - back, y + 4)
        self.add("path", d="M%s %sL%s %sL%s %sz" % tuple(number(place) for place in corners), fill=stroke)

    def written(self, height):
        """Returns the text of the file."""
        head = '<svg xmlns="http://www.w3.org/2000/svg" width="%s" height="%s" viewBox="0 0 %s %s" role="img">' % (
            (number(self.width), number(height)) * 2)
        background = '<rect width="%s" height="%s" fill="#ffffff"/>' % (number(self.width), number(height))
        lines = [head, "<title>%s</title>" % escape(self.title), "<desc>%s</desc>" % escape(self.described), background]
        return "\n".join(lines + self.parts + ["</svg>"]) + "\n"
