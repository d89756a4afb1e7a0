"""The words of the command line: a command with its settings, or the number of a refusal."""

from types import SimpleNamespace

from model.built import MARKS, NAMED, RANGES

REFUSED, PREFIX, TOO_MANY, SAME = 1, 2, 3, 5

DIGITS = "0123456789"


def default_settings():
    return SimpleNamespace(prefixes=[], hops=30, flows=4096, cells=65536, frags=256, frag_cells=4096,
                           idle=3600, frag_time=30, seed=0, quota=None, mtu=None, inside=None, offload=False,
                           both=False, mirror=False)


def is_digits(text, least, most):
    return least <= len(text) <= most and all(letter in DIGITS for letter in text)


def read_number(text, low, high):
    """A number of 1 to 20 decimal digits in its range, or None."""
    if not is_digits(text, 1, 20) or not low <= int(text) <= high:
        return None
    return int(text)


def read_prefix(text):
    """An address and a length, or the name of the fault."""
    address, slash, length = text.partition("/")
    parts = address.split(".")
    if slash == "" or len(parts) != 4 or not is_digits(length, 1, 2):
        return "Shape"
    if not all(is_digits(part, 1, 3) for part in parts):
        return "Shape"
    if any(int(part) > 255 for part in parts):
        return "Part"
    if int(length) > 32:
        return "Length"
    number = 0
    for part in parts:
        number = number * 256 + int(part)
    return (number, int(length))


def prefix_holds(prefix, address):
    number, length = prefix
    return number >> (32 - length) == address >> (32 - length)


def is_trusted(settings, address):
    """In a prefix; where the sides are exchanged, in none."""
    return any(prefix_holds(prefix, address) for prefix in settings.prefixes) != settings.mirror


def side_of(settings, given, src, dst):
    """The side that the record has; where it has none the side by the addresses, None where both or
    neither is trusted."""
    trusted = is_trusted(settings, src), is_trusted(settings, dst)
    return given or {(True, False): "out", (False, True): "in"}.get(trusted)


def read_value(name, text):
    """The value of this option, or None where it is refused."""
    if name not in NAMED:
        return read_number(text, *RANGES[name])
    low, high = NAMED[name]
    octets = text.encode()
    return octets if low <= len(octets) <= high and not text.startswith("-") else None


def take_option(words, options, settings, seen):
    """Reads the option at the front of the words into the settings: the words after it, or None
    where it is refused. `options` has its name, those that are marks, and what reads a value."""
    name, equals, value = words[0][2:].partition("=")
    rest = words[1:]
    if not words[0].startswith("--") or name not in options.names or name in seen:
        return None
    seen.append(name)
    if name in options.marks:
        setattr(settings, name, True)
        return rest if equals == "" else None
    if equals == "":
        if not rest:
            return None
        value, rest = rest[0], rest[1:]
    read = options.read(name, value)
    if read is None:
        return None
    setattr(settings, name.replace("-", "_"), read)
    return rest


def go_together(settings):
    """Both sides are protected by addresses alone, and what goes out is not cut."""
    return not (settings.both and (settings.inside is not None or settings.mtu is not None))


def read_run(words, built):
    settings = default_settings()
    options = SimpleNamespace(names=built.options, marks=MARKS, read=read_value)
    seen = []
    while words and words[0].startswith("-"):
        words = take_option(words, options, settings, seen)
        if words is None:
            return REFUSED
    if len(words) < 3 or any(word == "" or word.startswith("-") for word in words) or not go_together(settings):
        return REFUSED
    names, prefixes = words[:2], words[2:]
    if built.prefixes == 1 and len(prefixes) != 1:
        return REFUSED
    if names[0] == names[1]:
        return SAME
    if len(prefixes) > built.prefixes:
        return TOO_MANY
    read = [read_prefix(prefix) for prefix in prefixes]
    if any(isinstance(prefix, str) for prefix in read):
        return PREFIX
    settings.prefixes = read
    return SimpleNamespace(kind="run", input=names[0], output=names[1], settings=settings)


def read_load(words, built):
    if not built.load or len(words) != 2:
        return REFUSED
    seed, count = read_number(words[0], 0, 2**64 - 1), read_number(words[1], 1, 1000000)
    if seed is None or count is None:
        return REFUSED
    return SimpleNamespace(kind="load", seed=seed, count=count)


def read_words(words, built):
    """A command, or the number of the refusal: another form, then one name twice, then prefixes."""
    if words[:1] == ["run"]:
        return read_run(words[1:], built)
    if words[:1] == ["load"]:
        return read_load(words[1:], built)
    return REFUSED
