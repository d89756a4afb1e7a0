"""The words of norm-run and its configuration: reads them, and explains which word is refused and
why."""

import difflib
import os
import re
from types import SimpleNamespace

# The numbers that an option of `norm run` takes.
NUMBERS = {"--hops": (0, 254), "--flows": (1, 65536), "--cells": (1, 262144), "--frags": (1, 4096),
           "--frag-cells": (256, 65536), "--idle": (1, 1000000), "--frag-time": (1, 3600), "--seed": (0, 2**64 - 1),
           "--quota": (1, 262144), "--mtu": (576, 65535)}

# Options of `norm run` and of norm-run without a value, and those of either with a name.
MARKS = ("--offload", "--both")
OWN_MARKS = ("--force", "--repair", "--keep-going", "--quiet", "--json")
NAMED = ("--inside", "--into", "--config")

OPTIONS = (*NUMBERS, *MARKS, *OWN_MARKS, *NAMED, "--help", "--version")

MOST_PREFIXES, STANDARD_HOPS = 16, 30


class Refused(Exception):
    """An end of norm-run with a status other than those of a finished run, and why."""

    def __init__(self, status, text):
        super().__init__(text)
        self.status = status


def refuse_word(text):
    raise Refused(2, text + ": see norm-run --help")


def explain_option(name):
    """Refuses an option that does not exist, with the one that is nearest."""
    near = difflib.get_close_matches(name, OPTIONS, 1)
    refuse_word("there is no option %s%s" % (name, "; the nearest is %s" % near[0] if near else ""))


def read_value(name, value):
    """Returns the value of an option, or refuses it."""
    if name in NAMED:
        if value == "" or value.startswith("-"):
            refuse_word("%s wants a name, and not '%s'" % (name, value))
        return value
    low, high = NUMBERS[name]
    if not re.fullmatch(r"[0-9]{1,20}", value) or not low <= int(value) <= high:
        refuse_word("%s wants a number from %d to %d, and not '%s'" % (name, low, high, value))
    return int(value)


def read_options(words):
    """Returns the options by their names, and the words that are not options."""
    options, others, words = {}, [], list(words)
    while words:
        word = words.pop(0)
        if word == "-" or not word.startswith("-"):
            others.append(word)
            continue
        name, equals, value = word.partition("=")
        if name not in OPTIONS or name in ("--help", "--version"):
            explain_option(name)
        if name in options:
            refuse_word("%s is given twice" % name)
        if name in MARKS or name in OWN_MARKS:
            if equals:
                refuse_word("%s takes no value, and '%s' is one" % (name, value))
            options[name] = True
            continue
        if not equals:
            if not words:
                refuse_word("%s wants a value" % name)
            value = words.pop(0)
        options[name] = read_value(name, value)
    return options, others


def fault_of_prefix(word):
    """Returns what is wrong with a prefix, or None."""
    if ":" in word:
        return "'%s' is no prefix of IPv4, and norm judges nothing else" % word
    if re.fullmatch(r"([0-9]{1,3}\.){3}[0-9]{1,3}", word):
        return "'%s' has no length: %s/32 is that host alone" % (word, word)
    found = re.fullmatch(r"([0-9]{1,3})\.([0-9]{1,3})\.([0-9]{1,3})\.([0-9]{1,3})/([0-9]{1,2})", word)
    if found is None:
        if os.path.exists(word) or re.search(r"\.(pcap|pcapng|cap|gz|xz|zst|txt)$", word):
            return "'%s' is no prefix: norm-run reads one IN and names OUT itself (norm-rotated joins files)" % word
        return "'%s' is no prefix, such as 10.0.0.0/8" % word
    *numbers, length = map(int, found.groups())
    if max(numbers) > 255:
        return "'%s' has a number over 255" % word
    return "'%s' has a length over 32" % word if length > 32 else None


def check_input(word):
    """Refuses an IN that is surely another word."""
    if word in ("run", "load") and not os.path.exists(word):
        refuse_word("norm-run has no command: leave '%s' out" % word)
    if fault_of_prefix(word) is None and not os.path.exists(word):
        refuse_word("'%s' is a prefix, and IN goes before the prefixes" % word)


def standard_config():
    folder = os.environ.get("XDG_CONFIG_HOME") or os.path.join(os.path.expanduser("~"), ".config")
    return os.path.join(folder, "norm", "run.toml")


def read_config(path):
    """Returns the prefixes and the hops of a configuration file; without a name the standard one,
    if it exists."""
    if path == os.devnull or path is None and not os.path.exists(standard_config()):
        return {}
    path = path or standard_config()
    try:
        import tomllib
        with open(path, "rb") as file:
            config = tomllib.load(file)
    except ImportError:
        raise Refused(2, "%s: Python 3.11 reads it; with an older one say --config /dev/null, and give prefixes"
                      % path) from None
    except (OSError, ValueError) as fault:
        raise Refused(2, "%s: %s" % (path, getattr(fault, "strerror", None) or fault)) from None
    for name, value in config.items():
        if name == "prefixes" and isinstance(value, list) and all(isinstance(it, str) for it in value):
            continue
        if name != "hops" or type(value) is not int or not 0 <= value <= 254:
            raise Refused(2, "%s: it has prefixes = [\"10.0.0.0/8\"] and hops = 30, and not %s = %s"
                      % (path, name, value))
    return config


def read_words(words):
    """Returns what is to be done, or refuses invalid arguments."""
    options, others = read_options(words)
    if not others:
        refuse_word("IN is missing")
    check_input(others[0])
    config = read_config(options.pop("--config", None))
    prefixes = others[1:] or config.get("prefixes", [])
    if not prefixes:
        refuse_word("no PREFIX names the protected hosts, as 10.0.0.0/8")
    for fault in filter(None, map(fault_of_prefix, prefixes)):
        refuse_word(fault)
    if len(prefixes) > MOST_PREFIXES:
        refuse_word("there are %d prefixes, and at most %d are allowed" % (len(prefixes), MOST_PREFIXES))
    if "--both" in options and ("--mtu" in options or "--inside" in options):
        refuse_word("--both goes neither with --mtu nor with --inside")
    own = {name[2:].replace("-", "_"): options.pop(name, False) for name in OWN_MARKS}
    into = options.pop("--into", None)
    options.setdefault("--hops", config.get("hops", STANDARD_HOPS))
    name = "-" if others[0] == "/dev/stdin" else others[0]
    return SimpleNamespace(input=name, prefixes=prefixes, options=options, into=into, **own)


def words_of(options):
    """Returns options as words of `norm run`."""
    return [word for name, value in options.items() for word in ([name] if value is True else [name, str(value)])]
