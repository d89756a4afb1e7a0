"""The section of docs/EVASIONS.md on norm without one rule, from the file that
check/receivers/without wrote."""

from pages.markdown import table, wrapped

TITLE = "norm without one rule"

ABOUT = """What the same receivers read of the %s attacks, where the normalizer is the plain model of
`check/model` with one rule taken out (%s, by `check/receivers/without`). *Changed* is in how many attacks
the model then writes something else. *Two disagree* is in how many two receivers do, and then which
disagree with Linux or with themselves. *One reads less* is in how many a receiver reads less of a
connection than another one, and as much of what the whole model writes."""

LAYERS = """Without these one receiver reads less in this number of attacks, and none reads other octets: %s. No
receiver here notices these: %s. Such a rule is not idle: other rules stop what passes without it,
most often `T_CLASH`. If a segment passes that some hosts discard, norm remembers its octets and
rewrites what follows at their offsets, so all receivers read the first octets. And of a segment
that only one receiver takes, such as a RST, the others' streams are longer, but not different.
[RULES](RULES.md) has what an attacker gains without each rule."""

LIMITS = """The receivers read TCP alone, one connection at a time, and never lack memory or time: rules
on UDP, ICMP and other protocols cannot be noticed here."""

HEAD = ["Without", "Changed", "Two disagree", "Which, with Linux or themselves", "One reads less", "Which"]


def section(found):
    """`found` has the lines of without.txt."""
    date = found["system"][0][1]
    rows = [[code(rule), changed, disagree, named(who), less, named(whose)]
            for rule, changed, disagree, who, less, whose in found["rule"] if disagree != "0"]
    fewer = ["%s %s" % (code(rule), less) for rule, _, disagree, _, less, _ in found["rule"] if disagree == "0" != less]
    rest = [code(rule) for rule, _, disagree, _, less, _ in found["rule"] if disagree == less == "0"]
    about = ABOUT % (found["attacks"][0][0], date)
    texts = [about, LAYERS % (", ".join(fewer), ", ".join(rest)), LIMITS]
    return "\n\n".join(["## " + TITLE, wrapped(texts[0]), table(HEAD, rows)]
                       + [wrapped(text) for text in texts[1:]]) + "\n"


def named(receivers):
    return receivers.replace("kernel", "Linux")


def code(rules):
    return " ".join("`%s`" % rule for rule in rules.split())
