"""The post-dissector contrib/wireshark/ipnorm.lua, as tshark runs it in one pass and in two. All
fields and all expert information of all frames are those of the report, of IN and of OUT. With the
report of another run there is an error and no field."""

import functools
import itertools
import os
import re
import textwrap

from tools.common import CONTRIB, Test, example_runs, random_runs, run, write
from model.formats import UDP
from model.packets import INSIDE, OUTSIDE, capture_of, inward, segment, udp
from lib.programs import TOP

LUA = os.path.join(CONTRIB, "wireshark", "ipnorm.lua")

SOURCE = os.path.join(TOP, "crates", "rule_book", "src", "rule.rt")

TABLE = re.compile(r"(    -- rules\n)(.*?)(    -- end of rules\n)", re.DOTALL)

OF_LINE = ("side", "verdict", "frames", "rule", "sentence", "era", "begun", "ended", "reason", "octets")

EXPERTS = ("dropped", "rewritten", "clash", "mismatch")

WARN, NOTE, ERROR = "6291456", "4194304", "8388608"

FIELDS = (["ipnorm.record", "ipnorm.out", "ipnorm.error"] + ["ipnorm." + name for name in OF_LINE]
          + ["ipnorm.second." + name for name in OF_LINE])

# Expert information, of which that of norm is the last: other protocols have some too.
EXPERT_FIELDS = ["ipnorm." + name for name in EXPERTS] + ["_ws.expert.severity", "_ws.expert.message"]


@functools.lru_cache(maxsize=None)
def sentences():
    """The sentence of each rule, from the table of the programs."""
    with open(SOURCE, encoding="utf-8") as file:
        return dict(re.findall(r'Rule::\w+ => \("([A-Z_]+)", "([^"]*)"\)', file.read()))


def lua_table():
    """The lines of the table; a sentence of over 90 characters is on two."""
    return "".join('    %s = "%s",\n' % (rule, ' "\n        .. "'.join(textwrap.wrap(sentence, 90)))
                   for rule, sentence in sentences().items())


def lua_text():
    with open(LUA, encoding="utf-8") as file:
        return file.read()


def write_sentences():
    text = TABLE.sub(lambda found: found[1] + lua_table() + found[3], lua_text())
    with open(LUA, "w", encoding="utf-8") as file:
        file.write(text)


def test_sentences(_, __):
    test = Test("wireshark: sentences of the rules")
    wanted, found = lua_table().splitlines(), TABLE.search(lua_text())[2].splitlines()
    for ours, theirs in zip(wanted, found):
        test.same(LUA, ours, theirs)
    test.same("%s: number of lines" % LUA, len(wanted), len(found))
    return test


# What the report says of each frame

def values(lines):
    """The values of the fields of these lines, each as tshark prints it."""
    words = [line.split() for line in lines]
    rest = [word for line in words for word in line[4:]]
    rules = [word for word in rest if word[0].isalpha()]
    ended = [word[1:].split(":") for word in rest if word[0] == "-"]
    known = sentences()
    told = [line for line in words if line[2] != "pass"]
    columns = {"side": [line[1] for line in told], "verdict": [line[2] for line in words],
               "frames": [line[3] for line in told], "rule": rules,
               "sentence": [known[rule] for rule in rules], "era": [word[1:] for word in rest if word[0] == "@"],
               "begun": [word[1:] for word in rest if word[0] == "+"],
               "ended": [parts[0] for parts in ended], "reason": [parts[1] for parts in ended],
               "octets": [parts[2] for parts in ended if len(parts) > 2]}
    return ["|".join(columns[name]) for name in OF_LINE]


def expert_of(lines):
    """The expert information of these lines: what each has of the kinds, and its severities and
    messages."""
    found = []
    for line in lines:
        _, _, verdict, _, *rest = line.split()
        for rule in [word for word in rest if word[0].isalpha()]:
            kind = "clash" if rule in ("T_CLASH", "F_CLASH") else {"drop": "dropped", "fix": "rewritten"}.get(verdict)
            if kind:
                found.append((kind, {"dropped": WARN, "rewritten": NOTE, "clash": ERROR}[kind],
                              "%s: %s" % (rule, sentences()[rule])))
    return found


def grouped(text):
    """The line of each record with those of the second engine, in order."""
    groups = []
    for line in text.splitlines()[1:-1]:
        if line.startswith("/"):
            groups[-1].append(line)
        else:
            groups.append([line])
    return groups


def rows_of_in(text):
    rows, frames = [], 0
    both = text.startswith("norm 2 both\n")
    for first, *behind in grouped(text):
        written = sum(int(line.split()[3]) for line in (behind if both else [first]))
        shown_out = written and first.split()[2] != "pass"
        rows.append([first.split()[0], str(frames + 1) if shown_out else "", ""] + values([first])
                    + values(behind) + [expert_of([first, *behind])])
        frames += written
    return rows


def rows_of_out(text):
    rows = []
    both = text.startswith("norm 2 both\n")
    for first, *behind in grouped(text):
        for line in (behind if both else [first]):
            row = ([first.split()[0], "", ""] + values([first]) + values([line] if both else [])
                   + [expert_of([first] + ([line] if both else []))])
            rows += [row] * int(line.split()[3])
    return rows


def shown(folder, capture, report, kind, *more, **given):
    """The fields of each frame, as tshark prints them, what it says, and its status; in one pass,
    or in two with -2 among `more`."""
    words = ["tshark", "-X", "lua_script:" + LUA, "-o", "ipnorm.capture:" + kind, "-r", capture,
             "-T", "fields", "-E", "aggregator=|", *more]
    words += ["-o", "ipnorm.report:" + report] if report else []
    done = run(words + [word for field in FIELDS + EXPERT_FIELDS for word in ("-e", field)], folder, **given)
    return ([row_of(line.split("\t")) for line in done.stdout.decode().splitlines()],
            done.stderr.decode(), done.returncode)


def row_of(cells):
    """The fields of a frame, and at the end its expert information that is of norm."""
    fields, kinds, (severities, messages) = cells[:len(FIELDS)], cells[len(FIELDS):-2], cells[-2:]
    count = sum(len(cell.split("|")) for cell in kinds if cell)
    own = list(zip(severities.split("|"), messages.split("|")))[-count:] if count else []
    names = {WARN: "dropped", NOTE: "rewritten", ERROR: "clash" if kinds[2] else "mismatch"}
    found = [(names.get(severity), severity, message) for severity, message in own]
    counts = {name: len(cell.split("|")) if cell else 0 for name, cell in zip(EXPERTS, kinds)}
    same = counts == {name: sum(one[0] == name for one in found) for name in EXPERTS}
    return [*fields, found if same else (kinds, found)]


def frames_of(folder, capture):
    """How many frames tshark reads without the script."""
    return len(run(["tshark", "-r", capture, "-T", "fields", "-e", "frame.number"], folder).stdout.splitlines())


def compare_rows(test, name, wanted, found):
    test.same("%s: number of frames" % name, len(wanted), len(found))
    for number, (one, other) in enumerate(zip(wanted, found), 1):
        for field, value, there in zip([*FIELDS, "expert information"], one, other):
            test.same("%s: frame %d: %s" % (name, number, field), value, there)


def compare_run(test, folder, one):
    for kind, capture, rows in (("IN", one.given, rows_of_in(one.text)), ("OUT", one.out, rows_of_out(one.text))):
        for passes in ([], ["-2"]):
            found, _, status = shown(folder, capture, one.report, kind, *passes)
            name = " ".join([one.name, kind, *passes])
            if len(found) != len(rows) and len(found) == frames_of(folder, capture):
                test.odd.append("%s: tshark itself reads %d frames in place of %d" % (name, len(found), len(rows)))
            else:
                compare_rows(test, name, rows, found)
                test.same("%s: status" % name, 0, status)


def compare_other(test, folder, name, capture, report, kind):
    """With the report of another run tshark ends with 2. In two passes each frame has an error and
    nothing else, in one pass those from some frame on."""
    for passes in ([], ["-2"]):
        found, said, status = shown(folder, capture, report, kind, *passes)
        test.same("%s %s: it has frames" % (name, passes), True, bool(found))
        test.same("%s %s: it ends with 2 and says why" % (name, passes), (2, True),
                  (status, "ipnorm: " + report in said))
        faults = [bool(row[2]) for row in found]
        test.same("%s %s: an error stays" % (name, passes), sorted(faults), faults)
        for number, row in enumerate(found, 1):
            if passes or row[2]:
                wanted = ("", "", "", [("mismatch", ERROR, row[2])])
                found_one = ("".join(row[:2]), "".join(row[3:-1]), "" if report in row[2] else row[2], row[-1])
                test.same("%s %s: frame %d: has an error alone" % (name, passes, number), wanted, found_one)


def test_fields(asked, folder):
    """Every fourth run is shown with the report of the run before it too, if that has another
    number of records or frames."""
    test = Test("wireshark: fields")
    if test.lacks("tshark"):
        return test
    test.odd, before = [], ""
    for number, one in enumerate(itertools.chain(example_runs(asked, folder), random_runs(asked, folder))):
        compare_run(test, folder, one)
        other = write(os.path.join(folder, "other.txt"), before.encode())
        for kind, capture, rows in (("IN", one.given, rows_of_in), ("OUT", one.out, rows_of_out)):
            if number % 4 == 1 and rows(one.text) and len(rows(before)) != len(rows(one.text)):
                compare_other(test, folder, "%s, report of another run, %s" % (one.name, kind), capture, other, kind)
        before = one.text
    test.same("runs that tshark itself reads otherwise, one of fifty at most: %s" % test.odd, True,
              len(test.odd) * 50 <= max(50, asked.count))
    return test


# Reports that fit the number of frames, or are no reports

TWO = capture_of([segment("> S 999"), segment("> S 999", outside_port=40001)])
AGAIN = capture_of([segment("> S 999"), segment("> S 999")])
MESSAGE = capture_of([inward(UDP, udp(OUTSIDE, INSIDE, 40000, 53, b"hi"))])

# Each with the first frame that has the error in one pass; 0 if only the end of the capture shows
# it.
OTHERS = [
    ("more records than the capture", 0, MESSAGE, "norm 2\n1 in pass 1\n2 in pass 1\nend 2 2\n"),
    ("fewer records than the capture", 2, AGAIN, "norm 2\n1 in pass 1 @1 +1\nend 1 1\n"),
    ("another connection in an era", 2, TWO, "norm 2\n1 in pass 1 @1 +1\n2 in pass 1 @1\nend 2 2\n"),
    ("another side in an era", 2, AGAIN, "norm 2\n1 in pass 1 @1 +1\n2 out pass 1 @1\nend 2 2\n"),
    ("another protocol than the rule's", 1, MESSAGE, "norm 2\n1 in drop 0 T_SUM\nend 1 0\n"),
    ("another protocol than an era's", 1, MESSAGE, "norm 2\n1 in pass 1 @1 +1\nend 1 1\n"),
    ("a run that was killed", 1, MESSAGE, "norm 2\n1 in pass 1\n"),
    ("a last line without its line feed", 1, MESSAGE, "norm 2\n1 in pass 1\nend 1 1"),
    ("a line behind the last one", 1, MESSAGE, "norm 2\n1 in pass 1\nend 1 1\nend 1 1\n"),
    ("other numbers in the last line", 1, MESSAGE, "norm 2\n1 in pass 1\nend 1 2\n"),
    ("numbers that do not follow each other", 2, AGAIN, "norm 2\n1 in pass 1\n3 in pass 1\nend 2 2\n"),
    ("a line of a second engine that is not there", 1, MESSAGE, "norm 2\n1 in pass 1\n/1 out pass 1\nend 1 1\n"),
    ("no line of the second engine", 1, MESSAGE, "norm 2 both\n1 in pass 1\nend 1 1\n"),
    ("a word that is none", 1, MESSAGE, "norm 2\n1 in pass 1 what\nend 1 1\n"),
    ("another version", 1, MESSAGE, "norm 3\n1 in pass 1\nend 1 1\n"),
    ("an empty file", 1, MESSAGE, ""),
]

OTHERS_OF_OUT = [
    ("more frames than OUT", 0, MESSAGE, "norm 2\n1 in pass 1\n2 in pass 1\nend 2 2\n"),
    ("fewer frames than OUT", 2, AGAIN, "norm 2\n1 in pass 1 @1 +1\n2 in drop 0 T_OLD @1\nend 2 1\n"),
    ("fewer frames than OUT, of a run that stopped", 2, AGAIN, "norm 2\n1 in pass 1 @1 +1\nstop cut 70\n"),
]

FIT = [
    ("the same connection", AGAIN, "norm 2\n1 in pass 1 @1 +1\n2 in pass 1 @1\nend 2 2\n"),
    ("two connections", TWO, "norm 2\n1 in pass 1 @1 +1\n2 in pass 1 @2 +2 -1:evicted:0\nend 2 2\n"),
    ("version 1", TWO, "norm 1\n1 in pass 1 @1 +1\n2 in pass 1 @2 +2 -1:evicted\nend 2 2\n"),
    ("a run that stopped", MESSAGE, "norm 2\n1 in pass 1\nstop cut 70\n"),
]


def test_reports(_, folder):
    test = Test("wireshark: reports")
    if test.lacks("tshark", "editcap"):
        return test
    for kind, (name, at, octets, text) in [("IN", row) for row in OTHERS] + [("OUT", row) for row in OTHERS_OF_OUT]:
        capture, report = (write(os.path.join(folder, "some.pcap"), octets),
                           write(os.path.join(folder, "some.txt"), text.encode()))
        compare_other(test, folder, name, capture, report, kind)
        faults = [number for number, row in enumerate(shown(folder, capture, report, kind)[0], 1) if row[2]]
        test.same("%s: first frame with the error in one pass" % name, at, min(faults, default=0))
    for name, octets, text in FIT:
        capture, report = (write(os.path.join(folder, "some.pcap"), octets),
                           write(os.path.join(folder, "some.txt"), text.encode()))
        compare_rows(test, name, rows_of_in(text), shown(folder, capture, report, "IN")[0])
        run(["editcap", "-F", "pcapng", capture, capture + "ng"], folder)
        compare_rows(test, name + ", as pcapng", rows_of_in(text), shown(folder, capture + "ng", report, "IN")[0])
    compare_other(test, folder, "no such report", capture, os.path.join(folder, "none.txt"), "IN")
    found, said, status = shown(folder, capture, None, "IN")
    test.same("neither preference nor report beside the capture",
              ([""] * len(FIELDS) + [[]], False, 0), (found[0], "Lua" in said, status))
    compare_rows(test, "a pipe", rows_of_in(text), shown(folder, capture, "/dev/stdin", "IN", input=text.encode())[0])
    write(capture + ".norm.txt", text.encode())
    compare_rows(test, "the report beside the capture", rows_of_in(text), shown(folder, capture, None, "IN")[0])
    return test


# The filters that are shown and shipped

PAGE = os.path.join(TOP, "docs", "TOOLS.md")


def text_of(*path):
    with open(os.path.join(*path), encoding="utf-8") as file:
        return file.read()


def filters():
    """The display filters of the page, and those of the profile's colours and buttons."""
    profile = os.path.join(CONTRIB, "wireshark", "profile")
    table = text_of(PAGE).split("| Display filter |")[1].split("\n\n")[0]
    buttons = re.findall(r'^"TRUE","[^"]*","([^"]*)"', text_of(profile, "dfilter_buttons"), re.MULTILINE)
    return (re.findall(r"(?m)^\| `(.*?)` \|", table)
            + re.findall(r"(?m)^@.*?@(.*?)@\[", text_of(profile, "colorfilters"))
            + [text.replace("\\x22", '"') for text in buttons])


def test_filters(_, folder):
    test = Test("wireshark: filters of the page and the profile")
    if test.lacks("tshark"):
        return test
    named = set(re.findall(r"ipnorm\.[a-z]+", text_of(PAGE)))
    named -= {"ipnorm.lua", "ipnorm.report", "ipnorm.capture", "ipnorm.second"}
    fields = {field for field in FIELDS + EXPERT_FIELDS if field.startswith("ipnorm.") and "second" not in field}
    test.same("the fields of the page", fields, named)
    capture = write(os.path.join(folder, "some.pcap"), TWO)
    for text in filters():
        done = run(["tshark", "-X", "lua_script:" + LUA, "-r", capture, "-Y", text], folder)
        test.same("%s: status" % text, 0, done.returncode)
    test.same("number of filters", True, len(filters()) > 12)
    return test


TESTS = [test_fields, test_reports, test_filters]
