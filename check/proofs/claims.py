"""What check/proofs/falsified tries: the claims of each check, and the false program or file that
shows each of them. A claim is in the words of the head of its script."""

import re
from typing import Callable, NamedTuple

from live.false_bridges import FALSE as FALSE_BRIDGES
from proofs.falsehoods import PROGRAMS


class Claim(NamedTuple):
    """A claim, what is false of a program, a file or `rt`, and how it is made so."""

    says: str
    kind: str
    false: str
    path: str = ""
    change: "Callable[[str], str | None] | str" = ""
    # None: those of the check.
    words: "str | None" = None
    programs: tuple = ()

    @property
    def shown(self):
        """What is false, as the table has it."""
        return "%s %s" % (self.kind, self.false) if self.kind in PROGRAMS else self.false


class Check(NamedTuple):
    """The words of a check, the programs that it runs, what it needs of the system (programs,
    files, root), its claims, and words of more runs that the true programs must pass."""

    words: str
    programs: tuple
    needs: tuple
    claims: list
    parts: tuple = ()
    # The true programs have no script around them, which would be disturbed, too.
    bare: bool = False
    # Programs of the system that it does not find in its runs.
    hidden: tuple = ()


def norm(says, false, words=None):
    return Claim(says, "norm", false, words=words)


def audit(says, false, words=None):
    return Claim(says, "normaudit", false, words=words)


def view(says, false, words=None):
    return Claim(says, "normview", false, words=words)


def changed(says, false, path, old, new, words=None, programs=()):
    """Replaces a text that the file has once by another."""
    return Claim(says, "file", false, path, lambda text: text.replace(old, new) if text.count(old) == 1 else None,
                 words, programs)


def added(says, false, path, new, words=None, programs=()):
    """Text after the end of the file."""
    return Claim(says, "file", false, path, lambda text: text + new, words, programs)


def lacking(says, false, path, old, words=None, programs=()):
    """The first line of the file with this text is left out."""

    def change(text):
        first = next((line for line in text.splitlines(True) if old in line), None)
        return None if first is None else text.replace(first, "", 1)

    return Claim(says, "file", false, path, change, words, programs)


def says_of_rt(says, false, body, words=None):
    return Claim(says, "rt", false, change=body, words=words)


def of_law(law, says, false, module, old, new, count=20):
    """A change of the model that breaks a law on streams."""
    return changed(says, false, "check/model/%s.py" % module, old, new, "--count %d --only %s" % (count, law))


ROUTER = ("root", "/dev/net/tun", "ip")
BRIDGED = ("root", "ip", "ethtool", "cc", "make", "tcpdump", "tcpflow")

STATUS, REPORT, OUT = "always ends with 9", "drops the last line", "changes one octet of OUT"

# What `rt` says: an edit that a contract refuses, a function that is not proved.
REFUSED = "echo 'rt: must-fail a/one.edit: refused, as it must be: note: src/a.rt:1:1: it is not proved'"
OPEN = "it is not proved that it holds (`returns`)"
UNPROVED = "echo 'note: src/a.rt:1:1: " + OPEN + "'; echo 'only=3 proved=2'; exit 1"
TRUE_RT = {"proofs/edits": 'if [ "$1" = must-fail ]; then %s; else %s; fi' % (REFUSED, UNPROVED)}

# A second edit, of which something else is said.
SECOND = REFUSED + "; echo 'rt: must-fail a/two.edit: %s'%s"

EDITS = [
    says_of_rt("must-fail edits", "an edit is proved",
               SECOND % ("NOT REFUSED: the crate is still proved with this edit", "; exit 1")),
    says_of_rt("cannot be read", "an edit cannot be read", SECOND % ("BAD EDIT: it changes nothing", "; exit 1")),
    says_of_rt("only because a proof file names", "a proof file alone refuses an edit",
               SECOND % ("refused, as it must be (only because a proof file names what it took)", "")),
    says_of_rt("renames what a proof file answers", "an edit renames what a proof file answers",
               SECOND % ("refused, as it must be: ./proofs/b/Answers.antt:1:5: "
                         "error: `goal.returns`: module `c` has none", "")),
    says_of_rt("bugs that docs/PROVED.md calls planted", "a bug is proved", "exit 0", "--planted 14"),
    says_of_rt("is refused only because a proof file names", "a proof file alone refuses a bug",
               UNPROVED.replace(OPEN, "error: `returns`: record `A` has no field `b`"), "--planted 14"),
    says_of_rt("by what another function requires", "what another function requires refuses a bug",
               UNPROVED.replace(OPEN, "error: `put-requires-clause-room`: they differ"), "--planted 14"),
    says_of_rt("`rt check --only` proves that function", "another function is not proved",
               "echo 'fn ip_rules::write::raised: proved'; " + UNPROVED, "--planted 14"),
    says_of_rt("is not refused", "rt gives no verdict", "exit 2", "--planted 14"),
]

BRIDGE = [changed(says, false, "contrib/bridge/" + name, old, new, "--only " + parts)
          for says, false, name, old, new, parts in FALSE_BRIDGES]

SOAK = [
    changed("each frame that the bridge received has one fate", "a frame is lost before it is counted",
            "contrib/bridge/worker.c", "ADD(from->received, 1);",
            "static unsigned lost; if (++lost % 5000 == 0) return; ADD(from->received, 1);"),
    changed("The memory and the descriptors of the bridge do not grow", "some octets of each frame stay allocated",
            "contrib/bridge/worker.c", "ADD(from->received, 1);",
            "memset(malloc(64), 1, 64); ADD(from->received, 1);"),
    changed("The memory and the descriptors of the bridge do not grow", "some frames open a descriptor",
            "contrib/bridge/worker.c", "ADD(from->received, 1);",
            "static unsigned some; if (++some % 5000 == 0) dup(2); ADD(from->received, 1);"),
]

COMPARE = [
    norm("status", STATUS),
    norm("report", REPORT),
    norm("written capture", OUT),
    norm("--pcapng", "reads no pcapng", "--pcapng --count 5"),
    norm("--both", "ignores --both", "--both --count 5"),
    norm("--words", "gives each refusal the number 1", "--words --count 50"),
    norm("--loads", "makes each load from the seed 1", "--loads --count 4"),
]

LARGE = [
    norm("from files", "changes an octet past 1 MiB"),
    norm("a later connection", "changes an octet of the 65th connection"),
    norm("a later connection or prefix", "ignores prefixes from the third on"),
    norm("past 1,000 lines", "loses the lines of a report from the 1,000th on"),
    norm("pipes", "refuses a named pipe"),
    norm("a pipe that gives few octets at once", "reads a pipe to its first short read"),
    audit("in a report of over 64 KiB", "answers yes for a report of over 64 KiB"),
    view("normview --json of the three files", "loses lines from the 1,001st on"),
    view("of three named pipes", "refuses a named pipe"),
    norm("`--seed` is used", "ignores --seed"),
]

REAL_ENDS = [
    norm("the status", STATUS),
    # A script around norm that holds a line would make each run that pauses take a minute.
    norm("the report", "says `st0p` in place of `stop`"),
    norm("files", "empties a hard link of IN"),
    norm("devices", "does not name a device that is full after 64 KiB"),
    norm("pipes", "refuses a named pipe"),
    norm("sockets", "takes a socket of the report for OUT"),
    norm("folders", "takes a folder for OUT"),
    audit("the built programs", "writes nothing"),
    view("the built programs", "writes nothing"),
    norm("killed", "fills OUT with zeros first"),
]

SAID = (
    ("what they say", "says nothing on standard error"),
    ("one line on standard error", "says two lines on standard error"),
    ("names the file", "names another file on standard error"),
    ("the reason", "gives another reason on standard error"),
)

TEXTS = [
    lacking("an option", "norm(1) lacks `--quota`", "docs/norm.1", "quota"),
    changed("an option", "the synopsis of norm(1) lacks `load`", "docs/norm.1", ".br\n.B norm load\n.I SEED COUNT\n",
            ""),
    changed("a status", "norm(1) has the statuses 4 and 5 exchanged", "docs/norm.1", '4\n.BR "stop cut O" :',
            '5\n.BR "stop cut O" :'),
    changed("a status", "norm(1) has another meaning of 4", "docs/norm.1",
            "ends inside its head, a record or a block.", "could not be opened or read."),
    changed("a refusal", "norm(1) has no refusal 5", "docs/norm.1", ".TP\n5\n.I IN\nand\n.I OUT\n",
            ".TP\n.I IN\nand\n.I OUT\n"),
    lacking("a rule", "norm-report(5) lacks T_CLASH", "docs/norm-report.5", ".BR T_CLASH "),
    added("the file VERSION", "VERSION has another number", "VERSION", "1"),
    lacking("CHANGELOG.md", "CHANGELOG.md lacks the newest version", "CHANGELOG.md", "] - 2"),
]

PROMISES = [
    changed("breaks a promise of the rules", "the model replaces no octets", "check/model/era_rows.py",
            "T_END, T_CLASH]", "T_END]",
            "--count 40"),
    of_law("streams", "receivers from any start read one stream", "the model names T_CLASH and replaces no octets",
           "frames",
           "bytes(case.era.first.get(place, own[place - kept.off]) for", "bytes(own[place - kept.off] for"),
    of_law("streams", "with `--mtu`", "the model cuts a segment with other sequence numbers", "cuts",
           "four(tcp.seq + start)", "four(tcp.seq + start + index)", 40),
    of_law("streams", "receivers from any start", "a receiver keeps a FIN one octet later", "receivers",
           "near(tcp.seq + len(tcp.payload) - stream.base", "near(tcp.seq + len(tcp.payload) + 1 - stream.base"),
    of_law("brought", "was brought by a record of IN",
           "the model writes the octets of a segment from the first one on", "frames",
           "own[place - kept.off])", "own[place - kept.low])"),
    of_law("clashes", "T_CLASH and F_CLASH are named exactly where octets differ",
           "the model does not compare the first octet of a segment",
           "era_rows", "for place in range(case.kept.low, case", "for place in range(case.kept.low + 1, case"),
    of_law("clashes", "F_CLASH are named exactly where octets differ",
           "the model does not compare the first octet of a fragment",
           "fragment_rows", "octet) != octet for i, octet in enumerate(piece.octets))",
           "octet) != octet for i, octet in enumerate(piece.octets) if i)", 40),
    of_law("agreeing", "never in an era whose records agree", "the model names T_CLASH of octets that are cut off",
           "era_rows",
           "        != case.tcp.payload[place - case.kept.off]", "        != case.tcp.payload[place - case.kept.low]"),
    of_law("recorded", "packets that all pass are those of IN", "the model lets a packet pass whose TTL it changes",
           "engine",
           'entry.verdict = "fix" if rules else "pass"',
           'entry.verdict = "fix" if rules and rules != ["I_TTL"] else "pass"', 40),
    of_law("successors", "what was read in an era that ended quietly is not written again",
           "the model writes octets that are acknowledged",
           "eras", "low = max(off, acked(era))", "low = off", 40),
]

CHECKS = {
    "all": Check("--model", (), (), [
        added("runs what needs no program", "README.md says `want of memory`", "README.md",
              "\nIt ends for want of memory.\n"),
    ]),
    "against_model/audits": Check("", ("normaudit",), (),
                    [audit("status", STATUS), audit("line", REPORT), audit("answers", "answers yes always")]),
    "live/bridge": Check("--only counts,attacks --random 20", ("normview", "normaudit"), BRIDGED, BRIDGE),
    "live/soak": Check("1 --connections 500", (), (*BRIDGED, "nft"), SOAK),
    "tools/captured_runs": Check("--only empty,overlap", PROGRAMS, (), [
        norm("what norm-run writes", "writes nothing"),
        audit("compares status", "answers no always"),
        view("page with the table's row", "names no note"),
        changed("on folders of hours", "norm-hourly overlooks an audit that does not say yes",
                "contrib/systemd/norm-hourly", 'failed |= audit["status"] != 0', "failed |= False",
                "--only audited", PROGRAMS),
    ]),
    "against_model/compare": Check("--count 20", ("norm",), (), COMPARE,
                     ("--count 100", "--pcapng --count 20", "--both --count 20", "--words --count 50",
                      "--loads --count 20")),
    "proofs/edits": Check("a", (), (), EDITS),
    "system/errors": Check("", PROGRAMS, (), [
        *[claim(*pair) for claim in (norm, audit, view) for pair in SAID],
        norm("the status", STATUS),
    ]),
    "receivers/evasions": Check("", ("norm",), (), [
        changed("docs/EVASIONS.md", "docs/EVASIONS.md shows another line", "docs/EVASIONS.md",
                "| `abXXgh` | `abcdef` | `T_CLASH` |",
                "| `abXXgh` | `abcdef` | `T_OLD` |", "--model"),
        changed("the captures in examples/", "a capture of examples/ is not what is described",
                "examples/evasions.txt", "> PA 1000,5001 abXXgh\n",
                "> PA 1000,5001 abXYgh\n", "--model"),
        added("the pictures in docs/pictures/", "a picture has another word", "docs/pictures/overlap.svg", "\n",
              "--model"),
        norm("what a built norm writes", OUT),
        norm("ends with 0", STATUS),
    ]),
    "receivers/evidence": Check("--count 10", ("norm", "normview"), ROUTER, [
        view("ends with 11", "always ends with 9"),
        view("names a record of each connection", "writes nothing"),
        view("not in OUT as it was sent", "leaves T_CLASH out of the evidence"),
        view("not in OUT as it was sent", "leaves F_CLASH out of the evidence"),
        view("not in OUT as it was sent", "leaves I_TTL out of the evidence"),
    ]),
    "proofs/falsified": Check("--page", (), (), [
        changed("in the head of its script", "the head of a script says something else", "check/against_model/audits",
                "status and line.", "status."),
    ]),
    "tools/embed": Check("--count 4", ("norm",), ("cc", "make"), [
        changed("what `norm run` writes", "the reader in C loses the time of a record", "contrib/lib/normcap.c",
                ".seconds = get(head), ", "", "--count 4", ("norm",)),
        changed("in Python", "the reader in Python loses the time of a record", "contrib/lib/normcap.py",
                "arrival.seconds, arrival.fraction, length", "_, arrival.fraction, length", "--count 4", ("norm",)),
        changed("normtap joins two hosts", "normtap sends by the port that a frame arrived at",
                "contrib/lib/normtap.c", "sides[frame.port].fd", "sides[side].fd", "--only hosts", ("norm",)),
        changed("the names of norm.h", "the library has all its names", "contrib/lib/Makefile",
                "--strip-debug --keep-global-symbols=$(@D)/norm.calls", "--strip-debug", "--only names", ("norm",)),
    ]),
    "tools/first_captures": Check("--only keystrokes,loses", ("norm", "normview"),
                                  ("root", "ip", "tcpdump", "ethtool"), [
        view("well and badly", "names a note on each capture"),
        view("and badly", "names no note"),
        view("the notes of normview", "names each note `foreign`"),
        norm("norm runs on each capture", "writes nothing"),
    ]),
    "system/hostile": Check("2000 1", ("norm", "normaudit"), ("cc",), [
        norm("must end with 0", STATUS),
        norm("read all of them", REPORT),
        norm("take no more memory than README says", "takes 300 MB more"),
        norm("at most twice what it costs in the plain capture", "takes a second more of a hostile capture",
             "1000000 1 --only options --times 1"),
        audit("normaudit must say yes", "answers no always"),
    ]),
    "tools/installs": Check("", PROGRAMS, (), [
        *[claim("the programs", "writes nothing") for claim in (norm, audit, view)],
        changed("the man pages", "install puts the man pages elsewhere", "install", "share/man/man${page##*.}",
                "share/man/man1", "", PROGRAMS),
        changed("removes them", "install leaves the empty folders", "install",
                """*/) path=$prefix/$path; rmdir "${path%/./}" 2> /dev/null || true ;;""", "*/) ;;", "", PROGRAMS),
        changed("the completions", "the completions lack two verdicts", "completions", "'pass fix hold drop'",
                "'pass fix'", "", PROGRAMS),
    ], hidden=("dpkg-deb",)),
    "system/large": Check("", PROGRAMS, (), LARGE),
    "system/each_program": Check("--only norm", PROGRAMS, ("root",), [
        # The script around norm does not pass signals on, so each false program gets its own row.
        norm("have the mode of the umask", "gives OUT the mode 0666", "--only norm --rows modes"),
        norm("as nobody", "gives OUT to root", "--only norm --rows owner"),
        norm("TZ and LC_ALL change nothing", "takes an hour off in a time zone", "--only norm --rows zone"),
        norm("files by /dev/fd/12", "cannot open /dev/fd/12", "--only norm --rows fd"),
        norm("a link stays one", "replaces a link", "--only norm --rows link"),
        norm("SIGTERM, SIGINT and SIGHUP end it", "ends with 0 at SIGTERM", "--only norm --rows signals"),
        norm("is full", "ends with 0 where OUT is full", "--only norm --rows full"),
        norm("is closed", "ends with 0 where output is closed", "--only norm --rows closed"),
    ], bare=True),
    "system/growth": Check("", PROGRAMS, ("cc",), [
        *[claim("at most 15 times", "takes time with the square of its input", only)
          for claim, only in ((norm, "--only norm"), (audit, "--only audit"), (view, "--only evidence,notes"))],
        norm("peak memory is the same", "keeps 80 octets of each record", "--only norm"),
    ]),
    "pages/links": Check("", (), (), [
        added("links", "a link leads to no file", "docs/RULES.md", "\nSee [the proofs](PROOFS.md).\n"),
        changed("anchors", "a link of README.md leads to no heading", "README.md", "](#what-is-proved)",
                "](#what-is-shown)"),
        added("file names", "a page names a script that does not exist", "docs/RECIPES.md", "\nSee `check/nothing`.\n"),
        lacking("must name each script", "check/README.md does not name a script", "check/README.md",
                "| `check/against_model/audits` | the audit"),
    ]),
    "receivers/monitors": Check("", (), ("tshark", "tcpflow"), [
        changed("where the page says otherwise", "docs/MONITORS.md has other octets in a cell", "docs/MONITORS.md",
                "| monitor-depth | `abcdefgh` | all | all | all | all |",
                "| monitor-depth | `abcdefgh` | all | all | all | `abcd` |"),
    ]),
    "makers/mutants": Check("--count 10 --only both_sides", (), (), [
        lacking("small changes of the model", "a change that means the same is not known",
                "check/makers/mutants_known.txt", "both_sides.MOST"),
    ]),
    "against_model/notes": Check("--count 1", ("norm", "normview"), (), [
        view("which notes there are", "names no note"),
        view("whether they are true", "names each note `foreign`"),
        view("not damaged", "names a note on each capture"),
        norm("the programs are", "writes nothing"),
    ]),
    "pages/commands": Check("--no-network docs/RECIPES.md docs/REPORT.md docs/RULES.md", PROGRAMS, ("jq", "tcpdump"), [
        *[claim("every command", "writes nothing") for claim in (norm, audit, view)],
        norm("ends with status 0", STATUS),
        norm("the output", REPORT),
        changed("takes the place of the programs", "docs/RULES.md shows another line", "docs/RULES.md",
                "`4 in fix 3 E_CUT @1`",
                "`4 in fix 2 E_CUT @1`", "--model --no-network docs/RULES.md"),
    ]),
    "tools/pcapng": Check("--count 5", ("norm",), ("editcap",), [
        norm("Compares what norm makes of pcapng files", "reads no pcapng"),
        norm("which norm does not add", "adds 3,600 s to the times of pcapng files"),
    ]),
    "receivers/promises": Check("--count 40", (), (), PROMISES),
    "system/real_ends": Check("", PROGRAMS, (), REAL_ENDS),
    "system/refused_memory": Check("", ("norm",), ("cc",), [
        norm("refuses each of its allocations", "says another word where memory is refused"),
        norm("the built program", "writes nothing"),
    ], bare=True),
    "receivers/rivals": Check("--count 0 --no-routers", ("norm",), ROUTER, [
        changed("behind norm", "the model replaces no octets", "check/model/era_rows.py", "T_END, T_CLASH]",
                "T_END]", "--model --count 0 --no-routers"),
        norm("what does clean traffic lose", "has one cell"),
        norm("a segment with a wrong checksum", OUT),
    ]),
    "tools/rotated": Check("", ("norm",), ("dumpcap", "editcap", "mergecap", "tcpdump"), [
        changed("joins the files", "files are in the order of their names", "contrib/norm-rotated",
                "(it.time or 0, it.number))\n", "it.path)\n",
                programs=("norm",)),
        changed("where one is missing", "norm-rotated overlooks that one file is missing", "contrib/norm-rotated",
                "if same and new.number > old.number + 1:", "if same and new.number > old.number + 2:",
                programs=("norm",)),
        norm("the status", STATUS),
        norm("the report", REPORT),
    ]),
    "proofs/statement": Check("--page", (), (), [
        lacking("compares docs/dev/STATEMENT.md", "docs/dev/STATEMENT.md lacks its counts", "docs/dev/STATEMENT.md",
                " definitions, "),
        added("lists the definitions that no contract rests on", "a definition that no contract rests on",
              "crates/wire_base/specs/Numbers.antt",
              "\n-- seven\nabbrev pub unneeded : \u2115\nunneeded = 7\n", "--unused"),
        changed("each definition of specs/ that no public contract rests on", "`error_line` is not public",
                "crates/error_line/src/lib.rt", "pub use line::{error_line, ", "pub use line::{", "--apart"),
        changed("each of specs/working/ that one rests on", "`Syns::shift` is public",
                "crates/era_state/src/syns.rt", "pub(crate) fn shift(", "pub fn shift(", "--apart"),
        *[Claim("the counts in README.md and docs/PROVED.md", "file", page + " counts 7 definitions", page,
                lambda text: re.sub(r"[0-9,]+(?=\sdefinitions\s\()", "7", text), "--apart")
          for page in ("README.md", "docs/PROVED.md")],
    ]),
    "pages/surface": Check("", (), (), [
        lacking("docs/dev/API.md", "docs/dev/API.md lacks an item", "docs/dev/API.md", "fn read_prefix("),
        changed("the public items of the crates", "an item is not made public", "crates/udp_codec/src/lib.rt",
                "pub use checksum::mend;\n", ""),
        changed("with its signature", "a parameter has another type", "crates/wire_base/src/address.rt",
                "read_prefix(text: &str)", "read_prefix(text: &[u8])"),
        changed("and its comment", "a comment says something else", "crates/wire_base/src/address.rt",
                "/// Parses a prefix", "/// Parses no prefix"),
        changed("that has no `///` comment", "an item has no comment", "crates/rule_book/src/last.rt",
                "/// Writes the last line", "// Writes the last line"),
    ]),
    "pages/lists": Check("", (), (), [
        lacking("the files that name a rule", "the page lacks `rule_book/src/rule.rt`", "docs/dev/ARCHITECTURE.md",
                "`rule_book/src/rule.rt`"),
        lacking("an option", "the page lacks `norm_settings/src/found.rt`", "docs/dev/ARCHITECTURE.md",
                "`norm_settings/src/found.rt`"),
        changed("and a link", "a file names a link, and is in no list", "crates/udp_codec/src/lib.rt",
                "#![tactic(auto)]", "#![tactic(auto)]\nconst Ethernet: u8 = 0;"),
        changed("both ways", "the page has a file that names no option", "docs/dev/ARCHITECTURE.md",
                "| `norm_settings/src/found.rt` |", "| `norm_settings/src/found.rt`, `norm_settings/src/lib.rt` |"),
    ]),
    "pages/texts": Check("", (), (), TEXTS),
    "system/surroundings": Check("", PROGRAMS, ("cc",), [
        *[claim("Runs the built programs", "writes nothing") for claim in (norm, audit, view)],
        *[claim("names this file", "gives standard output another name") for claim in (norm, audit, view)],
    ], bare=True),
    "tools/adapters": Check("--count 0 community", ("norm", "normview"), ("tshark",), [
        changed("sentences", "ipnorm.lua has another sentence", "contrib/wireshark/ipnorm.lua",
                "a TCP option is malformed",
                "an option is malformed", "sentences", ("norm", "normview")),
        view("the adapters of contrib/", "writes nothing"),
    ]),
    "against_model/views": Check("--count 20", ("normview",), (), [
        view("status", STATUS),
        view("output", REPORT),
        view("as text, JSON or a table", "refuses --json"),
    ]),
    "system/waits": Check("", ("norm",), (), [
        norm("input that pauses", "reads IN to its end first"),
        norm("readers of OUT", "keeps OUT to the end"),
        norm("and of the report", "keeps the report to the end"),
        norm("how it ends", STATUS),
    ]),
    "pages/words": Check("", (), (), [
        added("phrases", "README.md says `want of memory`", "README.md", "\nIt ends for want of memory.\n"),
        added("over the end of a line", "README.md has `holds of` on two lines", "README.md",
              "\nThe rule holds\nof this packet.\n"),
        added("lines of over 100 columns", "a comment has 103 columns", "crates/error_line/src/lib.rt",
              "\n// " + "four " * 20 + "\n"),
        added("sentences of over 35 words", "a sentence has 36 words", "crates/error_line/src/lib.rt",
              "\n// " + "four " * 18 + "\n// " + "four " * 18 + "\n"),
        changed("the example of each entry", "the list looks for `also when`, and not for `also if`",
                "check/pages/words", 'Entry(r"also if"', 'Entry(r"also when"'),
    ]),
    "against_model/worked": Check("", ("norm",), (), [
        changed("the model", "the model replaces no octets", "check/model/era_rows.py", "T_END, T_CLASH]",
                "T_END]"),
        changed("the few records that `compare` shrinks", "single records are not left out",
                "check/against_model/shrunk.py", "if differs(fewer):", "if size > 1 and differs(fewer):"),
        norm("on a built norm", OUT, None),
        norm("each row", STATUS),
    ]),
}

# Scripts that are no check, or that judge no program of this repository.
TOOLS = ("against_model/follow", "lib/needs", "makers/make_captures.py", "model/model.py", "receivers/stacks",
         "receivers/without", "system/new_machine", "tools/wireshark_picture")

# What was tried by hand, since it takes long, or changes what a table has no place for. Each check
# ended with 1.
BY_HAND = {
    "against_model/notes": "the model that compares acknowledgments alone, and finds no copies, no late gaps or no "
                           "checksums of the card",
    "receivers/rivals": "--in-for-out, and `true` in the place of norm",
    "tools/adapters": "15 changes of ipnorm.lua, 10 of jq/, 4 of community-id, some of norm-comments",
}

# The checks that judge times.
ALONE = ("system/hostile", "system/large")

# The checks that take longest, so that none of them is left for the end.
LONGEST = ("system/real_ends", "system/errors", "pages/commands", "tools/first_captures", "receivers/rivals",
           "receivers/evidence",
           "tools/installs", "all")
