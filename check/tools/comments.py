"""contrib/norm-comments: tshark reads back the lines of normview for exactly the records that the
report does not pass, and the records are those of IN."""

import os
import re
import stat

from tools.common import CONTRIB, Test, few_runs, normed, other_records, run, write
from model.packets import capture_of, opening, segment
from lib.programs import TOP

PROGRAM = os.path.join(CONTRIB, "norm-comments")

ONE_OF = 10


def commented(asked, folder, one):
    target = os.path.join(folder, "commented.pcapng")
    if os.path.exists(target):
        os.remove(target)
    programs = os.path.join(folder, "programs")
    if not os.path.exists(programs):
        os.mkdir(programs)
        os.symlink(asked.normview, os.path.join(programs, "normview"))
    words = ["env", "PATH=%s:%s" % (programs, os.environ["PATH"]), PROGRAM, one.given, one.out, one.report, target]
    return run(words, folder), target


def comments_in(folder, path, *words):
    """The comments of each record, as tshark prints them."""
    return run(["tshark", "-r", path, "-T", "fields", *words, "-e", "frame.comment"],
               folder).stdout.decode().splitlines()


def classic(folder, path):
    """The link and the records of the capture, as editcap writes them in the classic form: without
    comments, and without the greatest length in the head."""
    target = os.path.join(folder, "classic.pcap")
    run(["editcap", "-F", "nsecpcap", path, target], folder)
    with open(target, "rb") as file:
        return file.read()[20:]


def lines_by_record(text):
    """The words of each record's lines that its comment must have: number, side, verdict and
    rules."""
    records = []
    for line in text.splitlines()[1:-1]:
        number, side, verdict, _, *rest = line.split()
        if not number.startswith("/"):
            records.append([])
        records[-1].append((str(len(records)) + (number if number.startswith("/") else ""), side,
                            verdict, [word for word in rest if word[0].isalpha()]))
    return records


def as_shown(comment):
    """The same of a comment's lines, as tshark prints them."""
    lines = []
    for line in comment.split("\\n") if comment else []:
        words = re.split(" (?:frames|given) ", line, maxsplit=1)[0].split()
        verdict = next(word for word in words if word in ("pass", "fix", "hold", "drop"))
        lines.append((words[0], words[2], verdict,
                      [word for word, then in zip(words, words[1:]) if then.startswith("(")]))
    return lines


def compare_run(test, asked, folder, one):
    done, target = commented(asked, folder, one)
    test.same("%s: status" % one.name, (0, b""), (done.returncode, done.stderr))
    shown = comments_in(folder, target)
    wanted = [lines if any(line[2] != "pass" for line in lines) else [] for lines in lines_by_record(one.text)]
    test.same("%s: number of records" % one.name, len(wanted), len(shown))
    for number, (lines, comment) in enumerate(zip(wanted, shown), 1):
        test.same("%s: comment of record %d" % (one.name, number), lines, as_shown(comment))
    test.same("%s: the records but for their comments" % one.name, classic(folder, one.given), classic(folder, target))


def test_comments(asked, folder):
    test = Test("norm-comments")
    if test.lacks("tshark", "editcap"):
        return test
    before = None
    for one in few_runs(asked, folder, ONE_OF):
        compare_run(test, asked, folder, one)
        if other_records(one, before):
            one.report = write(os.path.join(folder, "other.txt"), before.text.encode())
            done, target = commented(asked, folder, one)
            test.same("%s: report of another run: fails, and writes nothing" % one.name,
                      (True, False), (done.returncode != 0, os.path.exists(target)))
        before = one
    return test


def test_batches(asked, folder):
    """More comments than one call of editcap takes: Linux allows 2 MiB of words."""
    test = Test("norm-comments: batches")
    if test.lacks("tshark", "editcap"):
        return test
    count = 13000
    given = write(os.path.join(folder, "many.pcap"),
                  capture_of([segment("> R 999", outside_port=number)
                              for number in range(1, count + 1)]))
    lines = ["norm 2\n"] + ["%d in drop 0 T_COLD\n" % number for number in range(1, count + 1)] + ["end %d 0\n" % count]
    report = write(os.path.join(folder, "many.txt"), "".join(lines).encode())
    one = type("Run", (),
               {"given": given, "out": write(os.path.join(folder, "none.pcap"), capture_of([])),
                "report": report})
    done, target = commented(asked, folder, one)
    shown = comments_in(folder, target)
    test.same("status", 0, done.returncode)
    test.same("comments", [str(number) for number in range(1, count + 1)],
              [comment.split(" ", 1)[0] for comment in shown])
    return test


def test_long(asked, folder):
    """A comment that is longer than pcapng allows: every other octet is replaced."""
    test = Test("norm-comments: a long comment")
    if test.lacks("tshark", "editcap"):
        return test
    octets = capture_of([*opening(60000), segment("> PA 1000,5001 " + "a" * 30000),
                         segment("> PA 1000,5001 " + "ab" * 15000)])
    one = normed(asked, folder, "long", write(os.path.join(folder, "long.pcap"), octets))
    done, target = commented(asked, folder, one)
    shown = comments_in(folder, target)
    test.same("status", 0, done.returncode)
    test.same("the report", True, "5 in fix 1 T_CLASH @1\n" in one.text)
    last = shown[-1] if shown else ""
    test.same("the comment", (["", "", "", ""], True, 60003),
              (shown[:4], last.startswith("5 ") and last.endswith(" .."), len(last)))
    return test


def test_kept(asked, folder):
    """A comment that IN, a pcapng file, has already."""
    test = Test("norm-comments: comments of IN")
    if test.lacks("tshark", "editcap"):
        return test
    given = os.path.join(folder, "kept.pcapng")
    run(["editcap", "-F", "pcapng", "-a", "4:of record 4", "-a", "5:of record 5",
         os.path.join(TOP, "examples", "overlap.pcap"), given], folder)
    done, target = commented(asked, folder, normed(asked, folder, "kept", given))
    shown = comments_in(folder, target, "-E", "aggregator=|")
    test.same("status", 0, done.returncode)
    test.same("comments", ["", "", "", "of record 4", "of record 5|5 "], [comment[:14] for comment in shown])
    return test


def test_targets(asked, folder):
    """What COMMENTED names stays, unless it is a file or nothing; each fault is a line."""
    test = Test("norm-comments: COMMENTED")
    one = normed(asked, folder, "targets", os.path.join(TOP, "examples", "overlap.pcap"))
    link, pipe = os.path.join(folder, "link"), os.path.join(folder, "pipe")
    os.symlink("elsewhere", link)
    os.mkfifo(pipe)
    for target in (link, pipe, os.path.join(folder, "nowhere", "x")):
        done = run(["env", "PATH=%s:%s" % (os.path.dirname(asked.normview), os.environ["PATH"]), PROGRAM, one.given,
                    one.out, one.report, target], folder)
        test.same(target, (1, 1), (done.returncode, len(done.stderr.splitlines())))
    test.same("a link, a pipe", (True, True), (os.path.islink(link), stat.S_ISFIFO(os.lstat(pipe).st_mode)))
    return test


TESTS = [test_comments, test_batches, test_long, test_kept, test_targets]
