"""Runs programs on IN, and shows how far they have read it."""

import os
import shutil
import signal
import subprocess
import sys
import tempfile
import threading
import time

from .words import Refused

# The processes that run, so that an end of norm-run ends them.
RUNNING = []

INTERVAL = 0.5


def program(name):
    """Returns the path of norm, normaudit or normview: beside norm-run, or else on the path."""
    beside = os.path.join(os.path.dirname(os.path.realpath(sys.argv[0])), name)
    path = beside if os.access(beside, os.X_OK) and os.path.isfile(beside) else shutil.which(name)
    if path is None:
        raise Refused(5, "the program %s is neither beside norm-run nor on the path" % name)
    return path


def end_all():
    for process in RUNNING:
        if process.poll() is None:
            process.kill()
            process.wait()


def in_units(octets):
    """Returns a number of octets with a unit."""
    for unit in ("octets", "KB", "MB", "GB"):
        if octets < 1000:
            break
        octets /= 1000
    else:
        unit = "TB"
    return "%d %s" % (octets, unit) if unit == "octets" else "%.1f %s" % (octets, unit)


def position_in(process, path):
    """Returns how many octets of a file a process has read, or None."""
    try:
        folder = "/proc/%d/fd" % process.pid
        for number in os.listdir(folder):
            if os.readlink(os.path.join(folder, number)) == path:
                with open("/proc/%d/fdinfo/%s" % (process.pid, number), encoding="ascii") as file:
                    return int(file.readline().split()[1])
    except (OSError, ValueError, IndexError):
        pass
    return None


class Progress:
    """A line on a terminal that shows how far IN is read, and nothing elsewhere."""

    def __init__(self, wanted):
        self.is_shown = wanted and sys.stderr.isatty()
        self.began = time.monotonic()

    def begin(self):
        self.began = time.monotonic()

    def show(self, what, octets, size=None):
        if not self.is_shown:
            return
        seconds = max(time.monotonic() - self.began, 0.001)
        text = "%s: %s" % (what, in_units(octets))
        if size:
            text += " of %s" % in_units(size)
        text += ", %s/s" % in_units(octets / seconds)
        if size and 0 < octets <= size and seconds > 1:
            left = int((size - octets) * seconds / octets)
            text += ", %d:%02d left" % divmod(left, 60)
        print("\r\033[K" + text, end="", file=sys.stderr, flush=True)

    def clear(self):
        if self.is_shown:
            print("\r\033[K", end="", file=sys.stderr, flush=True)

    def watch(self, what, process, path, ended):
        """Shows the position of a process in IN until it has ended."""
        size, path = os.path.getsize(path), os.path.realpath(path)
        while not ended.wait(INTERVAL):
            octets = position_in(process, path)
            if octets:
                self.show(what, octets, size)
        self.clear()


def start_pipe(opened, words, output, errors):
    """Starts the commands that open IN, and the program that reads it; returns the processes."""
    started, source = [], None
    for command, error in zip([*opened.commands, words], errors):
        last = command is words
        started.append(subprocess.Popen(command, stdin=source or subprocess.DEVNULL, stderr=error,
                                        stdout=output if last else subprocess.PIPE))
        RUNNING.append(started[-1])
        if source:
            source.close()
        source = started[-1].stdout
    return started


def run_on(opened, words, output, progress, what):
    """Runs a program on IN, the word `IN` of its words, and gives its output to a file or, by
    lines, to a function. Returns its status and what it printed on standard error."""
    words = [("/dev/stdin" if opened.commands else opened.path) if it == "IN" else it for it in words]
    errors = [tempfile.TemporaryFile() for _ in range(len(opened.commands) + 1)]
    ended = threading.Event()
    to_function = callable(output)
    try:
        started = start_pipe(opened, words, subprocess.PIPE if to_function else output, errors)
        progress.begin()
        watcher = threading.Thread(target=progress.watch, args=(what, started[0], opened.path, ended), daemon=True)
        if progress.is_shown:
            watcher.start()
        if to_function:
            for line in started[-1].stdout:
                output(line.decode("utf-8", "replace").rstrip("\n"))
        status = started[-1].wait()
        ended.set()
        if progress.is_shown:
            watcher.join()
        said = [text_of(it) for it in errors]
        check_pipe(opened, started, said, status)
    finally:
        ended.set()
        end_all()
        RUNNING.clear()
        for it in errors:
            it.close()
    if status < 0:
        raise Refused(128 - status, "%s was ended by %s" % (os.path.basename(words[0]), signal.Signals(-status).name))
    return status, said[-1]


def text_of(file):
    file.seek(0)
    return file.read().decode("utf-8", "replace").strip()


def check_pipe(opened, started, said, status):
    """Refuses where a program that opened IN failed and the one that read it did not notice."""
    for process, words, text in zip(started, opened.commands, said):
        failed = process.wait() != 0
        name, last = os.path.basename(words[0]), text.splitlines()[-1:]
        if status != 0 or not failed and "cut short" not in text:
            continue
        if not opened.repair:
            raise Refused(5 if failed else 4,
                          "%s: %s (--repair reads what is whole)" % (opened.path, "".join(last) or name))
        opened.note("%s read what is whole: %s" % (name, "".join(last)) if failed
                    else "editcap left out the cut record at the end")
