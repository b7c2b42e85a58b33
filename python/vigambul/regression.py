"""Many folders run by the proved program, each held against its expected.txt, over all cores. The runs share nothing, so a list can be cut into parts for several machines."""

import csv
import glob
import io
import os
import subprocess
import sys
import threading
import time
from concurrent.futures import ProcessPoolExecutor
from concurrent.futures.process import BrokenProcessPool
from dataclasses import dataclass
from itertools import islice
from pathlib import Path
from xml.etree import ElementTree

from .errors import Wrong
from .folders import read_file
from .formats import REFUSALS, differ_in_walk, walk_of, words_of
from .history import ticks_of
from .lines import CUT_TRACE, MANY, numbers_of, refusal_of
from .words import ONLY_IN_WALK

EXPECTED = "expected.txt"
NEEDED = ("policy.bin", "trace.bin")
# Seconds between two words on how far it is, where standard error is no terminal.
NOW_AND_THEN = 10
BAR = 30


@dataclass
class Row:
    """What came of a folder. `refusal` is the number that refuses its policy; `line` is the first line that differs from expected.txt, counted from 1, with both sides."""

    folder: str
    verdict: str
    passed: bool
    checked: bool
    ticks: int = 0
    taken: int = 0
    refused: int = 0
    seconds: float = 0.0
    refusal: int = None
    line: int = None
    expected: str = ""
    got: str = ""

    @property
    def faults(self):
        """What is to be told of a folder that fails: what its refusal means, and the first differing line with both sides."""
        told = []
        if self.refusal is not None and not self.passed:
            told.append("refused %d: %s" % (self.refusal, REFUSALS[self.refusal].when))
        if self.line is not None:
            told += ["line %d: expected %s" % (self.line, self.expected), "line %d: got      %s" % (self.line, self.got)]
            expected, got = (numbers_of([line.encode()]) for line in (self.expected, self.got))
            if expected and got and expected[:3] == got[:3] and differ_in_walk(expected[3], got[3]):
                told.append("line %d: the two differ %s: %d expected, %d got" % (self.line, ONLY_IN_WALK, walk_of(expected[3]), walk_of(got[3])))
        return told


# The list


def folders_of(path):
    """The folders of a list, as pairs of what the list calls them and where they are: the lines of a file, the folders with a policy.bin in a folder, or that folder if it has
    one itself. All that is missing is told at once, before anything runs."""
    path = Path(path)
    if path.is_dir():
        inside = [path] if _is_run(path) else filter(_is_run, sorted(path.iterdir()))
        found = [(str(folder), folder) for folder in inside]
        faults = [] if found else ["%s: no folder with a policy.bin in it" % path]
        faults += [fault for name, folder in found if (fault := _fault(name, folder))]
    else:
        found, faults = _listed(path)
    if faults:
        raise Wrong("\n     ".join(faults))
    if not found:
        raise Wrong("%s: nothing in it to run" % path)
    return found


def _listed(path):
    """The folders that a file lists, relative to the folder it is in, and what is wrong with its lines."""
    found, faults = [], []
    text = read_file(path).decode("utf-8", "backslashreplace")
    for number, line in enumerate(text.splitlines(), 1):
        name = line.strip()
        if not name or name.startswith("#"):
            continue
        folders = _named(name, path.parent)
        wrong = [fault for called, folder in folders if (fault := _fault(called, folder))]
        if not folders:
            wrong = ["%s: no folder with a policy.bin fits this pattern" % name]
        found += folders
        faults += ["%s, line %d: %s" % (path, number, fault) for fault in wrong]
    return found, faults


def _named(name, room):
    """The folders that a line names: one, or, of a pattern with *, ? or [, those with a policy.bin."""
    if not any(sign in name for sign in "*?["):
        return [(name, room / name)]
    folders = [Path(place) for place in glob.glob(str(Path(glob.escape(str(room))) / name), recursive=True)]
    called = str if Path(name).is_absolute() else lambda folder: os.path.relpath(folder, room)
    return [(called(folder), folder) for folder in sorted(set(folders)) if _is_run(folder)]


def _is_run(folder):
    return (folder / "policy.bin").is_file()


def _fault(name, folder):
    if not folder.is_dir():
        return "%s: no such folder" % name
    for needed in NEEDED:
        if not (folder / needed).is_file():
            return "%s: no %s in it" % (name, needed)
    return None


def part_of(found, part):
    """Every N-th folder from the K-th on, of a part K/N."""
    k, slash, n = part.partition("/")
    if not (slash and k.isdecimal() and n.isdecimal() and 1 <= int(k) <= int(n)):
        raise Wrong("--part %s: K/N is wanted, with K from 1 to N, as in 2/8" % part)
    return found[int(k) - 1 :: int(n)]


# A run


def run_one(program, name, folder):
    """Runs the program in a folder and holds what it prints against expected.txt."""
    began = time.monotonic()
    row = Row(name, "", False, (folder / EXPECTED).is_file())
    try:
        with open(folder / EXPECTED if row.checked else os.devnull, "rb") as expected, open(folder / "trace.bin", "rb") as trace:
            with subprocess.Popen([program], cwd=folder, stdin=subprocess.DEVNULL, stdout=subprocess.PIPE) as run:
                _follow(row, run.stdout, expected, trace)
        row.verdict, row.passed = _verdict(row, run.returncode)
    except OSError as error:
        row.verdict = "error: %s" % error.strerror
    except ValueError as error:
        row.verdict = "error: %s" % error
    row.seconds = time.monotonic() - began
    return row


def _follow(row, out, expected, trace):
    """Reads what the program prints, counts the calls, and notes a refusal of the policy and the first line that is not the expected one."""
    read = 0
    while True:
        got, wanted = list(islice(out, MANY)), list(islice(expected, MANY))
        if row.checked and row.line is None and got != wanted:
            _note_difference(row, got, wanted, read)
        if not got:
            return
        if read == 0:
            row.refusal = refusal_of(got[0])
        if row.refusal is None:
            _count(row, got[1:] if read == 0 else got, trace)
        read += len(got)


def _note_difference(row, got, wanted, read):
    place = next((place for place, pair in enumerate(zip(got, wanted)) if pair[0] != pair[1]), min(len(got), len(wanted)))
    row.line = read + place + 1
    row.got, row.expected = (_shown(lines, place) for lines in (got, wanted))


def _shown(lines, place):
    """A line for a message. What would look like another line though it differs, say by its end, is shown sign by sign."""
    if place >= len(lines):
        return "no line"
    text = lines[place].decode("ascii", "backslashreplace")
    plain = text.removesuffix("\n")
    return plain if plain.isprintable() and text.endswith("\n") and len(plain) <= 80 else repr(text[:80])


def _count(row, lines, trace):
    """Counts the calls of log lines: ticks that were made, offers that were taken, and what was refused."""
    if lines and lines[-1].strip() == CUT_TRACE:
        lines = lines[:-1]
    numbers = numbers_of(lines)
    if numbers is None:
        raise ValueError("the program was cut short inside a line")
    words, _ = words_of(trace.read(4 * len(lines)))
    statuses = numbers[::4]
    done = statuses.count(0)
    ticks = ticks_of(words, numbers)
    row.ticks += ticks
    row.taken += done - ticks
    row.refused += len(statuses) - done


def _verdict(row, status):
    """The verdict in words, and whether it is a pass."""
    if status < 0 or status > 1:
        return "error: the program ended with %d" % status, False
    same = row.checked and row.line is None
    if row.refusal is not None:
        return ("refused %d as expected" % row.refusal, True) if same else ("refused %d" % row.refusal, False)
    if not row.checked:
        return "no %s" % EXPECTED, True
    return ("same", True) if same else ("differs", False)


# Many runs


class Progress:
    """How far it is, on standard error: a bar on a terminal, else a line now and then."""

    def __init__(self, total):
        self.total, self.done, self.failed = total, 0, 0
        self.began = self.told = time.monotonic()
        self.terminal = sys.stderr.isatty()
        # Runs end while rows are written.
        self.lock = threading.Lock()

    def step(self, row):
        with self.lock:
            self.done += 1
            self.failed += not row.passed
            if self.terminal:
                self._bar()
            elif time.monotonic() - self.told >= NOW_AND_THEN:
                self.told = time.monotonic()
                print(self._words(), file=sys.stderr)

    def _words(self):
        return "%d of %d folders, %d failed, %d s" % (self.done, self.total, self.failed, time.monotonic() - self.began)

    def _bar(self):
        full = BAR * self.done // self.total
        sys.stderr.write("\r\033[K[%s%s] %s" % ("#" * full, "." * (BAR - full), self._words()))
        sys.stderr.flush()

    def write(self, text):
        """Writes a row to standard output; the bar makes room for it, and goes with the last."""
        with self.lock:
            if self.terminal:
                sys.stderr.write("\r\033[K")
                sys.stderr.flush()
            print(text, flush=True)
            if self.terminal and self.done < self.total:
                self._bar()


def run_all(program, found, jobs, progress):
    """The rows of folders in the order of the list, as they come."""
    if jobs == 1 or len(found) <= 1:
        for name, folder in found:
            row = run_one(program, name, folder)
            progress.step(row)
            yield row
        return
    with ProcessPoolExecutor(min(jobs, len(found))) as pool:
        runs = [pool.submit(run_one, program, name, folder) for name, folder in found]
        for run in runs:
            run.add_done_callback(lambda done: done.cancelled() or done.exception() or progress.step(done.result()))
        try:
            for run in runs:
                yield run.result()
        except BrokenProcessPool:
            raise Wrong("a run was ended from outside, and the others with it; with a lower -j less memory is used at a time") from None
        finally:
            pool.shutdown(wait=True, cancel_futures=True)


# What is written


TABLE = "%-*s  %-22s %10s %10s %10s %8s"
COLUMNS = ("folder", "verdict", "ticks", "taken", "refused", "seconds")


def heading(width):
    return TABLE % (width, *COLUMNS)


def line_of_row(row, width):
    """A row as a line of a table; what is to be told of a failure stands below it."""
    line = TABLE % (width, row.folder, row.verdict, row.ticks, row.taken, row.refused, "%.2f" % row.seconds)
    return "\n    ".join([line, *row.faults])


def csv_of(rows):
    """One row each, with the first differing line where there is one."""
    text = io.StringIO()
    table = csv.writer(text, lineterminator="\n")
    table.writerow(["folder", "verdict", "passed", "ticks", "offers_taken", "refused", "seconds", "line", "expected", "got"])
    for row in rows:
        line = "" if row.line is None else row.line
        table.writerow([row.folder, row.verdict, "yes" if row.passed else "no", row.ticks, row.taken, row.refused, "%.3f" % row.seconds, line, row.expected, row.got])
    return text.getvalue()


def junit_of(rows, suite):
    """JUnit's XML: a testcase for each folder. One without expected.txt that ran is reported as skipped, since nothing was checked."""
    errors = sum(map(is_error, rows))
    counts = {"tests": len(rows), "failures": sum(not row.passed for row in rows) - errors, "errors": errors, "skipped": sum(map(unchecked, rows))}
    figures = {name: str(count) for name, count in counts.items()}
    figures["time"] = "%.3f" % sum(row.seconds for row in rows)
    root = ElementTree.Element("testsuites", figures)
    tests = ElementTree.SubElement(root, "testsuite", {"name": suite, **figures})
    for row in rows:
        case = ElementTree.SubElement(tests, "testcase", {"classname": suite, "name": row.folder, "time": "%.3f" % row.seconds})
        if unchecked(row):
            ElementTree.SubElement(case, "skipped", {"message": row.verdict})
        elif not row.passed:
            kind = "error" if is_error(row) else "failure"
            ElementTree.SubElement(case, kind, {"message": row.verdict, "type": kind}).text = "\n".join(row.faults)
    ElementTree.indent(root)
    return ElementTree.tostring(root, encoding="unicode", xml_declaration=True) + "\n"


def is_error(row):
    """Whether a run could not be made."""
    return row.verdict.startswith("error")


def unchecked(row):
    return row.passed and not row.checked
