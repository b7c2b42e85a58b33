"""The ledger: a line for each comparison of the block with the model, a JSON object with the date, the folder, the block's log, the hashes of policy and trace, the cycles that
the model ticked, and the first and the last cycle in which the two differed, or null. The streak is read off it."""

import fcntl
import json
import os
from dataclasses import asdict, dataclass, fields
from datetime import datetime, timezone
from pathlib import Path

from .errors import Wrong

DEFAULT = Path("vig-ledger.jsonl")


@dataclass(frozen=True)
class Entry:
    """A comparison. Folder and log are relative to the ledger's folder where they are inside it."""

    date: str
    folder: str
    log: str
    policy: str
    trace: str
    cycles: int
    first: int = None
    last: int = None

    @property
    def differs(self):
        return self.last is not None

    @property
    def adds(self):
        """The cycles at its end in which nothing differed."""
        return max(0, self.cycles - self.last - 1) if self.differs else self.cycles

    def line(self):
        return json.dumps(asdict(self)) + "\n"


def now():
    """The date of an entry."""
    return datetime.now(timezone.utc).strftime("%Y-%m-%dT%H:%M:%SZ")


def streak(entries):
    """The cycles since the block last differed, over all entries."""
    cycles = 0
    for entry in entries:
        cycles = entry.adds if entry.differs else cycles + entry.adds
    return cycles


def counted_on(entries):
    """The entries whose cycles the streak is made of: those since the last difference, and the equal end of the entry that has it."""
    counted = []
    for entry in entries:
        if entry.differs:
            counted = []
        if entry.adds:
            counted.append(entry)
    return counted


def _count(value):
    return isinstance(value, int) and not isinstance(value, bool) and value >= 0


def _fault(value):
    """What is wrong with a line's value; None where it is an entry."""
    if not isinstance(value, dict):
        return "not an object"
    for field in fields(Entry):
        if field.name not in value:
            return "%s is missing" % field.name
    for name in ("date", "folder", "log", "policy", "trace"):
        if not isinstance(value[name], str):
            return "%s is not a text" % name
    if not _count(value["cycles"]):
        return "cycles is not a number from 0 on"
    first, last = value["first"], value["last"]
    if (first is None) != (last is None):
        return "one of first and last is null"
    if first is not None and not (_count(first) and _count(last) and first <= last):
        return "first and last are not two cycles in this order"
    return None


def _entry(line, path, number):
    try:
        value = json.loads(line)
        fault = _fault(value)
    except (ValueError, RecursionError):
        fault = "not JSON"
    if fault:
        raise Wrong("%s, line %d: this line of the ledger is damaged (%s); mend it or take it out, nothing was added" % (path, number, fault))
    return Entry(**{field.name: value[field.name] for field in fields(Entry)})


def _entries(data, path):
    return [_entry(line, path, number) for number, line in enumerate(data.split(b"\n"), 1) if line.strip()]


def read(path):
    """The entries of a ledger; none where there is no file yet."""
    path = Path(path)
    try:
        return _entries(path.read_bytes(), path)
    except FileNotFoundError:
        return []
    except OSError as error:
        raise Wrong("%s: %s" % (path, error.strerror)) from None


def append(path, entry):
    """Adds an entry and hands back all. The file is locked meanwhile, and what could only be written in part is taken back: a ledger has whole lines, whoever else adds some."""
    try:
        with open(path, "a+b") as file:
            fcntl.flock(file, fcntl.LOCK_EX)
            file.seek(0)
            data = file.read()
            entries = _entries(data, path)
            line = (b"" if not data or data.endswith(b"\n") else b"\n") + entry.line().encode()
            try:
                whole = os.write(file.fileno(), line) == len(line)
            except OSError:
                whole = False
            if not whole:
                os.ftruncate(file.fileno(), len(data))
                raise Wrong("%s: the entry could not be written, and nothing was added" % path)
            os.fsync(file.fileno())
    except OSError as error:
        raise Wrong("%s: %s" % (path, error.strerror)) from None
    return [*entries, entry]


def name_beside(path, ledger):
    """How a file or a folder is called in a ledger: relative to the ledger's folder where it is inside it, else by its whole path."""
    path, room = Path(path).resolve(), Path(ledger).resolve().parent
    return str(path.relative_to(room)) if path.is_relative_to(room) else str(path)


def place_of(name, ledger):
    """Where a file or folder of an entry is."""
    return Path(ledger).resolve().parent / name
