"""Finds the proved library and the proved program, and builds what is missing or older than its sources. Progress goes to standard error: which crate, how many were proved, how long.
Where they are built already the Rattle kit is not needed."""

import fcntl
import functools
import hashlib
import os
import re
import shutil
import subprocess
import sys
import threading
import time
from contextlib import contextmanager
from pathlib import Path

from .errors import Wrong
from .library import Library

ROOT = Path(__file__).resolve().parents[2]
BUILT = ROOT / "target" / "vig"
SHARED = BUILT / "libvigambul.so"
PROGRAM = BUILT / "vigambul"
STAMP = BUILT / "sources"
CRATES = ("capi", "vigambul")

# What rt says as it begins with a crate.
BEGUN = re.compile(r"rt: chose --jobs \d+ for (\w+)$")


def dependencies():
    """The crates of the repository with those that each rests on."""
    found = {}
    for line in (ROOT / "crates.txt").read_text().splitlines():
        name, colon, rest = line.partition("#")[0].partition(":")
        if colon:
            found[name.split()[0]] = rest.split()
    return {name: [other for other in rests if other in found] for name, rests in found.items()}


def needed():
    """The crates that the library and the program rest on, and these two."""
    rests, todo, reached = dependencies(), list(CRATES), []
    while todo:
        name = todo.pop()
        if name not in reached:
            reached.append(name)
            todo += rests[name]
    return sorted(reached)


def sources():
    """A fingerprint of the sources of what is needed."""
    digest = hashlib.sha256((ROOT / "crates.txt").read_bytes())
    for name in needed():
        for path in sorted((ROOT / "crates" / name).rglob("*")):
            if path.suffix in (".rt", ".antt"):
                digest.update(str(path.relative_to(ROOT)).encode() + b"\0" + path.read_bytes() + b"\0")
    return digest.hexdigest()


class Progress:
    """Says on standard error what is being built. On a terminal one line is written over and over; else each step is a line."""

    def __init__(self, total):
        self.total, self.done, self.doing, self.began = total, 0, "the sources are being read", time.monotonic()
        self.over = threading.Event()
        self.terminal = sys.stderr.isatty()
        self.ticker = threading.Thread(target=self._tick, daemon=True)
        self.ticker.start()

    def _tick(self):
        while not self.over.wait(0.5):
            if self.terminal:
                self._show()

    def _show(self):
        line = "%d of at most %d crates proved: %s, %d s in all" % (self.done, self.total, self.doing, time.monotonic() - self.began)
        sys.stderr.write("\r\033[K" + line if self.terminal else line + "\n")
        sys.stderr.flush()

    def told(self, line):
        """Looks at a line that rt says: it names a crate as it begins with it, and says of each in the end whether it is proved. Of a crate that is built already it says neither."""
        if begun := BEGUN.match(line):
            self.doing = "now %s" % begun[1]
        elif line.startswith("logic=proved "):
            self.done += 1
        else:
            return
        self._show()

    def end(self):
        self.over.set()
        self.ticker.join()
        if self.terminal:
            sys.stderr.write("\r\033[K")


def _rt(verb, name, progress, log):
    """Runs rt in the folder of a crate, hands its lines to the progress, and keeps what it says. It proves and builds what the crate rests on too, where that is not done."""
    folder = ROOT / "crates" / name
    with subprocess.Popen(["rt", verb], cwd=folder, stdin=subprocess.DEVNULL, stdout=subprocess.PIPE, stderr=subprocess.STDOUT, text=True) as run:
        for line in run.stdout:
            log.write(line)
            progress.told(line)
    if run.returncode != 0:
        raise Wrong("rt %s in crates/%s failed; %s has what it said" % (verb, name, log.name))


def _is_built():
    """Whether the library and the program are there and as new as their sources."""
    return SHARED.is_file() and PROGRAM.is_file() and STAMP.is_file() and STAMP.read_text().strip() == sources()


@contextmanager
def _alone():
    """Keeps a second call from building at the same time: it waits here, and finds everything built."""
    with open(BUILT / "lock", "w", encoding="utf-8") as lock:
        try:
            fcntl.flock(lock, fcntl.LOCK_EX | fcntl.LOCK_NB)
        except BlockingIOError:
            print("another call is building the proved library; this one waits for it", file=sys.stderr)
            fcntl.flock(lock, fcntl.LOCK_EX)
        yield


def _build():
    if shutil.which("rt") is None:
        raise Wrong("the proved library is not built, and the Rattle kit's command rt is not on the path")
    if shutil.which("gcc") is None:
        raise Wrong("gcc is not on the path: it links the proved library")
    BUILT.mkdir(parents=True, exist_ok=True)
    with _alone():
        if not _is_built():
            _build_alone()


def _build_alone():
    print("building the proved library and program, some minutes the first time", file=sys.stderr)
    fingerprint = sources()
    shared, program = (path.with_name(path.name + ".new") for path in (SHARED, PROGRAM))
    progress = Progress(len(needed()))
    try:
        with open(BUILT / "build.log", "w") as log:
            _rt("lib", "capi", progress, log)
            # It runs the program too, which answers a folder without files with a line.
            _rt("run", "vigambul", progress, log)
            archive = ROOT / "crates" / "capi" / "out" / "libcapi.a"
            link = ["gcc", "-shared", "-o", shared, "-Wl,--whole-archive", archive, "-Wl,--no-whole-archive"]
            if subprocess.run(link, stdout=log, stderr=log, check=False).returncode != 0:
                raise Wrong("gcc could not link %s; %s has what it said" % (archive, log.name))
    finally:
        progress.end()
    shutil.copy2(ROOT / "crates" / "vigambul" / "out" / "vigambul", program)
    # Each is put in its place in one step: a call that uses the old one meanwhile keeps that.
    os.replace(shared, SHARED)
    os.replace(program, PROGRAM)
    STAMP.write_text(fingerprint + "\n")


@functools.cache
def ensure():
    """Builds the library and the program unless they are there and as new as their sources; looks once in a process."""
    if _is_built():
        return
    if SHARED.is_file() and PROGRAM.is_file() and shutil.which("rt") is None:
        print("vig: the sources are newer than the built library, and rt is not on the path: the library is used as it is", file=sys.stderr)
        return
    _build()


def library():
    """The proved library, built where it is missing."""
    ensure()
    return Library(SHARED)


def program():
    """The path of the proved program, built where it is missing."""
    ensure()
    return PROGRAM


if __name__ == "__main__":
    try:
        ensure()
    except Wrong as wrong:
        sys.exit("vig: %s" % wrong)
