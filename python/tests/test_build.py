"""What the first call does: it builds what is missing, says how far it is, and builds once, however many calls there are. The kit's rt and gcc are played by scripts here."""

import contextlib
import io
import os
import tempfile
import threading
import unittest
from pathlib import Path
from unittest import mock

from vigambul import build
from vigambul.errors import Wrong

RT = """#!/bin/sh
echo "$@ in ${PWD##*/}" >> "$LOG"
mkdir -p out
proved() { echo "rt: chose --jobs 2 for $1"; echo "fn $1::f: proved"; echo "logic=proved functions=1"; }
case $1 in
lib) proved policy; sleep 0.3; proved capi; echo archive > out/libcapi.a;;
run) proved vigambul; echo program > out/vigambul;;
esac
exit "${RT_STATUS:-0}"
"""
GCC = """#!/bin/sh
while [ "$1" != -o ]; do shift; done
echo library > "$2"
"""


class FirstCall(unittest.TestCase):
    def setUp(self):
        room = tempfile.TemporaryDirectory()
        self.addCleanup(room.cleanup)
        self.root = Path(room.name)
        (self.root / "crates.txt").write_text("policy:\ncapi staticlib: policy\nvigambul: policy anyhow\n")
        for name in ("policy", "capi", "vigambul"):
            (self.root / "crates" / name).mkdir(parents=True)
            (self.root / "crates" / name / "lib.rt").write_text(name)
        tools = self.root / "tools"
        tools.mkdir()
        for name, text in (("rt", RT), ("gcc", GCC)):
            (tools / name).write_text(text)
            (tools / name).chmod(0o755)
        self.calls = self.root / "calls"
        built = self.root / "target" / "vig"
        places = {"ROOT": self.root, "BUILT": built, "SHARED": built / "libvigambul.so", "PROGRAM": built / "vigambul", "STAMP": built / "sources"}
        self.enter(mock.patch.multiple(build, **places))
        self.enter(mock.patch.dict(os.environ, {"PATH": "%s:%s" % (tools, os.environ["PATH"]), "LOG": str(self.calls)}))

    def enter(self, patch):
        patch.start()
        self.addCleanup(patch.stop)

    def ensure(self):
        """What a call says on standard error as it makes sure that all is built. The function looks once in a process, which is gone past here."""
        err = io.StringIO()
        with contextlib.redirect_stderr(err):
            build.ensure.__wrapped__()
        return err.getvalue()

    def asked(self):
        """What rt was asked for."""
        return self.calls.read_text().splitlines() if self.calls.is_file() else []

    def test_builds_what_is_missing_and_no_more(self):
        lines = self.ensure().splitlines()
        self.assertEqual(lines[0], "building the proved library and program, some minutes the first time")
        steps = ["%d of at most 3 crates proved: now %s" % (done + proved, name) for done, name in enumerate(("policy", "capi", "vigambul")) for proved in (0, 1)]
        self.assertEqual([line.partition(", ")[0] for line in lines[1:]], steps)
        self.assertEqual((build.SHARED.read_text(), build.PROGRAM.read_text()), ("library\n", "program\n"))
        self.assertEqual(self.asked(), ["lib in capi", "run in vigambul"])
        self.assertEqual(self.ensure(), "")
        self.assertEqual(len(self.asked()), 2)

    def test_builds_anew_when_a_source_has_changed(self):
        self.ensure()
        (self.root / "crates" / "policy" / "lib.rt").write_text("other")
        self.assertIn("building", self.ensure())
        self.assertEqual(len(self.asked()), 4)

    def test_what_fails_leaves_nothing_that_looks_built(self):
        with mock.patch.dict(os.environ, {"RT_STATUS": "1"}), self.assertRaises(Wrong) as failed:
            self.ensure()
        self.assertIn("rt lib in crates/capi failed; %s has what it said" % (build.BUILT / "build.log"), str(failed.exception))
        self.assertFalse(build.SHARED.exists() or build.STAMP.exists())

    def test_without_rt(self):
        """What is built is used, with a word if it is old; without anything built the message says what is missing."""
        with mock.patch.object(build.shutil, "which", lambda name: None), self.assertRaisesRegex(Wrong, "rt is not on the path"):
            self.ensure()
        self.ensure()
        (self.root / "crates.txt").write_text("policy:\ncapi staticlib: policy\nvigambul: policy\n")
        with mock.patch.object(build.shutil, "which", lambda name: None):
            self.assertIn("the library is used as it is", self.ensure())

    def test_two_calls_at_once_build_once(self):
        calls = [threading.Thread(target=build.ensure.__wrapped__) for _ in range(2)]
        err = io.StringIO()
        with contextlib.redirect_stderr(err):
            for call in calls:
                call.start()
            for call in calls:
                call.join()
        self.assertEqual(self.asked(), ["lib in capi", "run in vigambul"])
        self.assertIn("another call is building the proved library; this one waits for it", err.getvalue())
