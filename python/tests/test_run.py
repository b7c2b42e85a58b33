"""`vig run`: the program's lines, the same in words, and the summary."""

import shutil
from collections import Counter
from unittest import mock

from vigambul import build
from vigambul.commands.run import summary
from vigambul.formats import bytes_of, words_of

from .support import EXAMPLES, Case, vig

TAKEN = sorted(path.parent for path in EXAMPLES.glob("*/policy.bin") if path.parent.name != "refused")


class Run(Case):
    def folder(self, name, trace):
        """A folder with an example's policy and names, and a trace of its own, or none."""
        for file in ("policy.bin", "policy.names"):
            shutil.copy(EXAMPLES / name / file, self.room)
        if trace is not None:
            (self.room / "trace.bin").write_bytes(trace)
        return self.room

    def test_lines(self):
        for folder in TAKEN:
            with self.subTest(folder.name):
                self.assertEqual(self.succeeds("run", folder), (folder / "expected.txt").read_text())

    def test_words(self):
        for folder in TAKEN:
            with self.subTest(folder.name):
                status, out, err = vig("run", folder, "--words")
                self.assertEqual(status, 0)
                self.stored("run/%s.txt" % folder.name, out)
                # As many lines as the program prints below its header.
                self.assertEqual(out.count("\n"), (folder / "expected.txt").read_text().count("\n") - 1)
                self.assertEqual(err, vig("run", folder)[2])

    def test_home_turns_in_words(self):
        """Turn 1 of the cloud is no home turn; red leaves its home turn 2 to keys, and owns its home turn 10."""
        lines = self.succeeds("run", EXAMPLES / "cloud", "--words").splitlines()
        starts = dict(line.split(": turn of ") for line in lines if ": turn of " in line)
        for cycle, words in ((18, "red, walk of 2, dead time dropped"), (36, "keys, home turn of red, walk of 2, dead time kept"), (180, "red, its home turn, dead time dropped")):
            self.assertEqual(starts["cycle %d" % cycle].partition(";")[0], words)

    def test_passing_in_words(self):
        """Behind the busy bank: who passes how many older ones; the others say nothing of it."""
        lines = self.succeeds("run", EXAMPLES / "busy-bank", "--words").splitlines()
        self.assertEqual(
            [line for line in lines if "passing" in line],
            [
                "cycle 10: turn of graphics, its home turn, dead time kept; activate graphics read bank 4 tag 2, passing 1 older",
                "cycle 12: activate graphics read bank 5 tag 4, passing 2 older; answer host read bank 3 tag 2",
                "cycle 22: activate graphics write bank 7 tag 6, passing 1 older",
            ],
        )
        self.assertIn("cycle 14: activate graphics write bank 3 tag 1; answer graphics read bank 4 tag 2", lines)

    def test_summary(self):
        said = "".join("%s\n%s" % (folder.name, vig("run", folder)[2]) for folder in TAKEN)
        self.stored("run/summaries.txt", said)

    def test_refused_policy(self):
        for options in ((), ("--words",)):
            status, out, err = vig("run", EXAMPLES / "refused", *options)
            self.assertEqual((status, out), (1, "policy refused 5\n"))
            self.stored("run/refused-policy.txt", err.replace(str(EXAMPLES), "examples"))

    def test_how_the_program_ends(self):
        """With 0 or 1 it has said all that there is to say; with anything else it has not."""
        folder, program = self.folder("diamond", b""), self.room / "program"
        for code, said, status, told in (
            (1, "policy refused 5", 1, "policy refused 5: the order is not transitive"),
            (1, "status command answer turn", 0, "ticks: 0"),
            (3, "", 2, "ended with status 3"),
        ):
            program.write_text("#!/bin/sh\necho %s\nexit %d\n" % (said, code))
            program.chmod(0o755)
            with mock.patch.object(build, "program", lambda: program):
                ended, out, err = vig("run", folder)
            self.assertEqual((ended, out), (status, said + "\n"))
            self.assertIn(told, err)

    def test_empty_trace(self):
        folder = self.folder("diamond", b"")
        self.assertEqual(vig("run", folder), (0, "status command answer turn\n", "ticks: 0; offers taken: 0; refused: 0\n"))
        self.assertEqual(vig("run", folder, "--words"), (0, "", "ticks: 0; offers taken: 0; refused: 0\n"))

    def test_cut_trace(self):
        folder = self.folder("diamond", b"\0\0\0")
        status, out, err = vig("run", folder)
        self.assertEqual((status, out), (0, "status command answer turn\ntrace ends inside a word\n"))
        self.assertIn("left-over bytes: 3", err)
        self.assertEqual(vig("run", folder, "--words")[1], "trace ends inside a word\n")

    def test_ticks_past_the_last(self):
        """Those are refused with 12 and count as refused; the run itself, of 16,777,218 calls, would take too long here."""
        folder = mock.Mock(trace=words_of(bytes_of([0, 0, 0, 0x80010007]))[0], left_over=0)
        self.assertEqual(list(summary(Counter({0: 2, 12: 2}), folder)), ["ticks: 1; offers taken: 1; refused: 2", "refused with 12: 2 (16,777,215 ticks have passed)"])

    def test_many_lines(self):
        folder = self.folder("printed-log", bytes_of([0x80010007]) + bytes(4 * 300_000))
        status, out, err = vig("run", folder)
        self.assertEqual((status, out.count("\n")), (0, 300_002))
        self.assertEqual(err, "ticks: 300000; offers taken: 1; refused: 0\n")

    def test_missing(self):
        self.assertEqual(self.fails(2, "run", self.room / "no"), "vig: %s: no such folder\n" % (self.room / "no"))
        self.assertEqual(self.fails(2, "run", EXAMPLES / "run"), "vig: %s: not a folder\n" % (EXAMPLES / "run"))
        folder = self.folder("diamond", None)
        self.assertEqual(self.fails(2, "run", folder), "vig: %s: no such file\n" % (folder / "trace.bin"))
        (folder / "policy.bin").unlink()
        (folder / "trace.bin").write_bytes(b"")
        self.assertEqual(self.fails(2, "run", folder, "--words"), "vig: %s: no such file\n" % (folder / "policy.bin"))

    def test_help(self):
        self.assertIn("example:", self.succeeds("run", "--help"))
