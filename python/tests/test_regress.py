"""Many folders held against their expected.txt: verdicts, exit statuses, lists, parts, CSV and JUnit."""

import csv
import re
import shutil
import subprocess
import sys
from unittest import mock
from xml.etree import ElementTree

from vigambul import build, regression

from .support import EXAMPLES, Case, vig

NAMES = ("chain-of-three", "diamond", "printed-log", "refused", "refused-calls", "single-class", "two-tenants", "two-tenants-busy")


def without_seconds(text):
    return re.sub(r" +[0-9]+\.[0-9]{2}$", "", text, flags=re.MULTILINE)


class Regress(Case):
    def copies(self, *names):
        """Folders of examples to spoil."""
        for name in names:
            folder = self.room / name
            folder.mkdir()
            for file in ("policy.bin", "trace.bin", "expected.txt"):
                shutil.copy(EXAMPLES / name / file, folder / file)
        return self.room

    def spoiled(self):
        """One folder of each verdict."""
        self.copies(*NAMES[1:])
        lines = (self.room / "diamond" / "expected.txt").read_text().splitlines(keepends=True)
        (self.room / "diamond" / "expected.txt").write_text("".join(lines[:4]) + "00000000 00000000 00000000 00000101\n" + "".join(lines[5:]))
        (self.room / "refused" / "expected.txt").unlink()
        (self.room / "single-class" / "expected.txt").unlink()
        with open(self.room / "two-tenants" / "expected.txt", "a") as file:
            file.write("00000000 00000000 00000000 00000000\n")
        (self.room / "two-tenants-busy" / "policy.bin").write_bytes(b"")
        return self.room

    def list(self, *lines):
        path = self.room / "list.txt"
        path.write_text("\n".join(lines) + "\n")
        return path

    def test_the_examples(self):
        """Each example is as its expected.txt says."""
        out = self.succeeds("regress", EXAMPLES, "-j", 2)
        rows = {}
        for line in without_seconds(out).splitlines()[1:]:
            folder, *rest = re.split("  +", line)
            rows[folder.rsplit("/", 1)[1]] = rest
        self.assertEqual(list(rows), sorted(path.parent.name for path in EXAMPLES.glob("*/policy.bin")))
        self.assertEqual({row[0] for name, row in rows.items() if name != "refused"}, {"same"})
        self.assertEqual(rows["refused"], ["refused 5 as expected", "0", "0", "0"])
        # Document 01's log has one offer and three ticks; refused-calls has 10 refused lines, with 9, 10, 11 and 14.
        self.assertEqual(rows["printed-log"], ["same", "3", "1", "0"])
        self.assertEqual(rows["refused-calls"], ["same", "12", "10", "10"])

    def test_verdicts(self):
        """The same rows in the same order with one run at a time and with two."""
        path = self.list("# nightly", "", "d*", "  two-tenants", "refused", "single-class", "printed-log", "two-tenants-busy", "refused-calls")
        self.spoiled()
        for jobs in (1, 2):
            status, out, err = vig("regress", path, "-j", jobs)
            self.assertEqual(status, 1)
            self.stored("regress.txt", without_seconds(out))
            self.assertEqual(err, "7 folders: 2 as expected, 4 failed, 1 without expected.txt\n")

    def test_csv(self):
        self.spoiled()
        status, _, _ = vig("regress", self.room, "-j", 1, "--csv", self.room / "rows.csv")
        self.assertEqual(status, 1)
        with open(self.room / "rows.csv", newline="") as file:
            rows = {row["folder"].rsplit("/", 1)[1]: row for row in csv.DictReader(file)}
        self.assertEqual(list(rows), sorted(NAMES[1:]))
        self.assertEqual({name for name, row in rows.items() if row["passed"] == "no"}, {"diamond", "refused", "two-tenants", "two-tenants-busy"})
        diamond = rows["diamond"]
        self.assertEqual((diamond["verdict"], diamond["line"], diamond["expected"]), ("differs", "5", "00000000 00000000 00000000 00000101"))
        self.assertEqual(diamond["got"], (EXAMPLES / "diamond" / "expected.txt").read_text().splitlines()[4])
        self.assertEqual((rows["printed-log"]["ticks"], rows["printed-log"]["offers_taken"], rows["printed-log"]["line"]), ("3", "1", ""))
        self.assertTrue(all(float(row["seconds"]) > 0 for row in rows.values()))

    def test_junit(self):
        self.spoiled()
        status, _, _ = vig("regress", self.room, "-j", 2, "--junit", self.room / "rows.xml")
        self.assertEqual(status, 1)
        root = ElementTree.parse(self.room / "rows.xml").getroot()
        (suite,) = root
        self.assertEqual((root.tag, suite.tag), ("testsuites", "testsuite"))
        self.assertEqual([suite.get(name) for name in ("tests", "failures", "errors", "skipped")], ["7", "4", "0", "1"])
        cases = {case.get("name").rsplit("/", 1)[1]: case for case in suite}
        self.assertTrue(all(float(case.get("time")) >= 0 for case in cases.values()))
        self.assertEqual({name for name, case in cases.items() if case.find("failure") is not None}, {"diamond", "refused", "two-tenants", "two-tenants-busy"})
        self.assertEqual([name for name, case in cases.items() if case.find("skipped") is not None], ["single-class"])
        self.assertIn("line 5: expected 00000000 00000000 00000000 00000101", cases["diamond"].find("failure").text)
        self.assertEqual(cases["refused"].find("failure").get("message"), "refused 5")

    def test_line_ends_and_signs(self):
        """A difference that cannot be seen is shown sign by sign, and is well-formed in XML."""
        self.copies("printed-log")
        expected = self.room / "printed-log" / "expected.txt"
        expected.write_bytes(expected.read_bytes().replace(b"\n", b"\r\n").replace(b"status", b"\x00tatus"))
        status, out, _ = vig("regress", self.room, "--junit", self.room / "rows.xml")
        self.assertEqual(status, 1)
        self.assertIn("line 1: expected '\\x00tatus command answer turn\\r\\n'\n", out)
        ElementTree.parse(self.room / "rows.xml")

    def test_a_difference_far_down(self):
        """More lines than are read at a time; the first of two lines that differ is told."""
        folder = self.copies("printed-log") / "printed-log"
        (folder / "trace.bin").write_bytes(bytes(4 * 70_000))
        lines = subprocess.run([build.program()], cwd=folder, stdout=subprocess.PIPE, text=True, check=True).stdout.splitlines()
        got, planted = lines[60_000], "00000000 00000000 00000000 00000105"
        lines[60_000] = lines[69_000] = planted
        (folder / "expected.txt").write_text("\n".join(lines) + "\n")
        status, out, _ = vig("regress", self.room)
        self.assertEqual(status, 1)
        self.assertRegex(out, "differs +70000 +0 +0 ")
        self.assertEqual(out.splitlines()[2:], ["    line 60001: expected " + planted, "    line 60001: got      " + got])

    def test_the_last_line_differs(self):
        folder = self.copies("refused-calls") / "refused-calls"
        expected = folder / "expected.txt"
        expected.write_text(expected.read_text().replace("trace ends inside a word\n", ""))
        status, out, _ = vig("regress", self.room)
        self.assertEqual(status, 1)
        self.assertIn("expected no line\n", out)
        self.assertIn("got      trace ends inside a word\n", out)

    def test_parts(self):
        """Each folder is in one of the parts."""
        folder, names = self.copies(*NAMES), []
        for part in ("1/3", "2/3", "3/3"):
            out = self.succeeds("regress", folder, "--part", part, "-j", 1)
            names.append([line.split()[0].rsplit("/", 1)[1] for line in out.splitlines()[1:]])
        self.assertEqual(names, [list(NAMES[start::3]) for start in range(3)])
        self.assertEqual(len(self.succeeds("regress", folder, "--part", "9/9").splitlines()), 1)
        for part in ("0/3", "4/3", "3", "a/b", "1/0"):
            self.assertIn("--part %s: K/N is wanted" % part, self.fails(2, "regress", EXAMPLES, "--part", part))

    def test_what_is_missing_is_told_before_the_runs(self):
        self.copies("diamond", "printed-log")
        (self.room / "printed-log" / "trace.bin").unlink()
        path = self.list("diamond", "nix", "printed-log", "n*", "list.txt")
        status, out, err = vig("regress", path)
        self.assertEqual((status, out), (2, ""))
        self.assertEqual(
            err.splitlines(),
            [
                "vig: %s, line 2: nix: no such folder" % path,
                "     %s, line 3: printed-log: no trace.bin in it" % path,
                "     %s, line 4: n*: no folder with a policy.bin fits this pattern" % path,
                "     %s, line 5: list.txt: no such folder" % path,
            ],
        )

    def test_patterns_and_a_single_folder(self):
        """A pattern may be any: what fits nothing is told. A folder that is a run itself is a list of one."""
        self.copies("diamond", "printed-log", "single-class")
        for pattern, names in (
            ("d*", ["diamond"]),
            ("[ps]*", ["printed-log", "single-class"]),
            ("**", ["diamond", "printed-log", "single-class"]),
            ("%s/s?ngle-*" % self.room, [str(self.room / "single-class")]),
        ):
            out = self.succeeds("regress", self.list(pattern), "-j", 1)
            self.assertEqual([line.split()[0] for line in out.splitlines()[1:]], names)
        for pattern in ("***x", "[", "/nix*"):
            self.assertIn("no folder with a policy.bin fits this pattern", self.fails(2, "regress", self.list(pattern)))
        out = self.succeeds("regress", self.room / "diamond")
        self.assertEqual([line.split()[:2] for line in out.splitlines()[1:]], [[str(self.room / "diamond"), "same"]])

    def test_wrong_usage(self):
        self.assertIn("nix: no such file", self.fails(2, "regress", self.room / "nix"))
        self.assertIn("no folder with a policy.bin in it", self.fails(2, "regress", self.room))
        self.assertIn("-j 0: a number from 1 on is wanted", self.fails(2, "regress", EXAMPLES, "-j", 0))
        self.assertIn("no such folder to write to", self.fails(2, "regress", EXAMPLES, "--csv", self.room / "nix" / "rows.csv"))
        self.assertIn("a folder, where a file is to be written", self.fails(2, "regress", EXAMPLES, "--junit", self.room))
        self.assertIn("nothing in it to run", self.fails(2, "regress", self.list("# nothing")))

    def test_a_run_that_cannot_be_made(self):
        """A folder that goes after the list was read is an error, not a difference."""
        row = regression.run_one("/bin/true", "gone", self.room / "gone")
        self.assertEqual((row.verdict, row.passed), ("error: No such file or directory", False))
        self.copies("printed-log")
        with mock.patch.object(regression, "run_one", lambda program, name, folder: row):
            status, _, _ = vig("regress", self.room, "-j", 1, "--junit", self.room / "rows.xml")
        self.assertEqual(status, 2)
        self.assertEqual(ElementTree.parse(self.room / "rows.xml").getroot().get("errors"), "1")

    def test_a_program_that_is_cut_short(self):
        """As where memory runs out: inside a line, or between two."""
        folder, program = self.copies("printed-log") / "printed-log", self.room / "program"
        for last, verdict in (("0000", "error: the program was cut short inside a line"), ("", "error: the program ended with -9")):
            program.write_text("#!/bin/sh\necho status command answer turn\nprintf '%s'\nkill -9 $$\n" % last)
            program.chmod(0o755)
            row = regression.run_one(program, "cut", folder)
            self.assertEqual((row.verdict, row.passed), (verdict, False))

    def test_progress_on_a_terminal(self):
        with mock.patch.object(sys.stderr, "isatty", lambda: True, create=True):
            progress = regression.Progress(4)
        self.assertTrue(progress.terminal)
        with mock.patch.object(sys, "stderr") as stderr:
            progress.step(regression.Row("a", "same", True, True))
            progress.step(regression.Row("b", "differs", False, True))
        written = [call.args[0] for call in stderr.write.call_args_list]
        self.assertTrue(written[-1].startswith("\r\033[K[%s] 2 of 4 folders, 1 failed, " % ("#" * 15 + "." * 15)), written)
