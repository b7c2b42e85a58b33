"""The command line as a whole, called as from a shell: pipes that close, a full disk, closed streams, names of files that are no text. None of them ends in a traceback."""

import os
import shlex
import subprocess
import sys

from vigambul.cli import COMMANDS

from .support import EXAMPLES, ROOT, Case, vig

BUSY = EXAMPLES / "two-tenants-busy"
# As in a shell: Python keeps what is written until there is enough of it.
SURROUNDINGS = {name: value for name, value in os.environ.items() if name != "PYTHONUNBUFFERED"}


def called(words, **streams):
    """The launcher, called with words."""
    streams = {"stdout": subprocess.PIPE, "stderr": subprocess.PIPE} | streams
    return subprocess.run([sys.executable, ROOT / "vig", *map(str, words)], env=SURROUNDINGS, text=True, errors="surrogateescape", check=False, **streams)


class Output(Case):
    def closed_pipe(self):
        """The end of a pipe that nobody reads."""
        read, write = os.pipe()
        os.close(read)
        self.addCleanup(os.close, write)
        return write

    def test_a_pipe_that_closes(self):
        """What was found decides the status, if the command was done before; `run` has its summary still to say."""
        calls = (
            (("--help",), 0),
            (("run", BUSY), 141),
            (("policy", "show", EXAMPLES / "refused" / "policy.bin"), 1),
        )
        for words, status in calls:
            with self.subTest(words=words):
                ended = called(words, stdout=self.closed_pipe())
                self.assertEqual(ended.returncode, status, ended.stderr)
                self.assertNotIn("Traceback", ended.stderr)
                self.assertNotIn("BrokenPipe", ended.stderr)

    def test_a_full_disk(self):
        with open("/dev/full", "w", encoding="utf-8") as full:
            ended = called(("report", BUSY), stdout=full)
        self.assertEqual((ended.returncode, ended.stderr), (2, "vig: standard output: No space left on device\n"))

    def test_closed_streams(self):
        """Where there is no standard error, messages do not turn up among the results."""
        for closing in ('"$@" >&-', '"$@" 2>&-'):
            with self.subTest(closing=closing):
                ended = subprocess.run(["sh", "-c", closing, "sh", ROOT / "vig", "run", BUSY], env=SURROUNDINGS, capture_output=True, text=True, check=False)
                self.assertEqual(ended.returncode, 0, ended.stderr)
                self.assertNotIn("Traceback", ended.stderr)
                if ended.stdout:
                    self.assertEqual(ended.stdout, (BUSY / "expected.txt").read_text())


class Words(Case):
    def folder(self, name):
        """A folder with a run in it, under a name of bytes."""
        path = os.path.join(os.fsencode(self.room), name)
        os.mkdir(path)
        for file in (b"policy.bin", b"policy.names", b"trace.bin"):
            with open(os.path.join(os.fsencode(BUSY), file), "rb") as source, open(os.path.join(path, file), "wb") as copy:
                copy.write(source.read())
        return os.fsdecode(path)

    def test_a_name_that_is_no_text(self):
        """It is escaped in texts and pictures, and they are whole."""
        folder = self.folder(b"b\xff\x01&x")
        self.succeeds("report", folder, "--csv", self.room / "r.csv", "--json", self.room / "r.json")
        self.succeeds("vcd", folder, "-o", self.room / "x.vcd")
        self.succeeds("picture", folder, "-o", self.room / "x.svg")
        self.assertIn(r"b\udcff", (self.room / "r.csv").read_text(encoding="utf-8"))
        self.assertIn("<title>b??&amp;x: cycles 0 to 41</title>", (self.room / "x.svg").read_text(encoding="utf-8"))
        ended = subprocess.run([sys.executable, ROOT / "vig", "report", folder], env=SURROUNDINGS | {"LC_ALL": "C.UTF-8"}, capture_output=True, text=True, check=False)
        self.assertEqual(ended.returncode, 0, ended.stderr)

    def test_a_name_that_is_too_long(self):
        self.assertRegex(self.fails(2, "run", "a" * 5000), "^vig: a+: File name too long\n$")

    def test_each_help_has_an_example(self):
        """Its folders and files are there."""
        tried = 0
        for words in (*((name,) for name in COMMANDS), ("policy", "check"), ("policy", "make"), ("policy", "show"), ("trace", "make"), ("trace", "show")):
            text = self.succeeds(*words, "--help")
            examples = [shlex.split(line.partition(" > ")[0]) for line in text.splitlines() if line.startswith("  vig ")]
            self.assertTrue(examples, words)
            for example in examples:
                tried += 1
                for path in (word for word in example if word.startswith("examples/")):
                    self.assertTrue((ROOT / path).exists(), path)
        self.assertGreater(tried, 20)

    def test_wrong_usage_ends_with_2(self):
        self.assertEqual(vig("run")[0], 2)
        self.assertEqual(vig("nothing-like-it")[0], 2)
