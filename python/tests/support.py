"""What the tests share: the tool called as from the command line, folders to work in, and outputs that are stored."""

import contextlib
import io
import os
import tempfile
import unittest
from pathlib import Path

from vigambul import build
from vigambul.cli import main

ROOT = Path(__file__).resolve().parents[2]
EXAMPLES = ROOT / "examples"
STORED = Path(__file__).resolve().parent / "stored"


def vig(*words):
    """The exit status of a command, what it wrote to standard output, and what to standard error."""
    out, err = io.StringIO(), io.StringIO()
    with contextlib.redirect_stdout(out), contextlib.redirect_stderr(err):
        try:
            status = main([str(word) for word in words])
        except SystemExit as ended:
            status = ended.code
    return status, out.getvalue(), err.getvalue()


class Case(unittest.TestCase):
    """A test with a folder of its own, `self.room`."""

    maxDiff = None

    @classmethod
    def setUpClass(cls):
        build.ensure()

    def setUp(self):
        room = tempfile.TemporaryDirectory()
        self.addCleanup(room.cleanup)
        self.room = Path(room.name)

    def succeeds(self, *words):
        """What a command writes to standard output; it must end with 0."""
        status, out, err = vig(*words)
        self.assertEqual(status, 0, err)
        return out

    def fails(self, status, *words):
        """What a command writes to standard error; it must end with the given status."""
        ended, out, err = vig(*words)
        self.assertEqual(ended, status, out + err)
        return err

    def stored(self, name, text):
        """The text must be the stored one. With VIGAMBUL_STORE set it is stored instead: look at what changed before you commit it."""
        path = STORED / name
        if os.environ.get("VIGAMBUL_STORE"):
            path.parent.mkdir(parents=True, exist_ok=True)
            path.write_text(text)
        self.assertTrue(path.is_file(), "%s is not stored" % path)
        self.assertEqual(text, path.read_text(), path)
