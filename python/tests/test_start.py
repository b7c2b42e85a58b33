"""The start screen: how to begin where there is no ledger, and the streak where there is one."""

import contextlib
import os
import shlex
import shutil
from pathlib import Path
from unittest import mock

from vigambul import ledger
from vigambul.commands import start

from .support import EXAMPLES, Case

BLOCK = "a" * 64


def entry(cycles, last=None, first=None, folder="gone", policy=BLOCK, day=1):
    return ledger.Entry("2026-03-%02dT12:00:00Z" % day, folder, "block-%d.log" % day, policy, "b" * 64, cycles, last if first is None else first, last)


@contextlib.contextmanager
def inside(folder):
    """Works in a folder for a while."""
    before = Path.cwd()
    os.chdir(folder)
    try:
        yield
    finally:
        os.chdir(before)


class Start(Case):
    def write(self, *entries):
        path = self.room / "ledger.jsonl"
        path.write_text("".join(one.line() for one in entries))
        return path

    def screen(self, *entries):
        return self.succeeds("--ledger", self.write(*entries))

    def test_how_to_begin(self):
        """Without a ledger four commands are shown, and each works as it is typed."""
        with inside(self.room):
            out = self.succeeds()
            commands = [shlex.split(line) for line in out.splitlines() if line.startswith("    ")]
            self.assertEqual([words[1] for words in commands], ["policy", "trace", "run", "picture", "streak"])
            copy = shutil.copytree(start.EXAMPLE, self.room / "copy")
            made = {name: (copy / name).read_bytes() for name in ("policy.bin", "trace.bin")}
            for name in made:
                (copy / name).unlink()
            for words in commands[:4]:
                self.assertTrue(Path(words[0]).name == "vig", words)
                self.succeeds(*(word.replace(str(start.EXAMPLE), str(copy)) for word in words[1:]))
            self.assertEqual(made, {name: (copy / name).read_bytes() for name in made})
            self.assertIn("<svg", (self.room / "picture.svg").read_text())

    def test_a_path_with_spaces(self):
        """What is shown can be typed as it is."""
        with mock.patch.object(start.build, "ROOT", self.room / "a b"), mock.patch.object(start, "EXAMPLE", self.room / "a b" / "examples" / "cloud"):
            out = start.how_to_begin("none")
        commands = [shlex.split(line) for line in out.splitlines() if line.startswith("    ")]
        self.assertEqual(commands[0][1:4], ["policy", "make", str(self.room / "a b" / "examples" / "cloud" / "policy.toml")])

    def test_in_the_repository(self):
        with inside(EXAMPLES.parent):
            out = start.how_to_begin("none")
        self.assertIn("policy make examples/cloud/policy.toml -o examples/cloud/policy.bin\n", out)

    def test_default_ledger(self):
        with inside(self.room):
            self.write(entry(5)).rename(self.room / "vig-ledger.jsonl")
            self.assertIn("5 cycles compared, and no difference so far", self.succeeds())

    def test_no_such_ledger(self):
        self.assertIn("nix: no such ledger", self.fails(2, "--ledger", self.room / "nix"))

    def test_an_empty_ledger(self):
        self.assertIn("There is no ledger yet", self.screen())

    def test_big_number(self):
        self.assertEqual(
            start.big(1207).splitlines(),
            [
                "    #        ####    ###   #####",
                "   ##            #  #   #     #",
                "    #         ###   #   #    #",
                "    #     #  #      #   #   #",
                "   ###   #   #####   ###    #",
            ],
        )
        self.assertEqual({len(rows) for rows in start.DIGITS.values()}, {5})
        self.assertEqual({len(row) for digit, rows in start.DIGITS.items() for row in rows if digit != ","}, {5})

    def test_the_screen(self):
        """The streak is that of all entries: 9 - 5 - 1 of the one that differs, and 40 and 1,000 since."""
        folder = shutil.copytree(EXAMPLES / "two-tenants", self.room / "tenants")
        policy = "5086610ffa147ee9ce7f076534592d218b4fec155463657f8641e7e6d9dcad63"
        changed = shutil.copytree(folder, self.room / "changed")
        (changed / "policy.bin").write_bytes(b"")
        path = self.write(
            entry(70, day=1),
            entry(9, 5, 2, day=2, folder="where/it/was"),
            entry(40, day=3, folder="tenants", policy=policy),
            entry(0, day=4, policy="c" * 64),
            entry(1000, day=5, folder="changed", policy="d" * 64),
        )
        with inside(self.room):
            self.stored("start.txt", self.succeeds("--ledger", path.name))

    def test_many_policies(self):
        out = self.screen(*(entry(10 + number, policy="%064x" % number) for number in range(8)))
        self.assertEqual(out.count("policy 0000"), 5)
        self.assertIn("and 3 more policies: 33 cycles", out)

    def test_a_difference_to_the_end(self):
        out = self.screen(entry(10), entry(4, 3))
        self.assertIn("  0 cycles since the block last differed from the model\n", out)
        self.assertIn("counted on     nothing yet\n", out)
        self.assertIn("last differed  2026-03-01 12:00:00 UTC, gone, cycle 3, in the log block-1.log\n", out)
