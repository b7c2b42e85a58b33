"""The streak: a recorded log against the model, in both forms, and the ledger over several runs."""

import json
import multiprocessing
from unittest import mock

from vigambul import build, ledger
from vigambul.formats import HEADER, bytes_of, line_of, words_of

from .support import EXAMPLES, Case, vig

POLICY = (EXAMPLES / "printed-log" / "policy.bin").read_bytes()
OFFER = 0x80010007
DATE = "2026-03-01T12:00:00Z"


def append_many(path):
    """Adds twenty entries, as a process of its own."""
    for _ in range(20):
        ledger.append(path, ledger.Entry(DATE, "folder", "log", "p" * 64, "t" * 64, 3))


class StreakCase(Case):
    def setUp(self):
        super().setUp()
        self.ledger = self.room / "ledger.jsonl"
        dated = mock.patch.object(ledger, "now", lambda: DATE)
        dated.start()
        self.addCleanup(dated.stop)

    def folder(self, trace, name="folder", policy=POLICY):
        folder = self.room / name
        folder.mkdir(exist_ok=True)
        (folder / "policy.bin").write_bytes(policy)
        (folder / "trace.bin").write_bytes(bytes_of(trace))
        return folder

    def numbers(self, trace):
        """The model's log of a trace, a list of four numbers for each call."""
        status, log = build.library().run(POLICY, words_of(bytes_of(trace))[0])
        self.assertEqual(status, 0)
        return [list(log[place : place + 4]) for place in range(0, len(log), 4)]

    def lines(self, numbers, name="block.log"):
        """A recorded log in the program's lines."""
        path = self.room / name
        path.write_text("\n".join([HEADER, *map(line_of, numbers)]) + "\n")
        return path

    def text(self, text, name="block.log"):
        path = self.room / name
        path.write_text(text)
        return path

    def streak(self, trace, log, expected, differs=False):
        """The streak after a run, which must be the expected one; what was written."""
        status, out, err = vig("streak", self.folder(trace), log, "--ledger", self.ledger)
        self.assertEqual(status, 1 if differs else 0, out + err)
        self.assertTrue(out.startswith("streak: %d cycle" % expected), out)
        return out

    def entries(self):
        return [json.loads(line) for line in self.ledger.read_text().splitlines()]


class Counting(StreakCase):
    def test_a_ledger_with_differences(self):
        """Equal runs add their cycles; a run whose last difference is in cycle d of t leaves t - d - 1."""
        for ticks, planted, expected in (
            (10, (), 10),
            (7, (), 17),
            (12, (3, 5), 6),
            (9, (), 15),
            (0, (), 15),
            (4, (3,), 0),
            (0, (), 0),
            (5, (), 5),
            (6, (0,), 5),
        ):
            numbers = self.numbers([0] * ticks)
            for cycle in planted:
                numbers[cycle][1] = 0x80000001
            self.streak([0] * ticks, self.lines(numbers), expected, bool(planted))
        found = [(entry["cycles"], entry["first"], entry["last"]) for entry in self.entries()]
        nothing = None, None
        self.assertEqual(found, [(10, *nothing), (7, *nothing), (12, 3, 5), (9, *nothing), (0, *nothing), (4, 3, 3), (0, *nothing), (5, *nothing), (6, 0, 0)])

    def test_an_entry(self):
        self.streak([0, 0], self.lines(self.numbers([0, 0])), 2)
        (entry,) = self.entries()
        self.assertEqual(list(entry), ["date", "folder", "log", "policy", "trace", "cycles", "first", "last"])
        self.assertEqual((entry["date"], entry["folder"], entry["log"]), (DATE, "folder", "block.log"))
        self.assertEqual(entry["policy"], "fd5eefb099d87bbf0c493fa097b53c879d076de78d4fa684735c11d0de9b3a58")
        self.assertEqual(entry["trace"], "af5570f5a1810b7af78caf4bc70a660f0df51e42baf91d4de5b2328de0e83dfc")

    def test_ranks_are_told(self):
        """A block that answers from the wrong rank: the difference is in bits 22 and 23 of one word, and the words on both sides name the rank."""
        example = EXAMPLES / "two-ranks"
        block = self.text((example / "expected.txt").read_text().replace("80410006 80020007", "80410006 80420007"))
        status, out, _ = vig("streak", example, block, "--ledger", self.ledger)
        self.assertEqual(status, 1)
        self.assertIn("this run differs: first in cycle 30, last in cycle 30\n", out)
        self.assertRegex(out, r"\n +answer host read rank 0 bank 2 tag 7 +answer host read rank 1 bank 2 tag 7\n")
        self.assertTrue(vig("streak", example, example / "expected.txt", "--ledger", self.ledger)[1].startswith("streak: 41 cycles"))

    def test_offers_take_no_cycle(self):
        """A difference in an offer's line is one in the cycle that is ticked next: here cycle 1 of 3."""
        trace = [0, OFFER, OFFER, 0, 0]
        numbers = self.numbers(trace)
        numbers[2][0] = 11
        out = self.streak(trace, self.lines(numbers), 1, True)
        self.assertIn("this run differs: first in cycle 1, last in cycle 1\n", out)

    def test_a_difference_after_the_last_tick(self):
        numbers = self.numbers([0, 0, OFFER])
        numbers[2][0] = 11
        self.streak([0, 0, OFFER], self.lines(numbers), 0, True)

    def test_each_field_counts(self):
        trace = [OFFER, 0, 0, 0]
        for field in range(4):
            numbers = self.numbers(trace)
            numbers[1][field] += 1
            out = self.streak(trace, self.lines(numbers), 2, True)
            self.assertIn("first in cycle 0, last in cycle 0", out)

    def test_many_lines(self):
        """More lines than are read at a time, with a difference in the first and in the last block."""
        ticks = 70_000
        numbers = self.numbers([0] * ticks)
        numbers[11][3] = 1
        numbers[69_000][2] = 0x80000000
        out = self.streak([0] * ticks, self.lines(numbers), 999, True)
        self.assertIn("first in cycle 11, last in cycle 69000", out)

    def test_dry_run(self):
        log = self.lines(self.numbers([0] * 5))
        self.streak([0] * 5, log, 5)
        before = self.ledger.read_bytes()
        self.assertEqual(self.succeeds("streak", self.room / "folder", log, "--ledger", self.ledger, "--dry-run"), "streak: 10 cycles and no difference so far\n")
        self.assertEqual(self.ledger.read_bytes(), before)

    def test_ledger_named_before_the_command(self):
        log = self.lines(self.numbers([0]))
        self.assertEqual(self.succeeds("--ledger", self.ledger, "streak", self.folder([0]), log), "streak: 1 cycle and no difference so far\n")
        self.assertEqual(len(self.entries()), 1)


class Lengths(StreakCase):
    def test_shorter(self):
        out = self.streak([0] * 6, self.lines(self.numbers([0] * 4)), 0, True)
        self.assertIn("first in cycle 4, last in cycle 5; the model has 6 lines, and the block 4", out)

    def test_longer(self):
        out = self.streak([0] * 4, self.lines(self.numbers([0] * 6)), 0, True)
        self.assertIn("first in cycle 4, last in cycle 4; the model has 4 lines, and the block 6", out)

    def test_a_difference_and_a_shorter_log(self):
        numbers = self.numbers([0] * 4)
        numbers[1][1] = 1
        out = self.streak([0] * 6, self.lines(numbers), 0, True)
        self.assertIn("first in cycle 1, last in cycle 5", out)

    def test_wires(self):
        self.assertIn("first in cycle 3, last in cycle 4; the model ticks 3 cycles, and the block 5", self.streak([0] * 3, self.text("cycles 5\n"), 0, True))
        self.assertIn("first in cycle 2, last in cycle 2; the model ticks 3 cycles, and the block 2", self.streak([0] * 3, self.text("cycles 2\n"), 0, True))

    def test_empty_runs(self):
        self.streak([], self.lines([]), 0)
        self.streak([], self.text("cycles 0\n"), 0)
        self.streak([OFFER], self.lines(self.numbers([OFFER])), 0)
        self.assertEqual([entry["last"] for entry in self.entries()], [None] * 3)


class Refusals(StreakCase):
    def compare(self, policy, text):
        folder = self.folder([0, 0, 0], policy=policy)
        return vig("streak", folder, self.text(text), "--ledger", self.ledger)

    def test_the_same_refusal_is_a_difference_too(self):
        status, out, err = self.compare(b"", "policy refused 1\n")
        told = "this run differs: first in cycle 0, last in cycle 0; the model and the block refuse the policy with 1, and nothing was compared"
        self.assertEqual((status, out.splitlines()), (1, ["streak: 0 cycles since the block last differed", told]))
        self.assertIn("the model refuses the policy with 1: the file is under 17", err)

    def test_only_one_refuses(self):
        status, out, _ = self.compare(b"", "\n".join([HEADER, *map(line_of, self.numbers([0] * 3))]))
        self.assertEqual((status, out.splitlines()[1]), (1, "this run differs: first in cycle 0, last in cycle 0; the model refuses the policy with 1, and the block takes it"))
        status, out, _ = self.compare(POLICY, "policy refused 1\n")
        self.assertEqual((status, out.splitlines()[1]), (1, "this run differs: first in cycle 0, last in cycle 2; the model takes the policy, and the block refuses it with 1"))
        self.assertEqual(out.splitlines()[0], "streak: 0 cycles since the block last differed")

    def test_another_refusal(self):
        status, out, _ = self.compare(b"", "policy refused 2\n")
        told = "this run differs: first in cycle 0, last in cycle 0; the model refuses the policy with 1, and the block refuses it with 2"
        self.assertEqual((status, out.splitlines()[1]), (1, told))


class Forms(StreakCase):
    def test_the_examples_own_outputs(self):
        """What the program prints for an example is a recorded log without a difference; bytes left over at a trace's end are none."""
        cycles = 0
        for name, ticks in (("two-tenants", 42), ("refused-calls", 12), ("diamond", 45)):
            cycles += ticks
            out = self.succeeds("streak", EXAMPLES / name, EXAMPLES / name / "expected.txt", "--ledger", self.ledger)
            self.assertEqual(out, "streak: %d cycles and no difference so far\n" % cycles)

    def test_lines_side_by_side(self):
        lines = (EXAMPLES / "two-tenants" / "expected.txt").read_text().splitlines()
        lines[25] = "00000000 80000000 00000000 00000000"
        lines[26] = "0000000B 00000000 00000000 00000000"
        status, out, _ = vig("streak", EXAMPLES / "two-tenants", self.text("\n".join(lines) + "\n"), "--ledger", self.ledger)
        self.assertEqual(status, 1)
        self.stored("streak-lines.txt", out)

    def wires(self, name):
        """What the wires carried in an example, in the second form."""
        folder, cycle, lines = EXAMPLES / name, 0, ["# recorded by hand", ""]
        trace, _ = words_of((folder / "trace.bin").read_bytes())
        for word, line in zip(trace, (folder / "expected.txt").read_text().splitlines()[1:]):
            status, command, answer, _ = line.split()
            if word == 0 and int(status, 16) == 0:
                lines += ["command %d %s" % (cycle, command)] * (int(command, 16) != 0) + ["answer %d %s" % (cycle, answer.lower())] * (int(answer, 16) != 0)
                cycle += 1
        return [*lines, "cycles %d" % cycle]

    def test_wires(self):
        for name, cycles in (("two-tenants", 42), ("refused-calls", 54), ("single-class", 98)):
            log = self.text("\n".join(self.wires(name)) + "\n")
            self.assertEqual(self.succeeds("streak", EXAMPLES / name, log, "--ledger", self.ledger), "streak: %d cycles and no difference so far\n" % cycles)

    def test_wires_side_by_side(self):
        lines = self.wires("two-tenants")
        place = next(place for place, line in enumerate(lines) if line.startswith("answer"))
        cycle = int(lines[place].split()[1])
        lines[place] = lines[place][:-1] + "f"
        status, out, _ = vig("streak", EXAMPLES / "two-tenants", self.text("\n".join(lines) + "\n"), "--ledger", self.ledger)
        self.assertEqual((status, out.splitlines()[0]), (1, "streak: %d cycles since the block last differed" % (42 - cycle - 1)))
        self.stored("streak-wires.txt", out)

    def test_requests_that_pass(self):
        """A request that passes older ones is no difference where the model lets it pass. Another in its place is: the oldest, whose bank is busy, or one that does not wait."""
        folder = EXAMPLES / "busy-bank"
        self.assertEqual(self.succeeds("streak", folder, folder / "expected.txt", "--ledger", self.ledger), "streak: 34 cycles and no difference so far\n")
        for word in ("81130001", "81040009"):
            lines = (folder / "expected.txt").read_text().splitlines()
            self.assertEqual(lines[19], "00000000 81040002 00000000 00010002")
            lines[19] = "00000000 %s 00000000 00010002" % word
            status, out, _ = vig("streak", folder, self.text("\n".join(lines) + "\n"), "--ledger", self.ledger)
            self.assertEqual((status, out.splitlines()[1]), (1, "this run differs: first in cycle 10, last in cycle 10"))

    def test_a_word_that_is_missing(self):
        lines = [line for line in self.wires("single-class") if not line.startswith("answer")]
        status, out, _ = vig("streak", EXAMPLES / "single-class", self.text("\n".join(lines) + "\n"), "--ledger", self.ledger)
        answers = [int(line.split()[1]) for line in self.wires("single-class") if line.startswith("answer")]
        self.assertEqual(status, 1)
        self.assertIn("first in cycle %d, last in cycle %d\n" % (answers[0], answers[-1]), out)

    def test_comments_case_and_line_ends(self):
        """Comments, empty lines, small letters and carriage returns change nothing."""
        numbers = self.numbers([OFFER, 0, 0, 0])
        text = "\r\n".join(["# by the bench", HEADER, "", *(line_of(line).lower() for line in numbers), "  # the end"]) + "\r\n"
        self.streak([OFFER, 0, 0, 0], self.text(text), 3)
        # The mark that some editors put before a text, in both forms.
        self.streak([OFFER, 0, 0, 0], self.text("\ufeff" + "\n".join([HEADER, *map(line_of, numbers)])), 6)
        self.streak([OFFER, 0, 0, 0], self.text("\ufeffcommand 0 80010007\r\ncommand 1 C0010007\r\nanswer 2 80010007\r\ncycles 3\r\n"), 9)

    def test_many_calls_in_one_cycle(self):
        """Of many equal calls in one cycle most are only counted."""
        trace = [OFFER] * 300 + [0, 0]
        numbers = self.numbers(trace)
        numbers[-1][2] = 1
        out = self.streak(trace, self.lines(numbers), 0, True)
        self.assertIn("(293 more calls in this cycle, the same on both sides)", out)
        self.assertLess(out.count("\n"), 30)


class Mistakes(StreakCase):
    def wrong(self, text, message, trace=(0, 0)):
        err = self.fails(2, "streak", self.folder(trace), self.text(text), "--ledger", self.ledger)
        self.assertIn(message, err)
        self.assertFalse(self.ledger.exists())

    def test_malformed_lines(self):
        good = "00000000 00000000 00000000 00000000\n"
        self.wrong(HEADER + "\n" + good + "0000000 00000000 00000000 00000000\n", "block.log, line 3: '0000000 00000000 00000000 00000000' is not a line of four numbers")
        self.wrong(HEADER + "\n" + good * 40_000 + "00000000 0000000G 00000000 00000000\n", "line 40002: '00000000 0000000G")
        self.wrong(HEADER + "\n00000000 0000 000000000000 00000000\n", "line 2")
        self.wrong(HEADER + "\n" + good + "trace ends inside a word\n" + good, "line 4: '00000000 00000000 00000000 00000000' stands after 'trace ends inside a word'")
        self.wrong("policy refused 5\n" + good, "line 2: ")
        self.wrong("policy refused 0\n", "line 1: 'policy refused 0'; a recorded log begins with")
        self.wrong("\n# nothing\n", "block.log: nothing stands in it; a recorded log begins with the header")
        self.wrong("", "nothing stands in it")
        self.wrong("time,command\n", "line 1: 'time,command'; a recorded log begins with")

    def test_malformed_pairs(self):
        self.wrong("command 1 80010007\ncommand 1 80010007\ncycles 2\n", "line 2: cycle 1 of the command wires is not above the one before, 1")
        self.wrong("answer 1 80010007\ncommand 0 1\nanswer x 1\ncycles 2\n", "line 3: 'answer x 1' is none of 'command CYCLE WORD'")
        self.wrong("command 1 800100070\ncycles 2\n", "line 1: 'command 1 800100070'; a recorded log")
        self.wrong("command 1 80010007\n", "its last line must be 'cycles N'")
        self.wrong("cycles 2\ncommand 1 80010007\n", "line 2: 'command 1 80010007' stands after the line 'cycles 2'")
        self.wrong("command 5 80010007\ncycles 5\n", "line 2: 5 cycles were recorded, but there is a word in cycle 5")
        self.wrong("command 16777216 80010007\ncycles 5\n", "line 1: 16777216 is above 16777215")

    def test_missing_files(self):
        log = self.lines(self.numbers([0]))
        self.assertIn("%s: no such folder" % (self.room / "nix"), self.fails(2, "streak", self.room / "nix", log, "--ledger", self.ledger))
        self.assertIn("%s: no such file" % (self.room / "nix.log"), self.fails(2, "streak", self.folder([0]), self.room / "nix.log", "--ledger", self.ledger))
        self.assertIn("a folder, where a recorded log is wanted", self.fails(2, "streak", self.folder([0]), self.room, "--ledger", self.ledger))
        self.assertIn("No such file or directory", self.fails(2, "streak", self.folder([0]), log, "--ledger", self.room / "nix" / "ledger"))


class Ledgers(StreakCase):
    def test_damaged(self):
        """A damaged line is told by its number, and nothing is added to the ledger."""
        log = self.lines(self.numbers([0]))
        self.streak([0], log, 1)
        (good,) = self.ledger.read_text().splitlines()
        entry = json.loads(good)
        for line, fault in (
            ("{", "not JSON"),
            ("[" * 100_000, "not JSON"),
            ("[]", "not an object"),
            (json.dumps({**entry, "cycles": -1}), "cycles is not a number from 0 on"),
            (json.dumps({**entry, "cycles": True}), "cycles is not a number"),
            (json.dumps({**entry, "first": 1}), "one of first and last is null"),
            (json.dumps({**entry, "first": 2, "last": 1}), "first and last are not two cycles in this order"),
            (json.dumps({**entry, "policy": 3}), "policy is not a text"),
            (json.dumps({name: value for name, value in entry.items() if name != "trace"}), "trace is missing"),
            (good[:-20], "not JSON"),
        ):
            damaged = good + "\n\n" + line + "\n" + good + "\n"
            self.ledger.write_text(damaged)
            self.assertIn("%s, line 3: this line of the ledger is damaged (%s" % (self.ledger, fault), self.fails(2, "streak", self.folder([0]), log, "--ledger", self.ledger))
            self.assertEqual(self.ledger.read_text(), damaged)
            self.assertIn("line 3", self.fails(2, "--ledger", self.ledger))

    def test_last_line_without_its_end(self):
        log = self.lines(self.numbers([0]))
        self.streak([0], log, 1)
        self.ledger.write_text(self.ledger.read_text().rstrip("\n"))
        self.streak([0], log, 2)
        self.assertEqual(len(self.entries()), 2)

    def test_several_at_once(self):
        """Entries that several processes add at once are all there, each whole."""
        adders = [multiprocessing.get_context("fork").Process(target=append_many, args=(self.ledger,)) for _ in range(4)]
        for adder in adders:
            adder.start()
        for adder in adders:
            adder.join()
        self.assertEqual(len(self.entries()), 80)
        self.assertEqual(ledger.streak(ledger.read(self.ledger)), 240)

    def test_an_entry_that_cannot_be_written(self):
        """What is written in part is taken back."""
        log = self.lines(self.numbers([0]))
        self.streak([0], log, 1)
        before = self.ledger.read_bytes()
        with mock.patch("vigambul.ledger.os.write", lambda file, data: len(data) - 1):
            self.assertIn("nothing was added", self.fails(2, "streak", self.folder([0]), log, "--ledger", self.ledger))
        self.assertEqual(self.ledger.read_bytes(), before)
