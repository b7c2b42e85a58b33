"""How many classes a walk tried: in turn numbers, in words, reports, waveforms and pictures, against the proved library's bounds, in recorded logs, and in what a class may see."""

import csv
import json
import shutil
import unittest
from unittest import mock

from vigambul import build
from vigambul.draws import Draws
from vigambul.errors import Refused
from vigambul.formats import CLASSES, bytes_of, differ_in_walk, is_elided, is_tick, owner_of, starts_turn, turn_number, walk_of
from vigambul.history import Replay, calls_of
from vigambul.library import Library
from vigambul.policies import Names, Policy, names_beside, policy_of
from vigambul.walks import bound_words, longest_from, walk_bounds
from vigambul.words import turn_words

from .samples import an_order, generated, write
from .support import EXAMPLES, Case, vig
from .test_blind import leaking
from .test_picture import PictureCase
from .test_policy_text import closed
from .test_streak import StreakCase
from .test_vcd import VcdCase

TIMING = [4, 2, 2, 2, 2, 2, 2, 2, 1, 2]
DIAMOND, TENANTS, BUSY = EXAMPLES / "diamond", EXAMPLES / "two-tenants", EXAMPLES / "two-tenants-busy"
CHAIN = Policy(closed(CLASSES, [(i, i + 1) for i in range(CLASSES - 1)]), 1, [0] * CLASSES, TIMING)
# From 0 to 4 there are two ways: by 1 and 2, and by 3.
TWO_WAYS = Policy(closed(5, [(0, 1), (1, 2), (2, 4), (0, 3), (3, 4)]), 1, [0] * 5, TIMING)
NAMES = Names({0: "base", 1: "red"})
# What an extract has in place of the turn number of an owner that may not be seen.
HIDDEN = 512
ONLY = "only in how many classes the walk tried"


def longest_chain(policy, number):
    """The classes on the longest rising chain from a class, by the classes directly above."""
    return 1 + max((longest_chain(policy, other) for other in policy.covers(number)), default=0)


def longer(turn):
    """A turn number whose walk tried one class more."""
    return turn_number(owner_of(turn), is_elided(turn), walk_of(turn) + 1)


def without_walk(line):
    """A line of a log as it was before turn numbers had the field."""
    return line[:29] + "00" + line[31:]


class Numbers(unittest.TestCase):
    def test_fields(self):
        """1 + owner, plus 256, plus 65,536 times the classes tried; each field is read whatever the others are."""
        self.assertEqual(turn_number(0, True, 1), 0x00010101)
        self.assertEqual(turn_number(15, False, 16), 0x00100010)
        for owner in range(CLASSES):
            for elided in (False, True):
                for walk in range(32):
                    turn = turn_number(owner, elided, walk)
                    self.assertEqual(turn, 1 + owner + 256 * elided + 65_536 * walk)
                    self.assertEqual((owner_of(turn), is_elided(turn), walk_of(turn), starts_turn(turn)), (owner, elided, walk, True))

    def test_other_bits_are_no_part_of_a_walk(self):
        self.assertEqual([bit for bit in range(32) if walk_of(1 << bit)], [16, 17, 18, 19, 20])

    def test_a_hidden_turn_has_no_walk(self):
        self.assertEqual((starts_turn(HIDDEN), owner_of(HIDDEN), is_elided(HIDDEN), walk_of(HIDDEN)), (True, -1, False, 0))

    def test_differing_in_the_walk_alone(self):
        self.assertTrue(differ_in_walk(0x00010101, 0x00020101))
        self.assertTrue(differ_in_walk(0x00010101, 0x00000101))
        for turn, other in ((0x00010101, 0x00010101), (0x00010101, 0x00020102), (0x00010101, 0x00020001), (0x00010101, 0x00000000), (0x00010101, 0x00210101)):
            self.assertFalse(differ_in_walk(turn, other), "%08X %08X" % (turn, other))
            self.assertFalse(differ_in_walk(other, turn), "%08X %08X" % (turn, other))
        self.assertFalse(differ_in_walk(HIDDEN, HIDDEN | 0x10000))
        self.assertFalse(differ_in_walk(0, 0x10000))


class Words(Case):
    def test_said_unless_it_is_1(self):
        """A walk of 1 is that of an owner at which the turn starts. 0, which no run writes, and what is above 16 are said as they are."""
        for walk, said in ((1, ""), (2, ", walk of 2"), (16, ", walk of 16"), (0, ", walk of 0"), (31, ", walk of 31")):
            self.assertEqual(turn_words(turn_number(1, False, walk), NAMES), "turn of red%s, dead time kept" % said)
            self.assertEqual(turn_words(turn_number(1, True, walk), NAMES, 0), "turn of red, home turn of base%s, dead time dropped" % said)

    def test_a_hidden_turn(self):
        self.assertEqual(turn_words(HIDDEN, NAMES), "turn of a class that may not be seen")

    def test_the_diamond(self):
        """The three turns that its walks pass up: to left, by right to top, and from the idle left to top in left's home turn."""
        lines = [line.partition(";")[0] for line in self.succeeds("run", DIAMOND, "--words").splitlines() if ": turn of " in line]
        passed_up = ["cycle 30: turn of left, walk of 2, dead time kept", "cycle 35: turn of top, walk of 3, dead time kept"]
        passed_up.append("cycle 40: turn of top, home turn of left, walk of 2, dead time kept")
        self.assertEqual([line for line in lines if "walk" in line], passed_up)
        self.assertEqual(len(lines), 9)


class Bounds(Case):
    def setUp(self):
        super().setUp()
        self.library = build.library()

    def bounds(self, policy):
        return walk_bounds(self.library, policy.to_bytes(), policy.classes)

    def test_shapes(self):
        fan = Policy(closed(CLASSES, [(0, i) for i in range(1, CLASSES)]), 1, [0] * CLASSES, TIMING)
        cube = Policy(closed(16, [(i, i | 1 << bit) for i in range(16) for bit in range(4) if not i >> bit & 1]), 1, [0] * 16, TIMING)
        self.assertEqual(self.bounds(CHAIN), list(range(16, 0, -1)))
        self.assertEqual(self.bounds(fan), [2] + [1] * 15)
        self.assertEqual(self.bounds(cube), [5 - number.bit_count() for number in range(16)])
        self.assertEqual(self.bounds(TWO_WAYS), [4, 3, 2, 2, 1])
        self.assertEqual(self.bounds(Policy([1], 1, [0], TIMING)), [1])

    def test_generated_orders(self):
        """The library's bound is the longest chain, on orders of every size and in any numbering."""
        met = set()
        for number in range(120):
            draws = Draws("chains", number)
            classes = 1 + number % CLASSES
            policy = Policy(an_order(draws, classes), 1, [0] * classes, TIMING)
            bounds = self.bounds(policy)
            self.assertEqual(bounds, [longest_chain(policy, i) for i in range(classes)])
            self.assertEqual(max(bounds), bounds[policy.least])
            met |= set(bounds)
        self.assertGreaterEqual(met, set(range(1, 6)))

    def test_refused(self):
        """A file's refusal comes before that of a class that there is none of; the bound is 0 then."""
        data = CHAIN.to_bytes()
        for first, answer in ((15, (0, 1)), (16, (9, 0)), (31, (9, 0)), (2**32 - 1, (9, 0))):
            self.assertEqual(self.library.walk_bound(data, first), answer)
        refused = {
            1: b"",
            2: data[:16] + b"\x11" + data[17:],
            3: Policy([3, 4], 1, [0, 0], TIMING).to_bytes(),
            4: Policy([3, 3], 1, [0, 0], TIMING).to_bytes(),
            5: (EXAMPLES / "refused" / "policy.bin").read_bytes(),
            6: Policy([1, 2], 1, [0, 0], TIMING).to_bytes(),
            7: Policy([3, 2], 0, [0, 0], TIMING).to_bytes(),
            8: Policy([3, 2], 1, [0, 0], [4, 4, *TIMING[2:]]).to_bytes(),
        }
        for status, file in refused.items():
            self.assertEqual([self.library.walk_bound(file, first) for first in (0, 16)], [(status, 0)] * 2)
        with self.assertRaisesRegex(Refused, "the bound of a walk from class 16: refused 9: the class is none of the policy's"):
            walk_bounds(self.library, data, 17)

    def test_where_the_longest_walk_starts(self):
        """At the least class, unless no turn starts there: then at the first of the classes with home turns from which the longest chain goes."""
        for epoch, minimums, first in ((5, [0, 1, 1, 1, 1], 0), (4, [0, 1, 1, 1, 1], 1), (2, [0, 0, 1, 1, 0], 2), (1, [1, 0, 0, 0, 0], 0), (3, [0, 0, 0, 0, 3], 4)):
            policy = Policy(TWO_WAYS.rows, epoch, minimums, TIMING)
            self.assertEqual(longest_from(policy, self.bounds(policy)), first)

    def test_words(self):
        policy = Policy([7, 6, 4], 3, [0, 1, 1], TIMING)
        chain = "A walk tries no more classes than the longest rising chain from its first class has, that class counted: from base 3, red 2, class 2 1."
        self.assertEqual(bound_words(policy, NAMES, [3, 2, 1]), [chain, "In one cycle hardware must try at most 3 classes, in a walk from base, the least class."])
        policy.epoch = 2
        told = "In one cycle hardware must try at most 2 classes, in a walk from red, since no turn starts at base, the least class."
        self.assertEqual(bound_words(policy, NAMES, [3, 2, 1]), [chain, told])
        policy.minimums = [0, 0, 2]
        self.assertIn("at most 1 class, in a walk from class 2, since", bound_words(policy, NAMES, [3, 2, 1])[1])

    def test_show_and_check(self):
        """Both say it of a policy that is taken, the text's reader and the file's with the same words; of a refused file nothing is said."""
        file = DIAMOND / "policy.bin"
        told = bound_words(policy_of(file.read_bytes()), names_beside(file), [3, 2, 2, 1])
        self.assertEqual(self.succeeds("policy", "show", file).splitlines()[-2:], told)
        lines = self.succeeds("policy", "check", DIAMOND / "policy.toml").splitlines()
        self.assertEqual(lines[-5:-1], ["How long walks may be", *("  " + line for line in told), ""])
        status, out, _ = vig("policy", "show", EXAMPLES / "refused" / "policy.bin")
        self.assertEqual(status, 1)
        self.assertNotIn("walk", out)

    def test_what_is_shown_is_the_librarys(self):
        """The tool has no bound of its own: another answer of the library is what is shown."""
        with mock.patch.object(Library, "walk_bound", lambda library, policy, first: (0, 10 + first)):
            shown = self.succeeds("policy", "show", DIAMOND / "policy.bin")
            report = self.succeeds("report", DIAMOND)
        self.assertIn("from base 10, left 11, right 12, top 13.\nIn one cycle hardware must try at most 13 classes, in a walk from top,", shown)
        self.assertIn("; none may try more than 13\n", report)
        self.assertEqual([line.split()[-1] for line in report.splitlines()[-4:]], ["10", "11", "12", "13"])

    def test_a_library_that_is_too_old(self):
        """One that was built before the function was there says so where it is asked for, and is used for the rest."""
        library = build.library()
        library._walk_bound = None
        with mock.patch.object(build, "library", return_value=library):
            for words in (("policy", "show", DIAMOND / "policy.bin"), ("policy", "check", DIAMOND / "policy.toml"), ("report", DIAMOND)):
                self.assertIn("vig: the built library is too old to say how many classes a walk may try", self.fails(2, *words))
            self.assertIn("walk of 3", self.succeeds("run", DIAMOND, "--words"))


class Walked(Replay):
    """Goes each walk once more. In a run turns left turn no class away: so a class that is tried takes the turn if a request of its own waits, or if nothing is above it."""

    def __init__(self, policy):
        super().__init__(policy)
        self.covers = [policy.covers(number) for number in range(policy.classes)]
        self.marks = [0] * policy.classes
        self.walks = []

    def turn_started(self):
        tried = [self.walked_from]
        while self.lengths[tried[-1]] == 0 and self.covers[tried[-1]]:
            last = tried[-1]
            self.marks[last] = self.marks[last] % len(self.covers[last]) + 1
            tried.append(self.covers[last][self.marks[last] - 1])
        self.walks.append((self.owner, self.walk, tried))


class Runs(Case):
    def turns(self, policy, trace):
        """The turn numbers of a run."""
        status, log = build.library().run(policy.to_bytes(), trace)
        self.assertEqual(status, 0)
        return [turn for turn in log[3::4] if turn]

    def test_generated(self):
        """The field is the number of classes that the rules' walk tries, and never above the bound of the class at which it starts; each bound from 1 to 4 is reached."""
        lengths, reached = {}, set()
        for ran in generated(build.library(), self.room, 60, 300):
            bounds = walk_bounds(build.library(), ran.folder.policy_bytes, ran.policy.classes)
            for owner, walk, tried in Walked(ran.policy).run(ran).walks:
                self.assertEqual((owner, walk), (tried[-1], len(tried)))
                self.assertLessEqual(walk, bounds[tried[0]])
                self.assertEqual(walk == 1, owner == tried[0])
                lengths[walk] = lengths.get(walk, 0) + 1
                if walk == bounds[tried[0]]:
                    reached.add(walk)
        self.assertGreaterEqual(set(lengths), {1, 2, 3, 4, 5})
        self.assertGreater(min(lengths[walk] for walk in (1, 2, 3, 4)), 20)
        self.assertGreaterEqual(reached, {1, 2, 3, 4})

    def test_sixteen(self):
        """Nothing waits in a chain of sixteen: the walk tries all."""
        self.assertEqual(self.turns(CHAIN, [0]), [0x00100010])

    def test_two_ways_to_one_owner(self):
        """Owner and dead time are the same, and the walk is not: the marks take the two ways in turn."""
        self.assertEqual(self.turns(TWO_WAYS, [0] * 16), [0x00040005, 0x00030005] * 2)

    def test_before_the_first_turn(self):
        replay = Replay(CHAIN)
        self.assertEqual((replay.turn, replay.walk), (-1, 0))


class Reports(Case):
    def reported(self, *folders):
        out = self.succeeds("report", *folders, "--csv", self.room / "f.csv", "--json", self.room / "f.json")
        rows = list(csv.DictReader((self.room / "f.csv").read_text().splitlines()))
        return out, rows, json.loads((self.room / "f.json").read_text())

    def test_the_diamond(self):
        """Nine turns: the walks from base tried 1, 1, 2 and 3 classes, those from left 1 and 2, the one from right 1, and those from top 1 and 1."""
        out, rows, value = self.reported(DIAMOND)
        self.assertIn("\nwalks that tried 1 class: 6, 2 classes: 2, 3 classes: 1; none may try more than 3\n", out)
        longest, bounds = ["3", "2", "1", "1"], ["3", "2", "2", "1"]
        self.assertEqual([tuple(line.split()[-2:]) for line in out.splitlines()[-4:]], list(zip(longest, bounds)))
        self.assertEqual([(row["walk_longest"], row["walk_bound"]) for row in rows], list(zip(longest, bounds)))
        (folder,) = value["folders"]
        self.assertEqual(folder["walks"], {"tried": {"1": 6, "2": 2, "3": 1}, "longest": 3, "bound": 3})
        each = [{"1": 2, "2": 1, "3": 1}, {"1": 1, "2": 1}, {"1": 1}, {"1": 2}]
        wanted = [{"tried": tried, "longest": int(most), "bound": int(bound)} for tried, most, bound in zip(each, longest, bounds)]
        self.assertEqual([one["walks"] for one in folder["classes"]], wanted)

    def test_a_class_that_no_walk_starts_at(self):
        """Two ways with the home turns of 1 and 3 alone: nothing starts at the least class, whose bound is not what hardware must do."""
        policy = Policy(TWO_WAYS.rows, 2, [0, 1, 0, 1, 0], TIMING)
        out, rows, value = self.reported(write(self.room / "ways", policy, [0] * 16))
        self.assertIn("\nwalks that tried 2 classes: 2, 3 classes: 2; none may try more than 3\n", out)
        self.assertEqual([tuple(line.split()[-2:]) for line in out.splitlines()[-5:]], [("-", "4"), ("3", "3"), ("-", "2"), ("2", "2"), ("-", "1")])
        self.assertEqual([row["walk_longest"] for row in rows], ["", "3", "", "2", ""])
        self.assertEqual(value["folders"][0]["classes"][0]["walks"], {"tried": {}, "longest": None, "bound": 4})

    def test_no_ticks(self):
        out, _, value = self.reported(write(self.room / "still", CHAIN, []))
        self.assertNotIn("walks that tried", out)
        self.assertEqual(value["folders"][0]["walks"], {"tried": {}, "longest": None, "bound": 16})

    def test_together(self):
        """Over several folders the walks are added up, and the longest is the greatest."""
        traces = {"busy": [0x80000001, *[0] * 4], "idle": [0] * 8, "short": [0] * 4}
        folders = [write(self.room / name, TWO_WAYS, trace) for name, trace in traces.items()]
        _, rows, value = self.reported(*folders)
        self.assertEqual([row["walk_longest"] for row in rows if row["class"] == "0"], ["1", "4", "4"])
        self.assertEqual([folder["walks"]["tried"] for folder in value["folders"]], [{"1": 1}, {"3": 1, "4": 1}, {"4": 1}])
        self.assertEqual(value["all"]["walks"], {"tried": {"1": 1, "3": 1, "4": 2}, "longest": 4, "bound": 4})


class Waveforms(VcdCase):
    def test_by_hand(self):
        """The diamond's nine turns of five cycles; the signal has five bits and stands beside turn and epoch."""
        dump = self.dump(DIAMOND)
        self.assertEqual(dump.widths["vigambul.walk"], 5)
        self.assertEqual([values["vigambul.walk"] for values in dump.cycles], [1] * 30 + [2] * 5 + [3] * 5 + [2] * 5)
        listed = [line for line in (self.room / "out.gtkw").read_text().splitlines() if line.startswith("vigambul.")]
        self.assertEqual(listed[:4], ["vigambul.turn[22:0]", "vigambul.epoch[22:0]", "vigambul.walk[4:0]", "vigambul.owner.class[4:0]"])

    def test_sixteen(self):
        dump = self.dump(write(self.room / "chain", CHAIN, [0] * 5))
        self.assertEqual([values["vigambul.walk"] for values in dump.cycles], [16] * 5)


class Pictures(PictureCase):
    def test_titles(self):
        """The words of a bar and of its dead time say the walk, unless it is of 1."""
        picture = self.picture(DIAMOND)
        for kind in ("turn", "dead"):
            titles = [words for *_, words in picture.bars(kind)]
            self.assertIn("turn 7, cycles 35 to 39: top, walk of 3, dead time kept", titles)
            self.assertIn("turn 2, cycles 10 to 14: left, dead time kept", titles)
            self.assertEqual(sum("walk" in words for words in titles), 3)


class Recorded(StreakCase):
    def spoiled(self, folder, spoil):
        """The model's log of a folder as a block's, with each line's four numbers changed by a function of the line's place, from 0, and the numbers."""
        lines = (folder / "expected.txt").read_text().splitlines()
        numbers = [[int(number, 16) for number in line.split()] for line in lines[1:]]
        for place, line in enumerate(numbers):
            spoil(place, line)
        return self.lines(numbers)

    def told(self, folder, log):
        """What is said of a block's log that differs, and how many cycles the streak has."""
        status, out, err = vig("streak", folder, log, "--ledger", self.ledger)
        self.assertEqual(status, 1, err)
        return out

    def test_every_walk_one_too_long(self):
        """Owners and dead times agree: the run differs all the same, from the first turn's start, in cycle 0, to the last one's, in cycle 40 of 45."""

        def spoil(place, line):
            line[3] = longer(line[3]) if line[3] else 0

        out = self.told(DIAMOND, self.spoiled(DIAMOND, spoil))
        self.assertEqual(out.splitlines()[:2], ["streak: 4 cycles since the block last differed", "this run differs: first in cycle 0, last in cycle 40; " + ONLY])
        self.assertRegex(out, r"\n\* +0  turn of base, dead time dropped +turn of base, walk of 2, dead time dropped\n")
        self.assertRegex(out, r"\n += 00000000 80000001 00000000 00010101 += 00000000 80000001 00000000 00020101\n")
        (entry,) = self.entries()
        self.assertEqual((entry["cycles"], entry["first"], entry["last"]), (45, 0, 40))

    def test_a_log_of_before(self):
        """A recording whose turn numbers do not have the field yet differs at every turn start, in the walk alone."""
        text = (DIAMOND / "expected.txt").read_text().splitlines()
        log = self.text("\n".join([text[0], *map(without_walk, text[1:])]) + "\n")
        out = self.told(DIAMOND, log)
        self.assertIn("this run differs: first in cycle 0, last in cycle 40; %s\n" % ONLY, out)
        self.assertIn("turn of base, walk of 0, dead time dropped\n", out)

    def test_one_walk(self):
        """Turn 7, in cycle 35 and line 53 below the header: the block's walk tried two classes and not three."""

        def spoil(place, line):
            if line[3] == 0x00030004:
                line[3] = 0x00020004

        out = self.told(DIAMOND, self.spoiled(DIAMOND, spoil))
        self.assertIn("this run differs: first in cycle 35, last in cycle 35; %s\n" % ONLY, out)
        self.assertRegex(out, r"\n\* +35  turn of top, walk of 3, dead time kept +turn of top, walk of 2, dead time kept\n")

    def test_not_the_walk_alone(self):
        """Another owner, another dead time, another command in the same line or in another one, or a walk where no turn starts: nothing is said of the walk alone."""
        starts = [place for place, line in enumerate((DIAMOND / "expected.txt").read_text().splitlines()[1:]) if not line.endswith(" 00000000")]
        self.assertEqual(len(starts), 9)
        for at, change in (
            (starts[3], lambda line: [*line[:3], longer(line[3]) + 1]),
            (starts[3], lambda line: [*line[:3], longer(line[3]) ^ 256]),
            (starts[3], lambda line: [*line[:3], line[3] ^ 256]),
            (starts[3], lambda line: [line[0], line[1] ^ 1, line[2], longer(line[3])]),
            (starts[3] + 1, lambda line: [line[0], line[1], line[2] ^ 1, line[3]]),
            (starts[3] + 1, lambda line: [*line[:3], 0x00010000]),
            (starts[3], lambda line: [*line[:3], line[3] | 1 << 21]),
        ):

            def spoil(place, line):
                # Turn 7's walk differs in any case.
                if place == starts[7]:
                    line[3] = longer(line[3])
                elif place == at:
                    line[:] = change(line)

            out = self.told(DIAMOND, self.spoiled(DIAMOND, spoil))
            self.assertIn("first in cycle 15, last in cycle 35\n" if at == starts[3] else "first in cycle 16, last in cycle 35\n", out)
            self.assertNotIn("only in", out)

    def test_a_shorter_log(self):
        """Lines that are missing are more than a walk."""
        log = self.text("\n".join((DIAMOND / "expected.txt").read_text().replace("00030004", "00020004").splitlines()[:-1]) + "\n")
        out = self.told(DIAMOND, log)
        self.assertIn("first in cycle 35, last in cycle 44; the model has 63 lines, and the block 62\n", out)

    def test_many_lines(self):
        """The first and the last block of lines that are read differ, in the walk alone; then one of the two in more than that."""
        numbers = self.numbers([0] * 70_000)
        numbers[0][3], numbers[68_000][3] = longer(numbers[0][3]), longer(numbers[68_000][3])
        self.assertIn("first in cycle 0, last in cycle 68000; %s\n" % ONLY, self.streak([0] * 70_000, self.lines(numbers), 1_999, True))
        for place, last in ((1, 68_000), (68_001, 68_001)):
            numbers[place][1] = 1
            self.assertIn("first in cycle 0, last in cycle %d\n" % last, self.streak([0] * 70_000, self.lines(numbers), 69_999 - last, True))
            numbers[place][1] = 0

    def test_equal_logs(self):
        self.assertEqual(self.succeeds("streak", DIAMOND, DIAMOND / "expected.txt", "--ledger", self.ledger), "streak: 45 cycles and no difference so far\n")

    def test_the_wires_carry_no_turns(self):
        """A recording of the wires says nothing of walks, and is equal to the model whatever they were."""
        trace = [0x80010007, 0, 0, 0]
        self.streak(trace, self.text("command 0 80010007\ncommand 1 C0010007\nanswer 2 80010007\ncycles 3\n"), 3)


class Regressions(Case):
    def folder(self, spoil):
        for name in ("policy.bin", "trace.bin"):
            shutil.copy(DIAMOND / name, self.room)
        lines = (DIAMOND / "expected.txt").read_text().splitlines()
        (self.room / "expected.txt").write_text("\n".join([lines[0], *map(spoil, lines[1:])]) + "\n")
        return self.room

    def told(self, folder):
        status, out, _ = vig("regress", folder, "--junit", self.room / "rows.xml")
        self.assertEqual(status, 1)
        return out.splitlines()[2:], (self.room / "rows.xml").read_text()

    def test_an_expected_log_of_before(self):
        told, junit = self.told(self.folder(without_walk))
        line = "line 20: the two differ %s: 0 expected, 1 got" % ONLY
        expected = ["line 20: expected 00000000 80000001 00000000 00000101", "line 20: got      00000000 80000001 00000000 00010101", line]
        self.assertEqual([text.strip() for text in told], expected)
        self.assertIn(line, junit)

    def test_not_the_walk_alone(self):
        for old, new in (("00010101", "00000102"), ("80000001 00000000 00010101", "80000002 00000000 00020101"), ("00010101", "00010101 ")):
            told, junit = self.told(self.folder(lambda line, old=old, new=new: line.replace(old, new)))
            self.assertEqual(len(told), 2, told)
            self.assertNotIn("only in", junit)


class Seen(Case):
    def test_generated(self):
        """Each turn number of an extract is the log's, with its walk, or 512, by whether the owner may flow to the class."""
        library, shown, hidden = build.library(), 0, 0
        for ran in generated(library, self.room, 20, 150):
            turns = [call.turn for call in calls_of(ran.trace, ran.log) if call.ticks]
            for seen_by in range(ran.policy.classes):
                status, out = library.extract(ran.folder.policy_bytes, seen_by, ran.trace, ran.log)
                self.assertEqual(status, 0)
                # A tick is the one call whose line may have a turn number, a command or an answer; the ticks left are all.
                left = [turn for turn in out[3::4] if turn]
                wanted = [turn if ran.policy.flows(owner_of(turn), seen_by) else 512 for turn in turns if turn]
                self.assertEqual(left, wanted)
                shown += sum(walk_of(turn) > 1 for turn in left)
                hidden += left.count(512)
        self.assertGreater(shown, 100)
        self.assertGreater(hidden, 100)

    def test_words(self):
        """The diamond's turns 7 and 8 are top's, by walks of 3 and 2: left sees neither, and sees the walk of 2 of its own turn 6."""
        lines = self.succeeds("extract", DIAMOND, "--class", "left").splitlines()
        self.assertEqual([line[-8:] for line in lines[1:] if not line.endswith(" 00000000")], ["00010101", "00010101", "00010002", *["00000200"] * 3, "00020002", *["00000200"] * 2])
        words = self.succeeds("extract", DIAMOND, "--class", "left", "--words").splitlines()
        starts = [line for line in words if ": turn of " in line]
        self.assertEqual([line for line in starts if "walk" in line], ["cycle 30: turn of left, walk of 2, dead time kept; activate left write bank 4 tag 3"])
        self.assertEqual(sum(line.endswith("turn of a class that may not be seen") for line in starts), 5)

    def test_a_leak_by_the_walk_alone(self):
        """Were a walk's length to tell of what may not be known, the difference is found, and it is said that it is in nothing else."""

        def leak(out, trace, log):
            if any(word >> 24 == 0x82 for word in trace):
                place = next(place for place in range(3, len(out), 4) if owner_of(out[place]) == 1)
                out[place] = longer(out[place])

        with leaking(leak):
            status, out, _ = vig("blind", TENANTS, BUSY, "--class", "red")
        self.assertEqual(status, 1)
        told = out.replace(str(EXAMPLES), "examples").splitlines()[-3:]
        self.assertRegex(told[0], r"^the first difference is in line [0-9]+ of the extracts, in its turn, %s:$" % ONLY)
        self.assertRegex(told[1], r"^  examples/two-tenants: 00010002: cycle 6: turn of red, dead time kept; activate red ")
        self.assertRegex(told[2], r"^  examples/two-tenants-busy: 00020002: cycle 6: turn of red, walk of 2, dead time kept; activate red ")

    def test_a_leak_by_the_bank(self):
        """A command's word has its bank where a turn number has the walk: a leak there is none of the walk."""

        def leak(out, trace, log):
            place = next(place for place in range(1, len(out), 4) if out[place] >> 24 == 0x81)
            out[place] ^= any(word >> 24 == 0x82 for word in trace) << 16

        with leaking(leak):
            status, out, _ = vig("blind", TENANTS, BUSY, "--class", "red")
        self.assertEqual(status, 1)
        self.assertIn("in its command:\n", out)

    def test_a_hidden_turn_with_a_walk_is_no_walk_alone(self):
        """A leak in the bits of a hidden turn's walk: the numbers tell, and nothing is said of an owner that agrees."""

        def leak(out, trace, log):
            place = next(place for place in range(3, len(out), 4) if out[place] == HIDDEN)
            out[place] += sum(not is_tick(word) for word in trace) << 16

        with leaking(leak):
            status, out, _ = vig("blind", TENANTS, BUSY, "--class", "red")
        self.assertEqual(status, 1)
        self.assertIn("in its turn:\n", out)
        self.assertNotIn("only in", out)

    def test_two_traces_that_agree(self):
        """One class beside idle and busy neighbours: walks that it may see are as long in both."""
        one, other = self.room / "one", self.room / "other"
        for folder, words in ((one, [0] * 24), (other, [0x82000001] * 3 + [0] * 24)):
            folder.mkdir()
            shutil.copy(TENANTS / "policy.bin", folder)
            (folder / "trace.bin").write_bytes(bytes_of(words))
        self.assertIn("its extracts are equal: 96 numbers each", self.succeeds("blind", one, other, "--class", "1"))
