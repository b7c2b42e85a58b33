"""The picture: read as XML, its bars and marks counted and placed against the log."""

import re
import xml.etree.ElementTree as ElementTree
from collections import Counter

from vigambul import build
from vigambul.folders import folder_at, run_folder
from vigambul.formats import Request, is_column, is_elided, is_offer, owner_of, request_of, walk_of
from vigambul.history import calls_of, passing
from vigambul.picture import BAR_Y, HOME_Y, MARKS, ROW, ROWS_Y, rows_of
from vigambul.policies import Policy

from .samples import FIVE, FIVE_NAMES, generated, write, write_five
from .support import EXAMPLES, Case, vig

SVG = "{http://www.w3.org/2000/svg}"
STARTS = re.compile(r"[ML]?(-?[0-9.]+) (-?[0-9.]+)")


class Picture:
    """A picture that was read: its elements by their class attribute. The signs of the legend have no words."""

    def __init__(self, text):
        self.root = ElementTree.fromstring(text)
        axis = [line for line in self.elements("line", "axis") if line.get("y1") == line.get("y2")]
        self.left, self.right, self.bottom = float(axis[0].get("x1")), float(axis[0].get("x2")), float(axis[0].get("y1"))
        self.texts = [element.text for element in self.root.iter(SVG + "text")]

    def elements(self, name, kind):
        return [element for element in self.root.iter(SVG + name) if element.get("class") == kind]

    def words(self, kind):
        """The lines of words of all marks of a kind; the legend's have none."""
        return [line for element in self.marks(kind) for line in element.find(SVG + "title").text.split("\n")]

    def marks(self, kind):
        return [element for element in self.elements("circle" if kind == "answer" else "path", kind) if element.find(SVG + "title") is not None]

    def bars(self, kind):
        """The bars of a kind: where they begin, how wide they are, the row, and the words."""
        found = [element for element in self.elements("rect", kind) if element.find(SVG + "title") is not None]
        top = ROWS_Y + (HOME_Y if kind == "home" else BAR_Y)
        return [(float(bar.get("x")), float(bar.get("width")), (float(bar.get("y")) - top) / ROW, bar.find(SVG + "title").text) for bar in found]

    def place(self, mark, kind):
        """A mark's middle and its row."""
        if kind == "answer":
            x, y = float(mark.get("cx")), float(mark.get("cy"))
        else:
            points = [(float(x), float(y)) for x, y in STARTS.findall(mark.get("d"))]
            x = (min(x for x, _ in points) + max(x for x, _ in points)) / 2
            y = (min(y for _, y in points) + max(y for _, y in points)) / 2
        return x, (y - ROWS_Y - MARKS[kind]) / ROW


class PictureCase(Case):
    def picture(self, folder, *words):
        out = self.room / "out.svg"
        self.succeeds("picture", folder, "-o", out, *words)
        return Picture(out.read_text())

    def check(self, folder, first, last, *words):
        """Every bar and mark of a range of cycles, and none else."""
        ran = run_folder(build.library(), folder_at(folder))
        calls, rows = list(calls_of(ran.trace, ran.log)), rows_of(ran.policy)
        picture = self.picture(folder, *words)
        wide = (picture.right - picture.left) / (last - first + 1)
        ticks = sum(call.ticks for call in calls)
        shown = [call for call in calls if first <= call.cycle <= last or call.cycle == last + 1 == ticks]
        turns = [call for call in calls if call.ticks and call.turn and call.cycle <= last and call.cycle + ran.policy.turn > first]
        bars = []
        for call in turns:
            begins, ends = max(call.cycle, first), min(call.cycle + ran.policy.turn - 1, last)
            bars.append((picture.left + wide * (begins - first), wide * (ends - begins + 1), rows.index(owner_of(call.turn))))
        self.assert_near([bar[:3] for bar in picture.bars("turn")], bars)
        for bar, call in zip(picture.bars("turn"), turns):
            ends = min(call.cycle + ran.policy.turn, ticks) - 1
            walk = "" if walk_of(call.turn) == 1 else ", walk of %d" % walk_of(call.turn)
            words = "%s%s, dead time %s" % (ran.names.of(owner_of(call.turn)), walk, "dropped" if is_elided(call.turn) else "kept")
            self.assertEqual(bar[3], "turn %d, cycles %d to %d: %s" % (call.cycle // ran.policy.turn, call.cycle, ends, words))
        dead = []
        for call in turns:
            begins, ends = max(call.cycle + ran.policy.turn - ran.policy.dead, first), min(call.cycle + ran.policy.turn - 1, last)
            if not is_elided(call.turn) and begins <= ends:
                dead.append((picture.left + wide * (begins - first), wide * (ends - begins + 1), rows.index(owner_of(call.turn))))
        self.assert_near([bar[:3] for bar in picture.bars("dead")], dead)
        homes = [(bar, ran.policy.home(call.cycle // ran.policy.turn), call.cycle // ran.policy.turn) for bar, call in zip(bars, turns)]
        homes = [(bar, home, turn) for bar, home, turn in homes if home is not None]
        self.assert_near([bar[:3] for bar in picture.bars("home")], [(x, width, rows.index(home)) for (x, width, _), home, _ in homes])
        self.assertEqual([bar[3] for bar in picture.bars("home")], ["turn %d: home turn of %s" % (turn, ran.names.of(home)) for _, home, turn in homes])
        self.check_marks(picture, ran, shown, first, wide, rows)
        return picture

    def assert_near(self, got, wanted):
        self.assertEqual(len(got), len(wanted))
        for place, other in zip(sorted(got), sorted(wanted)):
            for number, expected in zip(place, other):
                self.assertAlmostEqual(number, expected, delta=0.11)

    def check_marks(self, picture, ran, shown, first, wide, rows):
        classes, passes = ran.policy.classes, dict(passing(calls_of(ran.trace, ran.log)))
        marks = {kind: Counter() for kind in MARKS}
        for call in shown:
            if call.status:
                owner = request_of(call.word).class_ if is_offer(call.word) else None
                marks["refusal"][len(rows) if owner is None or owner >= classes else rows.index(owner), call.cycle] += 1
            elif call.ticks:
                if call.command and not is_column(call.command):
                    marks["passing" if passes[call] else "activate"][rows.index(request_of(call.command).class_), call.cycle] += 1
                if call.response:
                    marks["answer"][rows.index(request_of(call.response).class_), call.cycle] += 1
            else:
                marks["offer"][rows.index(request_of(call.word).class_), call.cycle] += 1
        for kind, wanted in marks.items():
            got = Counter()
            for mark in picture.marks(kind):
                x, row = picture.place(mark, kind)
                cycle = (x - picture.left) / wide - 0.5 + first
                self.assertAlmostEqual(cycle, round(cycle), delta=0.03)
                self.assertAlmostEqual(row, round(row), delta=0.01)
                lines = mark.find(SVG + "title").text.split("\n")
                self.assertTrue(all(line.startswith("cycle %d: " % round(cycle)) for line in lines), lines)
                got[round(row), round(cycle)] += len(lines)
            self.assertEqual(got, wanted, kind)


class Counted(PictureCase):
    def test_examples(self):
        lasts = {"busy-bank": 33, "chain-of-three": 39, "diamond": 44, "printed-log": 2, "refused-calls": 11, "single-class": 43, "two-ranks": 35}
        lasts.update({"two-tenants": 41, "two-tenants-busy": 41})
        for name, last in lasts.items():
            with self.subTest(name):
                picture = self.check(EXAMPLES / name, 0, last)
                self.assertIn("%s: cycles 0 to %d" % (name, last), picture.texts)

    def test_by_hand(self):
        """The busy tenants: seven turns, four with their dead time kept, four of them home turns; 6 + 8 + 2 offers before cycle 0 and 8 + 1 before cycle 26, the last refused; one
        activate passes an older request, and the last is not answered any more."""
        picture = self.picture(EXAMPLES / "two-tenants-busy")
        self.assertEqual((len(picture.bars("turn")), len(picture.bars("dead")), len(picture.bars("home"))), (7, 4, 4))
        self.assertEqual((len(picture.marks("offer")), len(picture.words("offer")), len(picture.marks("refusal"))), (4, 24, 1))
        self.assertEqual((len(picture.marks("activate")), len(picture.marks("passing")), len(picture.marks("answer"))), (16, 1, 16))
        self.assertEqual(picture.words("passing"), ["cycle 24: activate red write bank 3 tag 4, passing 1 older"])
        self.assertEqual([element.text for element in picture.elements("text", "count")], ["2", "8", "8", "6"])
        self.assertEqual([text for text in picture.texts if text.startswith("epoch ") and text[6:].isdecimal()], ["epoch 0", "epoch 1", "epoch 2"])
        self.assertEqual(len(picture.elements("line", "epoch")), 3 + 1)
        self.assertEqual([element.text for element in picture.elements("text", "name")], ["blue", "red", "base"])

    def test_ranks_by_hand(self):
        """The two ranks: beside each activate its rank, row by row, those that pass last, behind the numbers of offers; the words name it, and so do the line below the title and the
        legend. Where there is one rank nothing is said."""
        picture = self.picture(EXAMPLES / "two-ranks")
        self.assertEqual([element.text for element in picture.elements("text", "count")], ["2", "4", "3", "1", "1", "0", "1", "1", "0", "0", "1", "0"])
        self.assertEqual(picture.words("passing"), ["cycle 26: activate host read rank 0 bank 2 tag 7, passing 1 older"])
        self.assertIn("cycle 4: activate host read rank 1 bank 3 tag 2", picture.words("activate"))
        self.assertIn("activate, with its rank", picture.texts)
        self.assertTrue(any(text.endswith(" 4 ranks, rank gap 4 cycles.") for text in picture.texts))
        self.assertFalse(any("rank" in text for text in self.picture(EXAMPLES / "diamond").texts))

    def test_ranks_keep_their_distance(self):
        """A rank is left out where the next activate of the row, of either kind, leaves no room for it."""
        policy = Policy([1], 1, [0], [60, 31, 1, 1, 1, 1, 3, 3, 20, 31, 2])
        trace = [Request(0, 0, bank, 0, rank).word for rank, bank in ((0, 0), (0, 0), (0, 1), (1, 0), (0, 2))] + [0] * 120
        picture = self.picture(write(self.room / "close", policy, trace))
        marks = sorted(picture.place(mark, kind)[0] for kind in ("activate", "passing") for mark in picture.marks(kind))
        ranks = sorted(float(element.get("x")) for element in picture.elements("text", "count") if element.text in ("0", "1"))
        self.assertEqual((len(marks), len(picture.marks("passing"))), (5, 2))
        self.assertTrue(0 < len(ranks) < 5)
        for x in ranks:
            self.assertFalse([mark for mark in marks if x < mark < x + 8])

    def test_ranges(self):
        for first, last in ((0, 0), (3, 3), (7, 29), (11, 36), (40, 41)):
            with self.subTest("%d to %d" % (first, last)):
                self.check(EXAMPLES / "two-tenants-busy", first, last, "--from", first, "--to", last)
        self.check(EXAMPLES / "two-tenants-busy", 20, 41, "--from", 20)
        self.check(EXAMPLES / "two-tenants-busy", 0, 20, "--to", 20)

    def test_generated(self):
        for place, ran in enumerate(generated(build.library(), self.room, 16, 150)):
            with self.subTest(place):
                last = min(150, 40 * ran.policy.turn) - 1
                self.check(ran.folder.path, 0, last)
                self.check(ran.folder.path, 33, min(99, last), "--from", 33, "--to", min(99, last))

    def test_rows(self):
        """Each class stands above those that may flow to it."""
        for ran in generated(build.library(), self.room, 10, 1):
            rows = rows_of(ran.policy)
            self.assertEqual(sorted(rows), list(range(ran.policy.classes)))
            self.assertEqual(rows[-1], ran.policy.least)
            for number in rows:
                self.assertTrue(all(rows.index(below) > rows.index(number) for below in ran.policy.below(number)))

    def test_flights(self):
        """A line from each activate; from the left edge for what was under way before, to the right edge for what is under way at the end."""
        picture = self.picture(EXAMPLES / "two-tenants-busy", "--from", 7, "--to", 9)
        paths = [path.get("d") for path in picture.elements("path", "flight")][:-1]
        self.assertEqual(len(paths), 3)
        self.assertEqual(sum("V" in path for path in paths), 1)
        self.assertEqual(sum(path.endswith("H%g" % picture.right) for path in paths), 1)
        self.assertEqual(sum(path.startswith("M%g " % picture.left) for path in paths), 2)


class Legible(PictureCase):
    def test_forty_turns(self):
        """The first 40 turns of a longer run, and a note; the smallest text has 10 pixels, a mark at least 7."""
        folder, out = write_five(self.room / "five", 300), self.room / "out.svg"
        status, _, err = vig("picture", folder, "-o", out)
        self.assertEqual(status, 0)
        self.assertIn("40 turns are shown, cycles 0 to 239 of 300", err)
        picture = Picture(out.read_text())
        self.assertEqual(len(picture.bars("turn")), 40)
        self.assertGreaterEqual(min(int(size) for size in re.findall(r"font-size: (\d+)px", out.read_text())), 10)
        self.assertGreaterEqual(min(float(mark.get("r")) for mark in picture.marks("answer")), 3.5)
        self.assertEqual(picture.texts.count("alice"), 2)

    def test_no_note(self):
        status, _, err = vig("picture", write_five(self.room / "five", 240), "-o", self.room / "out.svg")
        self.assertEqual((status, err), (0, ""))

    def test_numbers_do_not_collide(self):
        """Numbers of turns, epochs and cycles keep their distance, for the shortest turns and epochs and far out in a run."""
        folder = write(self.room / "tight", Policy([1], 1, [0], [3, 2, 1, 1, 1, 1, 1, 1, 1, 2]), [0] * 3000)
        for words in (("--from", "0"), ("--from", "2900"), ("--from", "2800", "--to", "2900")):
            picture = self.picture(folder, *words)
            by_height = {}
            for text in picture.root.iter(SVG + "text"):
                if text.text.removeprefix("epoch ").isdecimal():
                    by_height.setdefault(text.get("y"), []).append((float(text.get("x")), len(text.text)))
            self.assertEqual(len(by_height), 3)
            for places in by_height.values():
                for (x, length), (after, _) in zip(places, places[1:]):
                    self.assertGreaterEqual(after - x, 5.5 * length)


class Usage(PictureCase):
    def test_stored(self):
        for name in ("printed-log", "refused-calls"):
            self.succeeds("picture", EXAMPLES / name, "-o", self.room / "out.svg")
            self.stored("picture/%s.svg" % name, (self.room / "out.svg").read_text())

    def test_names_are_escaped(self):
        folder = write(self.room / "a<b & c", FIVE, [0x81000001] + [0] * 20, FIVE_NAMES)
        self.assertIn("a<b & c: cycles 0 to 19", self.picture(folder).texts)

    def test_beyond_the_end(self):
        status, _, err = vig("picture", EXAMPLES / "diamond", "--to", 1000, "-o", self.room / "out.svg")
        self.assertEqual(status, 0)
        self.assertIn("the run's last cycle is 44", err)

    def test_mistakes(self):
        out = self.room / "out.svg"
        self.assertIn("last cycle is 44", self.fails(2, "picture", EXAMPLES / "diamond", "--from", 45, "-o", out))
        self.assertIn("before the first cycle", self.fails(2, "picture", EXAMPLES / "diamond", "--from", 20, "--to", 10, "-o", out))
        self.assertIn("not a cycle", self.fails(2, "picture", EXAMPLES / "diamond", "--from", "soon", "-o", out))
        self.assertIn("nowhere: no such folder", self.fails(2, "picture", self.room / "nowhere", "-o", out))
        self.assertIn("nothing to draw", self.fails(2, "picture", write(self.room / "still", FIVE, [0x81000001]), "-o", out))
        self.assertIn("policy refused 5", self.fails(1, "picture", EXAMPLES / "refused", "-o", out))
        self.assertFalse(out.exists())
        self.assertIn("No such file", self.fails(2, "picture", EXAMPLES / "diamond", "-o", self.room / "no" / "out.svg"))
