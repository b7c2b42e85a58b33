"""`vig policy show` on damaged files, and the drawings of orders."""

import random
from xml.etree import ElementTree

from vigambul import build
from vigambul.order_drawing import dot_of, svg_of
from vigambul.policies import Names, Policy, names_beside, policy_of
from vigambul.policy_show import answer_words, decode, shown

from .support import EXAMPLES, Case, vig
from .test_policy_text import any_order, closed

TIMING = [6, 3, 2, 2, 2, 2, 3, 3, 1, 3]
SVG = "{http://www.w3.org/2000/svg}"


def of_rows(rows, epoch=4, minimums=None, timing=None):
    return Policy(rows, epoch, minimums or [0] * len(rows), timing or TIMING)


class Damaged(Case):
    def setUp(self):
        super().setUp()
        self.library = build.library()
        self.met = set()

    def explained(self, data, names=Names(), whole=False):
        """The number that is named is the proved reader's, and a fault explains it."""
        status = self.library.read(data)
        self.met.add(status)
        layout = decode(data, names)
        answer = answer_words(layout, status)
        named = "taken (0)" if status == 0 else "refused %d:" % status
        self.assertIn("The proved reader: " + named, answer[0])
        self.assertEqual(min((fault.number for fault in layout.faults), default=0), status, data.hex(" "))
        if whole:
            covered = sorted(offset for known in layout.fields for offset in range(known.offset, known.offset + known.size))
            self.assertEqual(covered, list(range(len(data))), "each byte stands once")
            shown(layout, "file")
        return answer

    def damaged(self, name):
        """Every damage of one byte of an example's policy; the numbers that are met."""
        path = EXAMPLES / name / "policy.bin"
        data, names = path.read_bytes(), names_beside(path)
        for offset in range(len(data)):
            for value in range(256):
                self.explained(data[:offset] + bytes([value]) + data[offset + 1 :], names, whole=value in (0, 1, 17))
        return self.met

    def test_every_damage_of_one_byte(self):
        self.assertEqual(self.damaged("diamond"), set(range(9)))

    def test_every_damage_of_one_byte_with_a_rank_gap(self):
        """With two classes there is no order that lacks a flow: no 5."""
        self.assertEqual(self.damaged("two-ranks"), set(range(9)) - {5})

    def test_every_cut_and_what_is_behind(self):
        for name in ("two-tenants", "two-ranks"):
            data = (EXAMPLES / name / "policy.bin").read_bytes()
            for length in range(len(data)):
                self.explained(data[:length], whole=True)
            self.explained(data + b"behind", whole=True)
            self.explained(data * 2000, whole=False)
        self.assertEqual(self.met, {1})

    def test_files_of_another_kind(self):
        random_numbers = random.Random(8)
        for _ in range(300):
            self.explained(random_numbers.randbytes(random_numbers.choice((0, 1, 16, 17, 37, 76, 300))), whole=True)

    def test_sound_contents_with_bodies_that_do_not_fit(self):
        for order, turns, timing in ((0, 3, 10), (1, 1, 10), (8, 4, 10), (7, 0, 0), (7, 4, 9), (7, 4, 12), (500, 300, 90), (33, 17, 11)):
            table = bytes([3])
            start = 16
            for kind, length in enumerate((order, turns, timing), 1):
                table += bytes([kind]) + start.to_bytes(2, "little") + length.to_bytes(2, "little")
                start += length
            self.explained(table + bytes([3] * (order + turns + timing)), whole=True)
        self.assertEqual(self.met, {2})

    def test_the_reasons(self):
        """One file for each number, and those that are easily taken for another."""
        names = Names({0: "low", 1: "middle", 2: "high"})
        good = of_rows([7, 6, 4], 3, [0, 1, 1]).to_bytes()
        files = {
            "1, an empty file": b"",
            "1, a file that is cut": good[:20],
            "1, a start that does not abut": good[:7] + b"\x18" + good[8:],
            "2, n = 17": good[:16] + b"\x11" + good[17:],
            "2, n = 4 beside the lengths of 3": good[:16] + b"\x04" + good[17:],
            "3, a bit at n and an own one missing": of_rows([7, 4, 12]).to_bytes(),
            "4, a pair": of_rows([7, 7, 4]).to_bytes(),
            "5, not transitive": of_rows([3, 6, 4]).to_bytes(),
            "5, a cycle of three": of_rows([3, 6, 5]).to_bytes(),
            "6, no least class": of_rows([1, 2, 4]).to_bytes(),
            "7, an epoch of 0 and a sum above it": of_rows([7, 6, 4], 0, [0, 1, 1]).to_bytes(),
            "7, a sum above the epoch": of_rows([7, 6, 4], 3, [1, 2, 1]).to_bytes(),
            "8, a gap above the dead time": of_rows([7, 6, 4], timing=[6, 3, 2, 4, 2, 2, 3, 3, 1, 3]).to_bytes(),
            "2, a timing of nine bytes": of_rows([7, 6, 4], timing=TIMING[:-1]).to_bytes(),
            "2, a timing of twelve bytes": of_rows([7, 6, 4], timing=TIMING + [2, 2]).to_bytes(),
            "8, a rank gap of 0": of_rows([7, 6, 4], timing=TIMING + [0]).to_bytes(),
            "8, a rank gap above the dead time": of_rows([7, 6, 4], timing=TIMING + [4]).to_bytes(),
            "8, several timing bytes": of_rows([7, 6, 4], timing=[1, 1, 2, 4, 2, 2, 3, 3, 9, 3]).to_bytes(),
        }
        told = []
        for name, data in files.items():
            self.assertEqual(str(self.library.read(data)), name[0])
            told.append("== %s\n%s\n" % (name, "\n".join(self.explained(data, names))))
        self.stored("policy/reasons.txt", "\n".join(told))

    def test_both_lengths_of_the_timing(self):
        """Ten bytes are shown as they were; an eleventh is the rank gap, from 1 to the dead time, 3."""
        for gap, status in ((None, 0), (0, 8), (1, 0), (3, 0), (4, 8)):
            data = of_rows([7, 6, 4], timing=TIMING + ([] if gap is None else [gap])).to_bytes()
            answer = self.explained(data, whole=True)
            self.assertEqual(self.library.read(data), status)
            self.assertEqual(any(line.startswith("There are 4 ranks of 8 banks each.") for line in answer), status == 0 and gap is not None)
            fields = decode(data, Names()).fields
            self.assertEqual([known.value for known in fields if known.what == "rank gap"], [] if gap is None else [gap])
            self.assertEqual([known.allowed for known in fields if known.what == "entry 3, timing: length"], ["10, or 11 with a rank gap"])

    def test_the_text_of_a_file_with_a_rank_gap(self):
        """It has the gap, and gives the bytes again; that of a refused one can be mended."""
        data = of_rows([7, 6, 4], timing=TIMING + [2]).to_bytes()
        (self.room / "policy.bin").write_bytes(data)
        text = self.succeeds("policy", "show", "--toml", self.room / "policy.bin")
        self.assertIn("answer_delay = 3\nrank_gap = 2\n", text)
        (self.room / "again.toml").write_text(text)
        self.succeeds("policy", "make", self.room / "again.toml")
        self.assertEqual((self.room / "again.bin").read_bytes(), data)
        (self.room / "policy.bin").write_bytes(data[:-1] + b"\x00")
        status, text, _ = vig("policy", "show", "--toml", self.room / "policy.bin")
        self.assertEqual(status, 1)
        self.assertIn("rank_gap = 0\n", text)

    def test_a_file_that_is_no_policy(self):
        (self.room / "text.bin").write_text("This is not a policy file at all, but a text of some length.\n")
        status, out, err = vig("policy", "show", self.room / "text.bin")
        self.assertEqual((status, err), (1, ""))
        self.stored("policy/show-text.txt", out.replace(str(self.room) + "/", ""))
        for form in ("--dot", "--svg", "--toml"):
            status, out, err = vig("policy", "show", form, self.room / "text.bin")
            self.assertEqual((status, out), (1, ""))
            self.assertIn("The proved reader: refused 1", err)

    def test_damaged_names_are_told(self):
        (self.room / "policy.bin").write_bytes((EXAMPLES / "diamond" / "policy.bin").read_bytes())
        (self.room / "policy.names").write_bytes(b"0 base\n\xff\xff\n")
        self.assertIn("policy.names, line 2", self.fails(2, "policy", "show", self.room / "policy.bin"))


def overlap(one, other):
    """Whether two boxes of a drawing, as left, top, width and height, touch."""
    return one[0] < other[0] + other[2] and other[0] < one[0] + one[2] and one[1] < other[1] + other[3] and other[1] < one[1] + one[3]


class Drawings(Case):
    def boxes(self, text):
        """The boxes of a drawing by class number, and the points of its lines; they must lie on the paper."""
        root = ElementTree.fromstring(text)
        width, height = float(root.get("width")), float(root.get("height"))
        boxes = {}
        for group in root.iter(SVG + "g"):
            rect = group.find(SVG + "rect")
            if rect is not None:
                words = [part.text for part in group.iter(SVG + "text")]
                number = next(int(word.split()[1]) for word in words if word.startswith("class "))
                boxes[number] = tuple(float(rect.get(key)) for key in ("x", "y", "width", "height"))
                self.assertTrue(0 <= boxes[number][0] and boxes[number][0] + boxes[number][2] <= width and 0 <= boxes[number][1] and boxes[number][1] + boxes[number][3] <= height)
        lines = [[tuple(map(float, point.split(","))) for point in line.get("points").split()] for line in root.iter(SVG + "polyline")]
        return boxes, lines

    def check_drawing(self, policy, names):
        """Each class has a box apart from the others, higher classes stand higher, and the lines join each class with those directly above it."""
        boxes, lines = self.boxes(svg_of(policy, names))
        self.assertEqual(sorted(boxes), list(range(policy.classes)))
        for i in boxes:
            for j in boxes:
                self.assertFalse(i < j and overlap(boxes[i], boxes[j]), (i, j))
                if j in policy.above(i):
                    self.assertLess(boxes[j][1] + boxes[j][3], boxes[i][1])

        def box_at(point):
            return next(i for i, (left, top, width, height) in boxes.items() if abs(left + width / 2 - point[0]) < 1 and min(abs(point[1] - top), abs(point[1] - top - height)) < 1)

        drawn = sorted((box_at(line[0]), box_at(line[-1])) for line in lines)
        self.assertEqual(drawn, sorted((i, j) for i in range(policy.classes) for j in policy.covers(i)))

    def test_shapes_and_generated_orders(self):
        chain = closed(16, [(i, i + 1) for i in range(15)])
        fan = closed(16, [(0, i) for i in range(1, 16)])
        diamond = closed(4, [(0, 1), (0, 2), (1, 3), (2, 3)])
        cube = closed(16, [(i, i | 1 << bit) for i in range(16) for bit in range(4) if not i >> bit & 1])
        random_numbers = random.Random(21)
        for rows in [chain, fan, diamond, cube, [1]] + [any_order(random_numbers) for _ in range(30)]:
            self.check_drawing(of_rows(rows), Names())
            self.check_drawing(of_rows(rows), Names({number: "a_rather-long_name_of_a_class%d" % number for number in range(len(rows))}))

    def test_the_examples(self):
        for name in ("diamond", "two-tenants", "single-class"):
            path = EXAMPLES / name / "policy.bin"
            self.check_drawing(policy_of(path.read_bytes()), names_beside(path))
            self.assertEqual(self.succeeds("policy", "show", "--svg", path), svg_of(policy_of(path.read_bytes()), names_beside(path)))
        self.stored("policy/diamond.svg", self.succeeds("policy", "show", "--svg", EXAMPLES / "diamond" / "policy.bin"))
        self.stored("policy/diamond.dot", self.succeeds("policy", "show", "--dot", EXAMPLES / "diamond" / "policy.bin"))

    def test_dot_has_the_classes_directly_above(self):
        random_numbers = random.Random(22)
        for _ in range(20):
            policy = of_rows(any_order(random_numbers))
            edges = [line.strip(" ;").split(" -> ") for line in dot_of(policy, Names()).splitlines() if "->" in line]
            self.assertEqual(edges, [["c%d" % i, "c%d" % j] for i in range(policy.classes) for j in policy.covers(i)])

    def test_an_order_that_is_refused_is_not_drawn(self):
        status, out, err = vig("policy", "show", "--svg", EXAMPLES / "refused" / "policy.bin")
        self.assertEqual((status, out), (1, ""))
        self.assertIn("no order that could be drawn", err)

    def test_an_order_is_drawn_where_only_the_turns_are_refused(self):
        (self.room / "policy.bin").write_bytes(of_rows([7, 6, 4], 1, [0, 1, 1]).to_bytes())
        status, out, err = vig("policy", "show", "--svg", self.room / "policy.bin")
        self.assertEqual(status, 1)
        self.assertEqual(len(self.boxes(out)[0]), 3)
        self.assertIn("refused 7", err)
