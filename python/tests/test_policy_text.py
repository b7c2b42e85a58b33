"""Policies as text: what each mistake is told like, times and clocks, numbers, and the way from text to bytes to text."""

import random

from vigambul import build
from vigambul.policies import TIMING_KEYS, Names, class_mask, policy_of
from vigambul.policy_text import read_policy_text, text_of

from .support import EXAMPLES, Case, vig

GOOD = """\
epoch = 4

[timing]
turn_length = 6
dead_time = 3
gap_read_read = 2
gap_read_write = 2
gap_write_read = 2
gap_write_write = 2
same_bank_after_read = 3
same_bank_after_write = 3
column_delay = 1
answer_delay = 3

[class.base]

[class.red]
above = ["base"]
minimum = 1

[class.blue]
above = ["base"]
minimum = 1
"""
TIMING_TABLE = GOOD[GOOD.index("[timing]") : GOOD.index("[class.base]")]
CLASS_TABLES = GOOD[GOOD.index("[class.base]") :]

# What is wrong, and how the good text is changed to have it: pairs of what goes and what comes.
MISTAKES = {
    "an unknown key of the policy": [("epoch = 4", "epoc = 4")],
    "above mistyped": [('[class.red]\nabove', "[class.red]\nabov")],
    "a number that is out of all bounds": [("epoch = 4", "epoch = 0x%s" % ("f" * 5000))],
    "an unknown key that is like none": [("epoch = 4", "epoch = 4\nfrequency = 3")],
    "an unknown key of the timing": [("dead_time = 3", "deadtime = 3")],
    "a short key of the timing": [("column_delay = 1", "column = 1")],
    "an unknown key of a class": [("minimum = 1\n\n", "minimun = 1\n\n")],
    "an unknown table": [("[class.base]", "[classes.base]"), ("[class.red]", "[classes.red]"), ("[class.blue]", "[classes.blue]")],
    "an unknown class in above": [('["base"]\nminimum = 1\n\n', '["bas"]\nminimum = 1\n\n')],
    "an unknown class in above, on a line of its own": [('["base"]\nminimum = 1\n\n', '[\n  "base",\n  "green",\n]\nminimum = 1\n\n')],
    "a class twice": [("[class.blue]", "[class.red]")],
    "a key twice": [("epoch = 4", "epoch = 4\nepoch = 5")],
    "a class name that is no name": [("[class.blue]", '[class."light blue"]')],
    "a class name that is a number": [("[class.blue]", "[class.2]")],
    "a class name that is too long": [("[class.blue]", "[class.%s]" % ("b" * 33))],
    "a cycle of two": [("[class.base]", '[class.base]\nabove = ["red"]')],
    "a cycle of three and one of two beside it": [
        ("[class.base]", '[class.top]\nabove = ["base", "blue"]\n\n[class.left]\nabove = ["right"]\n\n[class.right]\nabove = ["left"]\n\n[class.base]'),
        ('[class.blue]\nabove = ["base"]', '[class.blue]\nabove = ["red"]'),
        ('[class.red]\nabove = ["base"]', '[class.red]\nabove = ["top", "base"]'),
    ],
    "a class above itself": [('[class.red]\nabove = ["base"]', '[class.red]\nabove = ["base", "red"]')],
    "no least class": [('[class.red]\nabove = ["base"]\n', "[class.red]\n"), ('[class.blue]\nabove = ["base"]\n', "[class.blue]\n")],
    "seventeen classes": [(CLASS_TABLES, CLASS_TABLES + "".join('\n[class.t%d]\nabove = ["base"]\n' % place for place in range(14)))],
    "no class": [(CLASS_TABLES, "")],
    "no class in the table": [(CLASS_TABLES, "[class]\n")],
    "a class that is no table": [(CLASS_TABLES, '[class]\nbase = 3\n')],
    "classes as a list": [(CLASS_TABLES, '[[class]]\nname = "base"\n')],
    "a number twice": [("[class.base]", "[class.base]\nnumber = 1"), ("[class.red]", "[class.red]\nnumber = 1")],
    "a number out of range": [("[class.red]", "[class.red]\nnumber = 3")],
    "an epoch of 0": [("epoch = 4", "epoch = 0")],
    "an epoch of 65": [("epoch = 4", "epoch = 65")],
    "an epoch in quotes": [("epoch = 4", 'epoch = "4"')],
    "an epoch that is yes or no": [("epoch = 4", "epoch = true")],
    "an epoch that is no whole number": [("epoch = 4", "epoch = 4.0")],
    "no epoch": [("epoch = 4\n", "")],
    "minimums above the epoch": [("epoch = 4", "epoch = 2"), ("minimum = 1\n\n", "minimum = 4\n\n")],
    "minimums above any epoch": [("minimum = 1\n\n", "minimum = 40\n\n"), ('["base"]\nminimum = 1\n', '["base"]\nminimum = 30\n')],
    "a minimum below 0": [("minimum = 1\n\n", "minimum = -1\n\n")],
    "a minimum in quotes": [("minimum = 1\n\n", 'minimum = "one"\n\n')],
    "above without a list": [('above = ["base"]\nminimum = 1\n\n', 'above = "base"\nminimum = 1\n\n')],
    "above with a number": [('above = ["base"]\nminimum = 1\n\n', "above = [0]\nminimum = 1\n\n")],
    "no timing": [(TIMING_TABLE, "")],
    "a timing that is no table": [(TIMING_TABLE, ""), ("epoch = 4", "epoch = 4\ntiming = 6")],
    "timing keys missing": [("dead_time = 3\n", ""), ("column_delay = 1\n", "")],
    "a turn length out of range": [("turn_length = 6", "turn_length = 256")],
    "a dead time of 1": [("dead_time = 3", "dead_time = 1")],
    "a dead time of 32": [("turn_length = 6", "turn_length = 60"), ("dead_time = 3", "dead_time = 32")],
    "a dead time not below the turn length": [("turn_length = 6", "turn_length = 3")],
    "a dead time smaller than two gaps": [("gap_read_write = 2", "gap_read_write = 4"), ("same_bank_after_write = 3", "same_bank_after_write = 5")],
    "a gap of 0": [("gap_write_read = 2", "gap_write_read = 0")],
    "a gap of 32": [("gap_write_read = 2", "gap_write_read = 32")],
    "a rank gap of 0": [("answer_delay = 3", "answer_delay = 3\nrank_gap = 0")],
    "a rank gap above the dead time": [("answer_delay = 3", "answer_delay = 3\nrank_gap = 4")],
    "a rank gap of 32": [("answer_delay = 3", "answer_delay = 3\nrank_gap = 32")],
    "a rank gap that is no number": [("answer_delay = 3", 'answer_delay = 3\nrank_gap = "none"')],
    "a rank gap mistyped": [("answer_delay = 3", "answer_delay = 3\nrankgap = 2")],
    "an answer delay above the dead time": [("answer_delay = 3", "answer_delay = 4")],
    "an answer delay of 1": [("answer_delay = 3", "answer_delay = 1")],
    "a column delay not below the answer delay": [("column_delay = 1", "column_delay = 3")],
    "a column delay of 0": [("column_delay = 1", "column_delay = 0")],
    "a timing number in quotes": [("dead_time = 3", 'dead_time = "3"')],
    "a timing number that is yes or no": [("dead_time = 3", "dead_time = false")],
    "a time without a clock": [("dead_time = 3", 'dead_time = "15 ns"')],
    "a time of no unit": [("dead_time = 3", 'dead_time = "15 minutes"')],
    "a clock that is none": [("[timing]", '[timing]\nclock = "fast"'), ("dead_time = 3", 'dead_time = "15 ns"')],
    "a clock of 0": [("[timing]", '[timing]\nclock = "0 MHz"')],
    "a clock that is a number": [("[timing]", "[timing]\nclock = 200")],
    "a time that is too long": [("[timing]", '[timing]\nclock = "1200 MHz"'), ("dead_time = 3", 'dead_time = "45 ns"')],
    "times that only rounding makes equal": [("[timing]", '[timing]\nclock = "5 ns"'), ("turn_length = 6", 'turn_length = "14 ns"'), ("dead_time = 3", 'dead_time = "13 ns"')],
    "not TOML: a value missing": [("dead_time = 3", "dead_time =")],
    "not TOML: a quote missing": [('["base"]\nminimum = 1\n\n', '["base]\nminimum = 1\n\n')],
    "not TOML: a bracket missing at the end": [('[class.blue]\nabove = ["base"]', '[class.blue]\nabove = ["base"')],
    "many at once": [
        ("epoch = 4", "epoch = 99\nepocs = 4"),
        ("dead_time = 3", "dead_time = true"),
        ("gap_read_read = 2", "gap_read_read = 77"),
        ('[class.red]\nabove = ["base"]', '[class.red]\nabove = ["base", "grey"]\nnumber = 9'),
        ("[class.blue]", "[class.2blue]"),
        ("[class.base]", '[class.base]\nminimum = "x"'),
    ],
}


def closed(n, pairs):
    """The rows in which each class may flow to itself and, for each pair, the first to the second, closed."""
    rows = [class_mask(i) for i in range(n)]
    for _ in range(n):
        for i, j in pairs:
            rows[i] |= rows[j]
    return rows


def any_order(random_numbers):
    """The rows of a random order with a least class, whose numbers are not in the order's order."""
    n = random_numbers.randint(1, 16)
    share = random_numbers.choice((0.05, 0.2, 0.5, 1.0))
    pairs = [(0, j) for j in range(1, n)] + [(i, j) for i in range(1, n) for j in range(i + 1, n) if random_numbers.random() < share]
    place = random_numbers.sample(range(n), n)
    return closed(n, [(place[i], place[j]) for i, j in pairs])


def any_text(random_numbers):
    """The rows of a random order, and a text for it with shuffled classes, numbers given, now and then more in `above` than is needed, and a rank gap or none."""
    rows = any_order(random_numbers)
    n = len(rows)
    dead = random_numbers.randint(2, 31)
    answer = random_numbers.randint(2, dead)
    timing = [random_numbers.randint(dead + 1, 255), dead] + [random_numbers.randint(1, dead) for _ in range(6)] + [random_numbers.randint(1, answer - 1), answer]
    timing += [random_numbers.randint(1, dead) for _ in range(random_numbers.randint(0, 1))]
    epoch = random_numbers.randint(1, 64)
    minimums = [0] * n
    for _ in range(random_numbers.randint(0, epoch)):
        minimums[random_numbers.randrange(n)] += 1
    lines = ["epoch = %d" % epoch, "[timing]"] + ["%s = %d" % item for item in zip(TIMING_KEYS, timing)]
    for j in random_numbers.sample(range(n), n):
        below = [i for i in range(n) if i != j and rows[i] >> j & 1]
        between = [i for i in below if any(k != i and rows[i] >> k & 1 for k in below)]
        kept = [i for i in below if i not in between or random_numbers.random() < 0.3]
        lines += ["[class.k%d]" % j, "number = %d" % j, "minimum = %d" % minimums[j], "above = [%s]" % ", ".join('"k%d"' % i for i in kept)]
    return rows, epoch, minimums, timing, "\n".join(lines) + "\n"


class Texts(Case):
    def write(self, text, name="policy.toml"):
        path = self.room / name
        path.write_text(text)
        return path

    def changed(self, changes):
        text = GOOD
        for old, new in changes:
            self.assertIn(old, text)
            text = text.replace(old, new, 1)
        return text

    def test_each_mistake_is_told(self):
        told = []
        for name, changes in MISTAKES.items():
            path = self.write(self.changed(changes))
            err = self.fails(1, "policy", "check", path)
            told.append("== %s\n%s" % (name, err.replace(str(self.room) + "/", "")))
        self.stored("policy/mistakes.txt", "\n".join(told))

    def test_make_and_show_tell_them_too_and_leave_no_file(self):
        path = self.write(self.changed(MISTAKES["a cycle of two"]))
        told = self.fails(1, "policy", "check", path)
        self.assertEqual(told, self.fails(1, "policy", "make", path, "-o", self.room / "policy.bin"))
        self.assertEqual(told, self.fails(1, "policy", "show", path))
        self.assertEqual([entry.name for entry in self.room.iterdir()], ["policy.toml"])

    def test_a_text_that_is_not_text(self):
        (self.room / "policy.toml").write_bytes(b"epoch = 3\n\xff\xfe")
        self.assertIn("line 2: not TOML: byte 10, 255, is not part of a text", self.fails(1, "policy", "check", self.room / "policy.toml"))
        self.assertIn("not TOML: byte 3, 0, is not part of a text", self.fails(1, "policy", "check", EXAMPLES / "diamond" / "policy.bin"))

    def test_texts_that_go_too_far(self):
        """Python's own reader gives up on these; they are told like any other mistake."""
        for old, new, told in (
            ("epoch = 4", "epoch = " + "9" * 5000, "not TOML: a number has thousands of digits"),
            ("epoch = 4", "epoch = " + "[" * 5000 + "]" * 5000, "brackets stand inside brackets, too deep"),
            ("turn_length", 'clock = "%s MHz"\nturn_length' % ("9" * 5000), "is not a clock"),
            ("turn_length = 6", 'clock = "1 MHz"\nturn_length = "%s ns"' % ("9" * 5000), "is neither a number of cycles nor a time"),
            ("turn_length = 6", 'turn_length = "%s"' % ("9" * 5000), "is not a whole number"),
        ):
            self.assertIn(told, self.fails(1, "policy", "check", self.write(GOOD.replace(old, new, 1))))

    def test_one_class_and_one_turn(self):
        text = GOOD[: GOOD.index("[class.red]")].replace("epoch = 4", "epoch = 1") + "minimum = 1\n"
        out = self.succeeds("policy", "check", self.write(text))
        self.assertIn(": 1 class, an epoch of 1 turn\n", out)
        self.assertNotIn("1 turns", out)

    def test_line_ends_of_another_system(self):
        (self.room / "policy.toml").write_bytes(GOOD.replace("\n", "\r\n").replace("epoch = 4", "epoch = 0").encode())
        self.assertIn("line 1: epoch = 0 is out of range", self.fails(1, "policy", "check", self.room / "policy.toml"))

    def test_lines_of_dotted_and_inline_keys(self):
        text = "epoch = 4\n" + TIMING_TABLE + '[class]\nbase = {}\nred = { above = ["base"], minimum = 99 }\nblue.above = ["base"]\nblue.minimum = "x"\n'
        told = self.fails(1, "policy", "check", self.write(text))
        self.assertIn("line 16: class.red.minimum = 99 is out of range", told)
        self.assertIn('line 18: class.blue.minimum = "x" is not a whole number', told)

    def test_times_are_rounded_up_and_said(self):
        times = [("turn_length = 6", 'turn_length = "60 ns"'), ("dead_time = 3", 'dead_time = "12.6 ns"'), ("gap_read_read = 2", 'gap_read_read = "5001 ps"')]
        path = self.write(self.changed([("[timing]", '[timing]\nclock = "200 MHz"'), *times]))
        self.assertEqual(read_policy_text(path).policy.timing, [12, 3, 2, 2, 2, 2, 3, 3, 1, 3])
        said = (
            "clock 200 MHz, a cycle of 5 ns: 2 of 3 times rounded up\n"
            '  turn_length: "60 ns" is 12 cycles\n'
            '  dead_time: "12.6 ns" is 2.52 cycles, rounded up to 3 (15 ns)\n'
            '  gap_read_read: "5001 ps" is 1.0002 cycles, rounded up to 2 (10 ns)\n'
        )
        self.assertIn(said, self.succeeds("policy", "check", path))
        status, _, err = vig("policy", "make", path, "-o", self.room / "policy.bin")
        self.assertEqual(status, 0)
        self.assertIn("is 2.52 cycles, rounded up to 3 (15 ns)", err)

    def test_a_rank_gap_may_be_left_out(self):
        """Without it the timing has ten bytes and there is one rank; with it, eleven and four. It may stand anywhere among the others."""
        for change, timing, ranks in (
            ([], [6, 3, 2, 2, 2, 2, 3, 3, 1, 3], 1),
            ([("turn_length = 6", "rank_gap = 1\nturn_length = 6")], [6, 3, 2, 2, 2, 2, 3, 3, 1, 3, 1], 4),
            ([("answer_delay = 3", "answer_delay = 3\nrank_gap = 3")], [6, 3, 2, 2, 2, 2, 3, 3, 1, 3, 3], 4),
        ):
            text = read_policy_text(self.write(self.changed(change)))
            self.assertEqual((text.policy.timing, text.policy.ranks, text.names.with_ranks), (timing, ranks, ranks > 1))
            self.assertEqual(text.policy.to_bytes()[14:16], bytes([len(timing), 0]))
            self.assertEqual("rank_gap = " in text_of(text.policy, text.names), ranks > 1)

    def test_a_rank_gap_as_a_time(self):
        path = self.write(self.changed([("[timing]", '[timing]\nclock = "200 MHz"'), ("answer_delay = 3", 'answer_delay = 3\nrank_gap = "8 ns"')]))
        self.assertEqual(read_policy_text(path).policy.rank_gap, 2)
        self.assertIn('  rank_gap: "8 ns" is 1.6 cycles, rounded up to 2 (10 ns)\n', self.succeeds("policy", "check", path))

    def test_check_says_how_many_ranks(self):
        said = "There are 4 ranks of 8 banks each. An activate comes at least 1 cycle, the rank gap, after the last one of all where that was on another rank"
        self.assertIn(said, self.succeeds("policy", "check", self.write(self.changed([("answer_delay = 3", "answer_delay = 3\nrank_gap = 1")]))))
        self.assertNotIn("rank", self.succeeds("policy", "check", self.write(GOOD)))

    def test_a_clock_by_its_period(self):
        for clock in ("5 ns", "5000 ps", "0.005 us", "200 MHz", "0.2 GHz", "200000 kHz"):
            path = self.write(self.changed([("[timing]", '[timing]\nclock = "%s"' % clock), ("dead_time = 3", 'dead_time = "15 ns"')]))
            self.assertEqual(read_policy_text(path).policy.dead, 3, clock)

    def test_numbers_by_place_and_those_asked_for(self):
        text = GOOD.replace("[class.base]", "[class.base]\nnumber = 2")
        names = read_policy_text(self.write(text)).names
        self.assertEqual(names.by_number, {2: "base", 0: "red", 1: "blue"})
        self.assertEqual(read_policy_text(self.write(GOOD)).names.by_number, {0: "base", 1: "red", 2: "blue"})

    def test_from_text_to_bytes_to_text_to_bytes(self):
        """On generated orders: the bytes are those of the order, the proved reader takes them, and the text shown from them gives them again."""
        random_numbers = random.Random(13)
        library = build.library()
        least_elsewhere = with_ranks = 0
        for _ in range(200):
            rows, epoch, minimums, timing, text = any_text(random_numbers)
            policy = read_policy_text(self.write(text)).policy
            self.assertEqual((policy.rows, policy.epoch, policy.minimums, policy.timing), (rows, epoch, minimums, timing))
            data = policy.to_bytes()
            self.assertEqual(library.read(data), 0, text)
            again = read_policy_text(self.write(text_of(policy_of(data), Names({0: "class_1"}))))
            self.assertEqual(again.policy.to_bytes(), data, text)
            least_elsewhere += policy.least != 0
            with_ranks += policy.ranks == 4
        self.assertGreater(least_elsewhere, 50)
        self.assertTrue(50 < with_ranks < 150)
