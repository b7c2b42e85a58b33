"""`vig orders`: every small order, by the library alone; as files, as folders to run, and searched for leaks, where planted ones must be found; and the example's script."""

import os
import re
import shutil
import subprocess
import sys
from itertools import product
from unittest import mock

from vigambul import build, small_orders
from vigambul.draws import Draws
from vigambul.errors import Refused
from vigambul.folders import folder_at, run_folder
from vigambul.formats import MOST_IN_32_BITS, is_offer, owner_of, starts_turn
from vigambul.policies import LARGEST_FILE, TIMING_LENGTHS, Policy, class_mask
from vigambul.small_orders import TIMING, all_orders, every_class, every_set, order_at, orders_of, run_files, search, timing_of

from .samples import a_policy
from .support import EXAMPLES, ROOT, Case, vig
from .test_blind import Leaking, a_line_too_many, how_many_wait, leaking

EXAMPLE = EXAMPLES / "every-small-order"
COUNTS = {1: 1, 2: 2, 3: 9, 4: 76}
RANKS = bytes((12, 6, 2, 2, 5, 2, 6, 6, 1, 4, 4))
PLAIN = bytes(TIMING)


def is_legal(rows):
    """Whether rows are an order with a least class, said of the pairs of classes alone."""
    numbers = range(len(rows))
    flows = {(i, j) for i in numbers for j in numbers if rows[i] >> j & 1}
    reflexive = all((i, i) in flows for i in numbers)
    antisymmetric = not any((j, i) in flows for i, j in flows if i != j)
    transitive = all((i, k) in flows for i, j in flows for other, k in flows if j == other)
    return reflexive and antisymmetric and transitive and any(all((i, j) in flows for j in numbers) for i in numbers)


def legal_rows(classes):
    """The rows of all orders, by trying all squares of marks, by their value as one number."""
    found = [rows for rows in product(range(1 << classes), repeat=classes) if is_legal(rows)]
    return sorted(found, key=lambda rows: sum(row << 16 * (classes - 1 - place) for place, row in enumerate(rows)))


def file_of(rows, timing=PLAIN):
    """The policy file that the request asks for."""
    return Policy(list(rows), 4, [0] * len(rows), list(timing)).to_bytes()


class Given:
    """The proved library, but the orders are those that are given here: for each number of classes the files by their places."""

    def __init__(self, files):
        self.library, self.files = build.library(), files

    def __getattr__(self, name):
        return getattr(self.library, name)

    def order(self, classes, place, timing):
        if classes not in self.files:
            return 20, b""
        return 0, self.files[classes][place] if place < len(self.files[classes]) else b""


def using(library):
    return mock.patch.object(build, "library", return_value=library)


class Fetching(Case):
    def test_each_legal_order_is_there_and_none_twice(self):
        """By place, with both forms of a timing; past the last there is none."""
        library = build.library()
        for classes, number in COUNTS.items():
            expected = legal_rows(classes)
            self.assertEqual(len(expected), number)
            for timing in (PLAIN, RANKS):
                files = [library.order(classes, place, timing) for place in range(number)]
                self.assertEqual(files, [(0, file_of(rows, timing)) for rows in expected])
                self.assertEqual([library.read(file) for _, file in files], [0] * number)
                for place in (number, number + 1, 1 << 16, 1 << 31, MOST_IN_32_BITS):
                    self.assertEqual(library.order(classes, place, timing), (0, b""))

    def test_refusals_in_their_order(self):
        """20 before the timing, its length before its numbers, and these before the place."""
        library, short, wrong = build.library(), PLAIN[:-1], bytes((6, 7)) + PLAIN[2:]
        for timing, place in product((PLAIN, short, wrong, b""), (0, MOST_IN_32_BITS)):
            for classes in (0, 5, 16, 260, 1 << 31, MOST_IN_32_BITS):
                self.assertEqual(library.order(classes, place, timing), (20, b""))
            for classes in COUNTS:
                status = {PLAIN: 0, wrong: 8}.get(timing, 2)
                if status or place:
                    self.assertEqual(library.order(classes, place, timing), (status, b""))

    def test_each_length_and_each_number_of_a_timing(self):
        """The library refuses a timing exactly where its reader refuses a file that has it."""
        library, refused = build.library(), 0
        for length in range(24):
            self.assertEqual(library.order(2, 0, bytes([2] * length))[0] == 2, length not in TIMING_LENGTHS)
        for timing, place, value in product((PLAIN, RANKS), range(11), (0, 1, 2, 6, 7, 12, 31, 32, 255)):
            if place < len(timing):
                other = timing[:place] + bytes([value]) + timing[place + 1 :]
                status = library.read(file_of((1,), other))
                self.assertEqual(library.order(1, 0, other), (status, b"" if status else file_of((1,), other)))
                refused += status == 8
        self.assertGreater(refused, 40)

    def test_any_timing(self):
        library = build.library()
        for number in range(40):
            timing = bytes(a_policy(Draws("timing", number)).timing)
            self.assertEqual([order.file for order in orders_of(library, 3, timing)], [file_of(rows, timing) for rows in legal_rows(3)])

    def test_all(self):
        """Of 1 class, of 2 and so on until the library refuses; a refusal of another number is told."""
        orders = list(all_orders(build.library(), PLAIN))
        self.assertEqual([(order.classes, order.place) for order in orders], [(classes, place) for classes, number in COUNTS.items() for place in range(number)])
        with self.assertRaisesRegex(Refused, "^orders of 1 class: refused 2: "):
            list(all_orders(build.library(), b""))

    def test_the_largest_file_has_room(self):
        self.assertEqual(LARGEST_FILE, len(Policy([class_mask(i) for i in range(16)], 1, [0] * 16, [0] * 11).to_bytes()))

    def test_a_library_that_is_too_old(self):
        library = build.library()
        library._order = None
        with using(library):
            for words in ((), ("3",), ("3", "1"), ("--search", "1")):
                self.assertIn("vig: the built library is too old to say which small orders there are", self.fails(2, "orders", *words))


class Shown(Case):
    def test_lists(self):
        out = self.succeeds("orders")
        self.stored("orders/list.txt", out)
        self.assertEqual("\n".join(self.succeeds("orders", classes) for classes in COUNTS), out)

    def test_rows_rise_and_chains_say_the_order(self):
        """Closed, the ways up that are listed give back the rows, and the rows are in order as one number."""
        for classes, number in COUNTS.items():
            rows = [re.split("  +", line.strip()) for line in self.succeeds("orders", classes).splitlines()[2:]]
            self.assertEqual([int(place) for place, _, _ in rows], list(range(number)))
            values = [int(row.replace(" ", ""), 16) for _, row, _ in rows]
            self.assertEqual(values, sorted(set(values)))
            for _, row, chains in rows:
                closed = [class_mask(i) for i in range(classes)]
                for chain in chains.split(", "):
                    way = [int(word) for word in chain.split(" < ")]
                    for at, i in enumerate(way):
                        closed[i] |= sum(map(class_mask, way[at + 1 :]))
                self.assertEqual(" ".join("%04X" % flows for flows in closed), row)

    def test_one(self):
        self.stored("orders/4-37.txt", self.succeeds("orders", 4, 37))
        self.assertEqual(self.succeeds("orders", 1, 0).splitlines()[0], "order 0 of 1 class, rows 0001: 0")

    def test_the_tool_decides_nothing(self):
        """Which orders there are, and where, is what the library says, though it be wrong; and it is asked with the timing that was given."""
        files = {1: [file_of((1,)), file_of((1,))], 2: [file_of((3, 2))], 3: [file_of((7, 2, 4))]}
        with using(Given(files)):
            heads = [line for line in self.succeeds("orders").splitlines() if "order" in line and not line.startswith("place")]
            self.assertEqual([head.partition(" (")[0] for head in heads], ["2 orders of 1 class", "1 order of 2 classes", "1 order of 3 classes"])
            self.assertIn("    0  0007 0002 0004  0 < 1, 0 < 2\n", self.succeeds("orders", 3))
            self.assertIn("refused 20", self.fails(1, "orders", 4))
            self.assertIn("order 1 of 3 classes: past the last, which is order 0", self.fails(2, "orders", 3, 1))
        library = mock.Mock(order=mock.Mock(return_value=(0, file_of((1,)))))
        with using(library):
            self.succeeds("orders", 7, 4_000_000_000, "--timing", "1,2,3")
        library.order.assert_called_once_with(7, 4_000_000_000, bytes((1, 2, 3)))

    def test_no_order_at_all(self):
        with using(Given({})):
            for words in ((), ("--search", "1"), ("-o", self.room / "orders")):
                self.assertEqual(self.fails(2, "orders", *words), "vig: the library has no order\n")

    def test_refused_in_words(self):
        for classes in (0, 5, MOST_IN_32_BITS):
            for words in ((), (0,), ("--search", 1), ("--timing", "1,2")):
                told = "vig: orders of %d classes: refused 20: the number of classes of a small order is not 1 to 4\n" % classes
                self.assertEqual(self.fails(1, "orders", classes, *words), told)

    def test_past_the_last(self):
        for classes, number in COUNTS.items():
            for place in (number, MOST_IN_32_BITS):
                told = "vig: order %d of %s: past the last, which is order %d\n" % (place, "1 class" if classes == 1 else "%d classes" % classes, number - 1)
                self.assertEqual(self.fails(2, "orders", classes, place), told)
                self.assertEqual(self.fails(2, "orders", classes, place, "-o", self.room / "policy.bin"), told)
        self.assertEqual(list(self.room.iterdir()), [])

    def test_numbers_that_32_bits_do_not_hold(self):
        """They are not cut to 32 bits on the way to the library."""
        for words in (("4294967297",), ("3", "4294967296"), ("3", "-1"), ("three",), ("3", "1.5"), ("",)):
            self.assertIn("is not a number of 32 bits, 0 to 4294967295", self.fails(2, "orders", *words))

    def test_the_reference_shows_refusals(self):
        text = (ROOT / "docs" / "REFERENCE.md").read_text()
        for status, words in ((1, (5,)), (1, (3, "--timing", "6,7,2,2,2,2,3,3,1,3")), (2, (3, 9))):
            self.assertIn(self.fails(status, "orders", *words), text)

    def test_help(self):
        text = self.succeeds("orders", "--help")
        self.assertIn("examples:", text)
        self.assertIn("6,3,2,2,2,2,3,3,1,3", text)


class Timing(Case):
    def written(self, *words):
        """The policy file of an order, written with these options."""
        path = self.room / "order.bin"
        self.succeeds("orders", 3, 4, "-o", path, *words)
        return path.read_bytes()

    def test_given_in_every_way(self):
        """As numbers, a policy file, its folder, or a text; times are turned into cycles."""
        for name, timing in (("two-ranks", RANKS), ("cloud", bytes((18, 9, 4, 4, 6, 4, 8, 9, 3, 7)))):
            expected = file_of(legal_rows(3)[4], timing)
            numbers = [str(number) for number in timing]
            for given in (",".join(numbers), ", ".join(numbers), " ".join(numbers), EXAMPLES / name, EXAMPLES / name / "policy.bin", EXAMPLES / name / "policy.toml"):
                self.assertEqual(self.written("--timing", given), expected, given)

    def test_without_it(self):
        """That of two-tenants, and of this request's example."""
        expected = file_of(legal_rows(3)[4], PLAIN)
        self.assertEqual(self.written(), expected)
        for folder in (EXAMPLES / "two-tenants", EXAMPLE):
            self.assertEqual(self.written("--timing", folder), expected)

    def test_refused(self):
        """The library's number, and what of the timing is at fault."""
        length = "refused 2: the number of classes is not 1 to 16, or a body's length does not fit it; the timing has %s, and must have 10, or 11 with a rank gap"
        wrong, dead = "refused 8: a timing byte is out of range; ", "and must be 1 to the dead time (the dead time is 3)"
        for given, told in (
            ("6", length % "1 number"),
            ("1,1,1,1,1,1,1,1,1,1,1,1", length % "12 numbers"),
            ("6,3,2,2,2,2,3,3,3,3", wrong + "the column delay is 3, and must be 1 to the answer delay less 1 (the answer delay is 3)"),
            ("6,3,4,2,2,2,3,3,1,3,0", wrong + "the gap read-read is 4, %s; the rank gap is 0, %s" % (dead, dead)),
        ):
            for words in ((3,), (3, 1), (3, 99), (), ("--search", 1)):
                classes = "3 classes" if words and words[0] == 3 else "1 class"
                self.assertEqual(self.fails(1, "orders", *words, "--timing", given), "vig: orders of %s: %s\n" % (classes, told))

    def test_mistakes(self):
        self.assertEqual(self.fails(2, "orders", 3, "--timing", "6,300,2"), "vig: --timing 6,300,2: 300 is more than a byte holds, 255\n")
        self.assertIn("nowhere: no such file", self.fails(2, "orders", 3, "--timing", self.room / "nowhere"))
        self.assertIn("policy.bin: no such file", self.fails(2, "orders", 3, "--timing", self.room))
        self.assertIn("6;3: no such file", self.fails(2, "orders", 3, "--timing", "6;3"))
        self.assertIn("policy.bin: policy refused 5", self.fails(1, "orders", 3, "--timing", EXAMPLES / "refused"))
        (self.room / "policy.toml").write_text("epoch = 1\n")
        self.assertIn("[timing]", self.fails(1, "orders", 3, "--timing", self.room / "policy.toml"))

    def test_a_policy_out_of_range_is_the_readers_to_refuse(self):
        (self.room / "policy.bin").write_bytes(file_of((1,), bytes((6, 7)) + PLAIN[2:]))
        with self.assertRaisesRegex(Refused, "policy.bin: policy refused 8: "):
            timing_of(build.library(), str(self.room))


class Written(Case):
    def test_files(self):
        """Each order's file is the library's, byte for byte."""
        path = self.room / "policy.bin"
        for order in all_orders(build.library(), RANKS):
            status, out, err = vig("orders", order.classes, order.place, "-o", path, "--timing", EXAMPLES / "two-ranks")
            self.assertEqual((status, out), (0, ""))
            self.assertEqual(err, "%s: %d bytes, %s: %s\n" % (path, len(order.file), order, order.chains))
            self.assertEqual(path.read_bytes(), order.file)
        self.assertEqual(list(self.room.iterdir()), [path])

    def test_texts(self):
        """From the text of each order the same file is made."""
        text = self.room / "order.toml"
        for timing in (PLAIN, RANKS):
            for order in all_orders(build.library(), timing):
                self.succeeds("orders", order.classes, order.place, "-o", text, "--timing", ",".join(map(str, timing)))
                self.assertTrue(text.read_text().startswith("# %s: %s\n\nepoch = 4\n" % (order, order.chains)))
                self.succeeds("policy", "make", text)
                self.assertEqual((self.room / "order.bin").read_bytes(), order.file)

    def test_names_of_another_policy(self):
        """They would be shown for the order's classes: nothing is written."""
        for name in ("policy.bin", "policy.names"):
            shutil.copy(EXAMPLES / "diamond" / name, self.room)
        before = (self.room / "policy.bin").read_bytes()
        for name in ("policy.bin", "policy.names", "policy"):
            self.assertIn("policy.names: the classes of an order have no names", self.fails(2, "orders", 4, 37, "-o", self.room / name))
        self.assertEqual((self.room / "policy.bin").read_bytes(), before)
        (self.room / "2-01").mkdir()
        shutil.copy(EXAMPLES / "diamond" / "policy.names", self.room / "2-01")
        self.assertIn("2-01/policy.names: the classes", self.fails(2, "orders", 2, "-o", self.room))
        self.assertFalse((self.room / "2-00").exists())
        self.assertIn("a name.names: the classes", self.fails(2, "orders", 2, 1, "-o", self.room / "a name.names"))

    def test_places_to_write_to(self):
        file = self.room / "file"
        file.write_text("mine")
        self.assertEqual(self.fails(2, "orders", 2, "-o", file), "vig: %s: not a folder\n" % file)
        self.assertEqual(file.read_text(), "mine")
        self.assertIn("No such file or directory", self.fails(2, "orders", 2, "-o", self.room / "no" / "such"))
        self.assertIn("No such file or directory", self.fails(2, "orders", 2, 1, "-o", self.room / "no" / "policy.bin"))
        self.assertIn("Is a directory", self.fails(2, "orders", 2, 1, "-o", self.room))

    def test_folders(self):
        """One for each order; the program, in each, prints what the library logged."""
        out = self.room / "orders"
        status, said, err = vig("orders", "-o", out)
        self.assertEqual((status, said, err), (0, "", "%s: 88 folders, 1-00 to 4-75, each with policy.bin, trace.bin and expected.txt; seed 0\n" % out))
        folders = sorted(out.iterdir())
        self.assertEqual([path.name for path in folders], ["%d-%02d" % (classes, place) for classes, number in COUNTS.items() for place in range(number)])
        for path, order in zip(folders, all_orders(build.library(), PLAIN)):
            self.assertEqual({file.name for file in path.iterdir()}, {"policy.bin", "trace.bin", "expected.txt"})
            self.assertEqual((path / "policy.bin").read_bytes(), order.file)
        rows = self.succeeds("regress", out).splitlines()[1:]
        self.assertEqual([row.split()[1] for row in rows], ["same"] * 88)

    def test_what_the_traffic_does(self):
        """Every kind of refusal, classes that are idle and such as fill their queues, and every class of every number as an owner."""
        library, statuses, owners, idle, full = build.library(), set(), set(), 0, 0
        for order in all_orders(library, PLAIN):
            files = run_files(library, order, 0)
            log = [[int(word, 16) for word in line.split()] for line in files["expected.txt"].splitlines()[1:]]
            self.assertGreaterEqual(len(files["trace.bin"]) // 4, 3 * 4 * 6)
            self.assertEqual(len(log), len(files["trace.bin"]) // 4)
            statuses |= {line[0] for line in log}
            owners |= {(order.classes, owner_of(line[3])) for line in log if starts_turn(line[3])}
            words = [int.from_bytes(files["trace.bin"][at : at + 4], "little") for at in range(0, len(files["trace.bin"]), 4)]
            offering = {word >> 24 & 31 for word in words if is_offer(word)}
            idle += len(set(range(order.classes)) - offering)
            full += any(line[0] == 11 for line in log)
        self.assertEqual(statuses, {0, 9, 10, 11, 14})
        self.assertEqual(owners, {(classes, owner) for classes in COUNTS for owner in range(classes)})
        self.assertGreater(idle, 30)
        self.assertGreater(full, 30)

    def test_seeds(self):
        """The same seed gives the same files, another gives other traffic under the same policies, and older files are written over."""
        first, other = self.room / "first", self.room / "other"

        def files(path, name):
            return [(folder / name).read_bytes() for folder in sorted(path.iterdir())]

        self.succeeds("orders", 3, "-o", first, "--seed", 5)
        self.assertEqual(len(set(files(first, "trace.bin"))), 9)
        self.succeeds("orders", 3, "-o", other)
        self.assertEqual([one == two for one, two in zip(files(first, "trace.bin"), files(other, "trace.bin"))], [False] * 9)
        self.assertEqual(files(first, "policy.bin"), files(other, "policy.bin"))
        self.succeeds("orders", 3, "-o", other, "--seed", 5)
        for name in ("policy.bin", "trace.bin", "expected.txt"):
            self.assertEqual(files(first, name), files(other, name))

    def test_the_example_is_one_of_them(self):
        self.succeeds("orders", 4, "-o", self.room / "orders")
        for name in ("policy.bin", "trace.bin", "expected.txt"):
            self.assertEqual((self.room / "orders" / "4-37" / name).read_bytes(), (EXAMPLE / name).read_bytes(), name)
        self.succeeds("orders", 4, 37, "-o", self.room / "policy.toml")
        self.assertEqual((self.room / "policy.toml").read_text(), (EXAMPLE / "policy.toml").read_text())
        self.assertEqual(self.succeeds("trace", "show", "--csv", EXAMPLE / "trace.bin"), (EXAMPLE / "traffic.csv").read_text())
        ran = run_folder(build.library(), folder_at(EXAMPLE))
        self.assertEqual((ran.policy.least, ran.policy.covers(3), ran.policy.covers(0), ran.policy.covers(1)), (3, [0, 1], [2], [2]))


def leak_at(file, members, leak=how_many_wait):
    """The library with a leak under one policy to one set of classes alone."""

    class At(Leaking):
        def extract(self, policy, seen_by, trace, log):
            return super().extract(policy, seen_by, trace, log) if (policy, (seen_by,)) == (file, members) else self.library.extract(policy, seen_by, trace, log)

        def extract_set(self, policy, classes, trace, log):
            return super().extract_set(policy, classes, trace, log) if (policy, classes) == (file, members) else self.library.extract_set(policy, classes, trace, log)

    return At(build.library(), leak)


class Search(Case):
    def found(self, library, pairs, *words):
        """What a search with a library tells below its table; it must end with 1."""
        with using(library):
            status, out, err = vig("orders", *words, "--search", pairs)
        self.assertEqual((status, err), (1, ""))
        lines = out.splitlines()
        return lines[next(place for place, line in enumerate(lines) if line.startswith("all ")) + 1 :]

    def test_nothing_is_learnt(self):
        for name, words in (
            ("search.txt", ("--search", 2)),
            ("search-ranks.txt", (3, "--search", 4, "--seed", 9, "--timing", EXAMPLES / "two-ranks")),
            ("search-sets.txt", ("--search", 1, "--sets")),
        ):
            status, out, err = vig("orders", *words)
            self.assertEqual((status, err), (0, ""))
            self.stored("orders/" + name, out)

    def test_for_every_class_and_every_set(self):
        """Each order is searched for all of them, for each with as many pairs as it is said."""
        self.assertEqual(every_class(3), [(0,), (1,), (2,)])
        self.assertEqual(every_set(2), [(), (0,), (1,), (0, 1)])
        self.assertEqual([len(set(every_set(classes))) for classes in COUNTS], [2, 4, 8, 16])
        library = build.library()
        for options, sets_of in (((), every_class), (("--sets",), every_set)):
            with mock.patch.object(small_orders, "searched", return_value={}) as asked:
                self.succeeds("orders", "--search", 3, "--seed", 8, *options)
            searched = [(file, sets, pairs, seed) for _, file, _, sets, pairs, seed, _ in (call.args for call in asked.call_args_list)]
            expected = [(order.file, sets_of(order.classes), 3 * len(sets_of(order.classes)), 8) for order in all_orders(library, PLAIN)]
            self.assertEqual(searched, expected)

    def test_the_pairs_are_those_of_blind(self):
        """So that what was found can be looked at under that policy alone."""
        path = self.room / "policy.bin"
        for classes, place, timing in ((4, 37, "two-tenants"), (3, 6, "two-ranks"), (1, 0, "cloud")):
            self.succeeds("orders", classes, place, "-o", path, "--timing", EXAMPLES / timing)
            alone = self.succeeds("blind", "--search", 3 * classes, path, "--seed", 4).splitlines()
            rows = self.succeeds("orders", classes, place, "--search", 3, "--seed", 4, "--timing", EXAMPLES / timing).splitlines()
            self.assertEqual(rows[1].split()[2:], next(line.split()[1:] for line in alone if line.startswith("all ")))
            self.assertEqual(rows[-2], alone[-1])

    def test_neighbours_act_in_every_order(self):
        """With two pairs for each class the full logs show them under each order of two classes or more; of one class there are none."""
        library = build.library()
        for order in all_orders(library, PLAIN):
            result = search(library, [order], PLAIN, every_class, 2, 0, lambda _: None)
            self.assertEqual((result.found, result.figures.pairs), ([], 2 * order.classes))
            self.assertEqual(result.figures.logs_differ > 0, order.classes > 1, order)

    def test_planted_leaks(self):
        for leak in (a_line_too_many, how_many_wait):
            with self.subTest(leak.__name__), leaking(leak):
                status, out, _ = vig("orders", "--search", 1)
                self.assertEqual(status, 1)
                self.stored("orders/search-%s.txt" % leak.__name__, out)

    def test_a_leak_under_one_order_to_one_class(self):
        """It is found among many, told by order, class and pair, and found again by that pair under that policy alone."""
        library = build.library()
        for classes, place, member, words, many in ((2, 1, 0, (2,), 2), (3, 3, 1, (3,), 9), (4, 37, 0, (), 88), (4, 75, 2, (4, 75), 1)):
            order = order_at(library, classes, place, PLAIN)
            planted = leak_at(order.file, (member,))
            lines = self.found(planted, 3, *words)
            self.assertEqual(lines[-1], "%d order%s, seed 0: found: 1" % (many, "" if many == 1 else "s"))
            head = "%s, %s: class %d learns of what it may not know: seed 0, pair " % (order, order.chains, member)
            self.assertTrue(lines[0].startswith(head), lines[0])
            path = self.room / "policy.bin"
            self.succeeds("orders", classes, place, "-o", path)
            with using(planted):
                status, out, _ = vig("blind", "--search", 3 * classes, path)
            self.assertEqual(status, 1)
            self.assertIn("\n".join(lines[:-2]).partition(": ")[2] + "\n", out)

    def test_a_leak_to_a_set_alone(self):
        """Each of two classes learns nothing, and the two together do: found with --sets, and only so."""
        order = order_at(build.library(), 4, 57, PLAIN)
        planted = leak_at(order.file, (1, 2))
        with using(planted):
            self.succeeds("orders", 4, 57, "--search", 6)
        lines = self.found(planted, 6, 4, 57, "--sets")
        self.assertTrue(lines[0].startswith("order 57 of 4 classes, 0 < 1, 0 < 2, 0 < 3: class 1 and class 2 together learn of what they may not know: seed 0, pair "))
        self.assertEqual(lines[-1], "1 order, seed 0: found: 1")

    def test_orders_that_are_not_as_they_must_be(self):
        """Refused by the reader, of another number of classes, epoch, minimums or timing, twice, or not by rising rows."""
        fine = {classes: [file_of(rows) for rows in legal_rows(classes)] for classes in (1, 2, 3)}
        unlike = "its policy is not one of 3 classes, with an epoch of 4 turns, minimums of 0 and the timing that was given"
        for place, file, told in (
            (4, file_of((3, 6, 4)), "order 4 of 3 classes: its policy file is refused 5: the order is not transitive"),
            (4, b"", None),
            (4, file_of((3, 2)), "order 4 of 3 classes: " + unlike),
            (4, file_of(legal_rows(3)[4], RANKS), "order 4 of 3 classes: " + unlike),
            (4, Policy(list(legal_rows(3)[4]), 5, [0] * 3, list(PLAIN)).to_bytes(), "order 4 of 3 classes: " + unlike),
            (4, Policy(list(legal_rows(3)[4]), 4, [0, 0, 1], list(PLAIN)).to_bytes(), "order 4 of 3 classes: " + unlike),
            (4, fine[3][3], "order 4 of 3 classes: its rows, 0001 0007 0005, are not above those of order 3 of 3 classes, 0001 0007 0005"),
            (4, fine[3][2], "order 4 of 3 classes: its rows, 0001 0007 0004, are not above those of order 3 of 3 classes, 0001 0007 0005"),
        ):
            files = fine | {3: fine[3][:place] + [file] + fine[3][place + 1 :]}
            if told is None:
                # An order that is missing ends the list there: the table says how many there were.
                with using(Given(files)):
                    self.assertIn("      3       4     12 ", self.succeeds("orders", "--search", 1))
                continue
            lines = self.found(Given(files), 1)
            self.assertEqual((lines[0], lines[-1]), (told, "12 orders, seed 0: found: 1"))
        with using(Given(fine)):
            self.assertTrue(self.succeeds("orders", "--search", 1).endswith("12 orders, seed 0: nothing found\n"))

    def test_other_seeds_are_other_pairs(self):
        one, other = (self.succeeds("orders", 3, "--search", 2, "--seed", seed) for seed in (1, 2))
        self.assertNotEqual(one.splitlines()[1], other.splitlines()[1])
        self.assertTrue(other.endswith("9 orders, seed 2: nothing found\n"))

    def test_mistakes(self):
        self.assertIn("--search 0: the number of pairs is 1 or more", self.fails(2, "orders", "--search", 0))
        self.assertIn("--search -3: the number of pairs is 1 or more", self.fails(2, "orders", "--search=-3"))
        self.assertIn("--sets goes with --search", self.fails(2, "orders", 3, "--sets"))
        self.assertIn("not allowed with argument", self.fails(2, "orders", 3, "--search", 1, "-o", self.room / "x"))
        self.assertIn("invalid int value", self.fails(2, "orders", "--search", "many"))
        self.assertEqual(list(self.room.iterdir()), [])


# A tool in place of the real one. The first runs the real one with a leak planted into its library; the second says and ends as it is told, by command.
LEAKING = """#!{python}
import sys
sys.path.insert(0, {path!r})
sys.dont_write_bytecode = True
from tests.test_blind import how_many_wait, leaking
from vigambul.cli import main
with leaking(how_many_wait):
    sys.exit(main(sys.argv[1:]))
"""
SAYING = """#!/bin/sh
echo "$@" >>{said}
case "$1 $2" in
  "orders -o") exit {write} ;;
  "regress "*) printf 'folder verdict\\none same 1\\ntwo differs 2\\n    line 5: expected this\\n'; echo 'some words' >&2; echo 'so many folders' >&2; exit {regress} ;;
  "orders --search") echo "a table"; exit {search} ;;
esac
exit 99
"""


class Script(Case):
    def check(self, *words, tool=None):
        """Runs the example's script, with a tool in place of the real one if one is given; nothing of it is left behind."""
        root, tmp = ROOT, self.room / "tmp"
        tmp.mkdir(exist_ok=True)
        if tool is not None:
            root = self.room / "root"
            root.mkdir(exist_ok=True)
            (root / "vig").write_text(tool)
            (root / "vig").chmod(0o755)
            if not (root / "examples").exists():
                os.symlink(EXAMPLES, root / "examples")
        script = root / "examples" / "every-small-order" / "check"
        ended = subprocess.run(["bash", script, *map(str, words)], env=os.environ | {"TMPDIR": str(tmp)}, stdin=subprocess.DEVNULL, capture_output=True, text=True, check=False)
        self.assertEqual(list(tmp.iterdir()), [])
        return ended.returncode, ended.stdout, ended.stderr

    def saying(self, write=0, regress=0, search=0):
        return SAYING.format(said=self.room / "said", write=write, regress=regress, search=search)

    def test_nothing_is_found(self):
        """It prints what the example's README shows."""
        status, out, err = self.check()
        written = "%s: 88 folders, 1-00 to 4-75, each with policy.bin, trace.bin and expected.txt; seed 0\n"
        self.assertEqual((status, err), (0, written % "every-small-order" + written % "two-ranks"))
        blocks = re.findall(r"^```\n(.*?)^```$", (EXAMPLE / "README.md").read_text(), flags=re.MULTILINE | re.DOTALL)
        self.assertIn(out, blocks)

    def test_a_planted_leak_is_found(self):
        status, out, _ = self.check(1, tool=LEAKING.format(python=sys.executable, path=str(ROOT / "python")))
        self.assertEqual(status, 1, out)
        self.assertEqual(out.count("learns of what it may not know: seed 0, pair "), 2 * 5)
        self.assertRegex(out, r"order [0-9]+ of [34] classes, [0-4 <,]+: class [0-3] learns of what")
        self.assertTrue(out.endswith("\nverdict: something was found\n"))

    def test_how_it_ends(self):
        """With what the worst of its steps found. Where a step cannot be made, it ends there and claims nothing."""
        for tool, status in (
            (self.saying(), 0),
            (self.saying(regress=1), 1),
            (self.saying(search=1), 1),
            (self.saying(regress=1, search=1), 1),
            (self.saying(write=1), 1),
            (self.saying(write=2), 2),
            (self.saying(regress=2), 2),
            (self.saying(search=2), 2),
            (self.saying(regress=1, search=130), 2),
        ):
            ended, out, err = self.check(tool=tool)
            self.assertEqual(ended, status)
            verdict = {0: "verdict: nothing found\n", 1: "verdict: something was found\n"}.get(status, "")
            self.assertEqual(re.findall("^verdict.*\n", out, flags=re.MULTILINE), [verdict] if verdict else [])
            self.assertEqual("examples/every-small-order/check: vig " in err, status == 2)

    def test_what_it_calls(self):
        """Under both timings, with the pairs and the seed that are given; of the rows of a regression those that are not as expected are shown."""
        _, out, _ = self.check(12, 3, tool=self.saying(regress=1))
        calls, root = [], self.room / "root"
        for name in ("every-small-order", "two-ranks"):
            calls += ["orders -o {0} --timing {1}/examples/{0} --seed 3", "regress {0}", "orders --search 12 --timing {1}/examples/{0} --seed 3"]
            calls[-3:] = [call.format(name, root) for call in calls[-3:]]
        self.assertEqual((self.room / "said").read_text().splitlines(), calls)
        step = "timing of examples/%s\nthe program against the library: so many folders\ntwo differs 2\n    line 5: expected this\na table\n\n"
        self.assertEqual(out, step % "every-small-order" + step % "two-ranks" + "verdict: something was found\n")

    def test_wrong_usage(self):
        self.assertEqual(self.check(1, 2, 3), (2, "", "examples/every-small-order/check: usage: bash examples/every-small-order/check [PAIRS [SEED]]\n"))
        status, out, err = self.check(1, "seven")
        self.assertEqual((status, out), (2, "timing of examples/every-small-order\n"))
        self.assertIn("invalid int value: 'seven'", err)
        self.assertTrue(err.endswith("examples/every-small-order/check: vig orders -o ended with 2\n"))
