"""Sets of classes that compare notes: their extracts in numbers and in words, side by side, `vig blind` for several classes together, and the search over sets."""

import unittest
from itertools import combinations
from unittest import mock

from vigambul import build
from vigambul.blind import premise
from vigambul.blind_search import a_set, drawn_sets, pair_of, searched
from vigambul.class_sets import called, listed, members_of
from vigambul.draws import Draws
from vigambul.errors import Wrong
from vigambul.folders import Folder, Ran
from vigambul.formats import bytes_of, class_of, is_offer, is_tick, owner_of, words_of
from vigambul.library import Library
from vigambul.policies import Names, Policy, policy_of
from vigambul.purge import is_seen, place_of_seen, purge
from vigambul.seen import seen_alone, seen_of

from .samples import a_policy, generated, write
from .support import EXAMPLES, Case, vig
from .test_blind import Leaking, how_many_wait
from .test_extract import ExtractCase

NOTES, BUSY, DIAMOND = EXAMPLES / "compared-notes", EXAMPLES / "compared-notes-busy", EXAMPLES / "diamond"
NAMES = Names({0: "host", 1: "red", 2: "blue", 3: "green"})
# Three classes side by side over a fourth.
FAN = Policy([0b1111, 0b0010, 0b0100, 0b1000], 4, [0, 1, 1, 1], [4, 2, 1, 1, 1, 1, 2, 2, 1, 2])
# What an extract has in place of the turn number of an owner that may not be seen.
HIDDEN = 512


def of_classes(*names):
    """The options that name a set."""
    return [word for name in names for word in ("--class", name)]


def subsets(draws, classes, count):
    """So many sets of classes: the empty one, all of them, and any."""
    return [(), tuple(range(classes)), *(a_set(draws, classes) for _ in range(count - 2))]


def shown(policy, members, word, line):
    """A line of a log as a set sees it, by the rule read off number by number; None where it is dropped."""
    seen = {number for number in range(policy.classes) for member in members if policy.flows(number, member)}
    if is_tick(word):
        status, command, response, turn = line
        hidden = turn and owner_of(turn) not in seen
        return (status, *(number if class_of(number) in seen else 0 for number in (command, response)), HIDDEN if hidden else turn)
    return tuple(line) if is_offer(word) and class_of(word) in seen else None


def lines(numbers):
    return [tuple(numbers[place : place + 4]) for place in range(0, len(numbers), 4)]


class Sets(unittest.TestCase):
    def test_members(self):
        """By name or number, in any order, once each."""
        self.assertEqual(members_of(["blue", "red"], NAMES, 4), (1, 2))
        self.assertEqual(members_of(["1", "red", "red"], NAMES, 4), (1,))
        self.assertEqual(members_of([], NAMES, 4), ())
        self.assertEqual(members_of(["8", "1", "12"], NAMES, 16), (1, 8, 12))
        with self.assertRaisesRegex(Wrong, "^black: no class of this policy; its classes are host, red, blue, green$"):
            members_of(["red", "black"], NAMES, 4)

    def test_called(self):
        for members, sentence, table in (
            ((), "the empty set", "no class"),
            ((1,), "red", "red"),
            ((1, 2), "red and blue together", "red, blue"),
            ((0, 1, 4), "host, red and class 4 together", "host, red, class 4"),
        ):
            self.assertEqual((called(members, NAMES), listed(members, NAMES)), (sentence, table))

    def test_flowing(self):
        diamond = policy_of((DIAMOND / "policy.bin").read_bytes())
        for members, flowing in (((), []), ((0,), [0]), ((1,), [0, 1]), ((1, 2), [0, 1, 2]), ((0, 2), [0, 2]), ((3,), [0, 1, 2, 3])):
            self.assertEqual(diamond.flowing(members), flowing)

    def test_purge(self):
        """What may flow to a member stays, and every tick; malformed words and classes that there are none of go, and with no member every offer."""
        trace = [0, 0x80000001, 0x81000002, 0x82000003, 0x83000004, 1, 0xC1000001, 0x84000001, 0x82080005, 0]
        for members, left in (((), [0, 9]), ((0,), [0, 1, 9]), ((1, 2), [0, 1, 2, 3, 8, 9]), ((0, 3), [0, 1, 4, 9]), ((0, 1, 2, 3), [0, 1, 2, 3, 4, 8, 9])):
            self.assertEqual(list(purge(trace, FAN, members)), [trace[place] for place in left])
            self.assertEqual([place_of_seen(trace, FAN, members, number) for number in range(len(left) + 1)], [*left, None])


class Extracts(ExtractCase):
    def test_stored(self):
        for name, words in (("red-blue", of_classes("red", "blue")), ("none", ["--no-class"])):
            self.stored("extract/compared-notes-%s.txt" % name, self.succeeds("extract", NOTES, *words))
            self.stored("extract/compared-notes-%s.words.txt" % name, self.succeeds("extract", NOTES, *words, "--words"))
        for name, words in (("beside", []), ("beside.words", ["--words"])):
            self.stored("extract/compared-notes-%s.txt" % name, self.succeeds("extract", NOTES, *of_classes("red", "blue"), "--beside", *words))

    def test_a_set_is_named_in_any_order_and_more_than_once(self):
        extract = self.succeeds("extract", NOTES, *of_classes("red", "blue"))
        for names in (("blue", "red"), ("2", "1"), ("red", "blue", "red", "1")):
            self.assertEqual(self.succeeds("extract", NOTES, *of_classes(*names)), extract)
        self.assertNotEqual(self.succeeds("extract", NOTES, *of_classes("red", "green")), extract)

    def test_all_who_have_nothing_above_them_see_the_log(self):
        self.assertEqual(self.succeeds("extract", NOTES, *of_classes("red", "blue", "green")), (NOTES / "expected.txt").read_text())

    def test_a_class_below_a_member_adds_nothing(self):
        """The host may flow to red: who compares notes with red learns nothing from the host's."""
        self.assertEqual(self.succeeds("extract", NOTES, *of_classes("host", "red")), self.succeeds("extract", NOTES, "--class", "red"))

    def test_words_have_the_lines(self):
        for options, others in ((of_classes("red", "blue"), ("green",)), (of_classes("host", "green"), ("red", "blue")), (["--no-class"], ("host", "red", "blue", "green"))):
            self.check_words(BUSY, options, others)

    def test_no_class_sees_the_ticks_alone(self):
        """With no commands or answers, and 512 at each turn start."""
        library, starts = build.library(), 0
        for ran in generated(library, self.room, 10, 100):
            status, out = library.extract_set(ran.folder.policy_bytes, (), ran.trace, ran.log)
            ticks = [line for word, line in zip(ran.trace, lines(ran.log)) if is_tick(word)]
            self.assertEqual((status, lines(out)), (0, [(0, 0, 0, HIDDEN if line[3] else 0) for line in ticks]))
            starts += out.count(HIDDEN)
        self.assertGreater(starts, 50)

    def test_one_class_is_as_it_was(self):
        """The set of a class alone has the class's extract; and it is asked for as that class."""
        library = build.library()
        for ran in generated(library, self.room, 12, 120):
            for number in range(ran.policy.classes):
                of_class = library.extract(ran.folder.policy_bytes, number, ran.trace, ran.log)
                self.assertEqual(of_class[0], 0)
                self.assertEqual(library.extract_set(ran.folder.policy_bytes, (number,), ran.trace, ran.log), of_class)
                with mock.patch.object(Library, "extract_set", side_effect=AssertionError):
                    self.assertEqual(seen_of(library, ran, (number,)).numbers, of_class[1])

    def test_kept_is_what_may_flow_to_a_member(self):
        """On generated runs, line by line and number by number; more is seen than by any member, and less than all."""
        library, gained, hidden = build.library(), 0, 0
        for number, ran in enumerate(generated(library, self.room, 15, 120)):
            log = lines(ran.log)
            for members in subsets(Draws("kept", number), ran.policy.classes, 6):
                seen = seen_of(library, ran, members)
                wanted = [line for line in (shown(ran.policy, members, *pair) for pair in zip(ran.trace, log)) if line is not None]
                self.assertEqual(lines(seen.numbers), wanted)
                self.assertEqual(4 * len(seen.words), len(seen.numbers))
                most = max((len(seen_of(library, ran, (member,)).words) for member in members), default=len(seen.words))
                gained += len(seen.words) > most
                hidden += HIDDEN in seen.numbers
        self.assertGreater(gained, 10)
        self.assertGreater(hidden, 10)

    def test_a_log_that_no_run_wrote(self):
        """Turn numbers that name no class, and words of classes that there are none of, are hidden from every set."""
        words, log = [0] * 4, [0, 0x84000001, 0xC5000001, 0x00010005, 0, 0, 0, 0x00000300, 0, 0x80000001, 0x83000001, 0x00010001, 7, 0, 0, 0]
        status, out = build.library().extract_set(FAN.to_bytes(), range(4), words, log)
        self.assertEqual((status, lines(out)), (0, [(0, 0, 0, HIDDEN), (0, 0, 0, HIDDEN), (0, 0x80000001, 0x83000001, 0x00010001), (7, 0, 0, 0)]))

    def test_what_a_larger_set_sees_has_what_a_smaller_one_sees(self):
        """Where each class of A may flow to a member of B: the extract for A of what B sees is A's."""
        library, tried = build.library(), 0
        for number, ran in enumerate(generated(library, self.room, 12, 100)):
            sets = subsets(Draws("within", number), ran.policy.classes, 6)
            for inner in sets:
                for outer in sets:
                    if set(inner) <= set(ran.policy.flowing(outer)):
                        seen = seen_of(library, ran, outer)
                        status, out = library.extract_set(ran.folder.policy_bytes, inner, seen.words, seen.numbers)
                        self.assertEqual((status, out), (0, seen_of(library, ran, inner).numbers))
                        tried += inner != outer
        self.assertGreater(tried, 100)

    def test_the_members_notes_have_all(self):
        """From the extracts of the members one by one, and the trace numbers left for the set, its extract can be put together."""
        library = build.library()
        for number, ran in enumerate(generated(library, self.room, 12, 100)):
            for members in filter(None, subsets(Draws("notes", number), ran.policy.classes, 5)):
                notes = [(is_seen(ran.policy, (member,)), seen_of(library, ran, (member,)).lines) for member in members]
                seen, together = seen_of(library, ran, members), []
                for word in seen.words:
                    rows = [next(own)[1:] for is_left, own in notes if is_left(word)]
                    turns = {row[3] for row in rows}
                    together.append((rows[0][0], max(row[1] for row in rows), max(row[2] for row in rows), max(turns - {HIDDEN}, default=HIDDEN)))
                self.assertEqual(together, lines(seen.numbers))

    def test_refused(self):
        """A class that is none of the policy's, alone or among others, gets 9, before a log of another length gets 17; nothing is written."""
        library, file = build.library(), FAN.to_bytes()
        for classes in ((4,), (1, 4), (0, 1, 2, 3, 15), (16,), (1, 31)):
            for log in ([0] * 4, [0] * 5):
                status, out = library.extract_set(file, classes, [0], log)
                self.assertEqual((status, list(out)), (9, []))
        self.assertEqual(library.extract_set(file, (1, 2), [0], [0] * 5)[0], 17)
        self.assertEqual(library.extract_set((EXAMPLES / "refused" / "policy.bin").read_bytes(), (0, 31), [0], [0] * 5)[0], 5)

    def test_mistakes(self):
        for words in (of_classes("red", "blue") + ["--no-class"], ["--no-class"] + of_classes("red")):
            self.assertIn("not allowed with argument", self.fails(2, "extract", NOTES, *words))
        self.assertIn("--class --no-class is required", self.fails(2, "extract", NOTES))
        self.assertEqual(self.fails(2, "extract", NOTES, *of_classes("red", "black")), "vig: black: no class of this policy; its classes are host, red, blue, green\n")
        for words in (["--no-class"], of_classes("red"), of_classes("red", "1")):
            self.assertIn("vig: --beside wants two classes or more", self.fails(2, "extract", NOTES, *words, "--beside"))

    def test_a_library_that_is_too_old(self):
        """One of before sets says so where a set is asked for; a class alone it answers."""
        library = build.library()
        library._extract_set = None
        with mock.patch.object(build, "library", return_value=library):
            for words in (of_classes("red", "blue"), ["--no-class"]):
                for command in (("extract", NOTES), ("blind", NOTES, BUSY), ("blind", "--search", 1, NOTES / "policy.bin")):
                    self.assertIn("vig: the built library is too old to say what several classes see together", self.fails(2, *command, *words))
            self.assertEqual(self.succeeds("extract", NOTES, *of_classes("red", "1")), self.succeeds("extract", NOTES, "--class", "red"))
            self.assertIn("its extracts are equal: 160 numbers each", self.succeeds("blind", NOTES, BUSY, "--class", "red"))


class Beside(Case):
    def beside(self, *words):
        """The margins of red and blue, cut off, and the lines behind them."""
        printed = self.succeeds("extract", NOTES, *of_classes("red", "blue"), "--beside", *words).splitlines()
        return [(line[:5].rstrip(), line[5:11].rstrip()) for line in printed], [line[11:] for line in printed]

    def test_in_words(self):
        """A member's name stands before the lines that its own extract has as they are, and before no others."""
        margins, behind = self.beside("--words")
        self.assertEqual(behind, self.succeeds("extract", NOTES, *of_classes("red", "blue"), "--words").splitlines())
        for column, name in enumerate(("red", "blue")):
            own = self.succeeds("extract", NOTES, "--class", name, "--words").splitlines()
            self.assertEqual([margin[column] for margin in margins], [name if line in own else "" for line in behind])
        self.assertEqual(set(margins), {("red", "blue"), ("red", ""), ("", "blue")})

    def test_in_numbers(self):
        """The margins are those of the lines in words, below a header that has none."""
        margins, behind = self.beside()
        self.assertEqual(behind, self.succeeds("extract", NOTES, *of_classes("red", "blue")).splitlines())
        self.assertEqual(margins, [("", ""), *self.beside("--words")[0]])

    def test_generated(self):
        """In a run each line that a set sees is one that a member sees by itself; and where a set has one member, that sees all of it."""
        library, seen_by_some = build.library(), 0
        for number, ran in enumerate(generated(library, self.room, 12, 100)):
            for members in filter(None, subsets(Draws("beside", number), ran.policy.classes, 5)):
                seen = seen_of(library, ran, members)
                for line, sees in zip(seen.lines, zip(*(seen_alone(library, seen, member) for member in members))):
                    self.assertTrue(any(sees), line)
                    seen_by_some += not all(sees)
            for member in range(ran.policy.classes):
                self.assertTrue(all(seen_alone(library, seen_of(library, ran, (member,)), member)))
        self.assertGreater(seen_by_some, 1000)

    def test_a_line_that_no_member_sees_so(self):
        """A command of red's and an answer of blue's in one tick, as no run has them: together they see both, and neither sees the line as it stands."""
        trace, _ = words_of(bytes_of([0x81000001, 0, 0]))
        log = [0, 0, 0, 0, 0, 0x81000001, 0x82000001, 0x00010002, 0, 0x83000001, 0, 0]
        ran = Ran(Folder(NOTES, FAN.to_bytes(), trace, 0, NAMES), FAN, log)
        seen = seen_of(build.library(), ran, (1, 2))
        self.assertEqual(lines(seen.numbers), [(0, 0, 0, 0), (0, 0x81000001, 0x82000001, 0x00010002), (0, 0, 0, 0)])
        self.assertEqual([list(seen_alone(build.library(), seen, member)) for member in (1, 2)], [[True, False, True], [False, False, True]])


class LeakingSets(Leaking):
    """A library whose extracts for sets leak, and those for a class do not."""

    def extract(self, policy, seen_by, trace, log):
        return self.library.extract(policy, seen_by, trace, log)


def leaking_sets(leak):
    return mock.patch.object(build, "library", return_value=LeakingSets(build.library(), leak))


class Blind(Case):
    def said(self, text):
        return text.replace("%s/" % self.room, "").replace(str(EXAMPLES), "examples")

    def test_stored(self):
        """Equal for whomever green may not flow to; with green in the set the premise fails."""
        for name, words in (("red-blue", of_classes("red", "blue")), ("host-red-blue", of_classes("host", "red", "blue")), ("none", ["--no-class"])):
            self.stored("blind/compared-notes-%s.txt" % name, self.said(self.succeeds("blind", NOTES, BUSY, *words)))
        self.stored("blind/compared-notes-red-green.txt", self.said(self.fails(2, "blind", NOTES, BUSY, *of_classes("red", "green"))))

    def test_every_set(self):
        """The two folders differ in green alone: every set without green is blind, and no other agrees."""
        for size in range(5):
            for members in combinations(("host", "red", "blue", "green"), size):
                status, out, err = vig("blind", NOTES, BUSY, *(of_classes(*members) or ["--no-class"]))
                self.assertEqual(status, 2 if "green" in members else 0, (members, err))
                self.assertEqual("extracts are equal" in out, "green" not in members)

    def test_agreeing_for_each_is_not_agreeing_for_both(self):
        """Which of two offers came first neither of two tenants sees, and the two together do: so the premise is one about the set."""
        one, other = (write(self.room / name, FAN, trace, ("host", "red", "blue", "green")) for name, trace in (("one", [0x81000001, 0x82000001, 0]), ("other", [0x82000001, 0x81000001, 0])))
        for name in ("red", "blue"):
            self.assertIn("its extracts are equal: 8 numbers each", self.succeeds("blind", one, other, "--class", name))
        self.stored("blind/premise-set.txt", self.said(self.fails(2, "blind", one, other, *of_classes("red", "blue"))))

    def test_ticks_are_left_for_no_class(self):
        """The empty set knows how many ticks there were, and no more."""
        traces = {"one": [0, 0], "busy": [0x81000001, 0, 0x80000001, 1, 0], "longer": [0] * 3}
        one, busy, longer = (write(self.room / name, FAN, trace) for name, trace in traces.items())
        self.assertIn("the two traces agree for the empty set: 2 trace numbers are left of each\n", self.succeeds("blind", one, busy, "--no-class"))
        self.assertIn("the two traces do not agree for the empty set, so nothing is said of the set's extracts", self.fails(2, "blind", one, longer, "--no-class"))

    def test_planted_leaks(self):
        """A leak in what sets see alone: found for red and blue together and for the empty set, and not for either of them."""
        with leaking_sets(how_many_wait):
            for name in ("red", "blue"):
                self.assertIn("its extracts are equal", self.succeeds("blind", NOTES, BUSY, "--class", name))
            status, out, _ = vig("blind", NOTES, BUSY, *of_classes("red", "blue"))
            self.assertEqual(status, 1)
            self.stored("blind/compared-notes-leak.txt", self.said(out))
            self.assertEqual(vig("blind", NOTES, BUSY, "--no-class")[0], 1)

    def test_mistakes(self):
        self.assertIn("not allowed with argument", self.fails(2, "blind", NOTES, BUSY, "--class", "red", "--no-class"))
        self.assertIn("vig: black: no class of this policy", self.fails(2, "blind", NOTES, BUSY, *of_classes("red", "black")))
        self.assertIn("vig: --sets goes with --search", self.fails(2, "blind", NOTES, BUSY, "--sets"))


class Search(Case):
    def search(self, *words):
        return vig("blind", "--search", *words)

    def test_drawn_sets(self):
        """Of every size, each set of four classes, members in rising order; the seed and the pair's number alone decide."""
        sets = drawn_sets(4, 400, 0)
        self.assertEqual(set(sets), {members for size in range(5) for members in combinations(range(4), size)})
        self.assertEqual(sets[:50], drawn_sets(4, 50, 0))
        self.assertNotEqual(sets[:50], drawn_sets(4, 50, 1))
        sizes = [len(members) for members in drawn_sets(16, 400, 0)]
        self.assertGreater(sizes.count(0), 10)
        self.assertGreater(sum(size in (1, 2, 3) for size in sizes), sum(size > 8 for size in sizes))
        self.assertEqual(set(drawn_sets(1, 100, 0)), {(), (0,)})

    def test_pairs_agree_and_neighbours_act(self):
        """The premise holds of each pair, for any set of any policy. What differs is offered by classes that may flow to no member, and those do offer."""
        hidden = shown_to_members = 0
        for number in range(60):
            policy = a_policy(Draws("pairs of sets", number))
            members = a_set(Draws("members", number), policy.classes)
            one, other = pair_of(Draws("pair", number), policy, members)
            self.assertIsNone(premise(policy, members, one, other))
            flowing = policy.flowing(members)
            offered = [class_of(word) for word in (*one, *other) if is_offer(word) and class_of(word) < policy.classes]
            hidden += sum(owner not in flowing for owner in offered)
            shown_to_members += sum(owner in flowing for owner in offered)
        self.assertGreater(hidden, 1000)
        self.assertGreater(shown_to_members, 1000)

    def test_stored(self):
        for name, words in (
            ("compared-notes-sets", ["40", NOTES / "policy.bin", "--sets"]),
            ("compared-notes-red-blue", ["20", NOTES / "policy.bin", *of_classes("red", "blue"), "--seed", "3"]),
            ("compared-notes-none", ["10", NOTES / "policy.bin", "--no-class"]),
            ("diamond-sets", ["30", DIAMOND / "policy.bin", "--sets", "--seed", "2"]),
        ):
            status, out, err = self.search(*words)
            self.assertEqual((status, err), (0, ""))
            self.stored("blind/search-%s.txt" % name, out)

    def test_the_head_says_what_the_rows_are(self):
        """Rows of classes alone are those of a search by class, however they were named."""
        by_class = self.search("6", NOTES / "policy.bin", "--class", "red")[1]
        self.assertTrue(by_class.startswith("class "))
        self.assertEqual(self.search("6", NOTES / "policy.bin", *of_classes("red", "red"))[1], by_class)

    def test_any_policy(self):
        """Policies of every shape and sets of every size: nothing is learnt, and the neighbours are seen on the full logs of many."""
        library, differ = build.library(), 0
        for number in range(20):
            policy = a_policy(Draws("any set", number))
            figures = searched(library, policy.to_bytes(), Names(), drawn_sets(policy.classes, 8, number), 8, number)
            self.assertEqual(sum(one.pairs for one in figures.values()), 8)
            self.assertEqual(sum(one.extracts_differ for one in figures.values()), 0)
            differ += sum(one.logs_differ for one in figures.values())
        self.assertGreater(differ, 60)

    def test_planted_leaks(self):
        """Found for a set that is named and for sets that are drawn; a search by class does not come to them."""
        policy = NOTES / "policy.bin"
        with leaking_sets(how_many_wait):
            self.assertEqual(self.search("20", policy)[0], 0)
            for name, words in (("named", of_classes("red", "blue")), ("none", ["--no-class"]), ("drawn", ["--sets"])):
                status, out, _ = self.search("8", policy, *words)
                self.assertEqual(status, 1)
                self.stored("blind/search-leak-%s.txt" % name, out)

    def test_mistakes(self):
        policy = NOTES / "policy.bin"
        self.assertIn("not allowed with argument", self.fails(2, "blind", "--search", 3, policy, "--sets", "--class", "red"))
        self.assertIn("not allowed with argument", self.fails(2, "blind", "--search", 3, policy, "--sets", "--no-class"))
        self.assertIn("no class of this policy", self.fails(2, "blind", "--search", 3, policy, *of_classes("red", "black")))
        self.assertIn("1 or more", self.fails(2, "blind", "--search", 0, policy, "--sets"))
