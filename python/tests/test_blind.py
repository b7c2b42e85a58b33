"""`vig blind`: the premise, equal extracts, planted leaks that must be found, and the search."""

import shutil
from unittest import mock

from vigambul import build
from vigambul.blind import first_difference, premise
from vigambul.blind_search import HABITS, STRAY, a_stray, filling, pair_of, searched
from vigambul.draws import Draws
from vigambul.formats import COLUMN, OFFER, bytes_of, is_offer, is_tick, request_of
from vigambul.policies import Names, Policy, policy_of
from vigambul.purge import place_of_seen, purge

from .samples import a_policy
from .support import EXAMPLES, Case, vig

IDLE, BUSY = EXAMPLES / "two-tenants", EXAMPLES / "two-tenants-busy"


class Leaking:
    """The proved library with a leak planted into what its extract hands back: `leak` may change the numbers of the extract, given the log."""

    def __init__(self, library, leak):
        self.library, self.leak = library, leak

    def __getattr__(self, name):
        return getattr(self.library, name)

    def extract(self, policy, seen_by, trace, log):
        return self.leaked(self.library.extract(policy, seen_by, trace, log), trace, log)

    def extract_set(self, policy, classes, trace, log):
        return self.leaked(self.library.extract_set(policy, classes, trace, log), trace, log)

    def leaked(self, extracted, trace, log):
        status, out = extracted
        self.leak(out, trace, log)
        return status, out


def a_command_through(out, trace, log):
    """Lets the first hidden command of a tick through."""
    ticks = [log[4 * place : 4 * place + 4] for place, word in enumerate(trace) if is_tick(word)]
    at = len(out) - 4 * len(ticks)
    for number, line in enumerate(ticks):
        # Only where the offers all come first is a tick's place in the extract known so simply; the examples of this test are so for red.
        if line[1] != 0 and out[at + 4 * number + 1] == 0:
            out[at + 4 * number + 1] = line[1]
            return


def a_line_too_many(out, trace, log):
    """Keeps a line of a call that is struck out, where there is one."""
    if 4 * len(trace) > len(out):
        out.extend((11, 0, 0, 0))


def how_many_wait(out, trace, log):
    """Tells at the first turn that is hidden how many offers there were."""
    for place in range(3, len(out), 4):
        if out[place] == 512:
            out[place] += sum(map(is_offer, trace)) << 16
            return


def leaking(leak):
    return mock.patch.object(build, "library", return_value=Leaking(build.library(), leak))


class Folders(Case):
    def pair(self, one, other, policy=IDLE):
        """Two folders with an example's policy and these traces."""
        for name, words in (("one", one), ("other", other)):
            (self.room / name).mkdir()
            for file in ("policy.bin", "policy.names"):
                shutil.copy(policy / file, self.room / name)
            (self.room / name / "trace.bin").write_bytes(bytes_of(words))
        return self.room / "one", self.room / "other"

    def said(self, text):
        return text.replace("%s/" % self.room, "").replace(str(EXAMPLES), "examples")

    def test_equal(self):
        for name in ("red", "base"):
            status, out, err = vig("blind", IDLE, BUSY, "--class", name)
            self.assertEqual((status, err), (0, ""))
            self.stored("blind/equal-%s.txt" % name, self.said(out))

    def test_broken_premise(self):
        self.stored("blind/premise.txt", self.said(self.fails(2, "blind", IDLE, BUSY, "--class", "blue")))

    def test_broken_premise_at_the_end(self):
        """One has a tick more; what is struck before does not count."""
        one, other = self.pair([0, 0x81010001, 0], [0x00000001, 0, 0x82010001, 0x81010001, 0, 0])
        self.stored("blind/premise-end.txt", self.said(self.fails(2, "blind", one, other, "--class", "red")))

    def test_struck_words_differ_alone(self):
        """Malformed words, classes that there are none of, and other classes' offers, refused or not, may differ; ticks may not."""
        one, other = self.pair([0, 0x81010001, 0, 0], [0xC0000000, 0, 0x9F000000, 0x81010001, 0, 0x82080000, 0, 7])
        self.assertIn("equal: 16 numbers each", self.succeeds("blind", one, other, "--class", "red"))

    def test_a_rank_that_there_is_none_of_is_no_malformed_word(self):
        """Under a policy of one rank an offer of another is refused, and struck out by its class alone: red sees its own, and does not see blue's."""
        one, other = self.pair([0, 0x81410001, 0], [0x82C10001, 0, 0xA1410001, 0x81410001, 0])
        self.assertIn("equal: 12 numbers each", self.succeeds("blind", one, other, "--class", "red"))
        (other / "trace.bin").write_bytes(bytes_of([0, 0]))
        self.assertIn("one/trace.bin: trace number 2: 81410001, offer red read rank 1 bank 1 tag 1", self.fails(2, "blind", one, other, "--class", "red"))

    def test_other_policy(self):
        err = self.fails(2, "blind", IDLE, EXAMPLES / "diamond", "--class", "base")
        self.assertEqual(self.said(err), "vig: examples/two-tenants/policy.bin and examples/diamond/policy.bin differ: two traces of one policy are compared\n")

    def test_planted_leaks(self):
        for leak in (a_command_through, a_line_too_many, how_many_wait):
            with self.subTest(leak.__name__), leaking(leak):
                status, out, _ = vig("blind", IDLE, BUSY, "--class", "red")
                self.assertEqual(status, 1)
                self.stored("blind/%s.txt" % leak.__name__, self.said(out))

    def test_empty_traces(self):
        one, other = self.pair([], [0x82010001])
        self.assertIn("its extracts are equal: 0 numbers each", self.succeeds("blind", one, other, "--class", "red"))

    def test_mistakes(self):
        self.assertIn("no such folder", self.fails(2, "blind", IDLE, self.room / "no", "--class", "red"))
        self.assertIn("no class of this policy", self.fails(2, "blind", IDLE, BUSY, "--class", "green"))
        self.assertIn("two folders and --class NAME", self.fails(2, "blind", IDLE, "--class", "red"))
        self.assertIn("two folders and --class NAME", self.fails(2, "blind", IDLE, BUSY))
        self.assertIn("policy refused 5", self.fails(1, "blind", EXAMPLES / "refused", EXAMPLES / "refused", "--class", "low"))
        one, other = self.pair([], [])
        (other / "trace.bin").unlink()
        self.assertIn("other/trace.bin: no such file", self.fails(2, "blind", one, other, "--class", "red"))

    def test_help(self):
        self.assertIn("examples:", self.succeeds("blind", "--help"))


class Parts(Case):
    def test_first_difference(self):
        for left, right, place in (([], [], None), ([1, 2], [1, 2], None), ([1, 2], [1, 3], 1), ([1], [1, 2], 1), ([], [0], 0)):
            self.assertEqual(first_difference(left, right), place)

    def test_purge(self):
        policy = policy_of((IDLE / "policy.bin").read_bytes())
        trace = [0, 0x80000001, 0x81000002, 0x82000003, 0x83000004, 1, 0xC1000001, 0x81080005, 0]
        self.assertEqual(list(purge(trace, policy, (1,))), [0, 0x80000001, 0x81000002, 0x81080005, 0])
        self.assertEqual(list(purge(trace, policy, (0,))), [0, 0x80000001, 0])
        self.assertEqual([place_of_seen(trace, policy, (1,), number) for number in range(6)], [0, 1, 2, 7, 8, None])

    def test_purge_is_as_long_as_the_extract(self):
        """The extract has four numbers for each trace number that is left, by whatever trace."""
        library, draws = build.library(), Draws("lengths")
        for name in ("diamond", "two-tenants", "chain-of-three", "two-ranks"):
            data = (EXAMPLES / name / "policy.bin").read_bytes()
            policy = policy_of(data)
            trace = [0 if draws.chance(0.4) else draws.below(1 << 32) if draws.chance(0.3) else 0x80000000 | draws.below(6 << 2) << 22 for _ in range(400)]
            _, log = library.run(data, trace)
            for seen_by in range(policy.classes):
                status, out = library.extract(data, seen_by, trace, log)
                self.assertEqual((status, len(out)), (0, 4 * len(purge(trace, policy, (seen_by,)))))


class Search(Case):
    def search(self, *words):
        return vig("blind", "--search", *words)

    def test_pairs_agree_and_pass_epochs(self):
        """The premise holds of each pair; they pass three epochs at least."""
        for name in ("diamond", "two-tenants", "single-class", "two-ranks"):
            policy = policy_of((EXAMPLES / name / "policy.bin").read_bytes())
            for number in range(60):
                seen_by = (number % policy.classes,)
                one, other = pair_of(Draws(name, number), policy, seen_by)
                self.assertIsNone(premise(policy, seen_by, one, other))
                self.assertGreaterEqual(one.count(0), 3 * policy.epoch * policy.turn)

    def test_neighbours_do_everything(self):
        """Each habit, full queues, malformed words and classes that there are none of occur."""
        data = (IDLE / "policy.bin").read_bytes()
        policy, library, statuses = policy_of(data), build.library(), set()
        for number in range(40):
            for trace in pair_of(Draws("all", number), policy, (1,)):
                status, log = library.run(data, trace)
                self.assertEqual(status, 0)
                statuses |= set(log[::4])
        self.assertEqual(statuses, {0, 9, 10, 11, 14})
        for habit in HABITS:
            cycles = habit(Draws("habit"), policy, 200)
            self.assertEqual(bool(cycles), habit.__name__ != "idle")
            self.assertTrue(all(cycle >= 0 for cycle in cycles))
        strays = [a_stray(Draws("stray", number), policy) for number in range(200)]
        self.assertFalse([word for word in strays if is_tick(word) or is_offer(word) and request_of(word).class_ < policy.classes])
        for bits in (0, OFFER | COLUMN, OFFER | STRAY, OFFER):
            self.assertIn(bits, {word & (OFFER | COLUMN | STRAY) for word in strays})

    def test_ranks_are_drawn_where_there_are_four(self):
        """And none are refused for it; where there is one rank, all is on it."""
        for name, ranks, statuses in (("two-ranks", {0, 1, 2, 3}, {0, 9, 10, 11, 14}), ("two-tenants", {0}, {0, 9, 10, 11, 14})):
            data, met, drawn, refused = (EXAMPLES / name / "policy.bin").read_bytes(), set(), set(), 0
            for number in range(40):
                for trace in pair_of(Draws("ranks", number), policy_of(data), (0,)):
                    _, log = build.library().run(data, trace)
                    met |= set(log[::4])
                    requests = [(request_of(word), status) for word, status in zip(trace, log[::4]) if is_offer(word)]
                    drawn |= {request.rank for request, _ in requests}
                    refused += sum(status == 10 and request.bank < 8 and request.kind < 2 for request, status in requests)
            self.assertEqual((drawn, met, refused), (ranks, statuses, 0))

    def test_fillings_are_hidden(self):
        policy = policy_of((IDLE / "policy.bin").read_bytes())
        for number in range(50):
            words = [word for row in filling(Draws(number), policy, [2], 60).values() for word in row]
            self.assertEqual(list(purge(words, policy, (1,))), [])

    def test_nothing_is_learnt(self):
        for name in ("diamond", "two-tenants", "chain-of-three", "single-class", "two-ranks"):
            status, out, err = self.search("60", EXAMPLES / name / "policy.bin")
            self.assertEqual((status, err), (0, ""))
            self.stored("blind/search-%s.txt" % name, out)

    def test_any_policy(self):
        """Policies of every shape: nothing is learnt, and the neighbours are seen on the full logs of most."""
        library, shown = build.library(), 0
        for number in range(25):
            policy = a_policy(Draws("any policy", number))
            figures = searched(library, policy.to_bytes(), Names(), [(seen_by,) for seen_by in range(policy.classes)], 8, number)
            self.assertEqual(sum(one.pairs for one in figures.values()), 8)
            self.assertEqual(sum(one.extracts_differ for one in figures.values()), 0)
            shown += sum(one.logs_differ for one in figures.values())
        self.assertGreater(shown, 100)

    def test_one_class_and_seed(self):
        status, out, _ = self.search("20", IDLE / "policy.bin", "--class", "red", "--seed", "9")
        self.assertEqual(status, 0)
        self.stored("blind/search-red.txt", out)
        self.assertNotEqual(out, self.search("20", IDLE / "policy.bin", "--class", "red", "--seed", "10")[1])

    def test_fewer_pairs_than_classes(self):
        out = self.search("2", EXAMPLES / "diamond" / "policy.bin")[1]
        self.assertEqual([line.split()[0] for line in out.splitlines()], ["class", "base", "left", "all", "in"])

    def test_least_class_need_not_be_0(self):
        (self.room / "policy.bin").write_bytes(Policy([0b01, 0b11], 2, [1, 0], [5, 2, 1, 2, 2, 1, 2, 2, 1, 2]).to_bytes())
        status, out, _ = self.search("40", self.room / "policy.bin")
        self.assertEqual(status, 0)
        # Class 1 is the least here, and class 0 is hidden from it and does act.
        row = out.splitlines()[2].split()
        self.assertEqual((row[:3], row[-1]), (["class", "1", "20"], "0"))
        self.assertGreater(int(row[-2]), 0)

    def test_planted_leaks(self):
        for leak in (a_line_too_many, how_many_wait):
            with self.subTest(leak.__name__), leaking(leak):
                status, out, _ = self.search("30", IDLE / "policy.bin", "--class", "red")
                self.assertEqual(status, 1)
                self.stored("blind/search-%s.txt" % leak.__name__, out)

    def test_mistakes(self):
        policy = IDLE / "policy.bin"
        self.assertIn("1 or more", self.fails(2, "blind", "--search", 0, policy))
        self.assertIn("--search takes one policy", self.fails(2, "blind", "--search", 3, policy, policy))
        self.assertIn("no such file", self.fails(2, "blind", "--search", 3, self.room / "policy.bin"))
        self.assertIn("a folder, where a file is wanted", self.fails(2, "blind", "--search", 3, IDLE))
        self.assertIn("policy refused 5", self.fails(1, "blind", "--search", 3, EXAMPLES / "refused" / "policy.bin"))
        self.assertIn("no class of this policy", self.fails(2, "blind", "--search", 3, policy, "--class", "green"))
