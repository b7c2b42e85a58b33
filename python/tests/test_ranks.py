"""Ranks: in words, in policies of both lengths, in what a class may know, and in runs by the proved library."""

import unittest

from vigambul import build
from vigambul.blind_search import STRAY
from vigambul.formats import BANKS, COLUMN, OFFER, RANKS, Request, bytes_of, is_offer, is_tick, rank_of, request_of
from vigambul.policies import NEEDED_TIMING_KEYS, TIMING_KEYS, Names, Policy, has_ranks, names_beside, policy_of
from vigambul.policy_ranges import GAP_KEYS, TIMING_RANGES
from vigambul.purge import purge
from vigambul.trace_words import malformed_words
from vigambul.words import command_words, request_words, trace_words

from .samples import generated
from .support import EXAMPLES, ROOT, Case

TEN = [6, 3, 2, 2, 2, 2, 3, 3, 1, 3]
# Base below red and blue, which are kept apart.
ROWS = [0b111, 0b010, 0b100]


def a_policy(*rank_gap, timing=TEN):
    return Policy(ROWS, 3, [0, 1, 1], [*timing, *rank_gap])


def alone(*rank_gap, timing):
    """A policy of one class, which owns every turn and may always activate."""
    return Policy([1], 1, [0], [*timing, *rank_gap])


class Words(unittest.TestCase):
    def test_fields(self):
        """The rank is in bits 22 and 23, and in no others."""
        self.assertEqual(Request(1, 1, 3, 2, 1).word, 0x81530002)
        self.assertEqual([Request(0, 0, 0, 0, rank).word for rank in range(RANKS)], [0x80000000, 0x80400000, 0x80800000, 0x80C00000])
        for request in (Request(31, 3, 15, 65_535, rank) for rank in range(RANKS)):
            self.assertEqual(request_of(request.word), request)
            self.assertEqual((rank_of(request.word), rank_of(request.word | COLUMN)), (request.rank, request.rank))
        self.assertEqual(Request(1, 1, 3, 2).rank, 0)

    def test_offers(self):
        """Whatever the rank a word is an offer; bits 29 and 30 alone still make it malformed."""
        for word in (Request(1, 1, 3, 2, rank).word for rank in range(RANKS)):
            self.assertTrue(is_offer(word))
            for stray in (STRAY, COLUMN, STRAY | COLUMN):
                self.assertFalse(is_offer(word | stray))
            self.assertFalse(is_offer(word & ~OFFER))
        strays = [bit for bit in range(31) if not is_offer(OFFER | 1 << bit)]
        self.assertEqual(strays, [29, 30])

    def test_malformed(self):
        self.assertEqual(malformed_words(0xA0C00000), "malformed: bit 29 is set, which belongs to no field")
        self.assertEqual(malformed_words(0xE0400000), "malformed: bits 29, 30 are set, which belong to no field")
        self.assertEqual(malformed_words(0x00C00000), "malformed: bit 31 is not set")

    def test_said_where_there_are_four_or_it_is_not_0(self):
        one, four = Names({1: "red"}), Names({1: "red"}, with_ranks=True)
        self.assertEqual(request_words(0x81030002, one), "red read bank 3 tag 2")
        self.assertEqual(request_words(0x81030002, four), "red read rank 0 bank 3 tag 2")
        for names in (one, four):
            self.assertEqual(trace_words(0x81930002, names), "offer red write rank 2 bank 3 tag 2")
            self.assertEqual(command_words(0xC1C30002, names), "column red read rank 3 bank 3 tag 2")

    def test_the_header_for_c(self):
        """Its macros put the rank where it is here, and VIGAMBUL_OFFER is an offer on rank 0."""
        header = (ROOT / "include" / "vigambul.h").read_text()
        self.assertIn("#define VIGAMBUL_RANK(word) (((uint32_t)(word) >> 22) & UINT32_C(3))\n", header)
        self.assertIn("(((uint32_t)(rank) & UINT32_C(3)) << 22)", header)
        self.assertIn("#define VIGAMBUL_OFFER(class_, kind, bank, tag) VIGAMBUL_OFFER_ON(class_, 0, kind, bank, tag)\n", header)


class Policies(unittest.TestCase):
    def test_both_lengths(self):
        for policy, length, ranks, gap in ((a_policy(), 10, 1, None), (a_policy(2), 11, RANKS, 2)):
            data = policy.to_bytes()
            self.assertEqual((len(data), data[14:16]), (37 + length - 10, bytes([length, 0])))
            again = policy_of(data)
            self.assertEqual(again, policy)
            self.assertEqual((again.ranks, again.rank_gap, has_ranks(data)), (ranks, gap, ranks > 1))
            self.assertEqual((again.turn, again.dead, again.column_delay, again.answer_delay), (6, 3, 1, 3))

    def test_the_range_of_the_rank_gap(self):
        """As that of the other gaps, and it is the one timing number that may be missing."""
        fits = TIMING_RANGES["rank_gap"]
        self.assertEqual(fits.words(), "1 to 31, and at most dead_time")
        self.assertEqual([gap for gap in range(40) if fits.fits(gap, {"dead_time": 3})], [1, 2, 3])
        self.assertEqual(set(TIMING_KEYS) - set(NEEDED_TIMING_KEYS), {"rank_gap"})
        self.assertIn("rank_gap", GAP_KEYS)

    def test_names_know_of_ranks(self):
        """From the policy file itself; with the names or without, and of a file that is none or missing they know nothing."""
        for name, ranks in (("two-ranks", True), ("two-tenants", False), ("refused", False)):
            self.assertEqual(names_beside(EXAMPLES / name / "policy.bin").with_ranks, ranks)
        self.assertFalse(has_ranks(b""))
        self.assertFalse(names_beside(EXAMPLES / "no" / "policy.bin").with_ranks)


class Known(unittest.TestCase):
    def test_offers_of_a_rank_go_by_their_class(self):
        """Under both kinds of policy, whether the rank will be refused or not; malformed words go."""
        offers = [Request(number, 0, 0, rank, rank).word for rank in range(RANKS) for number in range(4)]
        malformed = [word | stray for word in offers for stray in (STRAY, COLUMN)]
        trace = [0, *offers, *malformed, 0]
        for policy in (a_policy(), a_policy(2)):
            for seen_by, flowing in ((0, {0}), (1, {0, 1}), (2, {0, 2})):
                kept = [0, *(word for word in offers if request_of(word).class_ in flowing), 0]
                self.assertEqual(list(purge(trace, policy, (seen_by,))), kept)


class Runs(Case):
    def setUp(self):
        super().setUp()
        self.library = build.library()

    def statuses(self, policy, words):
        status, log = self.library.run(policy.to_bytes(), words)
        self.assertEqual(status, 0)
        return list(log[::4])

    def commands(self, policy, words):
        """The activates of a run, as pairs of cycle and request."""
        status, log = self.library.run(policy.to_bytes(), words)
        self.assertEqual(status, 0)
        commands = [command for word, command in zip(words, log[1::4]) if is_tick(word)]
        return [(cycle, request_of(command)) for cycle, command in enumerate(commands) if command and not command & COLUMN]

    def test_the_reader(self):
        """Ten bytes or eleven, else 2; the rank gap is 1 to the dead time, else 8, and 0 is refused too."""
        for timing, status in (
            (TEN, 0),
            (TEN[:-1], 2),
            (TEN + [1, 1], 2),
            *((TEN + [gap], 0 if 1 <= gap <= 3 else 8) for gap in (0, 1, 2, 3, 4, 31, 32, 255)),
        ):
            self.assertEqual(self.library.read(a_policy(timing=timing).to_bytes()), status, timing)

    def test_ten_bytes_have_one_rank(self):
        """9 is asked before 10, and 10 before 11; a word with bit 29 or 30 gets 14 whatever its rank."""
        full = [Request(0, 0, 0, 0).word] * 8
        tried = [Request(0, 0, 0, 0, 1), Request(1, 1, 7, 0, 3), Request(1, 0, 0, 0, 0), Request(3, 0, 0, 0, 1), Request(0, 0, 0, 0, 0), Request(1, 2, 8, 0, 2)]
        words = full + [request.word for request in tried] + [tried[0].word | STRAY, tried[0].word | COLUMN]
        self.assertEqual(self.statuses(a_policy(), words), [0] * 8 + [10, 10, 0, 9, 11, 10, 14, 14])

    def test_eleven_bytes_have_four(self):
        tried = [Request(0, 0, 0, 0, rank) for rank in range(RANKS)] * 2 + [Request(0, 0, 0, 0, 3), Request(1, 0, 8, 0, 3), Request(1, 2, 0, 0, 3), Request(3, 0, 0, 0, 3)]
        self.assertEqual(self.statuses(a_policy(2), [request.word for request in tried]), [0] * 8 + [11, 10, 10, 9])

    def test_a_bank_is_known_by_rank_and_bank(self):
        """The gap for the same bank is 9 here, all others are 1: bank 3 of rank 1 does not wait for bank 3 of rank 0, and that of rank 0 does."""
        policy = alone(1, timing=[30, 12, 1, 1, 1, 1, 9, 9, 2, 12])
        words = [Request(0, 0, 3, 1, 0).word, Request(0, 0, 3, 2, 0).word, Request(0, 0, 3, 3, 1).word, Request(0, 0, 3, 4, 1).word] + [0] * 20
        self.assertEqual([(cycle, request.tag) for cycle, request in self.commands(policy, words)], [(0, 1), (1, 3), (9, 2), (10, 4)])

    def test_the_rank_gap_is_kept_besides_the_others(self):
        """From the last activate of all, where that was on another rank. The gap from a write to a read is 7 and runs whatever the rank; between reads it is 2, the rank gap 5."""
        policy = alone(5, timing=[60, 10, 2, 2, 7, 2, 3, 3, 1, 4])
        for first, second, cycle in (
            (Request(0, 0, 0, 1, 0), Request(0, 0, 1, 2, 0), 2),
            (Request(0, 0, 0, 1, 0), Request(0, 0, 1, 2, 2), 5),
            (Request(0, 1, 0, 1, 0), Request(0, 0, 1, 2, 2), 7),
            (Request(0, 1, 0, 1, 3), Request(0, 0, 1, 2, 3), 7),
            (Request(0, 0, 0, 1, 3), Request(0, 0, 0, 2, 3), 3),
            (Request(0, 0, 0, 1, 1), Request(0, 0, 0, 2, 3), 5),
        ):
            self.assertEqual(self.commands(policy, [first.word, second.word] + [0] * 12), [(0, first), (cycle, second)])

    def test_the_rank_gap_runs_from_the_last_activate_alone(self):
        """Rank 0, rank 1, rank 1: the third waits for no rank gap, though the first was on another rank and so near."""
        policy = alone(4, timing=[60, 10, 1, 1, 1, 1, 1, 1, 8, 9])
        words = [Request(0, 0, bank, bank, rank).word for bank, rank in enumerate((0, 1, 1))] + [0] * 20
        self.assertEqual([cycle for cycle, _ in self.commands(policy, words)], [0, 4, 5])

    def test_on_a_single_rank_there_is_nothing_new(self):
        """An eleven-byte policy with all traffic on one of its ranks has the log of the ten-byte one, but for the rank in its words."""
        compared = 0
        for ran in generated(self.library, self.room, 12, 200):
            ten, eleven = (Policy(ran.policy.rows, ran.policy.epoch, ran.policy.minimums, ran.policy.timing[:10] + more) for more in ([], [ran.policy.dead]))
            trace = [word & ~(3 << 22) for word in ran.trace]
            _, log = self.library.run(ten.to_bytes(), trace)
            for rank in range(RANKS):
                moved = [word | rank << 22 if is_offer(word) else word for word in trace]
                wires = [number | rank << 22 if place % 4 in (1, 2) and number else number for place, number in enumerate(log)]
                status, other = self.library.run(eleven.to_bytes(), moved)
                self.assertEqual((status, list(other)), (0, wires))
                compared += sum(number != 0 for number in other[1::4])
        self.assertGreater(compared, 500)

    def test_ranks_wait_for_each_other_and_banks_do_not(self):
        """On generated runs: an activate on another rank than the last keeps the rank gap; one bank number on two ranks comes closer than the same-bank gap allows on one."""
        changes = closer = 0
        for ran in generated(self.library, self.room, 60, 300):
            if ran.policy.ranks == 1:
                continue
            activates, last_of = self.commands(ran.policy, list(ran.trace)), {}
            for (before, one), (after, other) in zip(activates, activates[1:]):
                if one.rank != other.rank:
                    changes += 1
                    self.assertGreaterEqual(after - before, ran.policy.rank_gap)
                    closer += one.bank == other.bank and after - before < ran.policy.timing[6 + one.kind]
            for cycle, request in activates:
                earlier, kind = last_of.get((request.rank, request.bank), (-100, 0))
                self.assertGreaterEqual(cycle - earlier, ran.policy.timing[6 + kind])
                last_of[request.rank, request.bank] = cycle, request.kind
        self.assertGreater(changes, 500)
        self.assertGreater(closer, 5)

    def test_without_a_policy_the_trace_says_its_ranks(self):
        """`vig trace show` by itself names the ranks that are not 0, and beside a policy of four all of them."""
        words = [Request(0, 0, 1, 1).word, Request(0, 0, 1, 2, 2).word]
        (self.room / "trace.bin").write_bytes(bytes_of(words))
        lines = ["1       80010001  offer class 0 read bank 1 tag 1", "2       80810002  offer class 0 read rank 2 bank 1 tag 2"]
        self.assertEqual(self.succeeds("trace", "show", self.room / "trace.bin").splitlines(), lines)
        (self.room / "policy.bin").write_bytes(a_policy(2).to_bytes())
        self.assertIn("offer class 0 read rank 0 bank 1 tag 1\n", self.succeeds("trace", "show", self.room / "trace.bin"))

    def test_all_banks_of_all_ranks(self):
        """Thirty of the 32 banks one after the other, until the first column command is due: the gap for the same bank is the longest, and no two of them are one."""
        policy = alone(1, timing=[255, 31, 1, 1, 1, 1, 31, 31, 30, 31])
        words = [word for place in range(30) for word in (Request(0, 0, place % BANKS, place, place // BANKS).word, 0)]
        self.assertEqual([cycle for cycle, _ in self.commands(policy, words)], list(range(30)))
