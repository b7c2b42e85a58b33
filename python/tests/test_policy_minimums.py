"""What `vig policy check` says of minimums, home turns and the least class's cap, held against runs by the proved library."""

from vigambul import build
from vigambul.draws import Draws
from vigambul.figures import figures_of
from vigambul.folders import folder_at, run_folder
from vigambul.formats import Request
from vigambul.history import Replay
from vigambul.minimums import class_words, least_words, minimum_words, plan_words, wait_words
from vigambul.policies import Names, Policy

from .samples import a_policy, generated, write
from .support import Case

TIMING = [4, 2, 2, 2, 2, 2, 2, 2, 1, 2]
CHAIN, CHAIN_NAMES = Policy([7, 6, 4], 3, [0, 1, 1], TIMING), Names({0: "low", 1: "middle", 2: "high"})


class Turns(Replay):
    """Keeps of each turn its owner, which classes wait as it starts, and, once it is over, whether a request of the owner went out: None where none waits at its start, or the run ends
    before."""

    def __init__(self, policy):
        super().__init__(policy)
        self.owners, self.waiting, self.went = [], [], []
        self.gone = False

    def turn_started(self):
        self.owners.append(self.owner)
        self.waiting.append([length > 0 for length in self.lengths])
        self.gone = False

    def activated(self, word, offered, older):
        self.gone = True

    def turn_ended(self):
        over = self.cycle == (self.turn + 1) * self.policy.turn
        self.went.append(self.gone if over and self.waiting[-1][self.owner] else None)


class Plan(Case):
    def test_home_turns(self):
        """The last turns of an epoch, class by class, each as often as its minimum; the next epoch has the same plan."""
        for number in range(200):
            policy = a_policy(Draws("plan", number))
            homes = [i for i in range(policy.classes) for _ in range(policy.minimums[i])]
            plan = [None] * (policy.epoch - len(homes)) + homes
            self.assertEqual([policy.home(turn) for turn in range(3 * policy.epoch)], 3 * plan)
            for i in range(policy.classes):
                self.assertEqual(list(policy.home_turns(i)), [turn for turn in range(policy.epoch) if plan[turn] == i])

    def test_words(self):
        self.assertEqual(plan_words(CHAIN, CHAIN_NAMES), "The turns of an epoch, from 0 on: 0 starts at low, the least class; home turns are 1 of middle, 2 of high.")
        for epoch, minimums, words in (
            (8, [0, 2, 3], "0 to 2 start at low, the least class; home turns are 3 and 4 of middle, 5 to 7 of high."),
            (2, [0, 0, 0], "0 and 1 start at low, the least class; there are no home turns."),
            (4, [1, 0, 3], "home turns are 0 of low, 1 to 3 of high."),
        ):
            self.assertEqual(plan_words(Policy([7, 6, 4], epoch, minimums, TIMING), CHAIN_NAMES), "The turns of an epoch, from 0 on: " + words)


class Promises(Case):
    """Each promise on generated runs, with counts of how often it came to bear."""

    @classmethod
    def setUpClass(cls):
        super().setUpClass()
        cls.library = build.library()

    def runs(self):
        for ran in generated(self.library, self.room, 60, 500):
            yield ran, ran.policy, Turns(ran.policy).run(ran)

    def test_at_least_the_minimum_and_at_most_the_cap(self):
        """With a request waiting at all its home turns of an epoch a class owns its minimum or more, also where a class below it waits at every turn; and never more than its cap."""
        owed = below_busy = capped = 0
        for ran, policy, turns in self.runs():
            figures = figures_of(ran)
            for number in range(policy.classes):
                for epoch, owned in enumerate(figures.turns_in_epochs(number)):
                    starts = turns.waiting[epoch * policy.epoch : (epoch + 1) * policy.epoch]
                    self.assertLessEqual(owned, policy.cap(number))
                    capped += owned == policy.cap(number) < policy.epoch
                    if policy.minimums[number] and all(starts[turn][number] for turn in policy.home_turns(number)):
                        self.assertGreaterEqual(owned, policy.minimums[number])
                        owed += 1
                        below_busy += any(all(start[other] for start in starts) for other in policy.below(number))
                if figures.part:
                    self.assertLessEqual(figures.part[number], policy.cap(number))
        self.assertGreater(owed, 200)
        self.assertGreater(below_busy, 50)
        self.assertGreater(capped, 20)

    def test_a_turn_of_its_own_within_an_epoch(self):
        """With a minimum and a request waiting as a turn starts, one of as many turns as an epoch has, from that one on, is its own."""
        waits = last = 0
        for _, policy, turns in self.runs():
            for first in range(len(turns.owners) - policy.epoch + 1):
                owners = turns.owners[first : first + policy.epoch]
                for number in range(policy.classes):
                    if policy.minimums[number] and turns.waiting[first][number]:
                        self.assertIn(number, owners)
                        waits += 1
                        last += owners.index(number) == policy.epoch - 1
        self.assertGreater(waits, 500)
        self.assertGreater(last, 50)

    def test_the_least_class_where_there_is_no_home_turn(self):
        """It owns each turn that is no home turn and starts with a request of its own waiting, minimum or not; and the only class of a policy owns every turn."""
        owned = passed = alone = 0
        for _, policy, turns in self.runs():
            for turn, owner in enumerate(turns.owners):
                if policy.home(turn) is None and turns.waiting[turn][policy.least]:
                    self.assertEqual(owner, policy.least)
                    owned += policy.minimums[policy.least] == 0
                passed += owner != policy.least
            if policy.classes == 1:
                self.assertEqual(set(turns.owners), {0})
                alone += 1
        self.assertGreater(owned, 100)
        self.assertGreater(passed, 100)
        self.assertGreater(alone, 0)

    def test_the_full_cap(self):
        """The least class owns its cap of an epoch, neither more nor less, if it has a request waiting as each turn of the epoch starts; if it has not, it may own less."""
        owed = capped = none = less = 0
        for ran, policy, turns in self.runs():
            least, cap = policy.least, policy.cap(policy.least)
            for epoch, owned in enumerate(figures_of(ran).turns_in_epochs(least)):
                starts = turns.waiting[epoch * policy.epoch : (epoch + 1) * policy.epoch]
                if all(start[least] for start in starts):
                    self.assertEqual(owned, cap)
                    owed += 1
                    capped += 0 < cap < policy.epoch
                    none += cap == 0
                less += owned < cap
        self.assertGreater(owed, 100)
        self.assertGreater(capped, 50)
        self.assertGreater(none, 0)
        self.assertGreater(less, 50)

    def test_a_request_goes_out(self):
        """In a turn of a class that waits as it starts, and that is ticked to its end, where turns are at least twice the dead time; where they are shorter none may."""
        went = late = 0
        for _, policy, turns in self.runs():
            enough = policy.turn >= 2 * policy.dead
            self.assertEqual("not promised" in wait_words(policy)[1], not enough)
            if enough:
                self.assertNotIn(False, turns.went)
                went += turns.went.count(True)
            else:
                late += turns.went.count(False)
        self.assertGreater(went, 200)
        self.assertGreater(late, 5)

    def test_a_class_that_had_no_turn(self):
        """Document 01's case (d), with all three waiting: the owners were 0, 1, 1 before request W-202."""
        trace = [Request(number, 0, 0, 0).word for number in range(3) for _ in range(8)] + [0] * 24
        ran = run_folder(self.library, folder_at(write(self.room / "d", CHAIN, trace)))
        self.assertEqual(Turns(CHAIN).run(ran).owners, [0, 1, 2, 0, 1, 2])


class Words(Case):
    def test_of_a_class(self):
        self.assertEqual(
            class_words(CHAIN, CHAIN_NAMES, 2),
            "high, minimum 1: home turn 2 of 0 to 2. It owns at least 1 turn of an epoch in which it has a request waiting as that turn starts, and at most 3 of any, its cap",
        )
        for minimums, words in (
            ([2, 0, 0], "low, minimum 2: home turns 2 and 3 of 0 to 3. It owns at least 2 turns of an epoch in which it has a request waiting as both of these start, and at most 4 "),
            ([3, 0, 1], "low, minimum 3: home turns 0 to 2 of 0 to 3. It owns at least 3 turns of an epoch in which it has a request waiting as each of these starts, and at most 3 "),
            ([4, 0, 0], "low, minimum 4: every turn is its home turn. It owns at least 4 turns of an epoch in which it has a request waiting as each of these starts, and at most 4 "),
        ):
            self.assertTrue(class_words(Policy([7, 6, 4], 4, minimums, TIMING), CHAIN_NAMES, 0).startswith(words), words)

    def test_of_the_least_class(self):
        exactly = "%s, the least class, owns exactly %s, its cap, of an epoch in which it has a request waiting as each of the 4 turns starts"
        none = "low, the least class, owns no turn: the home turns of others fill the epoch, and its cap is 0"
        for rows, epoch, minimums, words in (
            ([7, 6, 4], 4, [0, 1, 1], [exactly % ("low", "2 turns")]),
            ([7, 6, 4], 4, [1, 0, 1], [exactly % ("low", "3 turns")]),
            ([7, 6, 4], 4, [1, 0, 0], [exactly % ("low", "4 turns")]),
            ([7, 6, 4], 4, [0, 2, 1], [exactly % ("low", "1 turn")]),
            ([7, 6, 4], 4, [1, 2, 1], []),
            ([7, 6, 4], 4, [4, 0, 0], []),
            ([7, 6, 4], 4, [0, 3, 1], [none]),
            ([3, 2], 1, [1, 0], []),
            ([3, 2], 1, [0, 1], [none]),
            ([1, 3], 4, [1, 0], [exactly % ("middle", "3 turns")]),
            ([1], 4, [1], ["low, the one class, owns every turn"]),
        ):
            policy = Policy(rows, epoch, minimums, TIMING)
            self.assertEqual(least_words(policy, CHAIN_NAMES), words)
            said = [line for line in minimum_words(policy, CHAIN_NAMES) if "the least class, owns" in line or "the one class, owns" in line]
            self.assertEqual(said, ["- %s." % word for word in words])

    def test_of_the_wait(self):
        own, goes, oldest = wait_words(CHAIN)
        self.assertEqual(own, "A class with a minimum that has a request waiting as a turn starts owns one of the 3 turns (12 cycles) from that one on, if the run has so many turns")
        end = "goes out in that turn of its own, if the run goes on to that turn's end"
        self.assertEqual(goes, "A turn (4 cycles) is at least twice the dead time (2), so a request of the class " + end)
        self.assertEqual(oldest, "While a request is the oldest of its class, at most 15 others of the class go out before it")
        own, goes, oldest = wait_words(Policy([1], 1, [1], [3, 2, *TIMING[2:]]))
        self.assertEqual(own, "A class with a minimum that has a request waiting as a turn starts owns that turn (3 cycles)")
        self.assertEqual(goes, "A turn (3 cycles) is less than twice the dead time (2), so it is not promised that a request of the class goes out in that turn of its own")
        self.assertEqual(oldest, wait_words(CHAIN)[2])

    def test_without_minimums(self):
        """All turns start at the least class, whatever its number."""
        none = "Here no class has a minimum: there are no home turns; every turn starts at %s, which owns it if a request of its own waits, and no other class is guaranteed a turn; "
        for rows, words in (
            ([3, 2], none % "low" + "every cap is the epoch, 4."),
            ([1, 3], none % "middle" + "every cap is the epoch, 4."),
            ([1], "Here the one class has no minimum: there are no home turns; it owns every turn; its cap is the epoch, 4."),
        ):
            self.assertEqual(minimum_words(Policy(rows, 4, [0] * len(rows), TIMING), CHAIN_NAMES)[-1], words)
