"""The log told from its start on: against the examples' tables, and against the log itself on generated runs."""

from vigambul import build
from vigambul.folders import folder_at, run_folder
from vigambul.formats import COLUMN, MOST_PASSED, QUEUE_FULL, QUEUE_PLACES, TICKS_OVER, Request, request_of
from vigambul.history import Replay, calls_of, passing, ticks_of
from vigambul.policies import Policy

from .samples import FIVE, generated, write
from .support import EXAMPLES, Case


class Told(Replay):
    """Keeps everything that is told."""

    def __init__(self, policy):
        super().__init__(policy)
        self.turns, self.ended, self.lives, self.columns, self.refusals, self.wires, self.activates = [], [], {}, [], [], [], []

    def refused(self, word, status):
        self.refusals.append((self.cycle, word, status))

    def taken(self, word):
        self.lives.setdefault((word, self.cycle), []).append([None, None])

    def turn_started(self):
        self.turns.append((self.turn, self.epoch, self.owner, self.elided, self.cycle, tuple(self.lengths), tuple(self.left)))

    def turn_ended(self):
        self.ended.append((self.turn, self.cycle))

    def activated(self, word, offered, older):
        life = next(life for life in self.lives[word, offered] if life[0] is None)
        life[0] = self.cycle
        queue = self.queues[request_of(word).class_]
        self.activates.append((self.cycle, word, older, queue.passed, [waiting for waiting, _ in queue.requests]))

    def column(self, word):
        self.columns.append((self.cycle, word))

    def answered(self, word, offered):
        life = next(life for life in self.lives[word, offered] if life[1] is None)
        life[1] = self.cycle

    def ticked(self, command, response):
        self.wires.append((self.cycle, command, response, self.in_dead_time))


def unmet(policy, request, cycle, last, of_bank):
    """The gaps of a request that are not met in a cycle: by request and cycle of the last activate of all, and of those of each bank, which is known by rank and bank."""
    gaps = {}
    if last:
        gaps["kinds"] = last[1] + policy.timing[2 + 2 * last[0].kind + request.kind]
        if last[0].rank != request.rank:
            gaps["rank"] = last[1] + policy.rank_gap
    if (request.rank, request.bank) in of_bank:
        earlier, activated = of_bank[request.rank, request.bank]
        gaps["bank"] = activated + policy.timing[6 + earlier.kind]
    return {name for name, met in gaps.items() if met > cycle}


class HistoryCase(Case):
    def told(self, name):
        ran = run_folder(build.library(), folder_at(EXAMPLES / name))
        return ran, Told(ran.policy).run(ran)

    def owners(self, told):
        """Owner and dead time of each turn, as the examples' tables have them: 1+ for class 1 with its dead time dropped."""
        return " ".join("%d%s" % (owner, "+" if elided else "") for _, _, owner, elided, *_ in told.turns)


class Examples(HistoryCase):
    def test_turns(self):
        for name, owners, turn in (
            ("chain-of-three", "0+ 1+ 2 0+ 1+ 2 1+ 1+ 2 1+", 4),
            ("home-turns", "0+ 1+ 2 0+ 1+ 2", 4),
            ("diamond", "0+ 0+ 1 2+ 3+ 3 1 3 3", 5),
            ("two-tenants", "0+ 1 2 0+ 1 2 1+", 6),
            ("two-tenants-busy", "0+ 1 2 0+ 1 2 1+", 6),
            ("single-class", "0+ 0+ 0+ 0+", 12),
        ):
            with self.subTest(name):
                ran, told = self.told(name)
                self.assertEqual(self.owners(told), owners)
                self.assertEqual([cycle for _, _, _, _, cycle, *_ in told.turns], [turn * number for number in range(len(told.turns))])
                self.assertEqual([number for number, *_ in told.turns], list(range(len(told.turns))))
                self.assertEqual([epoch for _, epoch, *_ in told.turns], [number // ran.policy.epoch for number in range(len(told.turns))])

    def test_turns_left(self):
        """The chain's caps are 1, 2 and 3; each epoch starts from them. Home turns cost none, but the one that class 2 owns idle, turn 8."""
        _, told = self.told("chain-of-three")
        self.assertEqual([left for *_, left in told.turns], [(0, 2, 3)] * 6 + [(1, 1, 3), (1, 1, 3), (1, 1, 2), (1, 1, 3)])

    def test_queue_lengths(self):
        """Waiting as the turns start: the four late offers of class 1 come in turn 5."""
        _, told = self.told("chain-of-three")
        self.assertEqual([lengths for *_, lengths, _ in told.turns], [(3, 5, 2), (1, 5, 2), (1, 3, 2), (1, 3, 1), (0, 3, 1), (0, 1, 1), (0, 5, 0), (0, 3, 0), (0, 1, 0), (0, 1, 0)])
        self.assertEqual(told.lengths, [0, 0, 0])

    def test_gaps(self):
        """The single class's table: the cycle of each activate; the answers come 9 later."""
        _, told = self.told("single-class")
        lives = [life for (_, offered), lives in told.lives.items() for life in lives if offered == 0]
        self.assertEqual([activated for activated, _ in lives], [0, 4, 10, 12, 14, 18, 21, 29])
        self.assertEqual([answered for _, answered in lives], [9, 13, 19, 21, 23, 27, 30, 38])
        self.assertEqual([cycle for cycle, _ in told.columns], [5, 9, 15, 17, 19, 23, 26, 34])

    def test_passing(self):
        """The busy bank's table: in which cycle which tag of class 1 goes, how many older ones it passes, how many have passed the oldest then, and who waits on, in order."""
        _, told = self.told("busy-bank")
        mine = [activate for activate in told.activates if request_of(activate[1]).class_ == 1]
        tags = [(cycle, request_of(word).tag, older, passed, [request_of(waiting).tag for waiting in left]) for cycle, word, older, passed, left in mine]
        self.assertEqual(
            tags,
            [(10, 2, 1, 1, [1, 3, 4, 5, 6]), (12, 4, 2, 2, [1, 3, 5, 6]), (14, 1, 0, 0, [3, 5, 6]), (20, 3, 0, 0, [5, 6]), (22, 6, 1, 1, [5]), (25, 5, 0, 0, [])],
        )
        answers = {request_of(word).tag: answered for (word, _), ((_, answered),) in told.lives.items() if request_of(word).class_ == 1}
        self.assertEqual(answers, {1: 18, 2: 14, 3: 24, 4: 16, 5: 29, 6: 26})

    def test_ranks(self):
        """The table of the two ranks: which class and tag is activated in which cycle, on which rank and bank, and how many it passes; and those that wait for the rank gap alone in the
        two cycles before."""
        ran, told = self.told("two-ranks")
        activates = [(cycle, request_of(word), older) for cycle, word, older, *_ in told.activates]
        self.assertEqual(
            [(cycle, request.class_, request.tag, request.rank, request.bank, older) for cycle, request, older in activates],
            [
                *((0, 0, 1, 0, 3, 0), (4, 0, 2, 1, 3, 0), (6, 0, 3, 1, 4, 0), (10, 0, 4, 0, 3, 0)),
                *((14, 1, 1, 1, 0, 0), (16, 1, 2, 1, 1, 0)),
                *((24, 0, 5, 0, 0, 0), (26, 0, 7, 0, 2, 1), (30, 0, 6, 1, 1, 0)),
            ],
        )
        of_bank, last = {}, None
        for cycle, request, _ in activates:
            if cycle in (4, 10, 14, 30):
                self.assertEqual([unmet(ran.policy, request, earlier, last, of_bank) for earlier in (cycle - 2, cycle - 1, cycle)], [{"rank"}, {"rank"}, set()])
            last = of_bank[request.rank, request.bank] = request, cycle

    def test_refused_calls(self):
        """The table of refused lines, and the cycles that they stand before."""
        _, told = self.told("refused-calls")
        self.assertEqual([status for _, _, status in told.refusals], [11, 9, 9, 10, 10, 10, 14, 14, 14, 11])
        self.assertEqual([cycle for cycle, _, _ in told.refusals], [0] * 9 + [5])

    def test_kept_dead_time(self):
        """Turn 1 of the busy tenants keeps its dead time, cycles 9 to 11; turn 0 drops it."""
        _, told = self.told("two-tenants-busy")
        self.assertEqual([cycle for cycle, _, _, inside in told.wires if inside and cycle < 18], [9, 10, 11, 15, 16, 17])

    def test_last_turn(self):
        """The run ends inside its last turn, after 3 of 4 cycles."""
        _, told = self.told("printed-log")
        self.assertEqual(told.ended, [(0, 3)])


class Generated(HistoryCase):
    """What is told must agree with what the proved library wrote, in ways that would come out wrong if a queue, a cycle or a turn left were miscounted."""

    @classmethod
    def setUpClass(cls):
        super().setUpClass()
        cls.library = build.library()

    def test_calls(self):
        for ran in generated(self.library, self.room, 6, 60):
            calls = list(calls_of(ran.trace, ran.log))
            self.assertEqual([call.word for call in calls], list(ran.trace))
            self.assertEqual([number for call in calls for number in call.numbers], list(ran.log))
            for call in calls:
                self.assertEqual(call.cycle, sum(earlier.ticks for earlier in calls[: call.place]))
            self.assertEqual(ticks_of(ran.trace, ran.log), sum(call.ticks for call in calls))

    def test_state(self):
        """A class that owns a turn, with classes above it, waits, and has turns left unless it is its home turn, which it is not charged for; a class that a walk starts at and that does
        not own the turn does not wait; a dead time is dropped exactly if the owner may flow to the class at which the next turn starts; 11 comes exactly where 8 wait; nothing is
        activated in a kept dead time."""
        passed_on = home_turns = full = kept = 0
        for ran in generated(self.library, self.room, 40, 400):
            policy, told = ran.policy, Told(ran.policy).run(ran)
            starts = [policy.least if home is None else home for home in map(policy.home, range(policy.epoch))]
            for turn, _, owner, elided, _, lengths, left in told.turns:
                before = list(told.caps if turn % policy.epoch == 0 else told.turns[turn - 1][-1])
                home, first, following = policy.home(turn), starts[turn % policy.epoch], starts[(turn + 1) % policy.epoch]
                self.assertEqual(elided, policy.flows(owner, following))
                if policy.above(owner):
                    self.assertGreater(lengths[owner], 0)
                if owner == home and lengths[home] > 0:
                    home_turns += 1
                else:
                    self.assertGreater(before[owner], 0)
                    before[owner] -= 1
                self.assertEqual(list(left), before)
                if owner != first:
                    passed_on += 1
                    self.assertEqual(lengths[first], 0)
            for cycle, command, _, inside in told.wires:
                kept += inside
                self.assertFalse(inside and command and not command & COLUMN, cycle)
            full += self.check_queues(ran)
        self.assertGreater(passed_on, 100)
        self.assertGreater(home_turns, 100)
        self.assertGreater(kept, 100)
        self.assertGreater(full, 100)

    def check_queues(self, ran):
        """Counts the offers that get 11, each of which must find eight waiting, and each that is taken fewer."""

        class Watching(Told):
            def refused(inner, word, status):
                if status == QUEUE_FULL:
                    self.assertEqual(inner.lengths[request_of(word).class_], QUEUE_PLACES)
                super().refused(word, status)

            def taken(inner, word):
                self.assertLessEqual(inner.lengths[request_of(word).class_], QUEUE_PLACES)
                super().taken(word)

        return sum(status == QUEUE_FULL for _, _, status in Watching(ran.policy).run(ran).refusals)

    def test_lives(self):
        """Column commands and answers come by the delays, and whatever is offered and taken is activated, or still waits."""
        for ran in generated(self.library, self.room, 20, 300):
            told = Told(ran.policy).run(ran)
            lives = [(word, *life) for (word, _), lives in told.lives.items() for life in lives]
            waiting = [word for word, activated, _ in lives if activated is None]
            self.assertEqual(len(waiting), sum(told.lengths))
            columns = sorted((activated + ran.policy.column_delay, word) for word, activated, _ in lives if activated is not None)
            self.assertEqual(told.columns, [item for item in columns if item[0] < told.cycle])
            for _, activated, answered in lives:
                if activated is not None and activated + ran.policy.answer_delay < told.cycle:
                    self.assertEqual(answered, activated + ran.policy.answer_delay)
                else:
                    self.assertIsNone(answered)

    def test_end(self):
        """Up to a cycle, what is told is the beginning of the whole."""
        ran = next(generated(self.library, self.room, 1, 200))
        whole, part = Told(ran.policy).run(ran), Told(ran.policy).run(ran, 77)
        self.assertEqual(part.cycle, 77)
        self.assertEqual(part.wires, whole.wires[:77])
        self.assertEqual(whole.cycle, 200)

    def test_who_is_passed(self):
        """A request that is passed has a gap that is not met, now and then the rank gap alone; at most 15 pass one oldest; and of the requests of one class with the same rank, bank and
        kind the older goes first."""
        passed = most = by_rank = 0
        for ran in generated(self.library, self.room, 40, 400):
            last, of_bank, waiting = None, {}, [[] for _ in range(ran.policy.classes)]
            for call, older in passing(calls_of(ran.trace, ran.log)):
                if call.offers and call.status == 0:
                    waiting[request_of(call.word).class_].append(call.word)
                elif call.command and not call.command & COLUMN:
                    request = request_of(call.command)
                    queue = waiting[request.class_]
                    for word in queue[:older]:
                        waits_for = unmet(ran.policy, request_of(word), call.cycle, last, of_bank)
                        self.assertTrue(waits_for)
                        self.assertNotEqual(request_of(word)._replace(tag=0), request._replace(tag=0))
                        by_rank += waits_for == {"rank"}
                    self.assertEqual(queue.pop(older), call.command)
                    self.assertFalse(unmet(ran.policy, request, call.cycle, last, of_bank))
                    last = of_bank[request.rank, request.bank] = request, call.cycle
                    passed += older > 0
            most = max([most, *(number for _, _, _, number, _ in Told(ran.policy).run(ran).activates)])
        self.assertGreater(passed, 200)
        self.assertGreater(by_rank, 50)
        self.assertGreater(most, 4)
        self.assertLessEqual(most, MOST_PASSED)

    def test_no_more_than_fifteen(self):
        """Reads of bank 0 keep it busy for 31 cycles, writes of bank 1 hardly. The second read is passed by 15 writes, one in each cycle; then nothing goes before it, though writes wait
        and the wires are free in cycles 16 to 19; from cycle 20 on column commands have them."""
        policy = Policy([1], 1, [0], [62, 31, 1, 1, 1, 1, 31, 1, 20, 31])
        read, write_ = Request(0, 0, 0, 0).word, Request(0, 1, 1, 0).word
        trace = [read, read] + [write_] * 6 + [word for _ in range(20) for word in (0, write_)] + [0] * 30
        told = Told(policy).run(run_folder(self.library, folder_at(write(self.room / "fifteen", policy, trace))))
        self.assertEqual([(cycle, word, passed) for cycle, word, _, passed, _ in told.activates[:16]], [(0, read, 0)] + [(cycle, write_, cycle) for cycle in range(1, 16)])
        self.assertEqual(told.activates[16][:4], (36, read, 0, 0))
        self.assertEqual(told.activates[16][4], [write_] * 7)

    def test_equal_requests_leave_in_order(self):
        """Two equal requests offered at different cycles: the older one's answer comes first."""
        word = 0x81010001
        folder = write(self.room / "equal", FIVE, [word, 0, 0, word] + [0] * 60)
        ran = run_folder(self.library, folder_at(folder))
        told = Told(ran.policy).run(ran)
        (first,), (second,) = told.lives[word, 0], told.lives[word, 2]
        self.assertLess(first[1], second[1])

    def test_equal_requests_that_pass(self):
        """Of two equal requests behind one of a busy bank the older passes it first: it is the one that was offered first."""
        first, oldest, equal = 0x80000001, 0x80000002, 0x80010003
        trace = [first, oldest, equal, 0, equal] + [0] * 12
        told = Told(FIVE).run(run_folder(self.library, folder_at(write(self.room / "equals", FIVE, trace))))
        self.assertEqual([told.lives[word, offered] for word, offered in ((first, 0), (oldest, 0), (equal, 0), (equal, 1))], [[[0, 3]], [[4, 7]], [[2, 5]], [[6, 9]]])
        self.assertEqual([(cycle, word, older) for cycle, word, older, _, _ in told.activates], [(0, first, 0), (2, equal, 1), (4, oldest, 0), (6, equal, 0)])

    def test_ticks_that_are_refused(self):
        """Ticks after the last one are refused, and no cycles. The last is far off, so the log is written by hand."""
        ran = run_folder(self.library, folder_at(write(self.room / "over", FIVE, [0, 0, 0])))
        for place, number in enumerate((TICKS_OVER, 0, 0, 0), 8):
            ran.log[place] = number
        self.assertEqual(ticks_of(ran.trace, ran.log), 2)
        told = Told(ran.policy).run(ran)
        self.assertEqual((told.cycle, told.refusals), (2, [(2, 0, TICKS_OVER)]))
