"""A log told from its start on: the calls with their cycles, and what they did: turns, requests from their offers to their answers, queue lengths, turns left, who passed whom.
Everything is read off the trace and the log; the rules that are worked out here again are who is charged for a turn, and how many have passed a class's oldest request. A trace may
have 17,000,000 numbers: nothing is kept for each."""

from collections import defaultdict, deque
from typing import NamedTuple

from .formats import COLUMN, TICKS_OVER, class_of, is_column, is_elided, is_offer, is_tick, owner_of, walk_of


class Call(NamedTuple):
    """A trace number and its four log numbers. Its cycle is the tick's, or, of an offer or a malformed word, that of the next tick."""

    place: int
    word: int
    cycle: int
    status: int
    command: int
    response: int
    turn: int

    @property
    def ticks(self):
        """Whether it is a tick that was made."""
        return is_tick(self.word) and self.status == 0

    @property
    def offers(self):
        return is_offer(self.word)

    @property
    def numbers(self):
        return self.status, self.command, self.response, self.turn


def lines_of(trace, log):
    """Each trace number with its four log numbers."""
    numbers = iter(log)
    return zip(trace, numbers, numbers, numbers, numbers)


def ticks_of(trace, log, end=None):
    """How many ticks were made, in all or before a place: all but those refused, which have a number of their own."""
    if end is not None:
        trace, log = trace[:end], log[: 4 * end]
    return trace.count(0) - log[0::4].count(TICKS_OVER)


def calls_of(trace, log):
    """The calls of a run, one after the other."""
    cycle = 0
    for place, (word, status, command, response, turn) in enumerate(lines_of(trace, log)):
        call = Call(place, word, cycle, status, command, response, turn)
        yield call
        if call.ticks:
            cycle += 1


class Queue:
    """A class's waiting requests, oldest first, each with the cycle of its offer; `passed` is how many have passed the oldest while it was that."""

    def __init__(self):
        self.requests, self.passed = deque(), 0

    def join(self, word, cycle):
        self.requests.append((word, cycle))

    def leave(self, word):
        """An activate takes the request with that word out, of equal ones the oldest, and the rest closes up. Hands back the cycle of its offer and how many older ones it passes."""
        older = next(place for place, (other, _) in enumerate(self.requests) if other == word)
        offered = self.requests[older][1]
        del self.requests[older]
        self.passed = self.passed + 1 if older else 0
        return offered, older


def passing(calls):
    """The calls of a run, or of an extract, each with how many older requests of its class its activate passes."""
    queues = defaultdict(Queue)
    for call in calls:
        older = 0
        if call.offers and call.status == 0:
            queues[class_of(call.word)].join(call.word, call.cycle)
        elif call.command and not is_column(call.command):
            _, older = queues[class_of(call.command)].leave(call.command)
        yield call, older


class Replay:
    """Goes through a run once and tells what happens by the methods from `refused` to `ticked`, which do nothing here: one who wants to know overrides them. In them,
    `cycle` is the cycle under way (of an offer: next to be ticked), `queues`, `lengths` and `left` are the queues, their lengths and the turns left of each class, `turn`,
    `owner`, `home`, `walk` and `elided` are of the turn under way (-1, None, None, 0 and False before the first); `home` is the class whose home turn it is, or None, and `walk` is
    how many classes the walk tried, the owner counted."""

    def __init__(self, policy):
        self.policy = policy
        self.cycle = 0
        self.queues = [Queue() for _ in range(policy.classes)]
        self.lengths = [0] * policy.classes
        self.caps = [policy.cap(number) for number in range(policy.classes)]
        self.left = list(self.caps)
        self.plan = [policy.home(turn) for turn in range(policy.epoch)]
        self.least = policy.least
        self.turn, self.owner, self.home, self.walk, self.elided = -1, None, None, 0, False
        # Requests activated and not yet answered: a word and the cycle of its offer.
        self._flying = deque()

    @property
    def epoch(self):
        return self.turn // self.policy.epoch

    @property
    def walked_from(self):
        """The class at which the walk of the turn under way started."""
        return self.least if self.home is None else self.home

    @property
    def dead_from(self):
        """The first cycle of the dead time of the turn under way, kept or dropped."""
        return (self.turn + 1) * self.policy.turn - self.policy.dead

    @property
    def in_dead_time(self):
        """Whether the cycle lies in a dead time that is kept."""
        return not self.elided and self.cycle >= self.dead_from

    def refused(self, word, status):
        """A call was refused."""

    def taken(self, word):
        """An offer was taken; its queue is the longer by it already."""

    def turn_started(self):
        """A turn starts: whose it is, its walk and its dead time are known, and the owner is charged where it is."""

    def turn_ended(self):
        """The last cycle of a turn, or of the run, is over; `cycle` is the one after it, and all else is still the turn's."""

    def activated(self, word, offered, older):
        """A request that was offered at that cycle goes out, past so many older ones of its class; its queue is the shorter by it already."""

    def column(self, word):
        """The column command of a request goes out; the word is the request's."""

    def answered(self, word, offered):
        """A request that was offered at that cycle is answered."""

    def ticked(self, command, response):
        """A tick is over: what its wires carried. All of the above that it brings came before."""

    def run(self, ran, end=None):
        """Goes through a run's calls, all of them or up to the tick before a cycle, and hands itself back."""
        for word, status, command, response, turn in lines_of(ran.trace, ran.log):
            if status:
                self.refused(word, status)
            elif word:
                self._offer(word)
            else:
                if turn:
                    self._start(turn)
                if command:
                    self._command(command)
                if response:
                    answer, offered = self._flying.popleft()
                    self.answered(answer, offered)
                self.ticked(command, response)
                self.cycle += 1
                if self.cycle == end:
                    break
        if self.turn >= 0:
            self.turn_ended()
        return self

    def _offer(self, word):
        number = class_of(word)
        self.queues[number].join(word, self.cycle)
        self.lengths[number] += 1
        self.taken(word)

    def _start(self, turn):
        """Turns left are the caps as an epoch starts, and the owner's fall by 1, not below 0, unless it is a home class that has a request waiting as its home turn starts."""
        if self.turn >= 0:
            self.turn_ended()
        self.turn = self.cycle // self.policy.turn
        place = self.turn % self.policy.epoch
        self.owner, self.home, self.walk, self.elided = owner_of(turn), self.plan[place], walk_of(turn), is_elided(turn)
        if place == 0:
            self.left = list(self.caps)
        if self.home is None or self.lengths[self.home] == 0:
            self.left[self.owner] = max(0, self.left[self.owner] - 1)
        self.turn_started()

    def _command(self, command):
        if is_column(command):
            self.column(command & ~COLUMN)
            return
        number = class_of(command)
        offered, older = self.queues[number].leave(command)
        self.lengths[number] -= 1
        self._flying.append((command, offered))
        self.activated(command, offered, older)
