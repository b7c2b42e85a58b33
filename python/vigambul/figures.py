"""The service figures of a run: what each class offered, got and waited for, and how its turns stand against minimum and cap. docs/REFERENCE.md says what each figure means."""

from array import array
from collections import Counter
from dataclasses import dataclass, field

from .formats import QUEUE_FULL, RANKS, class_of, rank_of
from .history import Replay


@dataclass
class Service:
    """A class's figures. `waits` has how many answered requests waited how long; `homes` are its home turns, whoever owned them; `passing` are its activates that passed an older
    request, and `past_one` is the most that passed one oldest; `on_ranks` has how many of its activates were on each rank; `walks` has how many walks that started at it tried how
    many classes."""

    taken: int = 0
    full: int = 0
    waits: Counter = field(default_factory=Counter)
    turns: int = 0
    idle: int = 0
    homes: int = 0
    homes_owned: int = 0
    elided: int = 0
    activates: int = 0
    passing: int = 0
    past_one: int = 0
    on_ranks: list = field(default_factory=lambda: [0] * RANKS)
    walks: Counter = field(default_factory=Counter)

    @property
    def answers(self):
        return sum(self.waits.values())

    @property
    def waited(self):
        """The sum of the waits."""
        return sum(wait * count for wait, count in self.waits.items())

    @property
    def mean(self):
        return self.waited / self.answers if self.waits else None

    @property
    def median(self):
        return self.nearest_rank(50)

    @property
    def longest(self):
        return max(self.waits, default=None)

    @property
    def longest_walk(self):
        return max(self.walks, default=None)

    def nearest_rank(self, percent):
        """By nearest rank: the least wait that at least so many in 100 of the answered requests do not exceed."""
        place = -(-percent * self.answers // 100)
        for wait in sorted(self.waits):
            place -= self.waits[wait]
            if place <= 0:
                return wait
        return None

    def add(self, other):
        self.taken += other.taken
        self.full += other.full
        self.waits += other.waits
        self.turns += other.turns
        self.idle += other.idle
        self.homes += other.homes
        self.homes_owned += other.homes_owned
        self.elided += other.elided
        self.activates += other.activates
        self.passing += other.passing
        self.past_one = max(self.past_one, other.past_one)
        self.on_ranks = [mine + others for mine, others in zip(self.on_ranks, other.on_ranks)]
        self.walks += other.walks


@dataclass
class Figures:
    """The figures of a run, or of several under one policy. `whole` has the turns of each class in each epoch all of whose turns started, class by class, epoch after epoch;
    `part` those of the epoch in which a run ended, where not all of its turns started. `rank_changes` are the activates on another rank than the one before. `bounds` has how many
    classes a walk from each class tries at most, if they were asked for."""

    policy: object
    services: list
    bounds: list = None
    ticks: int = 0
    turns: int = 0
    columns: int = 0
    rank_changes: int = 0
    refusals: Counter = field(default_factory=Counter)
    whole: array = field(default_factory=lambda: array("B"))
    part: list = None

    @property
    def activates(self):
        return sum(service.activates for service in self.services)

    @property
    def busy(self):
        """The cycles in which the command wires carried something."""
        return self.activates + self.columns

    @property
    def busy_percent(self):
        return 100 * self.busy / self.ticks if self.ticks else None

    @property
    def walks(self):
        """How many walks tried how many classes, whatever class they started at."""
        return sum((service.walks for service in self.services), Counter())

    @property
    def epochs(self):
        """How many whole epochs there are."""
        return len(self.whole) // self.policy.classes

    def turns_in_epochs(self, number):
        """A class's turns in each whole epoch."""
        return self.whole[number :: self.policy.classes]

    def add(self, other):
        """Takes in the figures of another run under the same policy; a part of an epoch is a single run's."""
        for mine, others in zip(self.services, other.services):
            mine.add(others)
        self.ticks += other.ticks
        self.turns += other.turns
        self.columns += other.columns
        self.rank_changes += other.rank_changes
        self.refusals += other.refusals
        self.whole += other.whole
        self.part = None


def empty_figures(policy, bounds=None):
    return Figures(policy, [Service() for _ in range(policy.classes)], bounds)


class Counting(Replay):
    """Counts the figures of a run."""

    def __init__(self, policy, bounds):
        super().__init__(policy)
        self.figures = empty_figures(policy, bounds)
        self.owned = [0] * policy.classes
        self.used = False
        # The rank of the last activate of all.
        self.rank = None

    def refused(self, word, status):
        self.figures.refusals[status] += 1
        if status == QUEUE_FULL:
            self.figures.services[class_of(word)].full += 1

    def taken(self, word):
        self.figures.services[class_of(word)].taken += 1

    def turn_started(self):
        if self.turn % self.policy.epoch == 0:
            self.owned = [0] * self.policy.classes
        self.owned[self.owner] += 1
        self.used = False
        service = self.figures.services[self.owner]
        service.turns += 1
        service.elided += self.elided
        self.figures.services[self.walked_from].walks[self.walk] += 1
        if self.home is not None:
            self.figures.services[self.home].homes += 1
            service.homes_owned += self.owner == self.home
        if self.turn % self.policy.epoch == self.policy.epoch - 1:
            self.figures.whole.extend(self.owned)
            self.owned = None

    def turn_ended(self):
        if not self.used:
            self.figures.services[self.owner].idle += 1

    def activated(self, word, offered, older):
        self.used = True
        service = self.figures.services[self.owner]
        service.activates += 1
        service.passing += older > 0
        service.past_one = max(service.past_one, self.queues[self.owner].passed)
        rank = rank_of(word)
        service.on_ranks[rank] += 1
        self.figures.rank_changes += self.rank not in (None, rank)
        self.rank = rank

    def column(self, word):
        self.figures.columns += 1

    def answered(self, word, offered):
        self.figures.services[class_of(word)].waits[self.cycle - offered] += 1


def figures_of(ran, bounds=None):
    """The figures of a run. The bounds of walks are for those who hold the walks against them."""
    counting = Counting(ran.policy, bounds).run(ran)
    figures = counting.figures
    figures.ticks, figures.turns = counting.cycle, counting.turn + 1
    if counting.turn >= 0:
        figures.part = counting.owned
    return figures


def figures_over(several):
    """The figures of several runs under one policy, taken together."""
    together = empty_figures(several[0].policy, several[0].bounds)
    for figures in several:
        together.add(figures)
    return together
