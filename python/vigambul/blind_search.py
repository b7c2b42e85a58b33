"""Pairs of traces that agree for a set of classes and differ in what its neighbours do, those that may flow to no member, made to bring a leak to light if there were one:
neighbours that are idle or keep their queues full, that come in bursts at the edges of turns and epochs, and words that are malformed or name no class. Each pair rests on the seed
and its number alone, and so does each set that is drawn."""

import sys
from dataclasses import dataclass
from itertools import compress
from operator import not_
from pathlib import Path

from .blind import difference_words, first_difference
from .class_sets import called
from .draws import Draws
from .folders import Folder, run_folder
from .formats import BANKS, CLASSES, COLUMN, OFFER, QUEUE_PLACES, RANKS, Request, words_of
from .policies import policy_of
from .seen import seen_of

# A pair passes so many epochs, and ticks at least so often.
EPOCHS = 3
LEAST_CYCLES = 64
# A bit that belongs to no field of an offer.
STRAY = 1 << 29
# Of the sets that are drawn so many are empty: they see the least, and there is but one.
EMPTY = 0.1


def a_set(draws, classes):
    """Any set of so many classes, small ones more often: from a large one little is hidden."""
    size = 0 if draws.chance(EMPTY) else 1 + min(draws.below(classes), draws.below(classes))
    others = list(range(classes))
    return tuple(sorted(others.pop(draws.below(len(others))) for _ in range(size)))


def drawn_sets(classes, pairs, seed):
    """A set for each pair of a search."""
    return [a_set(Draws("set", seed, number), classes) for number in range(pairs)]


def a_request(draws, policy, number):
    """A word of a class: now and then with a bank or a kind that there is none of, mostly to few banks, and to two of the ranks where there are four, so that neighbours meet."""
    bank = draws.below(2 * BANKS) if draws.chance(0.03) else draws.below(3) if draws.chance(0.5) else draws.below(BANKS)
    kind = draws.below(4) if draws.chance(0.03) else draws.below(2)
    rank = 0 if policy.ranks == 1 else draws.below(2) if draws.chance(0.7) else draws.below(RANKS)
    return Request(number, kind, bank, draws.below(65_536), rank).word


def a_stray(draws, policy):
    """A word that no class may be told of: malformed, or an offer of a class that there is none of."""
    word = a_request(draws, policy, draws.below(CLASSES))
    return draws.one_of((
        word & ~OFFER | 1,
        word | COLUMN,
        word | STRAY,
        a_request(draws, policy, policy.classes + draws.below(2 * CLASSES - policy.classes)),
    ))


# Habits of a class: the cycles before which it offers, a cycle for each request.


def idle(draws, policy, cycles):
    return []


def now_and_then(draws, policy, cycles):
    return [draws.below(cycles) for _ in range(1 + draws.below(2 + cycles // policy.turn))]


def saturating(draws, policy, cycles):
    """The queue is full as each turn starts."""
    return [start for start in range(0, cycles, policy.turn) for _ in range(QUEUE_PLACES)]


def at_turn_edges(draws, policy, cycles):
    """Just before and after turns start, and where the dead time begins."""
    offsets = (0, 1, policy.turn - 1, policy.turn - policy.dead, policy.turn - policy.dead - 1)
    return [start + draws.one_of(offsets) for start in range(0, cycles, policy.turn) if draws.chance(0.6) for _ in range(1 + draws.below(3))]


def at_epoch_ends(draws, policy, cycles):
    """In bursts around the start and the end of an epoch's last turn."""
    epoch = policy.epoch * policy.turn
    offsets = (0, 1, epoch - 1, epoch - policy.turn, epoch - policy.turn - 1)
    return [max(0, start + draws.one_of(offsets)) for start in range(0, cycles, epoch) for _ in range(1 + draws.below(QUEUE_PLACES))]


HABITS = (idle, now_and_then, saturating, at_turn_edges, at_epoch_ends)


def offers_of(draws, policy, classes, cycles):
    """The offers of classes, each with a habit of its own: for each cycle that has some, the words in their order."""
    by_cycle = {}
    for number in classes:
        for cycle in draws.one_of(HABITS)(draws, policy, cycles):
            by_cycle.setdefault(min(cycle, cycles), []).append(a_request(draws, policy, number))
    return by_cycle


def filling(draws, policy, hidden, cycles):
    """What a set may not know: its neighbours' offers, and stray words."""
    by_cycle = {} if draws.chance(0.2) else offers_of(draws, policy, hidden, cycles)
    if draws.chance(0.5) or not hidden:
        for _ in range(1 + draws.below(12)):
            by_cycle.setdefault(draws.below(cycles + 1), []).append(a_stray(draws, policy))
    return by_cycle


def merged(draws, base, other, cycles):
    """One trace of the base traffic and a filling, which goes before, between or after the base's words of a cycle."""
    words, at = words_of(b"")[0], 0
    for cycle in sorted(base.keys() | other.keys()):
        words.frombytes(bytes(4 * (cycle - at)))
        at = cycle
        known = base.get(cycle, [])
        cut = draws.below(len(known) + 1)
        words.extend(known[:cut] + other.get(cycle, []) + known[cut:])
    words.frombytes(bytes(4 * (cycles - at)))
    return words


def pair_of(draws, policy, members):
    """Two traces that agree for a set."""
    epoch = policy.epoch * policy.turn
    cycles = max(EPOCHS * epoch, LEAST_CYCLES) + draws.below(epoch + 1)
    flowing = policy.flowing(members)
    hidden = [number for number in range(policy.classes) if number not in flowing]
    base = offers_of(draws, policy, flowing, cycles)
    return [merged(draws, base, filling(draws, policy, hidden, cycles), cycles) for _ in range(2)]


def ticks_shown(ran):
    """What the ticks of a run showed to all: commands, answers and turns."""
    return [list(compress(ran.log[part::4], map(not_, ran.trace))) for part in (1, 2, 3)]


# Above the columns of a search's figures.
HEADS = ("pairs", "trace numbers", "struck out", "full logs differ", "extracts differ")


@dataclass
class Figures:
    """What a search over pairs found for a set; added up, for several."""

    pairs: int = 0
    trace_numbers: int = 0
    struck: int = 0
    logs_differ: int = 0
    extracts_differ: int = 0
    # The lines that tell the first difference.
    first: list = None

    def count(self, number, sides, names):
        """Counts a pair, of which the two sides are given as the set sees them."""
        one, other = sides
        self.pairs += 1
        self.trace_numbers += len(one.ran.trace) + len(other.ran.trace)
        self.struck += one.struck + other.struck
        self.logs_differ += ticks_shown(one.ran) != ticks_shown(other.ran)
        place = first_difference(one.numbers, other.numbers)
        if place is not None:
            self.extracts_differ += 1
            self.first = self.first or ["pair %d" % number, *difference_words(sides, place, names)]

    @property
    def row(self):
        """The figures below HEADS."""
        return self.pairs, self.trace_numbers, self.struck, self.logs_differ, self.extracts_differ

    def __add__(self, other):
        return Figures(*map(sum, zip(self.row, other.row)), self.first or other.first)

    @property
    def told(self):
        """In how many pairs the neighbours were seen to act, and whether anything was learnt."""
        return "in %d of %d pairs the ticks of the full logs show the neighbours; extracts that differ: %d" % (self.logs_differ, self.pairs, self.extracts_differ)


def learnt_words(figures, names, seed):
    """Of each set that learnt something, who did and where it first shows."""
    for members, one in figures.items():
        if one.first:
            learns = "learn of what they" if len(members) > 1 else "learns of what it"
            yield "%s %s may not know: seed %d, %s" % (called(members, names), learns, seed, "\n".join(one.first))


def progress(total):
    """Says on a terminal how far a search is."""
    if not sys.stderr.isatty():
        return lambda number: None

    def show(number):
        if number % 100 == 0 or number == total:
            sys.stderr.write("\r\033[K" + ("" if number == total else "%d of %d pairs" % (number, total)))

    return show


def searched(library, policy_bytes, names, sets, pairs, seed, done=lambda number: None):
    """The figures of each set, small ones first, over pairs that take the sets one after the other. The policy is one that is taken."""
    policy = policy_of(policy_bytes)
    figures = {members: Figures() for members in sorted(set(sets[:pairs]), key=lambda members: (len(members), members))}
    for number in range(pairs):
        members = sets[number % len(sets)]
        traces = pair_of(Draws("blind", seed, number), policy, members)
        runs = [run_folder(library, Folder(Path(label), policy_bytes, trace, 0, names)) for label, trace in zip(("the first trace", "the second trace"), traces)]
        figures[members].count(number + 1, [seen_of(library, ran, members) for ran in runs], names)
        done(number + 1)
    return figures
