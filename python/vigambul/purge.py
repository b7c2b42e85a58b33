"""What of a trace a set of classes may know; a class alone is a set of one. Noninterference speaks of two traces that agree in this, and an extract has four numbers for each trace
number that is left."""

from functools import lru_cache

from .formats import class_of, is_offer, is_tick, words_of


def is_seen(policy, members):
    """A test of trace numbers: is it left for a set? Struck out are malformed words and offers whose class does not exist or may flow to no member."""
    flowing = frozenset(policy.flowing(members))
    # Ticks, the most frequent by far, are found among the answers that are kept.
    return lru_cache(1 << 12)(lambda word: is_tick(word) or is_offer(word) and class_of(word) in flowing)


def purge(trace, policy, members):
    """The trace numbers that are left for a set, in their order."""
    left, _ = words_of(b"")
    left.extend(filter(is_seen(policy, members), trace))
    return left


def place_of_seen(trace, policy, members, number):
    """Where in the trace the number-th of those that are left stands, both counted from 0; None if there are not so many."""
    seen = is_seen(policy, members)
    for place, word in enumerate(trace):
        if seen(word):
            if number == 0:
                return place
            number -= 1
    return None
