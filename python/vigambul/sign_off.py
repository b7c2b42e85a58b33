"""What a policy means, for the person who signs it off: the flows as a table and in words, minimums, caps and home turns, the timing and the ranks."""

from .formats import BANKS
from .minimums import minimum_words, plan_words
from .policies import TIMING
from .tables import aligned
from .words import counted

# The widest table of flows with names above its columns; a wider one has numbers there.
WIDEST = 120


def _table(rows):
    return aligned(rows, len(rows[0]))


def _names(numbers, names):
    return ", ".join(names.of(number) for number in numbers)


def flow_table(policy, names):
    """Which class may flow to which."""
    numbers = range(policy.classes)
    heads = [names.of(number) for number in numbers]
    if sum(len(head) + 2 for head in heads) + names.width(policy.classes) > WIDEST:
        heads = [str(number) for number in numbers]
    rows = [["", "from \\ to"] + heads]
    for i in numbers:
        rows.append([str(i), names.of(i)] + ["yes" if policy.flows(i, j) else "-" for j in numbers])
    return _table(rows)


def flow_words(policy, names):
    """The flows once more, class by class, with those that a class is kept apart from."""
    lines = []
    for number in range(policy.classes):
        above, apart = policy.above(number), policy.beside(number)
        to = "%s may flow to %s" % (names.of(number), _names(above, names) + " and itself" if above else "itself alone")
        if number == policy.least:
            to += " (the least class)"
        lines.append(to + ("; kept apart from %s (no flow either way)" % _names(apart, names) if apart else "") + ".")
    return lines


def turn_table(policy, names):
    rows = [["", "class", "minimum", "cap", "directly above, by mark"]]
    for number in range(policy.classes):
        rows.append([str(number), names.of(number), str(policy.minimums[number]), str(policy.cap(number)), _names(policy.covers(number), names) or "nothing"])
    return _table(rows)


def rank_words(policy):
    """How many ranks there are and what the rank gap asks, as lines. Of one rank nothing is said."""
    if policy.ranks == 1:
        return []
    asks = "at least %s, the rank gap, after the last one of all where that was on another rank, besides what the other gaps ask" % counted(policy.rank_gap, "cycle")
    return ["There are %d ranks of %d banks each. An activate comes %s." % (policy.ranks, BANKS, asks)]


def timing_words(policy):
    """The timing numbers as a table, and what there is to say of ranks below it."""
    ranks = rank_words(policy)
    return _table([[words, str(cycles)] for (_, words), cycles in zip(TIMING, policy.timing)]) + ["" for _ in ranks] + ranks


def _part(title, body):
    return [title] + ["  " + line if line else "" for line in body]


def flow_lines(policy, names):
    """The flows alone, as lines."""
    return _part("Flows: a class in a row may flow to the classes with a yes", flow_table(policy, names) + [""] + flow_words(policy, names))


def sign_off(policy, names):
    """All of it, as lines."""
    parts = (
        ("Turns: an epoch of %d; minimums add up to %d" % (policy.epoch, sum(policy.minimums)), turn_table(policy, names) + ["", plan_words(policy, names)]),
        ("What minimums and caps do and guarantee", minimum_words(policy, names)),
        ("Timing, in cycles", timing_words(policy)),
    )
    lines = flow_lines(policy, names) + [""]
    for part in parts:
        lines += _part(*part) + [""]
    return lines
