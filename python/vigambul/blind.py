"""Two traces of one policy side by side: does a class, or a set of classes that compare notes, learn anything of what it may not know? The premise is that the two agree for the
set once what it may not know is struck out; then its two extracts, by the proved extract, must be equal. That they are is a theorem; here it can be watched."""

from .formats import differ_in_walk
from .history import calls_of
from .purge import place_of_seen, purge
from .words import ONLY_IN_WALK, call_words, trace_words

FIELDS = ("status", "command", "answer", "turn")


def first_difference(left, right):
    """The first place at which two sequences differ, the end of the shorter one counted; None if they are equal."""
    if left == right:
        return None
    return next((place for place, (one, other) in enumerate(zip(left, right)) if one != other), min(len(left), len(right)))


def premise(policy, members, trace, other):
    """Where two traces, once purged for a set, first differ; None if they agree for it."""
    return first_difference(purge(trace, policy, members), purge(other, policy, members))


def premise_words(policy, members, names, runs, place):
    """The place at which the premise fails, for both runs."""
    for ran in runs:
        at = place_of_seen(ran.trace, policy, members, place)
        where = "%s: " % (ran.folder.path / "trace.bin")
        yield where + ("no more trace numbers" if at is None else "trace number %d: %08X, %s" % (at + 1, ran.trace[at], trace_words(ran.trace[at], names)))


def _line_words(seen, line, names):
    """A line of an extract in words. The trace numbers left tell which call it belongs to."""
    if 4 * line >= len(seen.numbers):
        return "no more lines"
    if line >= len(seen.words):
        return "a line of a call that was struck out"
    call = next(call for call in calls_of(seen.words, seen.numbers) if call.place == line)
    return call_words(call, names)


def difference_words(sides, place, names):
    """The first place at which two extracts differ: line, field, and the two lines in words."""
    line, part = divmod(place, 4)
    turns = [seen.numbers[place] for seen in sides if FIELDS[part] == "turn" and place < len(seen.numbers)]
    alone = ", " + ONLY_IN_WALK if len(turns) == 2 and differ_in_walk(*turns) else ""
    yield "the first difference is in line %d of the extracts, in its %s%s:" % (line + 1, FIELDS[part], alone)
    for seen in sides:
        number = "%08X" % seen.numbers[place] if place < len(seen.numbers) else "nothing"
        yield "  %s: %s: %s" % (seen.ran.folder.path, number, _line_words(seen, line, names))
