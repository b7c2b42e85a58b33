"""A run as a set of classes sees it: the trace numbers that are left for it, and the extract."""

from dataclasses import dataclass

from .folders import extract_of
from .history import lines_of
from .purge import is_seen, purge


@dataclass
class Seen:
    """What a set sees of a run: the trace numbers that are left for it, and the extract, four numbers for each."""

    ran: object
    words: object
    numbers: object

    @property
    def struck(self):
        """How many calls were struck out."""
        return len(self.ran.trace) - len(self.words)

    @property
    def lines(self):
        """Each trace number that is left, with its four numbers."""
        return lines_of(self.words, self.numbers)


def seen_of(library, ran, members):
    return Seen(ran, purge(ran.trace, ran.policy, members), extract_of(library, ran, members))


def seen_alone(library, seen, member):
    """Of each line that a set sees, whether a member sees it so by itself: the trace number is left for the member too, with the same four numbers in the member's own extract."""
    is_left, own = is_seen(seen.ran.policy, (member,)), seen_of(library, seen.ran, (member,)).lines
    for line in seen.lines:
        yield is_left(line[0]) and next(own) == line
