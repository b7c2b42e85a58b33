"""Document 01's ranges of a policy's numbers, in words and for telling which of them is out. They explain; whether a policy is taken is the proved reader's answer."""

from dataclasses import dataclass

from .policies import TIMING_KEYS

LONGEST_EPOCH = 64
HIGHEST_DEAD = 31


@dataclass(frozen=True)
class Range:
    """What a timing number may be: from a lowest to a highest one, and at most another of them, or below it."""

    lowest: int
    highest: int
    other: str = None
    strict: bool = False

    def highest_beside(self, timing):
        """The highest that it may be beside the others, given by key. One that is not known does not count."""
        if self.other not in timing:
            return self.highest
        return min(self.highest, timing[self.other] - 1 if self.strict else timing[self.other])

    def fits(self, number, timing):
        return self.lowest <= number <= self.highest_beside(timing)

    def words(self):
        """As in '2 to 31, and below turn_length'."""
        text = "%d to %d" % (self.lowest, self.highest)
        return text if self.other is None else "%s, and %s %s" % (text, "below" if self.strict else "at most", self.other)


_GAP = Range(1, HIGHEST_DEAD, "dead_time")
TIMING_RANGES = {
    **{key: _GAP for key in TIMING_KEYS},
    "turn_length": Range(2, 255),
    "dead_time": Range(2, HIGHEST_DEAD, "turn_length", strict=True),
    "column_delay": Range(1, HIGHEST_DEAD - 1, "answer_delay", strict=True),
    "answer_delay": Range(2, HIGHEST_DEAD, "dead_time"),
}
GAP_KEYS = tuple(key for key in TIMING_KEYS if TIMING_RANGES[key] is _GAP)
