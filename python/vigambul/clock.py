"""Times in texts, as in "15 ns": a clock turns them into whole cycles, rounded up."""

import math
import re
from dataclasses import dataclass
from fractions import Fraction

_NUMBER = r"([0-9]{1,15}(?:\.[0-9]{1,15})?)\s*"
_TIME = re.compile(_NUMBER + r"(ps|ns|us)\Z")
_FREQUENCY = re.compile(_NUMBER + r"(kHz|MHz|GHz)\Z")
# In picoseconds.
_UNITS = {"ps": 1, "ns": 1_000, "us": 1_000_000}
# Picoseconds in a period of 1 of them.
_PERIODS = {"kHz": 10**9, "MHz": 10**6, "GHz": 10**3}

TIME_WORDS = 'a time, as in "15 ns" (ps, ns or us)'
CLOCK_WORDS = 'a frequency, as in "200 MHz" (kHz, MHz or GHz), or a period, as in "5 ns" (ps, ns or us), in quotes and above 0'


def time_of(text):
    """The picoseconds of a time, or None where it is none."""
    match = _TIME.match(text.strip())
    return Fraction(match.group(1)) * _UNITS[match.group(2)] if match else None


def period_of(text):
    """The picoseconds of a cycle of a clock, or None where it is none."""
    match = _FREQUENCY.match(text.strip())
    if match and Fraction(match.group(1)) > 0:
        return _PERIODS[match.group(2)] / Fraction(match.group(1))
    return time_of(text) or None


def decimal(number):
    """A fraction with up to three places, or as many as it takes to tell it from a whole number."""
    for places in (3, 6, 9):
        text = ("%.*f" % (places, float(number))).rstrip("0").rstrip(".")
        if "." in text or number == int(number):
            break
    return text


def nanoseconds(picoseconds):
    return "%s ns" % decimal(picoseconds / 1000)


@dataclass(frozen=True)
class Converted:
    """A time as it was written, and the cycles that it became."""

    key: str
    written: str
    exact: Fraction
    period: Fraction

    @property
    def cycles(self):
        return math.ceil(self.exact)

    @property
    def rounded(self):
        return self.exact != self.cycles

    def words(self):
        """As in 'dead_time: "14 ns" is 2.8 cycles, rounded up to 3 (15 ns)'."""
        if not self.rounded:
            return '%s: "%s" is %d cycles' % (self.key, self.written, self.cycles)
        return '%s: "%s" is %s cycles, rounded up to %d (%s)' % (self.key, self.written, decimal(self.exact), self.cycles, nanoseconds(self.cycles * self.period))


def converted_words(clock, converted):
    """What a clock made of the times of a text; what was rounded is said."""
    period = converted[0].period
    rounded = sum(1 for time in converted if time.rounded)
    head = "clock %s, a cycle of %s: %d of %d times rounded up" % (clock, nanoseconds(period), rounded, len(converted))
    return "\n".join([head] + ["  " + time.words() for time in converted])
