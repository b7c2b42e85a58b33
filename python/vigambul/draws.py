"""Random choices that stay the same: by a seed alone, on every machine and under every version of Python."""

import random


class Draws:
    """A sequence of choices. Only random() is used of the standard library's generator: it is the one method whose sequence Python promises to keep."""

    def __init__(self, *seed):
        self._random = random.Random(" ".join(str(part) for part in seed)).random

    def below(self, number):
        """A number from 0 to number - 1."""
        return int(self._random() * number)

    def one_of(self, things):
        return things[self.below(len(things))]

    def chance(self, share):
        """True with the probability that is given."""
        return self._random() < share
