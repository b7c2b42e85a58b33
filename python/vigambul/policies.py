"""A policy file as a value: its three bodies, its bytes, and the names of its classes. Whether a file is taken is the proved reader's answer; what is worked out here
(caps, covers, the plan of home turns) is for showing alone."""

import re
from dataclasses import dataclass, field
from pathlib import Path

from .errors import Wrong
from .formats import CLASSES, RANKS

# The timing body's bytes in order: a key for texts, and words. The last, the rank gap, may be left out: there is one rank then, and with it there are four (W-206).
TIMING = (
    ("turn_length", "turn length"),
    ("dead_time", "dead time"),
    ("gap_read_read", "gap read-read"),
    ("gap_read_write", "gap read-write"),
    ("gap_write_read", "gap write-read"),
    ("gap_write_write", "gap write-write"),
    ("same_bank_after_read", "same-bank gap after a read"),
    ("same_bank_after_write", "same-bank gap after a write"),
    ("column_delay", "column delay"),
    ("answer_delay", "answer delay"),
    ("rank_gap", "rank gap"),
)
TIMING_KEYS = tuple(key for key, _ in TIMING)
NEEDED_TIMING_KEYS = TIMING_KEYS[:-1]
# The lengths that a timing body may have: without the rank gap, and with it.
TIMING_LENGTHS = (len(NEEDED_TIMING_KEYS), len(TIMING_KEYS))
BODIES_START = 16
# Where the contents table has the length of the timing body.
TIMING_LENGTH_AT = 14
ENTRY_KINDS = ("order", "turns", "timing")
# The bytes of the largest policy file: the bodies of all classes, with a rank gap.
LARGEST_FILE = BODIES_START + (1 + 2 * CLASSES) + (1 + CLASSES) + len(TIMING)


def class_mask(i):
    """The mask of a class, 0 to 15: its bit alone, as in a row (W-205)."""
    return 1 << i


@dataclass
class Policy:
    """The numbers of a policy. Row i has bit j set if class i may flow to class j."""

    rows: list
    epoch: int
    minimums: list
    timing: list

    @property
    def classes(self):
        return len(self.rows)

    def flows(self, i, j):
        return self.rows[i] >> j & 1 == 1

    def above(self, i):
        """The classes strictly above class i."""
        return [j for j in range(self.classes) if j != i and self.flows(i, j)]

    def below(self, i):
        """The classes strictly below class i."""
        return [j for j in range(self.classes) if j != i and self.flows(j, i)]

    def beside(self, i):
        """The classes that class i is kept apart from: neither may flow to the other."""
        return [j for j in range(self.classes) if not self.flows(i, j) and not self.flows(j, i)]

    def flowing(self, members):
        """The classes that may flow to at least one of a set; none for the empty set (W-211)."""
        return [i for i in range(self.classes) if any(self.flows(i, j) for j in members)]

    def covers(self, i):
        """The classes directly above class i. Document 01: its children."""
        above = self.above(i)
        return [j for j in above if not any(k != j and self.flows(k, j) for k in above)]

    def cap(self, i):
        """The turns that class i may take in an epoch."""
        return self.epoch - sum(self.minimums[j] for j in self.above(i))

    @property
    def free_turns(self):
        """How many turns of an epoch, its first, are no home turns: their walks start at the least class."""
        return self.epoch - sum(self.minimums)

    def home_turns(self, i):
        """The home turns of class i, by their places in an epoch, from 0: the home turns go class by class in rising number, each as often as its minimum."""
        first = self.free_turns + sum(self.minimums[:i])
        return range(first, first + self.minimums[i])

    def home(self, turn):
        """The class whose home turn a turn is, by the turn's number in a run; None where it is no home turn."""
        place = turn % self.epoch
        return next((i for i in range(self.classes) if place in self.home_turns(i)), None)

    @property
    def starts(self):
        """The classes at which walks start: those with home turns, and the least class, unless home turns fill the epoch."""
        return [i for i in range(self.classes) if self.minimums[i] or i == self.least and self.free_turns]

    @property
    def least(self):
        """The class that may flow to all, or None."""
        return next((i for i in range(self.classes) if all(self.flows(i, j) for j in range(self.classes))), None)

    @property
    def turn(self):
        return self.timing[0]

    @property
    def dead(self):
        return self.timing[1]

    @property
    def column_delay(self):
        return self.timing[8]

    @property
    def answer_delay(self):
        return self.timing[9]

    @property
    def ranks(self):
        """How many ranks there are, of eight banks each."""
        return RANKS if len(self.timing) == len(TIMING) else 1

    @property
    def rank_gap(self):
        """The gap from the last activate of all where that was on another rank; None where there is one rank."""
        return self.timing[10] if self.ranks > 1 else None

    def to_bytes(self):
        """The file. Numbers that do not fit their bytes are an error of the caller's."""
        order = bytes([self.classes]) + b"".join(row.to_bytes(2, "little") for row in self.rows)
        turns = bytes([self.epoch]) + bytes(self.minimums)
        timing = bytes(self.timing)
        table, start = bytes([len(ENTRY_KINDS)]), BODIES_START
        for kind, body in enumerate((order, turns, timing), 1):
            table += bytes([kind]) + start.to_bytes(2, "little") + len(body).to_bytes(2, "little")
            start += len(body)
        return table + order + turns + timing


def policy_of(data):
    """The policy of a file that the proved reader has taken."""
    n = data[BODIES_START]
    rows_at = BODIES_START + 1
    turns_at = rows_at + 2 * n
    timing_at = turns_at + 1 + n
    rows = [int.from_bytes(data[rows_at + 2 * i : rows_at + 2 * i + 2], "little") for i in range(n)]
    # The timing is the last body, and ends the file: it has ten bytes or eleven.
    return Policy(rows, data[turns_at], list(data[turns_at + 1 : timing_at]), list(data[timing_at:]))


def has_ranks(data):
    """Whether a policy file has four ranks, by the length that its contents table gives the timing body. Of a file that is not taken it says nothing."""
    return int.from_bytes(data[TIMING_LENGTH_AT : TIMING_LENGTH_AT + 2], "little") == len(TIMING)


NUMBERS = tuple(map(str, range(CLASSES)))
NAME = re.compile(r"[A-Za-z_][A-Za-z0-9_-]{0,31}\Z")


@dataclass
class Names:
    """How a policy's requests are called: the names of its classes, where a class without one is called by its number, and whether a request of rank 0 is told with its rank, as it
    is where there are four."""

    by_number: dict = field(default_factory=dict)
    with_ranks: bool = False

    def of(self, number):
        return self.by_number.get(number, "class %d" % number)

    def number(self, name, classes=CLASSES):
        """The class of a name as `of` gives it, or of a number written out."""
        for number in range(classes):
            if name in (self.of(number), str(number)):
                return number
        known = ", ".join(self.of(number) for number in range(classes))
        raise Wrong("%s: no class of this policy; its classes are %s" % (name, known))

    def width(self, classes):
        return max(len(self.of(number)) for number in range(classes))

    def text(self):
        return "".join("%d %s\n" % item for item in sorted(self.by_number.items()))


def names_beside(policy_path):
    """The names kept beside a policy file: policy.names for policy.bin. Without that file there are none. Whether ranks are told is seen from the policy file, if it is there."""
    policy, path = Path(policy_path), Path(policy_path).with_suffix(".names")
    names = Names(with_ranks=policy.is_file() and has_ranks(policy.read_bytes()))
    if not path.is_file():
        return names
    for place, line in enumerate(path.read_text(errors="replace").splitlines(), 1):
        words = line.split()
        if not words or words[0].startswith("#"):
            continue
        if len(words) != 2 or words[0] not in NUMBERS or not NAME.match(words[1]):
            raise Wrong("%s, line %d: %r is not a class number and its name, as in '0 base'" % (path, place, line))
        number, name = int(words[0]), words[1]
        if number in names.by_number or name in names.by_number.values():
            raise Wrong("%s, line %d: class %d or the name %s stands there twice" % (path, place, number, name))
        names.by_number[number] = name
    return names
