"""Traffic: which request is offered before which cycle. What the two traffic texts share, CSV (`traffic_csv`) and TOML with streams (`traffic_streams`): the policy's names and
lengths, the fields of a request with their mistakes and warnings, and the trace that is made of it. docs/REFERENCE.md describes the texts."""

from dataclasses import dataclass, field
from pathlib import Path

from .folders import read_file
from .formats import BANKS, CLASSES, LAST_CYCLE, RANKS, REFUSALS, Request, words_of
from .policies import Names, names_beside, policy_of
from .toml_text import nearest

# What an offer's fields can say: more than the model takes. Such offers are written, with a warning.
CLASS_FIELD, BANK_FIELD, TAG_FIELD = 32, 16, 65_536
# The model ticks 16,777,215 times. A longer trace is written with a warning, up to here, so that a slip of the hand does not fill the disk.
MOST_CYCLES = 2 * LAST_CYCLE


@dataclass
class Known:
    """What is known of the policy that traffic is for: its classes' names, their number, how many ranks there are, and the cycles of an epoch. The last three are None without a
    policy that is taken."""

    names: Names = field(default_factory=Names)
    classes: int = None
    ranks: int = None
    epoch_cycles: int = None

    def class_number(self, text):
        """The class of a name, or of a number up to 31; None if it is neither."""
        for number, name in self.names.by_number.items():
            if name == text:
                return number
        value = number_of(text)
        return value if value is not None and value < CLASS_FIELD else None

    def classes_allowed(self):
        """The classes in words, for messages."""
        return ", ".join(name for _, name in sorted(self.names.by_number.items())) or "0 to %d" % ((self.classes or CLASSES) - 1)


def policy_for(given, *beside):
    """The policy file that gives the names: the one that was named, else the first policy.bin or policy.names beside one of the files, else None."""
    if given is not None:
        return Path(given)
    for path in beside:
        policy = Path(path).parent / "policy.bin"
        if policy.is_file() or policy.with_suffix(".names").is_file():
            return policy
    return None


def known_of(given, beside, library):
    """What the policy says to traffic. `library` hands back the proved library; it is asked only if there is a file, and whether that is taken is its answer."""
    path = policy_for(given, *beside)
    if path is None:
        return Known()
    known = Known(names_beside(path))
    if given is not None or path.is_file():
        data = read_file(path)
        if library().read(data) == 0:
            policy = policy_of(data)
            known.classes, known.ranks, known.epoch_cycles = policy.classes, policy.ranks, policy.epoch * policy.turn
    return known


@dataclass(frozen=True)
class Entry:
    """What is written before the tick of a cycle: an offer, whose tag may be left to be numbered, or a trace number as it is."""

    cycle: int
    class_: int = 0
    kind: int = 0
    bank: int = 0
    tag: int = None
    word: int = None
    rank: int = 0


@dataclass
class Traffic:
    """The entries by rising cycle, how many cycles there are, the bytes left over after the last word, and what the writer should be warned of."""

    entries: object
    cycles: int
    left_over: bytes
    warnings: list


def trace_of(traffic):
    """The trace: ticks filled in, and the tags that were left out numbered within the class, from 1, by the place among its requests."""
    words, _ = words_of(b"")
    at, numbers = 0, [0] * CLASS_FIELD
    for entry in traffic.entries:
        words.frombytes(bytes(4 * (entry.cycle - at)))
        at = entry.cycle
        if entry.word is not None:
            words.append(entry.word)
            continue
        numbers[entry.class_] += 1
        tag = numbers[entry.class_] % TAG_FIELD if entry.tag is None else entry.tag
        words.append(Request(entry.class_, entry.kind, entry.bank, tag, entry.rank).word)
    words.frombytes(bytes(4 * (traffic.cycles - at)))
    return words


# No number of a traffic text has more digits, with room for zeros in front.
LONGEST_DECIMAL = 20


def number_of(text):
    """A number in decimal, or in hexadecimal with 0x; None if it is none."""
    if text.isascii() and text.isdecimal() and len(text) <= LONGEST_DECIMAL:
        return int(text)
    return hex_of(text) if text[:2].lower() == "0x" else None


def hex_of(text):
    """A number in hexadecimal, with 0x or without; None if it is none."""
    digits = text[2:] if text[:2].lower() == "0x" else text
    return int(digits, 16) if digits and all(digit in "0123456789abcdefABCDEF" for digit in digits) else None


@dataclass(frozen=True)
class Place:
    """Where something stands in a text: its line, if it has one, and its column or key."""

    line: int
    label: str


class Reader:
    """What reading both texts needs: the mistakes and warnings, the policy's names, and the number of cycles if it was asked for at the command line."""

    def __init__(self, path, known, asked_cycles):
        self.path, self.known, self.asked_cycles = path, known, asked_cycles
        self.mistakes, self.warnings = None, []

    def tell(self, place, value, allowed, mend):
        """A mistake. The value is told as it was written; None where nothing was."""
        self.mistakes.add((), "%s: %s" % (place.label, "nothing stands there" if value is None else value), allowed, mend, place.line)

    def warn(self, place, value, number):
        """The model will refuse what stands there."""
        where = "%s, line %d" % (self.path, place.line) if place.line else self.path
        self.warnings.append("%s: %s: %s will be refused: %s" % (where, place.label, value, REFUSALS[number].when))

    def class_number(self, place, text, shown):
        """A class, from its name or its number."""
        number = self.known.class_number(text)
        if number is None:
            self.tell(place, shown, self.known.classes_allowed(), self.class_mend(text))
        elif number >= (self.known.classes or CLASSES):
            self.warn(place, "class %d" % number, 9)
        return number

    def class_mend(self, text):
        """What to mend of a class that is none."""
        names = list(self.known.names.by_number.values())
        like = nearest(text, names)
        if like:
            return "write %s, if that is meant" % like
        return "write a class's name or its number" if names else "write a class's number; for names, name a policy that has a policy.names beside it by --policy"

    def bank(self, place, value, shown):
        """A bank, from a number that was read or None."""
        if value is None or not 0 <= value < BANK_FIELD:
            self.tell(place, shown, "0 to %d" % (BANKS - 1), "write one of these numbers")
            return None
        if value >= BANKS:
            self.warn(place, "bank %d" % value, 10)
        return value

    def rank(self, place, value, shown):
        """A rank, from a number that was read or None. Where the policy is not known, it may have them all."""
        if value is None or not 0 <= value < RANKS:
            self.tell(place, shown, "0 to %d" % (RANKS - 1), "write one of these numbers")
            return None
        if value >= (self.known.ranks or RANKS):
            self.warn(place, "rank %d" % value, 10)
        return value

    def cycles(self, place, value, shown):
        """How many cycles there are, from a number that was read or None."""
        if value is None or not 0 <= value <= MOST_CYCLES:
            self.tell(place, shown, "0 to %d" % LAST_CYCLE, "write the number of cycles, which is the number of ticks")
            return None
        if value > LAST_CYCLE:
            self.warn(place, "the last of %d ticks" % value, 12)
        return value

    def asked(self):
        """The number of cycles asked for at the command line, or None."""
        return None if self.asked_cycles is None else self.cycles(Place(None, "option --cycles"), self.asked_cycles, self.asked_cycles)

    def to_the_epochs_end(self, last):
        """Where a text says nothing, the trace ends with the epoch after the one of the last request."""
        if self.known.epoch_cycles is None:
            allowed = "a line of kind end (CSV), the key cycles (TOML), the option --cycles N, or a policy that is taken beside the text or by --policy"
            mend = "say how many cycles there are; by a policy the trace ends with the epoch after the last request's"
            self.tell(Place(None, "the number of cycles"), None, allowed, mend)
            return None
        return (last // self.known.epoch_cycles + 2) * self.known.epoch_cycles

    def within(self, place, cycle, cycles):
        """A request comes at the end at the latest, after the last tick."""
        if cycles is not None and cycle > cycles:
            self.tell(place, cycle, "0 to %d, the number of cycles" % cycles, "offer it earlier, or let the trace end later")
