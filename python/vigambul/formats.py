"""The numbers of traces and logs: offers, commands, answers, turns, and the numbers by which a file or a call is refused. docs/REFERENCE.md has the formats bit by bit."""

from array import array
from dataclasses import dataclass
from typing import NamedTuple

CLASSES = 16
# Four ranks of eight banks, where the policy has a rank gap; without one there is rank 0 alone (W-206).
RANKS = 4
BANKS = 8
QUEUE_PLACES = 8
# So many may pass the oldest request of a class.
MOST_PASSED = 15
LAST_CYCLE = 16_777_215

OFFER = 1 << 31
COLUMN = 1 << 30
# The bits that an offer has: 31, the class's, the rank's, the kind's, the bank's and the tag's.
OFFER_BITS = OFFER | 0x1F << 24 | 0x3 << 22 | 0x3 << 20 | 0xF << 16 | 0xFFFF
# The fields of a turn number: the owner and 1 in the low byte, whether the dead time is dropped, and how many classes the walk tried (W-212).
OWNER = 0xFF
ELIDED = 256
WALK_AT = 16
WALK = 0x1F << WALK_AT

# The numbers of a body whose length does not fit, of a timing number out of range, of an offer whose class has all its places taken, of a tick after the last one, of a recording
# that is unsound (W-204), and of orders of so many classes that they are not small ones (W-208).
WRONG_LENGTH = 2
WRONG_TIMING = 8
QUEUE_FULL = 11
TICKS_OVER = 12
UNSOUND = 18
NOT_SMALL = 20
# The most that a cycle of a lab's recording can be, and that of its answer.
MOST_IN_32_BITS = (1 << 32) - 1

HEADER = "status command answer turn"
KINDS = ("read", "write")


class Request(NamedTuple):
    """What an offer, a command and an answer carry. A bank is known by rank and bank together: bank 3 of rank 0 is another than bank 3 of rank 1."""

    class_: int
    kind: int
    bank: int
    tag: int
    rank: int = 0

    @property
    def word(self):
        return OFFER | self.class_ << 24 | self.rank << 22 | self.kind << 20 | self.bank << 16 | self.tag


def class_of(word):
    """The class of a request's word."""
    return word >> 24 & 0x1F


def rank_of(word):
    """The rank of a request's word."""
    return word >> 22 & 0x3


def request_of(word):
    """The request of an offer's, a command's or an answer's word."""
    return Request(class_of(word), word >> 20 & 0x3, word >> 16 & 0xF, word & 0xFFFF, rank_of(word))


def is_tick(word):
    return word == 0


def is_offer(word):
    """Whether a trace number has the form of an offer. What is neither this nor a tick is malformed."""
    return word & OFFER != 0 and word & ~OFFER_BITS == 0


def is_column(command):
    return command & COLUMN != 0


def starts_turn(turn):
    return turn != 0


def owner_of(turn):
    """The owner in a turn number of a log; -1 where it is that of a turn which an extract hides."""
    return (turn & OWNER) - 1


def is_elided(turn):
    """Whether the dead time of the turn is dropped."""
    return turn & ELIDED != 0


def walk_of(turn):
    """How many classes the walk tried that picked the owner, the owner counted; 0 in the turn number of a turn which an extract hides."""
    return (turn & WALK) >> WALK_AT


def turn_number(owner, elided, walk):
    """The turn number of a log where a turn starts."""
    return 1 + owner + ELIDED * elided + (walk << WALK_AT)


def differ_in_walk(turn, other):
    """Whether two turn numbers have the same owner and the same dead time, and differ in how many classes the walk tried."""
    return turn != other and owner_of(turn) >= 0 and (turn ^ other) & ~WALK == 0


def words_of(data):
    """The words of a trace file, low byte first, and how many bytes are left over."""
    left_over = len(data) % 4
    words = array("I")
    if words.itemsize != 4:
        words = array("L")
    words.frombytes(data[: len(data) - left_over])
    return words, left_over


def bytes_of(words):
    """The bytes of a trace file."""
    numbers, _ = words_of(b"")
    numbers.extend(words)
    return numbers.tobytes()


def line_of(numbers):
    """A line of a log as the program prints it."""
    return " ".join("%08X" % number for number in numbers)


@dataclass(frozen=True)
class Refusal:
    """A number of document 01's table: when it is given, what usually brings it about, and what to mend."""

    when: str
    cause: str
    mend: str


REFUSALS = {
    1: Refusal(
        "the file is under 17 or above 65,535 bytes, or its contents table is not as it must be",
        "an empty or cut file, a file of another kind, or bodies that do not abut",
        "make the file anew with `vig policy make`",
    ),
    2: Refusal(
        "the number of classes is not 1 to 16, or a body's length does not fit it",
        "a class was added or taken out in one body and not in the others",
        "give each class its row and its minimum, and the lengths 1 + 2n, 1 + n and 10, or 11 with a rank gap",
    ),
    3: Refusal(
        "a row has a bit at n or above, or lacks its own",
        "a class that may not flow to itself, or a flow to a class that there is none of",
        "set bit i of row i, and clear the bits at n and above",
    ),
    4: Refusal(
        "two classes flow to each other",
        "a pair of classes, each above the other",
        "take one of the two flows out, or make the two one class",
    ),
    5: Refusal(
        "the order is not transitive",
        "i may flow to j and j to k, but i not to k; a cycle of three or more classes gets this number too, not 4",
        "add the flow from i to k, or take one of the other two out",
    ),
    6: Refusal(
        "there is no least class",
        "no class may flow to all",
        "add a class that may flow to every other (a shared base), or let one of those there do so",
    ),
    7: Refusal(
        "the epoch is not 1 to 64 turns, or the minimums' sum is above it",
        "minimums that add up to more than the epoch",
        "lengthen the epoch, or lower a minimum",
    ),
    8: Refusal(
        "a timing byte is out of range",
        "a gap or the answer delay above the dead time, or a dead time that is not below the turn length",
        "raise the dead time to the longest gap and the answer delay, and the turn length above it",
    ),
    9: Refusal("the class is none of the policy's", "a class number at or above n", "offer to a class below n"),
    10: Refusal(
        "the bank is above 7, the kind above 1, or the rank not 0 where there is one rank",
        "a bank number of 8 to 15, or a rank of 1 to 3 though the policy has no rank gap",
        "use banks 0 to 7, kinds 0 (read) and 1 (write), and ranks 1 to 3 only with a rank gap in the policy",
    ),
    11: Refusal("8 requests of that class wait already", "more offers than turns", "offer later, or give the class more turns"),
    12: Refusal("16,777,215 ticks have passed", "a trace that is too long", "cut the trace, and start anew"),
    13: Refusal("a policy or state handed in is out of range", "a policy or state that no call gave", "start from a fresh state of a policy that was taken"),
    14: Refusal("the trace number is neither a tick nor an offer", "a stray bit, or a column command's word copied from a log", "0 for a tick; bit 31 and the fields for an offer"),
    15: Refusal("the log is shorter than 4 times the trace", "too small a buffer", "lend 4 numbers for each trace number"),
    16: Refusal(
        "the extract, the recording of a log, or the policy file of a small order is longer than the room for it",
        "too small a buffer",
        "4 times the trace's length is always enough for an extract, twice its length for a recording, 41 bytes for the file of a small order",
    ),
    17: Refusal("the log is not 4 times as long as the trace", "a log of another trace", "hand in the log of that very trace"),
    18: Refusal(
        "a recording has an odd length, a cycle that is not above the one before, or an answer that is due past 32 bits",
        "a recorder that was stopped inside an event, had two events in one cycle, or whose counter began anew",
        "cut the recording where its counter begins anew, and leave half an event out",
    ),
    20: Refusal(
        "the number of classes of a small order is not 1 to 4",
        "the orders of none, or of five classes or more, were asked for",
        "ask for the orders of 1, 2, 3 or 4 classes; an order of more is written as a policy text",
    ),
}
