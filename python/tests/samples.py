"""Policies and runs for tests that count: five classes over 40 turns, and generated policies with traffic of every kind."""

from vigambul.blind_search import STRAY
from vigambul.draws import Draws
from vigambul.folders import folder_at, run_folder
from vigambul.formats import BANKS, COLUMN, RANKS, Request, bytes_of
from vigambul.policies import Policy, class_mask

FIVE_NAMES = ("base", "alice", "bob", "audit", "guest")
# Alice and Bob may flow to the audit, the guest stands aside.
FIVE = Policy([0b11111, 0b01010, 0b01100, 0b01000, 0b10000], 8, [0, 1, 1, 1, 1], [6, 3, 2, 2, 2, 2, 3, 3, 1, 3])


def an_order(draws, classes):
    """Rows of an order with a least class, in any numbering: some of the classes before each may flow to it, and all that may flow to those."""
    below = [{0}] + [set() for _ in range(classes - 1)]
    for number in range(1, classes):
        below[number] = {0, number}
        for other in range(1, number):
            if draws.chance(0.3):
                below[number] |= below[other]
    places = list(range(classes))
    for place in range(classes - 1, 0, -1):
        other = draws.below(place + 1)
        places[place], places[other] = places[other], places[place]
    rows = [0] * classes
    for number in range(classes):
        for other in below[number]:
            rows[places[other]] |= class_mask(places[number])
    return rows


def a_policy(draws):
    """A policy that is taken: any number of classes, any timing, epochs of up to 12 turns; half of them have four ranks."""
    classes, epoch = 1 + draws.below(16), 1 + draws.below(12)
    minimums = [0] * classes
    for _ in range(draws.below(epoch + 1)):
        minimums[draws.below(classes)] += 1
    dead = 2 + draws.below(7)
    turn = dead + 1 + draws.below(12)
    answer = 2 + draws.below(dead - 1)
    gaps = [1 + draws.below(dead) for _ in range(6)]
    rank_gap = [1 + draws.below(dead)] if draws.chance(0.5) else []
    return Policy(an_order(draws, classes), epoch, minimums, [turn, dead, *gaps, 1 + draws.below(answer - 1), answer, *rank_gap])


def refused_words(policy):
    """Words that are refused: malformed ones, and offers of a class, a kind, a bank or a rank that there is none of."""
    word = Request(0, 0, 0, 0).word
    requests = [Request(policy.classes, 0, 0, 0), Request(0, 2, 0, 0), Request(0, 0, 9, 0), *(Request(0, 0, 0, 0, rank) for rank in range(policy.ranks, RANKS))]
    return [1, word | COLUMN, word | STRAY, *(request.word for request in requests)]


def a_trace(draws, policy, cycles):
    """Ticks, offers of every class on every rank, more than there is room for, and words that are refused; offers after the last tick too."""
    words, refused = [], refused_words(policy)
    shares = [draws.one_of((0, 0.02, 0.1, 0.5)) for _ in range(policy.classes)]
    for _ in range(cycles + 1):
        for owner, share in enumerate(shares):
            while draws.chance(share):
                words.append(Request(owner, draws.below(2), draws.below(BANKS), draws.below(4), draws.below(policy.ranks)).word)
        if draws.chance(0.05):
            words.append(draws.one_of(refused))
        words.append(0)
    return words[:-1]


def write(path, policy, trace, names=()):
    """A folder of a policy and a trace."""
    path.mkdir()
    (path / "policy.bin").write_bytes(policy.to_bytes())
    (path / "trace.bin").write_bytes(bytes_of(trace))
    if names:
        (path / "policy.names").write_text("".join("%d %s\n" % item for item in enumerate(names)))
    return path


def write_five(path, cycles=240):
    """Five classes, with a request every so many cycles each."""
    draws, trace = Draws("five"), []
    for cycle in range(cycles):
        for owner, share in enumerate((0.05, 0.06, 0.08, 0.03, 0.05)):
            if draws.chance(share):
                trace.append(Request(owner, draws.below(2), draws.below(BANKS), cycle).word)
        trace.append(0)
    return write(path, FIVE, trace, FIVE_NAMES)


def generated(library, room, count, cycles):
    """So many generated runs."""
    for number in range(count):
        draws = Draws("generated", number)
        policy = a_policy(draws)
        yield run_folder(library, folder_at(write(room / ("generated-%d" % number), policy, a_trace(draws, policy, cycles))))
