"""Every small order (W-208): the legal orders of 1 to 4 classes as policies, fetched one by one by their places, run on random traffic and searched for leaks. Which orders there
are, at which places, and what their policy files hold is the proved library's answer; a search holds against it what the request says of all of them."""

import re
from dataclasses import dataclass, field
from itertools import combinations, count
from pathlib import Path

from .blind_search import Figures, learnt_words, pair_of, searched
from .draws import Draws
from .errors import Refused, Wrong
from .folders import Folder, policy_path, run_folder, taken_file
from .formats import HEADER, NOT_SMALL, WRONG_LENGTH, WRONG_TIMING, bytes_of, line_of
from .history import lines_of
from .policies import TIMING_LENGTHS, Names, policy_of
from .policy_show import timing_faults
from .policy_text import read_policy_text
from .regression import EXPECTED
from .words import counted, refusal_words

# The epoch that their policies must have. Their minimums must be 0.
EPOCH = 4
# The timing where none is given: that of examples/two-tenants.
TIMING = (6, 3, 2, 2, 2, 2, 3, 3, 1, 3)
NUMBERS = re.compile(r"[0-9]+(?:[, ]+[0-9]+)*\Z")
MOST_IN_BYTE = 255
# Classes of a fetched policy have no names.
NAMES = Names()


def timing_of(library, given):
    """The bytes of the timing that is given: numbers, or a policy that has it, as a file, its folder or a text. Whether numbers are a timing is for the library to say."""
    if NUMBERS.match(given):
        numbers = [int(number) for number in re.split("[, ]+", given)]
        if max(numbers) > MOST_IN_BYTE:
            raise Wrong("--timing %s: %d is more than a byte holds, %d" % (given, max(numbers), MOST_IN_BYTE))
        return bytes(numbers)
    path = policy_path(given)
    policy = read_policy_text(path).policy if path.suffix == ".toml" else policy_of(taken_file(library, path))
    return bytes(policy.timing)


# Fetching


@dataclass(frozen=True)
class Order:
    """The order of so many classes at a place, and its policy file."""

    classes: int
    place: int
    file: bytes

    def __str__(self):
        return "order %d of %s" % (self.place, class_count(self.classes))

    @property
    def folder(self):
        """What its folder is called, among those of all orders."""
        return "%d-%02d" % (self.classes, self.place)

    @property
    def policy(self):
        return policy_of(self.file)

    @property
    def rows(self):
        """The rows in hexadecimal, row 0 first: read as one number, they rise from order to order."""
        return " ".join("%04X" % row for row in self.policy.rows)

    @property
    def chains(self):
        """The order in short, as in '0 < 1 < 3, 0 < 2': every way up from the least class, from each class to one directly above it."""
        return ", ".join(" < ".join(map(str, chain)) for chain in _rising(self.policy, self.policy.least))


def _rising(policy, first):
    above = policy.covers(first)
    return [[first, *rest] for other in above for rest in _rising(policy, other)] if above else [[first]]


def class_count(classes):
    return counted(classes, "class", "classes")


def _at_fault(status, timing):
    """What of a call its refusal is about. It explains the library's number."""
    if status == WRONG_LENGTH:
        yield "the timing has %s, and must have %d, or %d with a rank gap" % (counted(len(timing), "number"), *TIMING_LENGTHS)
    if status == WRONG_TIMING:
        yield from (why for _, _, why in timing_faults(timing))


def order_at(library, classes, place, timing):
    """The order at a place, from 0; None past the last. A refusal ends the command."""
    status, file = library.order(classes, place, timing)
    if status != 0:
        raise Refused("orders of %s: %s" % (class_count(classes), "; ".join([refusal_words(status), *_at_fault(status, timing)])))
    return Order(classes, place, file) if file else None


def orders_of(library, classes, timing):
    """All orders of so many classes, place by place until past the last."""
    for place in count():
        order = order_at(library, classes, place, timing)
        if order is None:
            return
        yield order


def all_orders(library, timing):
    """All orders of 1 class, of 2 and so on, up to the number of classes that the library refuses."""
    for classes in count(1):
        if library.order(classes, 0, timing)[0] == NOT_SMALL:
            return
        yield from orders_of(library, classes, timing)


# A run of each


def run_files(library, order, seed):
    """What stands in a folder with an order's run: its policy, traffic in which each class has a habit of its own and stray words come between, and the library's log as the program
    is to print it."""
    trace, _ = pair_of(Draws("order", seed, order.classes, order.place), order.policy, tuple(range(order.classes)))
    ran = run_folder(library, Folder(Path(order.folder), order.file, trace, 0, NAMES))
    lines = [HEADER, *(line_of(numbers) for _, *numbers in lines_of(trace, ran.log))]
    return {"policy.bin": order.file, "trace.bin": bytes_of(trace), EXPECTED: "\n".join(lines) + "\n"}


# The search


def every_class(classes):
    return [(number,) for number in range(classes)]


def every_set(classes):
    """All sets of so many classes, the empty one first."""
    return [members for size in range(classes + 1) for members in combinations(range(classes), size)]


@dataclass
class Row:
    """What was found for the orders of so many classes."""

    orders: int = 0
    figures: Figures = field(default_factory=Figures)


@dataclass
class Search:
    """What a search over orders came to: a row for each number of classes, and what was found, in words."""

    rows: dict = field(default_factory=dict)
    found: list = field(default_factory=list)

    @property
    def orders(self):
        return sum(row.orders for row in self.rows.values())

    @property
    def figures(self):
        return sum((row.figures for row in self.rows.values()), Figures())


def _wrong(library, order, timing, before):
    """What is wrong with an order as it was fetched under a timing, after the one before it: the file must be taken and hold what was asked for, and of orders of as many classes the
    rows must rise, so that none comes twice."""
    status = library.read(order.file)
    if status != 0:
        return "its policy file is %s" % refusal_words(status)
    policy = order.policy
    if (policy.classes, policy.epoch, sum(policy.minimums), bytes(policy.timing)) != (order.classes, EPOCH, 0, timing):
        return "its policy is not one of %s, with an epoch of %d turns, minimums of 0 and the timing that was given" % (class_count(order.classes), EPOCH)
    if before and before.classes == order.classes and policy.rows <= before.policy.rows:
        return "its rows, %s, are not above those of %s, %s" % (order.rows, before, before.rows)
    return None


def search(library, orders, timing, sets_of, pairs, seed, done):
    """Searches each of the orders that were fetched under a timing for leaks: so many pairs of traces for each set of its classes that `sets_of` gives. The pairs for classes are those
    of a search on its policy alone with that seed."""
    result, before = Search(), None
    for order in orders:
        row = result.rows.setdefault(order.classes, Row())
        row.orders += 1
        wrong = _wrong(library, order, timing, before)
        if wrong:
            result.found.append("%s: %s" % (order, wrong))
            continue
        before, sets = order, sets_of(order.classes)
        figures = searched(library, order.file, NAMES, sets, pairs * len(sets), seed, done)
        row.figures = sum(figures.values(), row.figures)
        result.found += ["%s, %s: %s" % (order, order.chains, words) for words in learnt_words(figures, NAMES, seed)]
    return result
