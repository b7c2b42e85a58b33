"""`vig orders`: every small order, listed, as policy files, as folders to run, and searched for leaks."""

import argparse
import sys
from itertools import count, groupby
from pathlib import Path

from .. import build
from ..blind_search import HEADS, progress
from ..errors import Wrong
from ..folders import write_file
from ..formats import MOST_IN_32_BITS
from ..policy_text import text_of
from ..sign_off import flow_lines
from ..small_orders import NAMES, TIMING, all_orders, class_count, every_class, every_set, order_at, orders_of, run_files, search, timing_of
from ..tables import aligned
from ..words import counted

# So many things that a search found are told.
TOLD = 5


def fetched(library, arguments, timing):
    """The orders that are asked for: the one at a place, those of so many classes, or all."""
    classes, place = arguments.classes, arguments.place
    if place is None:
        return list(all_orders(library, timing) if classes is None else orders_of(library, classes, timing))
    order = order_at(library, classes, place, timing)
    if order is None:
        last = sum(1 for _ in orders_of(library, classes, timing)) - 1
        raise Wrong("order %d of %s: past the last, which is order %d" % (place, class_count(classes), last))
    return [order]


def listing(orders):
    """The orders as tables, one for each number of classes."""
    for classes, group in groupby(orders, key=lambda order: order.classes):
        rows = [(str(order.place).rjust(len("place")), order.rows, order.chains) for order in group]
        yield "%s of %s (0 < 1: class 0 may flow to class 1)" % (counted(len(rows), "order"), class_count(classes))
        yield from aligned([("place", "rows", "order"), *rows], 3)
        yield ""


def show(orders, place):
    if place is None:
        print("\n".join(listing(orders)), end="")
        return
    (order,) = orders
    print("%s, rows %s: %s\n" % (order, order.rows, order.chains))
    print("\n".join(flow_lines(order.policy, NAMES)))


def told(path, order, what):
    print("%s: %s, %s: %s" % (path, what, order, order.chains), file=sys.stderr)


def _without_names(path):
    """Names that stand beside a policy file would be shown for the classes of the order."""
    beside = path.with_suffix(".names")
    if path == beside or beside.exists():
        raise Wrong("%s: the classes of an order have no names, and another policy's would stand beside its file; take another name or folder" % beside)


def write_one(order, out):
    """Writes an order's policy file, or its text where the name ends in .toml."""
    path = Path(out)
    if path.suffix == ".toml":
        write_file(path, "# %s: %s\n\n%s" % (order, order.chains, text_of(order.policy, NAMES)))
        told(path, order, "a policy text")
    else:
        _without_names(path)
        write_file(path, order.file)
        told(path, order, counted(len(order.file), "byte"))


def write_folders(library, orders, out, seed):
    """Writes a folder for each order into a folder, each with a run."""
    out = Path(out)
    if out.exists() and not out.is_dir():
        raise Wrong("%s: not a folder" % out)
    for order in orders:
        _without_names(out / order.folder / "policy.bin")
    for order in orders:
        folder = out / order.folder
        for place in (out, folder):
            place.mkdir(exist_ok=True)
        for name, data in run_files(library, order, seed).items():
            write_file(folder / name, data)
    which = "%s, %s to %s" % (counted(len(orders), "folder"), orders[0].folder, orders[-1].folder)
    print("%s: %s, each with policy.bin, trace.bin and expected.txt; seed %d" % (out, which, seed), file=sys.stderr)


def searched(library, orders, timing, arguments):
    """Searches the orders for leaks, and prints what was found, a row for each number of classes."""
    sets_of, pairs = every_set if arguments.sets else every_class, arguments.search
    step, numbers = progress(pairs * sum(len(sets_of(order.classes)) for order in orders)), count(1)
    result = search(library, orders, timing, sets_of, pairs, arguments.seed, lambda _: step(next(numbers)))
    rows = [(str(classes).rjust(len("classes")), row.orders, *row.figures.row) for classes, row in result.rows.items()]
    print("\n".join(aligned([("classes", "orders", *HEADS), *rows, ("all", result.orders, *result.figures.row)])))
    for words in result.found[:TOLD]:
        print(words)
    if len(result.found) > TOLD:
        print("and %d more" % (len(result.found) - TOLD))
    print(result.figures.told)
    print("%s, seed %d: %s" % (counted(result.orders, "order"), arguments.seed, "found: %d" % len(result.found) if result.found else "nothing found"))
    return 1 if result.found else 0


def run(arguments):
    if arguments.sets and arguments.search is None:
        raise Wrong("--sets goes with --search, as in vig orders --search 4 --sets")
    if arguments.search is not None and arguments.search < 1:
        raise Wrong("--search %d: the number of pairs is 1 or more" % arguments.search)
    library = build.library()
    timing = bytes(TIMING) if arguments.timing is None else timing_of(library, arguments.timing)
    orders = fetched(library, arguments, timing)
    if not orders:
        raise Wrong("the library has no order")
    if arguments.search is not None:
        return searched(library, orders, timing, arguments)
    if arguments.out is None:
        return show(orders, arguments.place)
    if arguments.place is None:
        return write_folders(library, orders, arguments.out, arguments.seed)
    return write_one(orders[0], arguments.out)


def _number(text):
    if not text.isdecimal() or int(text) > MOST_IN_32_BITS:
        raise argparse.ArgumentTypeError("%r is not a number of 32 bits, 0 to %d" % (text, MOST_IN_32_BITS))
    return int(text)


def add(commands):
    command = commands.add_parser(
        "orders",
        help="every order of 1 to 4 classes: listed, as policies, run, and searched for leaks",
        usage="vig orders [-h] [N [PLACE]]\n"
        "       vig orders [-h] N PLACE -o F [--timing T]\n"
        "       vig orders [-h] [N] -o FOLDER [--timing T] [--seed S]\n"
        "       vig orders [-h] [N [PLACE]] --search PAIRS [--sets] [--timing T] [--seed S]",
        description="Every order that N classes can have, 1 to 4, as a policy with an epoch of 4 turns and minimums of 0, by the proved library. They come by rising rows, read as one "
        "number, and each has its place, from 0. Without N all of them are meant, of 1 class, of 2, 3 and 4. A PLACE names one: its flows are shown, and -o writes its policy file, or a "
        "policy text, if F ends in .toml. Without PLACE -o writes a folder for each order, with policy.bin, a trace.bin of random traffic and the log that is expected, for vig regress. "
        "With --search each order is searched for leaks, PAIRS random pairs of traces for each of its classes, as vig blind --search does it: exit status 1 if one is found.",
        epilog="examples:\n  vig orders 3\n  vig orders 4 29 -o policy.bin --timing examples/cloud/policy.toml\n  vig orders -o orders\n  vig regress orders\n"
        "  vig orders --search 4\n  vig orders 4 29 --search 100 --timing 12,6,2,2,5,2,6,6,1,4,4",
    )
    command.add_argument("classes", metavar="N", nargs="?", type=_number, help="how many classes, 1 to 4; without it all of these")
    command.add_argument("place", metavar="PLACE", nargs="?", type=_number, help="one order of N classes by its place, from 0")
    does = command.add_mutually_exclusive_group()
    does.add_argument("-o", dest="out", metavar="F", help="with PLACE, the policy file to write, or the policy text (F.toml); without it, the folder to write a folder for each order to")
    does.add_argument("--search", metavar="PAIRS", type=int, help="search each order for leaks: so many random pairs of traces for each class")
    command.add_argument("--sets", action="store_true", help="with --search: for each set of classes, the empty one too, in place of each class")
    timing = "the timing: its 10 or 11 numbers with commas, in the file's order; or a policy file, its folder, or a policy text (.toml), whose timing is taken (%s, if not given)"
    command.add_argument("--timing", metavar="T", help=timing % ",".join(map(str, TIMING)))
    command.add_argument("--seed", metavar="S", type=int, default=0, help="another seed gives other traffic and other pairs (0, if not given)")
    command.set_defaults(run=run)
