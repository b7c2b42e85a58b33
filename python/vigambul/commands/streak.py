"""`vig streak`: the model against a recorded log of the block, and the cycles since it last differed."""

import argparse
import hashlib
import sys

from .. import build, ledger
from ..folders import folder_at, read_file
from ..formats import REFUSALS
from ..recorded import recorded_at
from ..streak import compare, table
from ..words import counted


def entry_of(arguments, comparison, path):
    """What the ledger keeps of a comparison."""
    hashes = [hashlib.sha256(read_file("%s/%s" % (arguments.folder, name))).hexdigest() for name in ("policy.bin", "trace.bin")]
    names = [ledger.name_beside(name, path) for name in (arguments.folder, arguments.log)]
    return ledger.Entry(ledger.now(), *names, *hashes, comparison.cycles, comparison.first, comparison.last)


def run(arguments):
    path = arguments.ledger or ledger.DEFAULT
    folder = folder_at(arguments.folder)
    recorded = recorded_at(arguments.log)
    known = ledger.read(path)
    status, log = build.library().run(folder.policy_bytes, folder.trace)
    if status:
        print("vig: the model refuses the policy with %d: %s" % (status, REFUSALS[status].when), file=sys.stderr)
    comparison = compare(status, log, folder, recorded)
    entry = entry_of(arguments, comparison, path)
    entries = [*known, entry] if arguments.dry_run else ledger.append(path, entry)
    tell(comparison, entries)
    entered = "the ledger is left as it is" if arguments.dry_run else "entry %d of %s" % (len(entries), path)
    print("this run: %s; %s" % (counted(comparison.cycles, "cycle"), entered), file=sys.stderr)
    return 1 if comparison.differs else 0


def tell(comparison, entries):
    """The result: the streak, and at a difference where it is and what both sides carried around it."""
    ever = any(entry.differs for entry in entries)
    print("streak: %s %s" % (counted(ledger.streak(entries), "cycle"), "since the block last differed" if ever else "and no difference so far"))
    if comparison.differs:
        print("this run differs: first in cycle %d, last in cycle %d%s" % (comparison.first, comparison.last, comparison.why and "; " + comparison.why))
    if comparison.rows:
        print(table(comparison.rows), end="")


def add(commands):
    command = commands.add_parser(
        "streak",
        help="a recorded log of the block against the model, and the cycles since it last differed",
        description="Compares a recorded log of your block with the model's log of the same folder, cycle by cycle, and enters the comparison into the ledger. Prints the cycles "
        "since the block last differed, over all entries of the ledger; at a difference, eight cycles before and after the first one side by side. Exit status 1 at a difference.",
        epilog="BLOCK.log holds the program's lines (header and a line for each trace number), or what the wires carried:\n"
        "  command 0 80010007\n  command 1 C0010007\n  answer 2 80010007\n  cycles 3\n\n"
        "example:\n  vig streak examples/printed-log examples/printed-log/expected.txt --dry-run",
    )
    command.add_argument("folder", metavar="FOLDER", help="a folder with policy.bin and trace.bin")
    command.add_argument("log", metavar="BLOCK.log", help="what was recorded of the block under that policy and trace")
    ledger_help = "the ledger (%s in the current folder, if not given); it is begun where there is none" % ledger.DEFAULT
    command.add_argument("--ledger", metavar="F", default=argparse.SUPPRESS, help=ledger_help)
    command.add_argument("--dry-run", action="store_true", help="count as if this run were entered, but leave the ledger as it is")
    command.set_defaults(run=run)
