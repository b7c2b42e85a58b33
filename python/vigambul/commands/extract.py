"""`vig extract`: what a class, or a set of classes that compare notes, may see of a folder's log, by the proved extract."""

from itertools import repeat

from .. import build
from ..class_sets import add_options, members_of
from ..errors import Wrong
from ..folders import folder_at, run_folder
from ..formats import HEADER, line_of
from ..history import calls_of, passing
from ..seen import seen_alone, seen_of
from ..words import call_words


def in_words(seen):
    for call, older in passing(calls_of(seen.words, seen.numbers)):
        yield call_words(call, seen.ran.names, seen.ran.policy, older)


def margins(library, seen, members):
    """What stands before the header, and before each line: the members that see the line so by themselves, each in its column."""
    columns = [seen.ran.names.of(member) + "  " for member in members]
    yield " " * sum(map(len, columns))
    for sees in zip(*(seen_alone(library, seen, member) for member in members)):
        yield "".join(column if one else " " * len(column) for column, one in zip(columns, sees))


def run(arguments):
    folder = folder_at(arguments.folder)
    library = build.library()
    ran = run_folder(library, folder)
    members = members_of(arguments.of, ran.names, ran.policy.classes)
    if arguments.beside and len(members) < 2:
        raise Wrong("--beside wants two classes or more, as in vig extract FOLDER --class red --class blue --beside")
    seen = seen_of(library, ran, members)
    before = margins(library, seen, members) if arguments.beside else repeat("")
    head = next(before) + HEADER
    if not arguments.words:
        print(head)
    for margin, line in zip(before, in_words(seen) if arguments.words else (line_of(numbers) for _, *numbers in seen.lines)):
        print(margin + line)


def add(commands):
    command = commands.add_parser(
        "extract",
        help="what a class, or several together, may see of a log",
        usage="vig extract [-h] FOLDER --class NAME [--class NAME ..] [--beside] [--words]\n       vig extract [-h] FOLDER --no-class [--words]",
        description="Runs a folder's trace and prints what a class may see of its log, by the proved extract; of several classes, what they see together who compare notes: whatever "
        "may flow to at least one of them.",
        epilog="examples:\n  vig extract examples/two-tenants --class red --words\n  vig extract examples/compared-notes --class red --class blue --beside --words",
    )
    command.add_argument("folder", metavar="FOLDER", help="a folder with policy.bin and trace.bin")
    add_options(command, required=True)
    command.add_argument("--beside", action="store_true", help="of several classes: before each line stand those that see it so by themselves")
    command.add_argument("--words", action="store_true", help="each line in words")
    command.set_defaults(run=run)
