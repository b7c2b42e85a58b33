"""`vig report`: what each class got and waited for."""

import sys

from .. import build
from ..figures import figures_of, figures_over
from ..folders import folder_at, run_folder, write_file
from ..report import csv_of, json_of, text_of
from ..walks import walk_bounds
from ..words import counted


def run(arguments):
    folders = [folder_at(path) for path in arguments.folders]
    library = build.library()
    reported = []
    for folder in folders:
        ran = run_folder(library, folder)
        if folder.left_over:
            print("vig: %s: %s left over at the end, which no run takes" % (folder.path / "trace.bin", counted(folder.left_over, "byte")), file=sys.stderr)
        figures = figures_of(ran, walk_bounds(library, folder.policy_bytes, ran.policy.classes))
        print(text_of(figures, ran.names, str(folder.path), arguments.epochs), end="" if len(folders) == 1 else "\n")
        reported.append((str(folder.path), figures, ran.names))
    together = _together(folders, reported)
    if together is not None:
        print(text_of(together, folders[0].names, "all %d folders" % len(folders)), end="")
    if arguments.csv:
        write_file(arguments.csv, csv_of(reported))
    if arguments.json:
        write_file(arguments.json, json_of(reported, together, arguments.epochs))


def _together(folders, reported):
    """The figures over several folders, if they have one policy."""
    if len(folders) == 1:
        return None
    if any(folder.policy_bytes != folders[0].policy_bytes for folder in folders):
        print("vig: the folders have different policies, so there is no table over all", file=sys.stderr)
        return None
    return figures_over([figures for _, figures, _ in reported])


def add(commands):
    command = commands.add_parser(
        "report",
        help="what each class got and waited for",
        description="Runs the traces of folders and prints for each class its offers, answers, waits in cycles, turns, home turns, activates\n"
        "and those that passed an older request, its turns in an epoch against minimum and cap, and the longest walk\n"
        "from it against its bound.",
        epilog="examples:\n  vig report examples/two-tenants-busy\n  vig report examples/two-tenants examples/two-tenants-busy --csv figures.csv",
    )
    command.add_argument("folders", metavar="FOLDER", nargs="+", help="a folder with policy.bin and trace.bin")
    command.add_argument("--epochs", action="store_true", help="list the turns of every epoch")
    command.add_argument("--csv", metavar="F", help="write a row for each folder and class to this file")
    command.add_argument("--json", metavar="F", help="write the figures to this file as JSON")
    command.set_defaults(run=run)
