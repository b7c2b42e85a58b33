"""`vig picture`: a run as a picture."""

import sys

from .. import build
from ..cycle_options import add_options
from ..folders import folder_at, run_folder, write_file
from ..history import ticks_of
from ..picture import TURNS_SHOWN, Drawing, events_of, shown_range


def run(arguments):
    folder = folder_at(arguments.folder)
    ran = run_folder(build.library(), folder)
    ticks = ticks_of(ran.trace, ran.log)
    first, last = shown_range(ran.policy, ticks, arguments.first, arguments.last)
    if arguments.last is None and last < ticks - 1:
        print("vig: %d turns are shown, cycles %d to %d of %d; --from and --to choose others" % (TURNS_SHOWN, first, last, ticks), file=sys.stderr)
    elif arguments.last is not None and last < arguments.last:
        print("vig: the run's last cycle is %d, so the picture ends there" % last, file=sys.stderr)
    drawing = Drawing(ran.policy, ran.names, events_of(ran, ticks, first, last), first, last, folder.name)
    write_file(arguments.output, drawing.svg())


def add(commands):
    command = commands.add_parser(
        "picture",
        help="a run as a picture",
        description="Runs a folder's trace and draws what happened: a row for each class, turns as bars, kept dead time hatched,\n"
        "home turns as lines, and marks for offers, refusals, activates and answers.\n"
        "Without --to, %d turns are drawn." % TURNS_SHOWN,
        epilog="examples:\n  vig picture examples/two-tenants-busy -o busy.svg\n  vig picture examples/diamond --from 15 --to 34 -o top.svg",
    )
    command.add_argument("folder", metavar="FOLDER", help="a folder with policy.bin and trace.bin")
    add_options(command, "the first cycle to draw (0)", "the last cycle to draw")
    command.add_argument("-o", dest="output", metavar="F.svg", required=True, help="the file to write")
    command.set_defaults(run=run)
