"""`vig regress`: many folders, each held against its expected.txt."""

import os
import sys
from pathlib import Path

from .. import build
from ..errors import Wrong
from ..folders import write_file
from ..regression import Progress, csv_of, folders_of, heading, is_error, junit_of, line_of_row, part_of, run_all, unchecked
from ..words import counted


def run(arguments):
    if arguments.jobs < 1:
        raise Wrong("-j %d: a number from 1 on is wanted" % arguments.jobs)
    found = folders_of(arguments.list)
    if arguments.part:
        found = part_of(found, arguments.part)
    for file in (arguments.csv, arguments.junit):
        if file and not Path(file).absolute().parent.is_dir():
            raise Wrong("%s: no such folder to write to" % file)
        if file and Path(file).is_dir():
            raise Wrong("%s: a folder, where a file is to be written" % file)
    program = str(build.program())
    rows = list(shown(program, found, arguments.jobs))
    if arguments.csv:
        write_file(arguments.csv, csv_of(rows))
    if arguments.junit:
        write_file(arguments.junit, junit_of(rows, "vig regress"))
    print(summary(rows), file=sys.stderr)
    if any(map(is_error, rows)):
        return 2
    return 0 if all(row.passed for row in rows) else 1


def shown(program, found, jobs):
    """Runs the folders and prints each row as it comes."""
    width = max([len("folder")] + [len(name) for name, _ in found])
    print(heading(width))
    progress = Progress(len(found))
    for row in run_all(program, found, jobs, progress):
        progress.write(line_of_row(row, width))
        yield row


def summary(rows):
    failed = sum(not row.passed for row in rows)
    without = sum(map(unchecked, rows))
    return "%s: %d as expected, %d failed%s" % (counted(len(rows), "folder"), len(rows) - failed - without, failed, ", %d without expected.txt" % without if without else "")


def add(commands):
    command = commands.add_parser(
        "regress",
        help="many folders over all cores, each against its expected.txt",
        description="Runs the proved program in each folder of a list and holds what it prints against the folder's expected.txt. A refusal that expected.txt expects is a "
        "pass; any other fails, and so does a difference: exit status 1. A folder or file that is missing is told before anything runs: exit status 2.",
        epilog="LIST is a file with a folder on each line, relative to the file (# begins a comment; *, ? and [..] are patterns), or a folder: itself, or the folders in it.\n\n"
        "examples:\n  vig regress examples -j 2 --csv rows.csv\n  vig regress nightly.txt --part 3/16 --junit part-3.xml",
    )
    command.add_argument("list", metavar="LIST", help="a list of folders, a folder with folders, or a single one")
    command.add_argument("-j", dest="jobs", metavar="N", type=int, default=os.cpu_count() or 1, help="runs at a time (as many as there are cores, if not given)")
    command.add_argument("--part", metavar="K/N", help="of the list, only every N-th folder from the K-th on: one of N jobs")
    command.add_argument("--csv", metavar="F", help="write the rows as CSV")
    command.add_argument("--junit", metavar="F", help="write the rows as JUnit XML")
    command.set_defaults(run=run)
