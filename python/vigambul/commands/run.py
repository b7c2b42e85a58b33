"""`vig run`: the proved program's lines for a folder, or the same in words."""

import subprocess
import sys
from collections import Counter
from itertools import islice

from .. import build
from ..errors import Refused, Wrong
from ..folders import folder_at, run_folder
from ..formats import HEADER, REFUSALS, TICKS_OVER
from ..history import calls_of, passing
from ..lines import CUT_TRACE, MANY, refusal_of
from ..words import call_words, policy_refusal_words


def hand_on(program, folder):
    """Runs the program in the folder and hands its lines on as they come; hands back how often each status occurred. A refused policy ends the command."""
    statuses, first = Counter(), None
    with subprocess.Popen([program], cwd=folder.path, stdin=subprocess.DEVNULL, stdout=subprocess.PIPE, text=True) as run:
        while lines := list(islice(run.stdout, MANY)):
            first = first or lines[0]
            sys.stdout.writelines(lines)
            statuses.update(line[:8] for line in lines)
    # A program may end with 1 where it refuses the policy; what it printed says so too.
    if run.returncode not in (0, 1):
        raise Wrong("%s: the program ended with status %d" % (folder.path, run.returncode))
    refused = refusal_of((first or "").encode())
    if refused is not None:
        raise Refused("%s: %s" % (folder.path / "policy.bin", policy_refusal_words(refused)))
    for other in (HEADER, CUT_TRACE.decode()):
        del statuses[other[:8]]
    return Counter({int(status, 16): count for status, count in statuses.items()})


def in_words(library, folder):
    """Prints each line in words; hands back how often each status occurred."""
    ran = run_folder(library, folder)
    for call, older in passing(calls_of(ran.trace, ran.log)):
        print(call_words(call, ran.names, ran.policy, older))
    if folder.left_over:
        print(CUT_TRACE.decode())
    return Counter(ran.log[::4])


def summary(statuses, folder):
    """The lines of the summary."""
    ticks = folder.trace.count(0) - statuses[TICKS_OVER]
    yield "ticks: %d; offers taken: %d; refused: %d" % (ticks, statuses[0] - ticks, statuses.total() - statuses[0])
    for status in sorted(set(statuses) - {0}):
        yield "refused with %d: %d (%s)" % (status, statuses[status], REFUSALS[status].when)
    if folder.left_over:
        yield "left-over bytes: %d (the trace ends inside a word; they were not run)" % folder.left_over


def run(arguments):
    folder = folder_at(arguments.folder)
    library = build.library()
    # A refused policy has one line, and no calls to put into words.
    if arguments.words and library.read(folder.policy_bytes) == 0:
        statuses = in_words(library, folder)
    else:
        statuses = hand_on(build.program(), folder)
    sys.stdout.flush()
    for line in summary(statuses, folder):
        print(line, file=sys.stderr)


def add(commands):
    command = commands.add_parser(
        "run",
        help="runs a folder's trace; with --words each line in words",
        description="Runs a folder's trace under its policy by the proved program and prints its lines; a summary goes to standard error. Ends with 1 if the policy is refused.",
        epilog="example:\n  vig run examples/two-tenants --words",
    )
    command.add_argument("folder", metavar="FOLDER", help="a folder with policy.bin and trace.bin")
    words = "each line in words: cycle, call, wires, who passes older ones, answer, whose turn and home turn starts, how many classes the walk tried, dead time kept or dropped, refusal"
    command.add_argument("--words", action="store_true", help=words)
    command.set_defaults(run=run)
