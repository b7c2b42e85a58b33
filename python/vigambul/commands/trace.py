"""`vig trace`: a traffic text made into a trace, and a trace shown in words or as CSV."""

import sys
from pathlib import Path

from .. import build
from ..errors import Wrong
from ..folders import read_file, write_file
from ..formats import bytes_of, words_of
from ..policies import Names, names_beside
from ..trace_words import shown_lines
from ..traffic import known_of, policy_for, trace_of
from ..traffic_csv import CsvReader, csv_of
from ..traffic_streams import StreamReader

READERS = {".csv": CsvReader, ".toml": StreamReader}


def tell_length(path, words):
    print("%s: trace numbers: %d; of them ticks: %d" % (path, len(words), words.count(0)), file=sys.stderr)


def make(arguments):
    path = Path(arguments.text)
    read_file(path)
    reader = READERS.get(path.suffix.lower())
    if reader is None:
        raise Wrong("%s: a traffic text's name ends in .csv (a line for each request) or in .toml (streams)" % path)
    if Path(arguments.out).resolve() == path.resolve():
        raise Wrong("%s: the trace would be written over its text" % path)
    known = known_of(arguments.policy, (path, arguments.out), build.library)
    traffic = reader(path, known, arguments.cycles).read()
    words = trace_of(traffic)
    write_file(arguments.out, bytes_of(words) + traffic.left_over)
    for warning in traffic.warnings:
        print("vig: warning: %s" % warning, file=sys.stderr)
    tell_length(arguments.out, words)


def show(arguments):
    data = read_file(arguments.trace)
    words, left_over = words_of(data)
    left_over = data[len(data) - left_over :]
    if arguments.policy is not None:
        read_file(arguments.policy)
    policy = policy_for(arguments.policy, arguments.trace)
    names = names_beside(policy) if policy else Names()
    if arguments.csv:
        sys.stdout.write(csv_of(words, left_over, names))
        return
    for line in shown_lines(words, left_over, names):
        print(line)
    tell_length(arguments.trace, words)


MAKE_EPILOG = """\
CSV has a header and a line for each request; the columns may stand in any order, and lines that begin with # are comments:
  cycle,class,kind,bank,tag
  0,red,read,3,1
  4,blue,write,5,
  24,,end,,
The request is offered before the tick of its cycle. The tag may be left out. A line of kind end says how many cycles there are.
Where the policy has a rank gap, a column rank (0 to 3) says on which rank the bank is.

TOML has streams, each a burst of requests every so many cycles:
  cycles = 240
  [[stream]]
  class = "red"
  every = 6
  burst = 2
  banks = [0, 1, 2]
  writes = 0.25
  seed = 7
Where the policy has a rank gap, ranks = [0, 1] has it use these ranks.

docs/REFERENCE.md has all columns and keys.

example:
  vig trace make examples/two-tenants-busy/traffic.toml -o trace.bin"""


def add(commands):
    command = commands.add_parser(
        "trace",
        help="traffic as text made into a trace, and a trace in words",
        description="Makes a trace of a traffic text, and shows a trace.",
        epilog="examples:\n  vig trace make examples/cloud/traffic.toml -o trace.bin\n  vig trace show examples/refused-calls/trace.bin",
    )
    command.set_defaults(run=lambda arguments: command.error("make or show?"))
    parts = command.add_subparsers(metavar="make|show")
    part = parts.add_parser("make", help="makes a trace of a traffic text", description="Makes a trace of a traffic text, CSV or TOML.", epilog=MAKE_EPILOG)
    part.add_argument("text", metavar="T", help="a traffic text: T.csv, or T.toml with streams")
    part.add_argument("-o", dest="out", metavar="F", required=True, help="the trace to write")
    part.add_argument("--policy", metavar="F", help="the policy whose names the text uses; else policy.bin and policy.names beside T or beside the trace")
    part.add_argument("--cycles", metavar="N", type=int, help="how many cycles there are, whatever the text says; where nothing says it, the policy's epoch does")
    part.set_defaults(run=make)
    part = parts.add_parser(
        "show",
        help="shows a trace in words or as CSV",
        description="Shows each number of a trace in words; ticks in a row are one line.",
        epilog="example:\n  vig trace show examples/refused-calls/trace.bin",
    )
    part.add_argument("trace", metavar="TRACE", help="a trace, as in FOLDER/trace.bin")
    part.add_argument("--csv", action="store_true", help="as CSV, from which vig trace make makes the same trace")
    part.add_argument("--policy", metavar="F", help="the policy whose names are used; else policy.names beside the trace")
    part.set_defaults(run=show)
