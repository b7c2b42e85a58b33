"""The options --from and --to of commands that take a stretch of a run's cycles, both ends counted."""

import argparse


def _cycle(text):
    if not text.isdecimal():
        raise argparse.ArgumentTypeError("%r is not a cycle, a number from 0 on" % text)
    return int(text)


def add_options(command, first, last):
    """Adds the two, with what the help says of each; `first` and `last` are then the cycles, or None."""
    command.add_argument("--from", dest="first", metavar="C", type=_cycle, help=first)
    command.add_argument("--to", dest="last", metavar="C", type=_cycle, help=last)
