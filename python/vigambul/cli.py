"""The command line. Each command is a module of `commands` with `add(commands)`, which adds its parser with `run` as a default; `run(arguments)` hands back the exit status:
0 done, 1 a difference or a refusal, 2 wrong usage or a missing file."""

import argparse
import importlib
import io
import os
import sys
from functools import cache

from .errors import Stop, Wrong

# In the order in which the help lists them.
COMMANDS = ("policy", "orders", "trace", "run", "extract", "blind", "report", "streak", "record", "match", "vcd", "picture", "regress")

# What a shell says of commands that a closed pipe or the keyboard ends: 128 and the signal's number.
CUT_SHORT, INTERRUPTED = 141, 130


class Help(argparse.RawDescriptionHelpFormatter):
    """Keeps a text of several lines, such as an example, as it is written, and fills one of a single line."""

    def _fill_text(self, text, width, indent):
        kept = argparse.RawDescriptionHelpFormatter if "\n" in text else argparse.HelpFormatter
        return kept._fill_text(self, text, width, indent)


class Parser(argparse.ArgumentParser):
    """A parser whose help keeps its example as it is written."""

    def __init__(self, *words, **options):
        options.setdefault("formatter_class", Help)
        super().__init__(*words, **options)


@cache
def parser():
    top = Parser(prog="vig", description="The designers' tool around the proved model.", epilog="vig COMMAND --help has an example of each.")
    top.add_argument("--ledger", metavar="F", help="without a command, the start screen shows the streak of this ledger (vig-ledger.jsonl in the current folder, if not given)")
    commands = top.add_subparsers(metavar="COMMAND", dest="command", parser_class=Parser)
    for name in COMMANDS:
        importlib.import_module("vigambul.commands." + name).add(commands)
    top.set_defaults(run=lambda arguments: importlib.import_module("vigambul.commands.start").run(arguments))
    return top


def main(words):
    """Runs a command to its end, and its output out to whoever reads it; hands back the exit status."""
    _open_streams()
    status = CUT_SHORT
    try:
        status = _ended(words)
        sys.stdout.flush()
    except BrokenPipeError:
        # Whoever reads the output has seen enough of it. If the command was done by then, what it found stands.
        _drop_output()
    except OSError as error:
        _drop_output()
        print("vig: standard output: %s" % error.strerror, file=sys.stderr)
        return Wrong.status
    return status


def _open_streams():
    """Standard output and standard error may be closed; and what standard output cannot say, such as a file's name that is no text, is escaped."""
    for name in ("stdout", "stderr"):
        if getattr(sys, name) is None:
            setattr(sys, name, open(os.devnull, "w", encoding="utf-8"))
    if isinstance(sys.stdout, io.TextIOWrapper):
        sys.stdout.reconfigure(errors="backslashreplace")


def _ended(words):
    try:
        arguments = parser().parse_args(words)
        return arguments.run(arguments) or 0
    except SystemExit as ended:
        # The help, and wrong usage.
        return ended.code
    except Stop as stop:
        print("vig: %s" % stop, file=sys.stderr)
        return stop.status
    except OSError as error:
        # Of a file it has the name, say where that is too long or may not be looked at; of standard output it has none.
        if error.filename is None:
            raise
        print("vig: %s: %s" % (error.filename, error.strerror), file=sys.stderr)
        return Wrong.status
    except KeyboardInterrupt:
        return INTERRUPTED


def _drop_output():
    """What is still to be written to standard output goes nowhere, so that it is not tried once more at the end."""
    os.dup2(os.open(os.devnull, os.O_WRONLY), sys.stdout.fileno())
