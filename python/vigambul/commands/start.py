"""`vig` without a command: the streak, or how to begin."""

import hashlib
import os
import shlex
import shutil
from pathlib import Path

from .. import build, ledger
from ..errors import Wrong
from ..policies import names_beside, policy_of
from ..words import counted

TITLE = "Vigambul: a proved model of a memory controller that keeps security classes apart in time"
# The digits of the big number, five rows each.
DIGITS = {
    "0": (" ### ", "#   #", "#   #", "#   #", " ### "),
    "1": ("  #  ", " ##  ", "  #  ", "  #  ", " ### "),
    "2": ("#### ", "    #", " ### ", "#    ", "#####"),
    "3": ("#### ", "    #", " ### ", "    #", "#### "),
    "4": ("#  # ", "#  # ", "#####", "   # ", "   # "),
    "5": ("#####", "#    ", "#### ", "    #", "#### "),
    "6": (" ### ", "#    ", "#### ", "#   #", " ### "),
    "7": ("#####", "   # ", "  #  ", " #   ", " #   "),
    "8": (" ### ", "#   #", " ### ", "#   #", " ### "),
    "9": (" ### ", "#   #", " ####", "    #", " ### "),
    ",": ("  ", "  ", "  ", " #", "# "),
}
# The policies that are shown by themselves.
SHOWN = 5
# From a policy in text to a picture, in an example's folder.
EXAMPLE = build.ROOT / "examples" / "cloud"
BEGIN = (
    "{vig} policy make {folder}/policy.toml -o {folder}/policy.bin",
    "{vig} trace make {folder}/traffic.toml -o {folder}/trace.bin",
    "{vig} run {folder} --words",
    "{vig} picture {folder} -o picture.svg",
)


def big(number):
    """A number in digits of five rows."""
    text = format(number, ",")
    return "\n".join(("  " + "  ".join(DIGITS[digit][row] for digit in text)).rstrip() for row in range(5))


def run(arguments):
    path = Path(arguments.ledger or ledger.DEFAULT)
    if arguments.ledger and not path.is_file():
        raise Wrong("%s: no such ledger" % path)
    entries = ledger.read(path)
    print(TITLE + "\n")
    print(how_to_begin(path) if not entries else screen(entries, path), end="")


def typed(path):
    """A path of the repository as it is typed in the current folder: from there where that is inside the repository, else from the root."""
    here = Path.cwd()
    return shlex.quote(os.path.relpath(path, here) if here.is_relative_to(build.ROOT) else str(path))


def launcher():
    """How the tool is called: by its name where that is on the path."""
    if shutil.which("vig"):
        return "vig"
    path = typed(build.ROOT / "vig")
    return path if "/" in path else "./" + path


def how_to_begin(path):
    vig, folder = launcher(), typed(EXAMPLE)
    lines = ["There is no ledger yet (%s): no log of a block was compared with the model." % path, "To begin, from a policy in text to a picture:", ""]
    lines += ["    " + command.format(vig=vig, folder=folder) for command in BEGIN]
    lines += ["", "For a policy of your own, copy that folder and change policy.toml and traffic.toml in it."]
    lines += ["Then hold a recorded log of your block against the model, and the streak begins:", ""]
    lines += ["    %s streak FOLDER BLOCK.log" % vig, "", "%s --help lists the commands, and %s COMMAND --help has an example of each." % (vig, vig)]
    return "\n".join(lines) + "\n"


def screen(entries, path):
    """The streak, what it was counted on, when the block last differed and where."""
    streak = ledger.streak(entries)
    what = "since the block last differed from the model" if differed(entries) else "compared, and no difference so far"
    lines = [big(streak), "", "  %s %s" % (counted(streak, "cycle", form=","), what), ""]
    rows = [*policies(entries, path), ("last differed", where_differed(entries)), ("ledger", ledger_words(entries, path))]
    lines += ["  %-14s %s" % row for row in rows]
    return "\n".join(lines) + "\n"


def day(entry):
    """An entry's date for the eye."""
    return entry.date.replace("T", " ").replace("Z", " UTC")


def differed(entries):
    return any(entry.differs for entry in entries)


def where_differed(entries):
    last = next((entry for entry in reversed(entries) if entry.differs), None)
    if last is None:
        return "never"
    cycles = "cycle %d" % last.last if last.first == last.last else "cycle %d (first in cycle %d)" % (last.last, last.first)
    return "%s, %s, %s, in the log %s" % (day(last), last.folder, cycles, last.log)


def ledger_words(entries, path):
    return "%s: %s, the last of %s" % (path, counted(len(entries), "entry", "entries"), day(entries[-1]))


def policies(entries, path):
    """The policies that the streak was counted on, those with the most cycles first."""
    grouped = {}
    for entry in ledger.counted_on(entries):
        grouped.setdefault(entry.policy, []).append(entry)
    groups = sorted(grouped.values(), key=lambda group: -cycles_of(group))
    rows = [policy_words(group, path) for group in groups[:SHOWN]]
    rest = groups[SHOWN:]
    if rest:
        rows.append("and %s: %s" % (counted(len(rest), "more policy", "more policies"), counted(sum(map(cycles_of, rest)), "cycle", form=",")))
    return list(zip(["counted on"] + [""] * SHOWN, rows or ["nothing yet"]))


def cycles_of(group):
    return sum(entry.adds for entry in group)


def policy_words(group, path):
    """A policy by the start of its hash, and the folder of its last run with the names of its classes where the policy there is still the same."""
    policy, folder = group[-1].policy, group[-1].folder
    file = ledger.place_of(folder, path) / "policy.bin"
    data = file.read_bytes() if file.is_file() else None
    if data is None:
        classes = "no longer there"
    elif hashlib.sha256(data).hexdigest() != policy:
        classes = "its policy.bin has changed since"
    else:
        names = names_beside(file)
        classes = ", ".join(names.of(number) for number in range(policy_of(data).classes))
    return "policy %s, %s (%s): %s in %s" % (policy[:12], folder, classes, counted(cycles_of(group), "cycle", form=","), counted(len(group), "run"))
