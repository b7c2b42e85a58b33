"""`vig match`: a lab's two recordings held together."""

import argparse
from pathlib import Path

from .. import build
from ..errors import Wrong
from ..folders import policy_path, read_file, taken_file
from ..lab_recordings import CORES, WIRES, file_in, recording_at
from ..partners import held
from ..policies import Names, names_beside, policy_of
from ..words import counted

MOST_DELAY = 255


def recordings_of(arguments):
    """The two recordings: those that are named, else those in the folder."""
    folder = None if arguments.folder is None else Path(arguments.folder)
    if folder is not None and not folder.is_dir():
        raise Wrong("%s: %s" % (folder, "not a folder" if folder.exists() else "no such folder"))
    recordings = []
    for side, named in ((WIRES, arguments.wires), (CORES, arguments.cores)):
        if named is None and folder is None:
            raise Wrong("--%s F is wanted, or a folder with the recording, as in vig match FOLDER or vig match --wires F --cores F --delay N" % side.name)
        recordings.append(recording_at(side, file_in(folder, side) if named is None else named))
    return recordings


def policy_file(arguments, recordings):
    """The policy file whose answer delay and names are used, or None: the one that is named, else that of the folder, else the one beside a recording."""
    if arguments.policy is not None:
        return policy_path(arguments.policy)
    if arguments.folder is not None and (Path(arguments.folder) / "policy.bin").is_file():
        return Path(arguments.folder) / "policy.bin"
    found = [path for path in (recording.path.parent / "policy.bin" for recording in recordings) if path.is_file()]
    if len(found) > 1 and read_file(found[0]) != read_file(found[1]):
        raise Wrong("%s and %s differ: --policy names the one that is meant" % tuple(found))
    return found[0] if found else None


def delay_of(library, arguments, policy):
    """The answer delay, and where it is from: the one that is given, else that of the policy, which the proved reader must take."""
    if arguments.delay is not None:
        return arguments.delay, "as given"
    if policy is None:
        raise Wrong("the answer delay is wanted: --delay N (0 to %d), or --policy P with a policy file or its folder" % MOST_DELAY)
    return policy_of(taken_file(library, policy)).answer_delay, "by %s" % policy


def run(arguments):
    recordings = recordings_of(arguments)
    policy = policy_file(arguments, recordings)
    # A file that is missing is told at once, and not after the library was built.
    if policy is not None:
        read_file(policy)
    library = build.library()
    delay, whence = delay_of(library, arguments, policy)
    names = names_beside(policy) if policy else Names()
    result = held(library, *recordings, delay)
    for recording in recordings:
        print("%s: %s: %s" % (recording.side.name, recording.path, recording.told()))
    print("answer delay: %s, %s" % (counted(delay, "cycle"), whence))
    print("\n".join(result.told(names)))
    if result.alone is None:
        return 0
    print("\n".join(result.oriented(names)))
    return 1


def _delay(text):
    if not text.isdecimal() or int(text) > MOST_DELAY:
        raise argparse.ArgumentTypeError("%r is not a delay, 0 to %d" % (text, MOST_DELAY))
    return int(text)


def add(commands):
    command = commands.add_parser(
        "match",
        help="a lab's recordings of the wires and of the cores held together",
        usage="vig match [-h] FOLDER [--wires F] [--cores F] [--delay N] [--policy P]\n       vig match [-h] --wires F --cores F [--delay N] [--policy P]",
        description="Holds a lab's two recordings together, activates on the command wires and answers at the cores, and says, by the proved library, that all have partners, or which "
        "event is the first without one. An activate and an answer are partners if their words are equal and the answer comes the answer delay later. Exit status 0 if all have "
        "partners, 1 if not, and 2 if a recording is unsound (18): an odd number of numbers, a cycle that is not above the one before, or an answer that is due past 32 bits.",
        epilog="A recording is a file of 32-bit numbers, low byte first, cycle and word in turn, if its name ends in .bin;\n"
        "else text, a line for each event with its cycle in decimal and its word in hexadecimal:\n"
        "  # answers at the cores\n  4 80000001\n  10 81040001\n\n"
        "examples:\n  vig match examples/lab-recording\n  vig match --wires wires.txt --cores cores.txt --delay 4\n"
        "  vig record examples/lab-recording -o model\n  vig match model --cores examples/lab-recording/cores.bin",
    )
    command.add_argument("folder", metavar="FOLDER", nargs="?", help="a folder with the recordings wires and cores (.bin, .txt or .csv) and the policy.bin that was in force")
    command.add_argument("--wires", metavar="F", help="the recording of the wires, in place of the folder's")
    command.add_argument("--cores", metavar="F", help="the recording of the cores, in place of the folder's")
    command.add_argument("--delay", metavar="N", type=_delay, help="the answer delay in cycles, 0 to 255; without it the policy's")
    command.add_argument("--policy", metavar="P", help="a policy file or its folder, for the answer delay and the names; without it the policy.bin of FOLDER, or beside a recording")
    command.set_defaults(run=run)
