"""`vig record`: what a lab would record of the model's run."""

import sys
from pathlib import Path

from .. import build
from ..cycle_options import add_options
from ..errors import Wrong
from ..folders import folder_at, read_file, run_folder, write_file
from ..formats import bytes_of
from ..lab_recordings import CORES, NUMBERS, WIRES, text_lines
from ..stretch import stretch_of


def write_all(out, files):
    """Writes files into a folder, which is made where there is none; None stands for a file that is not to be there. What a lab recorded cannot be made anew: where one of these names
    is taken by a file that says something else, nothing is written."""
    out = Path(out)
    if out.exists() and not out.is_dir():
        raise Wrong("%s: not a folder" % out)
    for name, data in files.items():
        if (out / name).exists() and (data is None or read_file(out / name) != data):
            raise Wrong("%s: is there already, and says something else; take another folder, or remove that file" % (out / name))
    try:
        out.mkdir(exist_ok=True)
    except OSError as error:
        raise Wrong("%s: %s" % (out, error.strerror)) from None
    for name, data in files.items():
        if data is not None:
            write_file(out / name, data)


def run(arguments):
    folder = folder_at(arguments.folder)
    library = build.library()
    ran = run_folder(library, folder)
    stretch = stretch_of(library, ran, arguments.first, arguments.last)
    if arguments.output is None:
        recording = stretch.wires if arguments.side is WIRES else stretch.cores
        for line in text_lines(recording, ran.names):
            print(line)
    else:
        # Names of another policy would be shown for this one's classes.
        beside = {path.name: read_file(path) if path.is_file() else None for path in (folder.path / name for name in ("policy.bin", "policy.names"))}
        write_all(arguments.output, beside | {one.side.name + NUMBERS: bytes_of(one.numbers) for one in (stretch.wires, stretch.cores)})
    sys.stdout.flush()
    print(stretch.told(), file=sys.stderr)
    for note in stretch.notes():
        print("vig: %s" % note, file=sys.stderr)


def add(commands):
    command = commands.add_parser(
        "record",
        help="what a lab would record of a folder's run: activates on the wires, answers at the cores",
        description="Runs a folder's trace and makes, by the proved library, the two recordings that a lab would make of it: the activates on the command wires and the answers at "
        "the cores, each with its cycle. With -o they are written as numbers, with the policy beside them, so that vig match takes the folder; --wires or --cores prints one as "
        "text. Where the stretch is cut while a request is in flight, that is said: an event of it then has its partner outside.",
        epilog="examples:\n  vig record examples/lab-recording -o model\n  vig match model\n  vig record examples/lab-recording --from 16 --to 31 --cores > cores.txt",
    )
    command.add_argument("folder", metavar="FOLDER", help="a folder with policy.bin and trace.bin")
    add_options(command, "the first cycle of the stretch (0)", "the last cycle of the stretch (the run's last)")
    outputs = command.add_mutually_exclusive_group(required=True)
    outputs.add_argument("-o", dest="output", metavar="OUT", help="the folder to write wires.bin, cores.bin, policy.bin and policy.names to; a file that is there and differs stays")
    outputs.add_argument("--wires", dest="side", action="store_const", const=WIRES, help="print the activates as text: cycle and word")
    outputs.add_argument("--cores", dest="side", action="store_const", const=CORES, help="print the answers as text")
    command.set_defaults(run=run)
