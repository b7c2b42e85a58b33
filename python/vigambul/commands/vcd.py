"""`vig vcd`: a run as a waveform."""

import shlex
import sys
from pathlib import Path

from .. import build
from ..errors import Wrong
from ..folders import folder_at, run_folder, write_file, writing
from ..waveform import Waveform, save_file
from ..words import counted

SAVE = ".gtkw"


def run(arguments):
    out = Path(arguments.output)
    if out.suffix == SAVE:
        raise Wrong("%s: the waveform's name must not end in %s, which is the save file's beside it" % (out, SAVE))
    folder = folder_at(arguments.folder)
    ran = run_folder(build.library(), folder)
    with writing(out) as file:
        waveform = Waveform(ran.policy, ran.names, file)
        waveform.write(ran, folder.name)
    save = out.with_suffix(SAVE)
    write_file(save, save_file(ran.policy, ran.names, out.name))
    look = shlex.join(["gtkwave", str(out), str(save)])
    print("%s: %s; to look at it: %s" % (out, counted(waveform.cycle, "cycle"), look), file=sys.stderr)


def add(commands):
    command = commands.add_parser(
        "vcd",
        help="a run as a waveform",
        description="Runs a folder's trace and writes what happened as a waveform (VCD): walk, owner, home turn, dead time, command, answer, and by class name queue lengths,\n"
        "how many have passed the oldest request, and turns left.\n"
        "A save file for GTKWave, with the ending .gtkw, is written beside it.",
        epilog="example:\n  vig vcd examples/diamond -o diamond.vcd\n  gtkwave diamond.vcd diamond.gtkw",
    )
    command.add_argument("folder", metavar="FOLDER", help="a folder with policy.bin and trace.bin")
    command.add_argument("-o", dest="output", metavar="F.vcd", required=True, help="the file to write")
    command.set_defaults(run=run)
