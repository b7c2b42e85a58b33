"""A lab's two recordings (W-204): activates on the command wires, and answers at the cores. Each is a row of numbers: cycle, word, cycle, word. A file has them as 32-bit numbers,
low byte first, if its name ends in .bin, and else as text with a line for each event. (What `recorded` reads is another thing: the log of a block, with all its cycles in one file.)
Whether a recording is sound is the proved library's answer; what is turned down here is a file that holds no such numbers."""

import re
from dataclasses import dataclass
from functools import cached_property
from pathlib import Path

from .errors import Wrong
from .folders import read_file
from .formats import MOST_IN_32_BITS, words_of
from .lines import numbered, shown
from .words import counted, cycles_words, request_words

NUMBERS = ".bin"
# How a recording in a folder may be called, behind its side's name.
ENDINGS = (NUMBERS, ".txt", ".csv")
# Cells may stand apart by spaces, tabs, a comma or a semicolon, so that what a spreadsheet writes is read too.
APART = rb"(?:[ \t]*[,;][ \t]*|[ \t]+)"
EVENT = re.compile(rb"([0-9]{1,10})" + APART + rb"(?:0[xX])?([0-9A-Fa-f]{1,8})\Z")
HEAD = re.compile(rb"cycle" + APART + rb"word\Z", re.IGNORECASE)


@dataclass(frozen=True)
class Side:
    """One of the two places at which a lab records: its name, as files and options have it, where that is, and what its events are called."""

    name: str
    place: str
    event: str

    def counted(self, number):
        """So many of its events, as in '1 activate'."""
        return counted(number, self.event)


WIRES = Side("wires", "on the wires", "activate")
CORES = Side("cores", "at the cores", "answer")


@dataclass
class Recording:
    """What was recorded at one side, with the file that it stands in. How it is told takes it to be sound."""

    side: Side
    path: Path
    numbers: object

    def __len__(self):
        """How many events it has."""
        return len(self.numbers) // 2

    @cached_property
    def cycles(self):
        return self.numbers[0::2]

    @cached_property
    def words(self):
        return self.numbers[1::2]

    def told(self):
        """How much it has, and of which cycles."""
        cycles = ", " + cycles_words(self.cycles[0], self.cycles[-1]) if self.numbers else ""
        return self.side.counted(len(self)) + cycles


def _of_numbers(path, data):
    """Bytes left over are no number, so what they began is lost: such a file is not taken for the whole recording."""
    numbers, left_over = words_of(data)
    if left_over:
        raise Wrong("%s: %s left over at the end: the file was cut off inside a number of 32 bits" % (path, counted(left_over, "byte")))
    return numbers


def _of_text(path, data):
    numbers, begun = words_of(b"")[0], False
    for number, line in numbered(data.splitlines()):
        text = line.partition(b"#")[0].strip()
        is_head, begun = not begun and HEAD.match(text), begun or text != b""
        if is_head or not text:
            continue
        event = EVENT.match(text)
        if not event:
            raise Wrong("%s, line %d: %s is not a cycle, in decimal, and a word, in hexadecimal, as in '24 81130004'" % (path, number, shown(line)))
        if int(event[1]) > MOST_IN_32_BITS:
            raise Wrong("%s, line %d: cycle %d is above %d, the most that 32 bits hold" % (path, number, int(event[1]), MOST_IN_32_BITS))
        numbers.append(int(event[1]))
        numbers.append(int(event[2], 16))
    return numbers


def recording_at(side, path):
    """The recording of a side in a file."""
    path = Path(path)
    read = _of_numbers if path.suffix.lower() == NUMBERS else _of_text
    return Recording(side, path, read(path, read_file(path)))


def file_in(folder, side):
    """The file of a side's recording in a folder."""
    names = [side.name + ending for ending in ENDINGS]
    found = [folder / name for name in names if (folder / name).is_file()]
    if not found:
        raise Wrong("%s: no recording of the %s in it, which is called %s" % (folder, side.name, " or ".join(names)))
    if len(found) > 1:
        raise Wrong("%s and %s: two recordings of the %s; --%s names the one that is meant" % (found[0], found[1].name, side.name, side.name))
    return found[0]


def text_lines(recording, names):
    """A recording as text, each event with its request in words behind it."""
    for cycle, word in zip(recording.cycles, recording.words):
        yield "%d %08X  # %s" % (cycle, word, request_words(word, names))
