"""A recorded log of a hardware block, in one of two forms, told apart by the first line that is neither empty nor a comment:

- the program's lines: the header, and a line of four numbers for each trace number; or, alone, `policy refused N`;
- what the wires carried: lines `command CYCLE WORD` and `answer CYCLE WORD`, and as the last line `cycles N`, the number of cycles that were recorded.

Empty lines and lines that begin with # say nothing. A line of neither kind is an error with its number."""

import re
from itertools import islice
from pathlib import Path

from .errors import Wrong
from .formats import HEADER, LAST_CYCLE, words_of
from .lines import CUT_TRACE, LINE, MANY, numbered, numbers_of, refusal_of, says_nothing, shown

CARRIED = re.compile(rb"(command|answer)[ \t]+([0-9]{1,10})[ \t]+(?:0[xX])?([0-9A-Fa-f]{1,8})\Z")
CYCLES = re.compile(rb"cycles[ \t]+([0-9]{1,10})\Z")
FORMS = "a recorded log begins with the header '%s', with 'policy refused N', or with 'command CYCLE WORD', 'answer CYCLE WORD' or 'cycles N'" % HEADER


class RefusedLog:
    """The block's log is the refusal of the policy."""

    def __init__(self, number):
        self.number = number


class LineLog:
    """The program's lines, read as they are asked for."""

    def __init__(self, path, header_line):
        self.path, self.header_line = path, header_line

    def blocks(self):
        """The numbers of the lines below the header, many lines at a time."""
        with open(self.path, "rb") as file:
            read = len(list(islice(file, self.header_line)))
            while lines := list(islice(file, MANY)):
                numbers = numbers_of(lines)
                yield numbers if numbers is not None else self._with_care(lines, read, file)
                read += len(lines)

    def _with_care(self, lines, read, rest):
        """The numbers of lines among which there are others: such as say nothing, the note on a cut trace at the end, or a mistake."""
        kept = []
        for number, line in enumerate(lines, read + 1):
            if says_nothing(line):
                continue
            if line.strip() == CUT_TRACE:
                self._must_end([*lines[number - read :], *rest], number)
                break
            if not LINE.match(line):
                raise Wrong("%s, line %d: %s is not a line of four numbers of 8 hexadecimal digits" % (self.path, number, shown(line)))
            kept.append(line)
        return numbers_of(kept)

    def _must_end(self, lines, number):
        """After the note on a cut trace nothing may come."""
        for later, line in enumerate(lines, number + 1):
            if not says_nothing(line):
                raise Wrong("%s, line %d: %s stands after '%s', which ends a log" % (self.path, later, shown(line), CUT_TRACE.decode()))


class WireLog:
    """What the command and the answer wires carried, by cycle; 0 is nothing."""

    def __init__(self, path):
        self.path, self.cycles = path, None
        self.command, self.answer = words_of(b"")[0], words_of(b"")[0]
        with open(path, "rb") as file:
            for number, line in numbered(file):
                if not says_nothing(line):
                    self._take(line, number)
        if self.cycles is None:
            raise Wrong("%s: its last line must be 'cycles N', the number of cycles that were recorded: without it a recording that was cut off would look whole" % path)
        for wire in (self.command, self.answer):
            _lengthen(wire, self.cycles)

    def _take(self, line, number):
        if self.cycles is not None:
            raise Wrong("%s, line %d: %s stands after the line 'cycles %d', which ends a recording" % (self.path, number, shown(line), self.cycles))
        carried = CARRIED.match(line.strip())
        if carried:
            wire, cycle = self.command if carried[1] == b"command" else self.answer, self._cycle(carried[2], number)
            if cycle < len(wire):
                raise Wrong("%s, line %d: cycle %d of the %s wires is not above the one before, %d" % (self.path, number, cycle, carried[1].decode(), len(wire) - 1))
            _lengthen(wire, cycle)
            wire.append(int(carried[3], 16))
            return
        cycles = CYCLES.match(line.strip())
        if not cycles:
            raise Wrong("%s, line %d: %s is none of 'command CYCLE WORD', 'answer CYCLE WORD' (the word in hexadecimal) and 'cycles N'" % (self.path, number, shown(line)))
        self.cycles = self._cycle(cycles[1], number)
        if self.cycles < max(len(self.command), len(self.answer)):
            raise Wrong("%s, line %d: %d cycles were recorded, but there is a word in cycle %d" % (self.path, number, self.cycles, max(len(self.command), len(self.answer)) - 1))

    def _cycle(self, digits, number):
        cycle = int(digits)
        if cycle > LAST_CYCLE:
            raise Wrong("%s, line %d: %d is above %d, the most cycles that a run can have" % (self.path, number, cycle, LAST_CYCLE))
        return cycle


def _lengthen(wire, length):
    """Nothing was carried in the cycles up to a length."""
    wire.frombytes(bytes(wire.itemsize * (length - len(wire))))


def recorded_at(path):
    """The recorded log in a file."""
    path = Path(path)
    if path.is_dir():
        raise Wrong("%s: a folder, where a recorded log is wanted" % path)
    try:
        with open(path, "rb") as file:
            said = ((line, number) for number, line in numbered(file) if not says_nothing(line))
            line, number = next(said, (None, 0))
            if line is None:
                raise Wrong("%s: nothing stands in it; %s" % (path, FORMS))
            return _told_apart(path, line, number, said)
    except FileNotFoundError:
        raise Wrong("%s: no such file" % path) from None
    except OSError as error:
        raise Wrong("%s: %s" % (path, error.strerror)) from None


def _told_apart(path, line, number, later):
    text = line.strip()
    if text == HEADER.encode():
        return LineLog(path, number)
    if CARRIED.match(text) or CYCLES.match(text):
        return WireLog(path)
    refused = refusal_of(text)
    if refused is None:
        raise Wrong("%s, line %d: %s; %s" % (path, number, shown(line), FORMS))
    for rest, place in later:
        raise Wrong("%s, line %d: %s stands after the refusal of the policy, which is a whole log" % (path, place, shown(rest)))
    return RefusedLog(refused)
