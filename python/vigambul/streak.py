"""The model's log against a recorded log of the block, cycle by cycle: in which cycle they first and last differ, and what both carried around the first difference.
Numbers are compared in bulk; words are made for that window alone."""

from dataclasses import dataclass, field
from itertools import compress, islice
from operator import not_

from .formats import differ_in_walk, line_of, words_of
from .history import Call, ticks_of
from .recorded import LineLog, RefusedLog
from .words import ONLY_IN_WALK, call_words, counted, tick_words

# The cycles that are shown before and after the first difference.
AROUND = 8
# Equal calls of one cycle that are shown one by one; of more, the rest are counted.
CALLS_SHOWN = 8
ENDED = "(no more: its log has ended)"


@dataclass
class Row:
    """A call, or a cycle, of both sides in words. The model's side is the left one."""

    cycle: int
    left: list
    right: list
    differs: bool


@dataclass
class Comparison:
    """What came out: the cycles that the model ticked, the first and the last cycle that differs (None where none does), why in words, and the rows around the first."""

    cycles: int
    first: int = None
    last: int = None
    why: str = ""
    rows: list = field(default_factory=list)

    @property
    def differs(self):
        return self.last is not None


def _alike(one, other):
    """How many numbers at the start of two arrays are equal."""
    low, high = 0, min(len(one), len(other))
    if one[:high] == other[:high]:
        return high
    while low < high:
        middle = (low + high + 1) // 2
        if one[low:middle] == other[low:middle]:
            low = middle
        else:
            high = middle - 1
    return low


def _alike_at_end(one, other):
    return _alike(one[::-1], other[::-1])


def _only_in_walk(model, block):
    """Whether two rows of lines, equally many, differ in how many classes walks tried and in nothing else."""
    if any(model[number::4] != block[number::4] for number in range(3)):
        return False
    return all(turn == other or differ_in_walk(turn, other) for turn, other in zip(model[3::4], block[3::4]))


def compare(status, log, folder, recorded):
    """A run's status and log against what was recorded."""
    if isinstance(recorded, RefusedLog) or status != 0:
        return _compare_refusals(status, log, folder, recorded)
    if isinstance(recorded, LineLog):
        return LineComparison(folder, log).with_log(recorded)
    return _compare_wires(folder, log, recorded)


def _compare_refusals(status, log, folder, recorded):
    """One of the two refuses the policy, or both do, so that no cycle is compared: a difference, in cycle 0 and to the end."""
    told = recorded.number if isinstance(recorded, RefusedLog) else 0
    cycles = 0 if status else ticks_of(folder.trace, log)
    if told == status:
        return Comparison(cycles, 0, 0, "the model and the block refuse the policy with %d, and nothing was compared" % status)
    first, second = ("refuses %s with %d" % (what, number) if number else "takes %s" % what for number, what in ((status, "the policy"), (told, "it")))
    return Comparison(cycles, 0, max(0, cycles - 1), "the model %s, and the block %s" % (first, second))


class LineComparison:
    """The model's lines against the program's lines that the block's side recorded."""

    def __init__(self, folder, log):
        self.trace, self.names, self.log = folder.trace, folder.names, log
        self.first = self.last = None
        # Whether all that differs so far is how many classes walks tried.
        self.only_in_walk = True
        # The block's numbers from the first difference on, as far as they are shown.
        self.after = words_of(b"")[0]

    def with_log(self, recorded):
        place = 0
        for numbers in recorded.blocks():
            self._block(place, numbers)
            place += len(numbers) // 4
        cycles = ticks_of(self.trace, self.log)
        why = ONLY_IN_WALK if self.only_in_walk else ""
        if place != len(self.trace):
            why = "the model has %s, and the block %d" % (counted(len(self.trace), "line"), place)
            self.first = min(place, len(self.trace)) if self.first is None else self.first
            self.last = max(place, len(self.trace)) - 1
        if self.first is None:
            return Comparison(cycles)
        return Comparison(cycles, self._cycle(self.first), self._cycle(self.last), why, self._rows(place))

    def _block(self, place, numbers):
        """Takes lines of the block's from a place on."""
        model = self.log[4 * place : 4 * place + len(numbers)]
        if numbers != model:
            shared = numbers[: len(model)]
            alike = _alike(model, shared)
            self.only_in_walk = self.only_in_walk and _only_in_walk(model, shared)
            if self.first is None:
                self.first = place + alike // 4
            if alike < len(shared):
                self.last = place + (len(shared) - _alike_at_end(model, shared) - 1) // 4
            else:
                self.last = place + len(numbers) // 4 - 1
        if self.first is not None:
            missing = 4 * (self._end() - self.first) - len(self.after)
            start = max(0, 4 * (self.first - place))
            self.after.extend(numbers[start : start + max(0, missing)])

    def _made(self, place):
        """Whether the call at a place is a tick that was made."""
        return self.trace[place] == 0 and self.log[4 * place] == 0

    def _cycle(self, place):
        """The cycle of the call at a place; the one after the last of places past the end."""
        return ticks_of(self.trace, self.log, place)

    def _start(self):
        """The first place that is shown: that after the ninth tick before the first difference."""
        place, ticks = min(self.first, len(self.trace)), 0
        while place > 0:
            ticks += self._made(place - 1)
            if ticks > AROUND:
                break
            place -= 1
        return place

    def _end(self):
        """The place after the last that is shown: the ninth tick from the first difference on ends what is shown. Lines of the block's past the trace's end count as ticks."""
        place, ticks = self.first, 0
        while ticks <= AROUND:
            ticks += place >= len(self.trace) or self._made(place)
            place += 1
        return place

    def _rows(self, block_lines):
        """The calls around the first difference, those of the model beside those of the block."""
        rows, cycle = [], self._cycle(self._start())
        for place in range(self._start(), min(self._end(), max(block_lines, len(self.trace)))):
            left = self.log[4 * place : 4 * place + 4] if place < len(self.trace) else None
            right = left
            if place >= self.first:
                at = 4 * (place - self.first)
                right = self.after[at : at + 4] if place < block_lines else None
            differs = left != right
            cells = [self._words(place, cycle, numbers, differs) for numbers in (left, right)]
            rows.append(Row(cycle, *cells, differs))
            cycle += place < len(self.trace) and self._made(place)
        return _shortened(rows)

    def _words(self, place, cycle, numbers, differs):
        if numbers is None:
            return [ENDED]
        words = []
        if place < len(self.trace):
            call = Call(place, self.trace[place], cycle, *numbers)
            words = call_words(call, self.names).partition(": ")[2].split("; ")
        return words + ["= " + line_of(numbers)] if differs else words


def _shortened(rows):
    """Of many equal rows of one cycle the first are shown and the others counted: a trace may offer thousands of requests between two ticks."""
    short, run = [], []

    def flush():
        short.extend(run[:CALLS_SHOWN])
        if len(run) > CALLS_SHOWN:
            text = ["(%d more calls in this cycle, the same on both sides)" % (len(run) - CALLS_SHOWN)]
            short.append(Row(run[-1].cycle, text, text, False))
        run.clear()

    for row in rows:
        if row.differs or run and run[-1].cycle != row.cycle:
            flush()
        if row.differs:
            short.append(row)
        else:
            run.append(row)
    flush()
    return short


def _compare_wires(folder, log, recorded):
    """What the model's command and answer wires carried in each cycle against what was recorded."""
    cycles = ticks_of(folder.trace, log)
    pairs = []
    for place, wire in ((1, recorded.command), (2, recorded.answer)):
        model = words_of(b"")[0]
        model.extend(islice(compress(log[place::4], map(not_, folder.trace)), cycles))
        pairs.append((model, wire))
    both = min(cycles, recorded.cycles)
    differing = [(model[:both], wire[:both]) for model, wire in pairs if model[:both] != wire[:both]]
    first = min((_alike(*pair) for pair in differing), default=both)
    last = max((both - _alike_at_end(*pair) - 1 for pair in differing), default=None)
    why = ""
    if cycles != recorded.cycles:
        why = "the model ticks %s, and the block %d" % (counted(cycles, "cycle"), recorded.cycles)
        last = max(cycles, recorded.cycles) - 1
    if last is None:
        return Comparison(cycles)
    rows = [_wire_row(cycle, cycles, recorded.cycles, pairs, folder.names) for cycle in range(max(0, first - AROUND), min(first + AROUND + 1, max(cycles, recorded.cycles)))]
    return Comparison(cycles, first, last, why, rows)


def _wire_row(cycle, model_cycles, block_cycles, pairs, names):
    sides = []
    for side, cycles in enumerate((model_cycles, block_cycles)):
        sides.append([pair[side][cycle] for pair in pairs] if cycle < cycles else None)
    differs = sides[0] != sides[1]
    cells = []
    for words in sides:
        text = [ENDED] if words is None else (tick_words(*words, 0, names) or "nothing").split("; ")
        cells.append(text + ["= command %08X answer %08X" % tuple(words)] if differs and words is not None else text)
    return Row(cycle, *cells, differs)


def table(rows):
    """The rows side by side as text; a row that differs is marked with a star."""
    width = max([len("model")] + [len(text) for row in rows for text in row.left])
    digits = max([len("cycle")] + [len(str(row.cycle)) for row in rows])
    lines = ["  %*s  %-*s  block" % (digits, "cycle", width, "model")]
    for row in rows:
        for place in range(max(len(row.left), len(row.right))):
            left, right = (cell[place] if place < len(cell) else "" for cell in (row.left, row.right))
            mark, cycle = ("*" if row.differs else "", row.cycle) if place == 0 else ("", "")
            lines.append(("%1s %*s  %-*s  %s" % (mark, digits, cycle, width, left, right)).rstrip())
    return "\n".join(lines) + "\n"
