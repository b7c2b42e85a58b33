"""A lab's two recordings held together (W-204): does each activate have its answer, and each answer its activate? Which event is the first without a partner, and whether the
recordings are sound, is the proved library's answer. What is worked out here is for finding one's way alone: what stands around that event, and where a recording is unsound."""

from dataclasses import dataclass
from functools import cached_property

from .errors import Wrong
from .formats import COLUMN, MOST_IN_32_BITS, UNSOUND, is_column, is_offer
from .lab_recordings import CORES, WIRES, Recording
from .tables import aligned
from .trace_words import malformed_words
from .words import counted, request_words

# The due cycles that are shown before and after that of the first event without a partner.
AROUND = 4


def word_words(word, names):
    """A word of a recording: the request, where it is one."""
    if is_offer(word):
        return request_words(word, names)
    if is_column(word) and is_offer(word & ~COLUMN):
        return "column command of %s" % request_words(word & ~COLUMN, names)
    return malformed_words(word)


def _later(cycles):
    """How much later than due something comes, or earlier."""
    return "%s %s than due" % (counted(abs(cycles), "cycle"), "later" if cycles > 0 else "earlier")


@dataclass
class Held:
    """Two recordings under an answer delay, both sound, and what the library said of them: the recording that holds the first event without a partner, and its number there, from
    0. All have partners where there is no such recording."""

    wires: Recording
    cores: Recording
    delay: int
    alone: Recording
    number: int

    def events(self, recording, first=0, end=None):
        """The events of a recording, each as the cycle in which its answer is due and its word: an activate's is due the delay later, an answer's in its own cycle."""
        late = self.delay if recording is self.wires else 0
        return [(cycle + late, word) for cycle, word in zip(recording.cycles[first:end], recording.words[first:end])]

    @property
    def other(self):
        return self.cores if self.alone is self.wires else self.wires

    @cached_property
    def due(self):
        """The cycle in which the answer of the event without a partner is due."""
        return self.events(self.alone, self.number, self.number + 1)[0][0]

    def told(self, names):
        """What the library said, in words."""
        if self.alone is None:
            if not len(self.wires):
                return ["both recordings are empty, so no event is without a partner"]
            pairs = (WIRES.counted(len(self.wires)), WIRES.place, CORES.counted(len(self.cores)), CORES.place, counted(self.delay, "cycle"))
            return ["all have partners: %s %s and %s %s, %s apart" % pairs]
        side, word = self.alone.side, self.alone.words[self.number]
        before = "%s and %s before it have partners" % (WIRES.counted(self.number), CORES.counted(self.number)) if self.number else "nothing comes before it"
        rest = "the rest of the %s' recording, from it on, has %s" % (side.name, counted(len(self.alone) - self.number, "event"))
        return [
            "the first event without a partner is an %s %s:" % (side.event, side.place),
            "  cycle %d: %08X, %s" % (self.alone.cycles[self.number], word, word_words(word, names)),
            "  it is event %d of %d: %s; %s" % (self.number + 1, len(self.alone), before, rest),
        ]

    def oriented(self, names):
        """What stands around the first event without a partner, by the cycles in which answers are due."""
        yield "  " + self._in_its_cycle(names)
        yield "  " + self._nearest_like()
        if self.alone is self.wires and is_column(self.alone.words[self.number]):
            yield "  column commands have no answers: the wires' recording is to have the activates alone"
        yield ""
        yield from self._table(names)

    def _in_its_cycle(self, names):
        """Where the partner would be, and what is there."""
        if self.alone is self.wires:
            where = "its answer is due in cycle %d, and the cores' recording has" % self.due
        elif self.due < self.delay:
            return "no activate can be %s before it" % counted(self.delay, "cycle")
        else:
            where = "its activate would be in cycle %d, and the wires' recording has" % (self.due - self.delay)
        there = dict(self.events(self.other)).get(self.due)
        return "%s %s" % (where, "nothing in that cycle" if there is None else "another word in that cycle: %08X, %s" % (there, word_words(there, names)))

    def _nearest_like(self):
        """An event of the other recording with the same word, and none of that word where its own partner would be: an answer that comes late or early, say."""
        word = self.alone.words[self.number]
        own, others = ({due for due, other in self.events(recording) if other == word} for recording in (self.alone, self.other))
        if not others - own:
            return "no %s with this word is left over %s" % (self.other.side.event, self.other.side.place)
        like = min(others - own, key=lambda due: (abs(due - self.due), due))
        if self.alone is self.wires:
            return "an answer with this word, and no activate to it, is in cycle %d, %s" % (like, _later(like - self.due))
        return "an activate with this word, and no answer to it, is in cycle %d: this answer comes %s" % (like - self.delay, _later(self.due - like))

    def _table(self, names):
        """The events around, those of the wires beside those of the cores. Before the first without a partner both recordings have equally many, all of them partners."""
        sides = [dict(self.events(recording, max(0, self.number - AROUND), self.number + AROUND + 1)) for recording in (self.wires, self.cores)]
        dues = sorted(set(sides[0]) | set(sides[1]))
        rows = [("", "cycle", "due", "wires", "cores")]
        for due in dues[: dues.index(self.due) + AROUND + 1]:
            cells = ["%08X %s" % (side[due], word_words(side[due], names)) if due in side else "-" for side in sides]
            rows.append(("*" if due == self.due else "", due - self.delay if due >= self.delay else "-", due, *cells))
        return _ranged(rows)


def _ranged(rows):
    """The rows as lines: numbers end at the right, and words begin at the left."""
    numbers = aligned([row[:3] for row in rows], left=1)
    width = max(map(len, numbers))
    words = aligned([row[3:] for row in rows], left=2)
    return ["%s  %s" % (left.ljust(width), right) for left, right in zip(numbers, words)]


def fault_words(recording, delay):
    """At which event a recording is unsound, and why, to find it: the library has said that it is."""
    cycles, words, before = recording.cycles, recording.words, None
    for number, cycle in enumerate(cycles, 1):
        if before is not None and cycle <= before:
            return "event %d: cycle %d is not above the one before, %d" % (number, cycle, before)
        if recording.side is WIRES and cycle + delay > MOST_IN_32_BITS:
            return "event %d: the answer to cycle %d would be due in cycle %d, and 32 bits hold %d at most" % (number, cycle, cycle + delay, MOST_IN_32_BITS)
        before = cycle
    if len(cycles) > len(words):
        return "event %d: its cycle, %d, is the last number, and no word stands behind it" % (len(cycles), cycles[-1])
    return "no event was found that is at fault"


def held(library, wires, cores, delay):
    """Holds two recordings together by the proved library. One that is unsound ends the command: nothing is said of partners then."""
    status, which, at = library.match(wires.numbers, cores.numbers, delay)
    alone = {1: wires, 2: cores}.get(which)
    if status == UNSOUND:
        raise Wrong("the recording of the %s is unsound (%d), so nothing is said of partners; %s, %s" % (alone.side.name, status, alone.path, fault_words(alone, delay)))
    return Held(wires, cores, delay, alone, at // 2)
