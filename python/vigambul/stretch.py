"""What a lab would record of the model's run (W-204): the two recordings of a stretch of it, by the proved library. Where the stretch is cut while a request is in flight, one of
the recordings has an event whose partner is outside it; that is worked out here, to be told."""

from bisect import bisect_left
from dataclasses import dataclass
from itertools import compress, count, islice
from operator import not_

from .errors import Refused, Wrong
from .formats import REFUSALS
from .history import ticks_of
from .lab_recordings import CORES, WIRES, Recording
from .words import cycles_words, request_words


def _place_of_tick(trace, cycle):
    """The place in a trace of the tick of a cycle that was ticked: ticks that are refused come after all that are made."""
    return next(islice(compress(count(), map(not_, trace)), cycle, None))


def _recorded(asked, ran, side, places, start):
    """The recording of a side, from one place in the trace to before another; `start` ticks were made before."""
    first, end = places
    status, numbers = asked(ran.trace[first:end], ran.log[4 * first : 4 * end], start)
    if status != 0:
        raise Refused("recording of the %s refused %d: %s" % (side.name, status, REFUSALS[status].when))
    return Recording(side, None, numbers)


@dataclass
class Stretch:
    """The cycles from one to before another, their two recordings, and the activates of the whole run."""

    ran: object
    first: int
    end: int
    wires: Recording
    cores: Recording
    activates: Recording

    def in_flight(self, cut):
        """The activates before a cycle whose answers come in that cycle or later: those in flight if the run is cut before it."""
        cycles = self.activates.cycles
        low, high = (bisect_left(cycles, cycle) for cycle in (max(0, cut - self.ran.policy.answer_delay), cut))
        return list(zip(cycles[low:high], self.activates.words[low:high]))

    @property
    def cut_answers(self):
        """Of the activates in flight at the start those whose answers come in the stretch. The others in flight there are so throughout, and have no event in it."""
        return [(cycle, word) for cycle, word in self.in_flight(self.first) if cycle + self.ran.policy.answer_delay < self.end]

    @property
    def cut_activates(self):
        """Of the activates in flight at the end those that are in the stretch."""
        return [(cycle, word) for cycle, word in self.in_flight(self.end) if cycle >= self.first]

    def told(self):
        """What the stretch has, and whether its ends are where nothing is in flight."""
        cycles = cycles_words(self.first, self.end - 1) if self.first < self.end else "no cycle"
        if self.cut_answers or self.cut_activates:
            ends = "it is cut while a request is in flight"
        elif self.in_flight(self.first):
            ends = "what is in flight at its ends is so throughout, and has no event in it"
        else:
            ends = "nothing is in flight at either end"
        return "%s: %s on the wires, %s at the cores; %s" % (cycles, WIRES.counted(len(self.wires)), CORES.counted(len(self.cores)), ends)

    def notes(self):
        """For each end that is cut while something is in flight: what has no partner in the stretch, and where to cut instead."""
        if flying := self.cut_answers:
            cut = self._later_cut()
            instead = "; --from %d begins where nothing is in flight" % cut if cut < self.end else ""
            yield "as cycle %d begins, %s in the stretch%s" % (self.first, self._flying(flying, CORES), instead)
        if flying := self.cut_activates:
            cut = self._earlier_cut()
            instead = "; --to %d ends where nothing is in flight" % (cut - 1) if cut > self.first else ""
            yield "as cycle %d ends, %s in the stretch%s" % (self.end - 1, self._flying(flying, WIRES), instead)

    def _later_cut(self):
        """The first cycle from the stretch's on before which nothing is in flight."""
        cut = self.first
        while flying := self.in_flight(cut):
            cut = flying[-1][0] + self.ran.policy.answer_delay + 1
        return cut

    def _earlier_cut(self):
        """The last cycle up to the stretch's end before which nothing is in flight."""
        cut = self.end
        while flying := self.in_flight(cut):
            cut = flying[0][0]
        return cut

    def _flying(self, flying, side):
        """So many requests in flight at a cut, of which the events of a side are in the stretch."""
        first = "%s, activated in cycle %d" % (request_words(flying[0][1], self.ran.names), flying[0][0])
        if len(flying) == 1:
            return "1 request is in flight (%s): its %s has no partner" % (first, side.event)
        return "%d requests are in flight (the first is %s): their %ss have no partners" % (len(flying), first, side.event)


def stretch_of(library, ran, first=None, last=None):
    """The recordings of a run's cycles from the first to the last that are asked for, of all where none are."""
    ticks = ticks_of(ran.trace, ran.log)
    for option, cycle in (("--from", first), ("--to", last)):
        if cycle is not None and cycle >= ticks:
            raise Wrong("%s %d: %s" % (option, cycle, "the run's last cycle is %d" % (ticks - 1) if ticks else "the run has no ticks"))
    if last is not None and last < (first or 0):
        raise Wrong("--to %d: before the first cycle of the stretch, %d" % (last, first))
    places = (_place_of_tick(ran.trace, first) if first else 0, len(ran.trace) if last is None else _place_of_tick(ran.trace, last) + 1)
    # As many ticks were made before the tick of a cycle as its number says.
    start, end = first or 0, ticks if last is None else last + 1
    wires, cores = (_recorded(asked, ran, side, places, start) for asked, side in ((library.wires, WIRES), (library.cores, CORES)))
    activates = wires if places == (0, len(ran.trace)) else _recorded(library.wires, ran, WIRES, (0, len(ran.trace)), 0)
    return Stretch(ran, start, end, wires, cores, activates)
