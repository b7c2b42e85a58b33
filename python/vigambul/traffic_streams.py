"""Traffic as TOML: streams, each a burst of requests of one class every so many cycles."""

import heapq
from dataclasses import dataclass
from decimal import Decimal
from fractions import Fraction

from .draws import Draws
from .formats import BANKS, LAST_CYCLE
from .toml_text import meant_key, read_toml, value_words
from .traffic import Entry, Place, Reader, Traffic

TOP_KEYS = ("cycles", "stream")
KEYS = ("class", "from", "to", "every", "burst", "ranks", "banks", "writes", "pick", "seed")
PICKS = ("random", "in turn")
MOST_BURST = 1024
MOST_SEED = 2**63 - 1
# A share of writes has so many places after the point at most.
PLACES = 15


@dataclass
class Stream:
    """A burst of requests every so many cycles, from the first cycle to the last."""

    class_: int
    first: int
    last: int
    every: int
    burst: int
    ranks: list
    banks: list
    writes: Fraction
    pick: str
    seed: int

    def entries(self):
        """The requests by rising cycle."""
        choose = self.in_turn() if self.pick == "in turn" else self.at_random()
        for cycle in range(self.first, self.last + 1, self.every):
            for _ in range(self.burst):
                kind, rank, bank = next(choose)
                yield Entry(cycle, self.class_, kind, bank, rank=rank)

    def at_random(self):
        """Kinds, ranks and banks by chance. They rest on the seed and the class alone, so that no stream moves another. A single rank is not drawn: banks and kinds are the same on
        it as on any other."""
        draws, writes = Draws(self.seed, self.class_), float(self.writes)
        while True:
            rank = draws.one_of(self.ranks) if len(self.ranks) > 1 else self.ranks[0]
            bank = draws.one_of(self.banks)
            yield int(draws.chance(writes)), rank, bank

    def in_turn(self):
        """The banks one after the other, all of them on a rank and then on the next, and the writes spread evenly: with a share of 1/2 read, write, read, write."""
        number = 0
        while True:
            kind = int((number + 1) * self.writes) - int(number * self.writes)
            rounds, place = divmod(number, len(self.banks))
            yield kind, self.ranks[rounds % len(self.ranks)], self.banks[place]
            number += 1


def whole(value):
    """A whole number, or None: true and false are numbers to Python, and not here."""
    return value if isinstance(value, int) and not isinstance(value, bool) else None


class StreamReader(Reader):
    """Reads TOML: the number of cycles, and a table for each stream."""

    def read(self):
        table, self.mistakes = read_toml(self.path, Decimal)
        self.unknown(table, TOP_KEYS, ())
        said = self.cycles(self.place("cycles"), whole(table["cycles"]), value_words(table["cycles"])) if "cycles" in table else None
        self.ends = said if self.asked_cycles is None else self.asked()
        streams = [self.stream(number, row) for number, row in enumerate(self.rows(table))]
        if not self.mistakes.found and self.ends is None:
            self.ends = self.to_the_epochs_end(max((stream.last for stream in streams), default=0))
        self.mistakes.end()
        # The merge is stable: in one cycle the streams come in the order of the file.
        entries = heapq.merge(*(stream.entries() for stream in streams), key=lambda entry: entry.cycle)
        return Traffic(entries, self.ends, b"", self.warnings)

    def place(self, key, number=None):
        """Where a key stands, at the head of the file or in a stream."""
        path = (key,) if number is None else ("stream", number, key)
        return Place(self.mistakes.places.line(path), key if number is None else "stream %d, %s" % (number + 1, key))

    def unknown(self, table, known, numbers):
        for key in table:
            if key not in known:
                _, mend = meant_key(key, known, table)
                self.tell(self.place(key, *numbers), "there is no such key", ", ".join(known), mend)

    def rows(self, table):
        """The tables of the streams."""
        rows = table.get("stream", [])
        if isinstance(rows, list) and all(isinstance(row, dict) for row in rows):
            return rows
        self.tell(self.place("stream"), value_words(rows), "a table for each stream below a line [[stream]]", "write [[stream]] with two brackets, and its keys below")
        return []

    def stream(self, number, row):
        """A stream. Where it has a mistake it is worth nothing, and the mistake is told."""
        self.unknown(row, KEYS, (number,))
        given = row.get("class")
        class_ = self.class_number(self.place("class", number), "" if given is None else str(given), None if given is None else value_words(given))
        first = self.number(number, row, "from", 0, LAST_CYCLE, 0)
        every = self.number(number, row, "every", 1, LAST_CYCLE, 1)
        last = self.last(number, row, first)
        burst = self.number(number, row, "burst", 1, MOST_BURST, 1)
        if first is not None:
            self.within(self.place("from", number), first, self.ends)
        seed = self.number(number, row, "seed", 0, MOST_SEED, 0)
        ranks, banks = self.listed(number, row, "ranks", [0], self.rank), self.listed(number, row, "banks", list(range(BANKS)), self.bank)
        stream = Stream(class_, first, last, every, burst, ranks, banks, self.share(number, row), self.pick(number, row), seed)
        if None not in (first, last, every):
            stream.last = last - (last - first) % every
        return stream

    def number(self, number, row, key, least, most, default):
        value = whole(row.get(key, default))
        if value is None or not least <= value <= most:
            self.tell(self.place(key, number), value_words(row[key]), "a whole number, %d to %d" % (least, most), "write such a number")
            return None
        return value

    def last(self, number, row, first):
        """The last cycle in which the stream may offer: `to`; without it the trace's last; where `every` is missing there is a single burst, at `from`."""
        place = self.place("to", number)
        if "every" not in row:
            if "to" in row:
                self.tell(self.place("every", number), None, "every beside to", "say every how many cycles the stream offers, or take to out for a single burst")
            return first
        if "to" not in row:
            if self.ends is None:
                self.tell(place, None, "to, or cycles at the head of the file", "say where the stream ends")
                return None
            return max(self.ends - 1, first or 0)
        last = self.number(number, row, "to", 0, LAST_CYCLE, 0)
        if None not in (first, last):
            self.within(place, last, self.ends)
            if last < first:
                self.tell(place, last, "%d, which is from, or more" % first, "let the stream end after it begins")
        return last

    def listed(self, number, row, key, default, read):
        """The ranks or the banks of a stream, each of which is read."""
        given, place = row.get(key, default), self.place(key, number)
        if not isinstance(given, list) or not given:
            self.tell(place, value_words(given), "a list of %s, as in [0, 1]" % key, "write at least one %s between brackets" % key.removesuffix("s"))
            return None
        return [read(place, whole(one), value_words(one)) for one in given]

    def share(self, number, row):
        value = row.get("writes", 0)
        share = None if isinstance(value, bool) or not isinstance(value, (int, Decimal)) else Decimal(value)
        # A number of too many places would be a fraction that takes forever.
        if share is None or not share.is_finite() or not 0 <= share <= 1 or share.as_tuple().exponent < -PLACES:
            self.tell(self.place("writes", number), value_words(value), "0 to 1, as in 0.25, with at most %d places" % PLACES, "write the share of writes among the requests")
            return None
        return Fraction(share)

    def pick(self, number, row):
        value = row.get("pick", PICKS[0])
        if value not in PICKS:
            self.tell(self.place("pick", number), value_words(value), " or ".join('"%s"' % word for word in PICKS), "write one of the two")
        return value
