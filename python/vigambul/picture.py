"""A run as a picture, SVG written directly: a row for each class, turns as bars in their owner's row, lines for home turns in their class's row, and marks for what happened to
requests. Shapes tell the marks apart, so that it reads in print and without colours; the colours are those of Okabe and Ito, which colour-blind people can tell apart."""

from collections import defaultdict, deque
from dataclasses import dataclass

from .errors import Wrong
from .formats import class_of, is_offer, rank_of
from .history import Replay
from .svg import coordinate, element, file_of, text, title_of
from .words import command_words, counted, refusal_words, request_words, trace_words, turn_parts

# Turns that are shown where no range is asked for.
TURNS_SHOWN = 40

# The width of a cycle: as much as makes the picture so wide, within bounds.
WISHED_WIDTH = 1000
CYCLE_WIDTHS = (8, 36)

# How far apart the names are repeated in a wide picture, at least.
NAMES_AGAIN = 1000

MARGIN = 16
TITLE_Y, SUBTITLE_Y, EPOCH_Y, TURN_Y, ROWS_Y = 28, 47, 76, 92, 100
ROW = 66
REFUSED_Y, OFFER_Y, HOME_Y, BAR_Y, BAR, ANSWER_Y = 9, 22, 27, 30, 20, 58
HOME = 2
AXIS = 40
LEGEND = 34
# The width of a character of the title, the names and the small texts, a little more than what fonts take.
TITLE_CHARACTER, NAME_CHARACTER, SMALL_CHARACTER = 10, 8.2, 5.8

# The marks, with their heights in a row, in the order in which they are drawn.
MARKS = {"offer": OFFER_Y, "refusal": REFUSED_Y, "activate": BAR_Y + BAR // 2, "passing": BAR_Y + BAR // 2, "answer": ANSWER_Y}
LEGENDS = (
    ("turn", "turn, in its owner's row"),
    ("dead", "dead time kept: no activate"),
    ("home", "home turn, in its class's row"),
    ("offer", "offer taken"),
    ("refusal", "call refused"),
    ("activate", "activate"),
    ("passing", "activate that passes"),
    ("flight", "in flight"),
    ("answer", "answer"),
    ("epoch", "epoch starts"),
)
# What is said in place of these where the policy has four ranks.
RANK_LEGENDS = {"activate": "activate, with its rank"}

STYLE = """
text { font-family: Helvetica, Arial, 'DejaVu Sans', sans-serif; font-size: 11px; fill: #444444; }
.title { font-size: 17px; font-weight: bold; fill: #111111; }
.name { font-size: 13px; font-weight: bold; fill: #111111; }
.again { fill: #9AA3AB; }
.count { font-size: 10px; fill: #222222; }
.stripe { fill: #F3F5F7; }
.turn { fill: #BFDDF2; stroke: #0072B2; stroke-width: 1; }
.dead { fill: url(#hatch); stroke: #0072B2; stroke-width: 1; }
.home { fill: #CC79A7; }
.flight { fill: none; stroke: #009E73; stroke-width: 1; }
.offer { fill: #333333; }
.refusal { fill: none; stroke: #D55E00; stroke-width: 2; }
.activate { fill: #00304D; }
.passing { fill: #FFFFFF; stroke: #00304D; stroke-width: 1.5; }
.answer { fill: #009E73; stroke: #FFFFFF; stroke-width: 0.7; }
.boundary { stroke: #D5DADF; stroke-width: 1; }
.epoch { stroke: #222222; stroke-width: 1.4; stroke-dasharray: 5 3; }
.axis { stroke: #444444; stroke-width: 1; }
"""
HATCH = (
    '<pattern id="hatch" width="5" height="5" patternUnits="userSpaceOnUse" patternTransform="rotate(45)">'
    '<rect width="5" height="5" fill="#FFFFFF"/><line x1="1" y1="0" x2="1" y2="5" stroke="#0072B2" stroke-width="1.6"/></pattern>'
)


@dataclass
class Bar:
    """A turn: its owner, the class whose home turn it is, or None, how many classes its walk tried, its first cycle, the first of its dead time, and the last that was ticked."""

    number: int
    owner: int
    home: int
    walk: int
    elided: bool
    first: int
    dead: int
    last: int


@dataclass
class Flight:
    """A request from its activate to its answer, if that came."""

    owner: int
    activated: int
    answered: int = None


class Events(Replay):
    """What happened in a range of cycles: bars, flights, marks by kind, class and cycle, each with its words, and the ranks of activates by cycle. A refused call that is of no class
    of the policy has None."""

    def __init__(self, policy, names, first, last):
        super().__init__(policy)
        self.names, self.first, self.last = names, first, last
        self.bars, self.flights = [], deque()
        self.marks = {kind: defaultdict(list) for kind in MARKS}
        self.ranks = {}
        self._began = 0
        self._open = deque()

    @property
    def _is_shown(self):
        return self.first <= self.cycle <= self.last

    def _mark(self, kind, number, words):
        if self._is_shown:
            self.marks[kind][number, self.cycle].append(words())

    def refused(self, word, status):
        number = class_of(word)
        known = is_offer(word) and number < self.policy.classes
        self._mark("refusal", number if known else None, lambda: "%s: %s" % (trace_words(word, self.names), refusal_words(status)))

    def taken(self, word):
        self._mark("offer", class_of(word), lambda: trace_words(word, self.names))

    def turn_started(self):
        self._began = self.cycle

    def turn_ended(self):
        if self._began <= self.last and self.cycle > self.first:
            self.bars.append(Bar(self.turn, self.owner, self.home, self.walk, self.elided, self._began, self.dead_from, self.cycle - 1))

    def activated(self, word, offered, older):
        flight = Flight(self.owner, self.cycle)
        self._open.append(flight)
        if self.cycle <= self.last:
            self.flights.append(flight)
        if self._is_shown:
            self.ranks[self.cycle] = rank_of(word)
        self._mark("passing" if older else "activate", self.owner, lambda: command_words(word, self.names, older))

    def answered(self, word, offered):
        self._open.popleft().answered = self.cycle
        if self.cycle < self.first:
            self.flights.popleft()
        self._mark("answer", class_of(word), lambda: "answer " + request_words(word, self.names))


def shown_range(policy, ticks, first, last):
    """The first and the last cycle to show of those asked for. Where no last one is asked for, so many turns are shown."""
    if ticks == 0:
        raise Wrong("the run has no ticks, so there is nothing to draw")
    first = first or 0
    if first >= ticks:
        raise Wrong("--from %d: the run's last cycle is %d" % (first, ticks - 1))
    if last is None:
        last = (first // policy.turn + TURNS_SHOWN) * policy.turn - 1
    elif last < first:
        raise Wrong("--to %d: before the first cycle to draw, %d" % (last, first))
    return first, min(last, ticks - 1)


def events_of(ran, ticks, first, last):
    """What happened from the first cycle to the last. Offers after the last tick of all belong to a cycle that did not come, and are shown behind it."""
    end = (last // ran.policy.turn + 1) * ran.policy.turn
    return Events(ran.policy, ran.names, first, last if last < ticks - 1 else ticks).run(ran, end if end < ticks else None)


def rows_of(policy):
    """The classes from the top row down: each stands above those that may flow to it, the least at the bottom."""
    return sorted(range(policy.classes), key=lambda number: (len(policy.below(number)), number), reverse=True)


def _shape(kind, x, y, size):
    """The path of a mark around a point, with half its width."""
    if kind == "offer":
        corners = ((x - size, y - size), (x + size, y - size), (x, y + size))
    elif kind in ("activate", "passing"):
        corners = ((x, y - 1.5 * size), (x + size, y), (x, y + 1.5 * size), (x - size, y))
    else:
        size *= 0.9
        strokes = ((x - size, y - size, x + size, y + size), (x - size, y + size, x + size, y - size))
        return " ".join("M%s %sL%s %s" % tuple(map(coordinate, stroke)) for stroke in strokes)
    return "M" + "L".join("%s %s" % (coordinate(a), coordinate(b)) for a, b in corners) + "Z"


def _mark(kind, x, y, size, words=None):
    content = None if words is None else title_of(words)
    if kind == "answer":
        return element("circle", content, kind=kind, cx=x, cy=y, r=size)
    return element("path", content, kind=kind, d=_shape(kind, x, y, size))


def _step(least):
    """The least of 1, 2, 5, 10, 20, 50, .. that is not below a number."""
    power = 1
    while True:
        for digit in (1, 2, 5):
            if digit * power >= least:
                return digit * power
        power *= 10


class Drawing:
    """The picture of what happened in a range of cycles."""

    def __init__(self, policy, names, events, first, last, title):
        self.policy, self.names, self.events, self.title = policy, names, events, title
        self.first, self.last = first, last
        cycles = last - first + 1
        self.wide = max(CYCLE_WIDTHS[0], min(CYCLE_WIDTHS[1], WISHED_WIDTH // cycles))
        self.size = min(4.5, 0.45 * self.wide)
        self.rows = rows_of(policy) + [None] * any(number is None for number, _ in events.marks["refusal"])
        self.left = MARGIN + max(NAME_CHARACTER * names.width(policy.classes), max(SMALL_CHARACTER * len(self._about(number)) for number in self.rows)) + 12
        self.right = self.left + self.wide * cycles
        self.bottom = ROWS_Y + ROW * len(self.rows)
        self.parts = []

    def x(self, cycle):
        """Where a cycle begins."""
        return self.left + self.wide * (cycle - self.first)

    def middle(self, cycle):
        return self.x(cycle) + self.wide / 2

    def y(self, number):
        """The top of a class's row."""
        return ROWS_Y + ROW * self.rows.index(number)

    def _about(self, number):
        if number is None:
            return "of no class of this policy"
        return "class %d, minimum %d, cap %d" % (number, self.policy.minimums[number], self.policy.cap(number))

    def _labels(self):
        for place, number in enumerate(self.rows):
            if place % 2 == 0:
                self.parts.append(element("rect", kind="stripe", x=MARGIN, y=self.y(number), width=self.right - MARGIN, height=ROW))
            middle = self.y(number) + BAR_Y + BAR / 2
            self.parts.append(text(MARGIN + 6, middle, "other calls" if number is None else self.names.of(number), kind="name"))
            self.parts.append(text(MARGIN + 6, middle + 15, self._about(number)))

    def _boundaries(self):
        """Lines where turns start, dashed where an epoch does, with their numbers: all of them, or every so many as there is room."""
        turn, epoch = self.policy.turn, self.policy.epoch
        self._numbers(TURN_Y, turn, "turns of %d cycles" % turn, "")
        step = self._numbers(EPOCH_Y, turn * epoch, "epochs of %s" % counted(epoch, "turn"), "epoch ")
        for number in range(-(-self.first // turn), self.last // turn + 1):
            x, top = self.x(number * turn), ROWS_Y - 4
            if number % epoch == 0:
                top = (EPOCH_Y if number // epoch % step == 0 else TURN_Y) - 10
            self.parts.append(element("line", kind="boundary" if number % epoch else "epoch", x1=x, y1=top, x2=x, y2=self.bottom))

    def _numbers(self, y, length, label, word):
        """The numbers of turns or epochs where they start, or at the left edge; hands back which are written."""
        self.parts.append(text(MARGIN + 6, y, label))
        wide = SMALL_CHARACTER * len(word + str(self.last // length)) + 8
        step = _step(wide / (length * self.wide))
        for number in range(self.first // length, self.last // length + 1):
            begins, ends = max(self.x(number * length), self.left), self.x((number + step) * length)
            if number % step == 0 and (ends - begins >= wide or ends > self.right):
                self.parts.append(text(begins + 4, y, word + str(number)))
        return step

    def _names_again(self):
        """The names once more, pale, at every so many turns of a wide picture: the labels are out of sight there."""
        every = -(-NAMES_AGAIN // (self.policy.turn * self.wide))
        for turn in range(self.first // self.policy.turn + every, self.last // self.policy.turn, every):
            for number in self.rows:
                if number is not None:
                    self.parts.append(text(self.x(turn * self.policy.turn) + 4, self.y(number) + 18, self.names.of(number), kind="again"))

    def _bar(self, bar):
        first, last = max(bar.first, self.first), min(bar.last, self.last)
        y = self.y(bar.owner) + BAR_Y
        parts = turn_parts(bar.owner, bar.walk, bar.elided, self.names)
        title = title_of("turn %d, cycles %d to %d: %s" % (bar.number, bar.first, bar.last, ", ".join(parts)))
        self.parts.append(element("rect", title, kind="turn", x=self.x(first), y=y, width=self.wide * (last - first + 1), height=BAR))
        dead = max(first, bar.dead)
        if not bar.elided and dead <= last:
            self.parts.append(element("rect", title, kind="dead", x=self.x(dead), y=y, width=self.wide * (last - dead + 1), height=BAR))
        if bar.home is not None:
            title = title_of("turn %d: home turn of %s" % (bar.number, self.names.of(bar.home)))
            self.parts.append(element("rect", title, kind="home", x=self.x(first), y=self.y(bar.home) + HOME_Y, width=self.wide * (last - first + 1), height=HOME))

    def _flight(self, flight):
        """A line from the activate's place down and on to the answer's, as far as the range goes."""
        y = self.y(flight.owner)
        start = self.middle(flight.activated) if flight.activated >= self.first else self.left
        end = self.middle(flight.answered) if flight.answered is not None and flight.answered <= self.last else self.right
        down = "V%s" % coordinate(y + ANSWER_Y) if flight.activated >= self.first else ""
        top = y + BAR_Y + BAR / 2 if down else y + ANSWER_Y
        self.parts.append(element("path", kind="flight", d="M%s %s%sH%s" % (coordinate(start), coordinate(top), down, coordinate(end))))

    def _lane(self, kind, height):
        """The marks of a kind. What is to be said of one is written beside it if there is room before the next, which may be of another kind at the same height."""
        marks = self.events.marks[kind]
        beside = [self.events.marks[other] for other in MARKS if MARKS[other] == height]
        for number in self.rows:
            y = self.y(number) + height
            cycles = sorted(cycle for others in beside for row, cycle in others if row == number)
            for cycle, following in zip(cycles, [*cycles[1:], None]):
                if (number, cycle) not in marks:
                    continue
                x, words = self.middle(cycle), marks[number, cycle]
                self.parts.append(_mark(kind, x, y, self.size, "\n".join("cycle %d: %s" % (cycle, word) for word in words)))
                label = self._label(kind, cycle, words)
                needed = 2 * self.size + 4 + SMALL_CHARACTER * len(label)
                if label and (following is None or self.wide * (following - cycle) >= needed):
                    self.parts.append(text(x + self.size + 2, y + 4, label, kind="count"))

    def _label(self, kind, cycle, words):
        """What is written beside a mark: how many it stands for, if that is more than one; beside an activate its rank, if there are four."""
        if kind in ("activate", "passing"):
            return str(self.events.ranks[cycle]) if self.policy.ranks > 1 else ""
        return str(len(words)) if len(words) > 1 else ""

    def _axis(self):
        self.parts.append(element("line", kind="axis", x1=self.left, y1=self.bottom, x2=self.right, y2=self.bottom))
        step = _step((SMALL_CHARACTER * len(str(self.last)) + 30) / self.wide)
        for cycle in range(-(-self.first // step) * step, self.last + 1, step):
            self.parts.append(element("line", kind="axis", x1=self.middle(cycle), y1=self.bottom, x2=self.middle(cycle), y2=self.bottom + 5))
            self.parts.append(text(self.middle(cycle), self.bottom + 18, str(cycle), text_anchor="middle"))
        self.parts.append(text(MARGIN + 6, self.bottom + 18, "cycle"))

    def _legend(self):
        """What each sign means, one after the other."""
        x, y = MARGIN + 6, self.bottom + AXIS + 14
        for kind, words in LEGENDS:
            words = RANK_LEGENDS.get(kind, words) if self.policy.ranks > 1 else words
            if kind in MARKS:
                self.parts.append(_mark(kind, x + 8, y - 4, 4.5))
            elif kind == "epoch":
                self.parts.append(element("line", kind=kind, x1=x + 8, y1=y - 13, x2=x + 8, y2=y + 5))
            elif kind == "flight":
                self.parts.append(element("path", kind=kind, d="M%s %sH%s" % (coordinate(x), coordinate(y - 4), coordinate(x + 18))))
            elif kind == "home":
                self.parts.append(element("rect", kind=kind, x=x, y=y - 5, width=20, height=HOME))
            else:
                self.parts.append(element("rect", kind=kind, x=x, y=y - 12, width=20, height=14))
            self.parts.append(text(x + 26, y, words))
            x += 26 + SMALL_CHARACTER * len(words) + 22
        return x

    def svg(self):
        self._labels()
        self._boundaries()
        self._names_again()
        for bar in self.events.bars:
            self._bar(bar)
        for flight in self.events.flights:
            self._flight(flight)
        for kind, height in MARKS.items():
            self._lane(kind, height)
        self._axis()
        head = "%s: cycles %d to %d" % (self.title, self.first, self.last)
        times = "Dead time %d cycles, answer %d cycles after its activate." % (self.policy.dead, self.policy.answer_delay)
        if self.policy.ranks > 1:
            times += " %d ranks, rank gap %s." % (self.policy.ranks, counted(self.policy.rank_gap, "cycle"))
        width = max(self.right + MARGIN + self.wide, self._legend(), 2 * MARGIN + TITLE_CHARACTER * len(head))
        height = self.bottom + AXIS + LEGEND
        words = (
            text(MARGIN + 6, TITLE_Y, head, kind="title"),
            text(MARGIN + 6, SUBTITLE_Y, "A row for each class; what may flow to a class stands below it. " + times),
        )
        return file_of(width, height, head, STYLE, (*words, *self.parts), HATCH)
