"""A policy as a TOML text: reading one with every mistake told, and writing one. docs/REFERENCE.md has the keys.

    epoch = 3

    [timing]                  # cycles; or times, as in "15 ns", with a clock, as in clock = "200 MHz"
    turn_length = 6
    ..
    rank_gap = 2              # there are four ranks; without it there is one

    [class.base]

    [class.red]
    above = ["base"]          # red lies above base: base may flow to red
    minimum = 1

Flows are closed for the writer: each class may flow to itself, and to whatever lies above a class that it may flow to."""

from dataclasses import dataclass, field

from .clock import CLOCK_WORDS, TIME_WORDS, Converted, period_of, time_of
from .formats import CLASSES
from .policies import NAME, NEEDED_TIMING_KEYS, TIMING, TIMING_KEYS, Names, Policy, class_mask
from .policy_ranges import GAP_KEYS, HIGHEST_DEAD, LONGEST_EPOCH, TIMING_RANGES
from .toml_text import nearest, read_toml, value_words

TOP_KEYS = ("epoch", "timing", "class")
CLASS_KEYS = ("above", "minimum", "number")
NAME_WORDS = "a letter or _ first, then letters, digits, _ and -, 32 characters at most"


@dataclass
class PolicyText:
    """What a text says: the policy, the names of its classes, and the times that its clock turned into cycles."""

    policy: Policy
    names: Names
    clock: str = None
    converted: list = field(default_factory=list)


def _listed(words):
    """As in 'a, b and c'."""
    words = list(words)
    return words[0] if len(words) == 1 else "%s and %s" % (", ".join(words[:-1]), words[-1])


class _Reader:
    """Reads the tables of a text. Each part hands back what could be read, and adds its mistakes."""

    def __init__(self, path):
        self.tables, self.mistakes = read_toml(path)
        self.clock, self.converted = None, []

    def line_words(self, path):
        line = self.mistakes.places.line(path)
        return " (line %d)" % line if line else ""

    def whole(self, path, value, lowest, highest, mend):
        """A whole number in a range, or None with a mistake."""
        name, allowed = ".".join(path), "a whole number, %d to %d" % (lowest, highest)
        if isinstance(value, str) and value.strip().isdecimal():
            mend = "write it without quotes: %s = %s" % (path[-1], value.strip().lstrip("0") or "0")
        if isinstance(value, bool) or not isinstance(value, int):
            self.mistakes.add(path, "%s = %s is not a whole number" % (name, value_words(value)), allowed, mend)
        elif not lowest <= value <= highest:
            self.mistakes.add(path, "%s = %s is out of range" % (name, value_words(value)), allowed, mend)
        else:
            return value
        return None

    def table(self, key, allowed, mend):
        """A table of the text; empty where it is missing or something else, with a mistake."""
        value = self.tables.get(key)
        if isinstance(value, dict):
            return value
        if key in self.tables:
            self.mistakes.add((key,), "%s = %s is not a table" % (key, value_words(value)), allowed, mend)
        elif key not in self.meant:
            self.mistakes.add((), "%s is missing" % key, allowed, mend)
        return {}

    def read(self):
        self.meant = self.mistakes.unknown_keys((), self.tables, TOP_KEYS, "in a policy")
        epoch = self.epoch()
        timing = self.timing()
        classes = self.table("class", "a table [class.NAME] for each class", "write a line [class.NAME] for each, with its keys below it")
        if classes or self.tables.get("class") == {}:
            self.count(classes)
        above, minimums, asked = self.classes(classes)
        self.order(above)
        numbers = self.numbers(asked)
        self.sum(epoch, minimums)
        self.mistakes.end()
        return self.text(epoch, timing, above, minimums, numbers)

    def epoch(self):
        if "epoch" in self.tables:
            return self.whole(("epoch",), self.tables["epoch"], 1, LONGEST_EPOCH, "give the turns of an epoch, as in epoch = 8")
        if "epoch" not in self.meant:
            self.mistakes.add((), "epoch is missing", "a whole number of turns, 1 to %d, above all tables" % LONGEST_EPOCH, "add a line such as epoch = 8")
        return None

    # Timing

    def timing(self):
        """The timing numbers by key, in cycles; those with a mistake are left out."""
        needed = ", ".join(NEEDED_TIMING_KEYS)
        table = self.table("timing", "a table with the keys %s" % needed, "write a line [timing], with the keys below it")
        meant = self.mistakes.unknown_keys(("timing",), table, TIMING_KEYS + ("clock",), "in [timing]")
        missing = [key for key in NEEDED_TIMING_KEYS if key not in table and key not in meant]
        if missing and "timing" in self.tables and isinstance(self.tables["timing"], dict):
            self.mistakes.add(("timing",), "[timing] lacks %s" % _listed(missing), "all of %s" % needed, "add %s" % _listed(missing))
        period = self.period(table)
        timing = {}
        for key in TIMING_KEYS:
            if key in table:
                cycles = self.cycles(key, table[key], period, "clock" in table)
                if cycles is not None:
                    timing[key] = cycles
        self.compare(table, timing)
        return timing

    def period(self, table):
        """The picoseconds of a cycle; None without a clock."""
        if "clock" not in table:
            return None
        clock = table["clock"]
        period = period_of(clock) if isinstance(clock, str) else None
        if period is None:
            self.mistakes.add(("timing", "clock"), "timing.clock = %s is not a clock" % value_words(clock), CLOCK_WORDS, 'write it as in clock = "200 MHz"')
        self.clock = clock
        return period

    def cycles(self, key, value, period, has_clock):
        """The cycles of a timing number, which is a number of cycles, or a time where there is a clock."""
        path, fits = ("timing", key), TIMING_RANGES[key]
        time = time_of(value) if isinstance(value, str) else None
        if time is None and isinstance(value, str) and not value.strip().isdecimal():
            what = "timing.%s = %s is neither a number of cycles nor a time" % (key, value_words(value))
            self.mistakes.add(path, what, "a whole number of cycles, or, with a clock, %s" % TIME_WORDS, "write it as in %s = %d" % (key, fits.lowest))
            return None
        if time is None:
            return self.whole(path, value, fits.lowest, fits.highest, self.mend_range(key))
        if not has_clock:
            mend = 'add a clock to [timing], as in clock = "200 MHz", or write cycles'
            self.mistakes.add(path, 'timing.%s = "%s" is a time, and there is no clock' % (key, value), "a whole number of cycles; times with a clock alone", mend)
        if period is None:
            return None
        converted = Converted(key, value, time / period, period)
        self.converted.append(converted)
        if not fits.lowest <= converted.cycles <= fits.highest:
            what = 'timing.%s = "%s", which is %d cycles, is out of range' % (key, value, converted.cycles)
            self.mistakes.add(path, what, "%d to %d cycles" % (fits.lowest, fits.highest), self.mend_range(key, converted.cycles > fits.highest))
            return None
        return converted.cycles

    def mend_range(self, key, too_long=False):
        fits = TIMING_RANGES[key]
        if too_long:
            return "take a slower clock for the controller (each cycle longer), or a shorter time"
        left_out = "" if key in NEEDED_TIMING_KEYS else ", or take the line out: there is one rank then"
        return "give %s a number of cycles, %d to %d%s" % (key, fits.lowest, fits.highest, left_out)

    def compare(self, table, timing):
        """Tells timing numbers that do not go together."""

        def said(key):
            written = value_words(table[key])
            return "%s = %s" % (key, written) + (", %d cycles," % timing[key] if isinstance(table[key], str) else "")

        def beside(key):
            return said(key).rstrip(",") + self.line_words(("timing", key))

        dead, turn, answer, column = (timing.get(key) for key in ("dead_time", "turn_length", "answer_delay", "column_delay"))
        gaps = [key for key in GAP_KEYS if dead is not None and timing.get(key, 0) > dead]
        if gaps:
            names = dict(TIMING)
            longest = max(timing[key] for key in gaps)
            which = _listed("the %s, %s" % (names[key], beside(key)) for key in gaps)
            mend = "raise dead_time to %d (with turn_length above it), or lower %s to %d" % (longest, _listed(gaps), dead)
            self.mistakes.add(("timing", "dead_time"), "timing.%s is smaller than %s" % (said("dead_time"), which), "2 to %d, and at least every gap" % HIGHEST_DEAD, mend)
        if dead is not None and turn is not None and dead >= turn:
            mend = "raise turn_length to %d or more, or lower dead_time" % (dead + 1)
            self.mistakes.add(("timing", "dead_time"), "timing.%s is not below %s" % (said("dead_time"), beside("turn_length")), TIMING_RANGES["dead_time"].words(), mend)
        if dead is not None and answer is not None and answer > dead:
            mend = "raise dead_time to %d (with turn_length above it), or lower answer_delay to %d" % (answer, dead)
            self.mistakes.add(("timing", "answer_delay"), "timing.%s is above %s" % (said("answer_delay"), beside("dead_time")), TIMING_RANGES["answer_delay"].words(), mend)
        if answer is not None and column is not None and column >= answer:
            mend = "lower column_delay to %d, or raise answer_delay" % (answer - 1)
            what = "timing.%s is not below %s" % (said("column_delay"), beside("answer_delay"))
            self.mistakes.add(("timing", "column_delay"), what, TIMING_RANGES["column_delay"].words(), mend)

    # Classes

    def count(self, classes):
        if not classes:
            self.mistakes.add(("class",), "there is no class", "1 to %d classes" % CLASSES, "add a table such as [class.base]")
        if len(classes) > CLASSES:
            over = list(classes)[CLASSES]
            what = "there are %d classes: [class.%s] is one too many" % (len(classes), over)
            self.mistakes.add(("class", over), what, "1 to %d classes" % CLASSES, "take out %d, or make some of them one" % (len(classes) - CLASSES))

    def classes(self, classes):
        """By name: the classes that each was said to lie above, the minimums, and the numbers that were asked for. Those with a mistake are left out of the last two."""
        above, minimums, asked = {}, {}, {}
        for name, table in classes.items():
            path = ("class", name)
            if not NAME.match(name):
                self.mistakes.add(path, "class.%s: %r is not a name" % (name, name), NAME_WORDS, "rename the class")
            above[name], asked[name] = [], None
            if not isinstance(table, dict):
                self.mistakes.add(path, "class.%s = %s is not a table" % (name, value_words(table)), "a table [class.%s]" % name, "write [class.%s], with its keys below" % name)
                continue
            meant = self.mistakes.unknown_keys(path, table, CLASS_KEYS, "in a class")
            # A mistyped `above` does not make this a class with nothing below.
            above[name] = [None] if "above" in meant else self.above(name, table.get("above", []), classes)
            minimum = self.whole(path + ("minimum",), table.get("minimum", 0), 0, LONGEST_EPOCH, "give the minimum in turns of an epoch")
            if minimum is not None:
                minimums[name] = minimum
            if "number" in table:
                highest = min(len(classes), CLASSES) - 1
                mend = "give a number below the number of classes, or take the line out: the place in the file counts then"
                asked[name] = self.whole(path + ("number",), table["number"], 0, highest, mend)
        return above, minimums, asked

    def above(self, name, value, classes):
        """The classes that a class was said to lie above. Unknown ones are told and stay, so that this class does not pass for one with nothing below."""
        path = ("class", name, "above")
        allowed = 'a list of other classes, as in above = ["base"]'
        if not isinstance(value, list):
            mend = "write above = [%s]" % value_words(value) if isinstance(value, str) else "write a list of class names"
            self.mistakes.add(path, "class.%s.above = %s is not a list" % (name, value_words(value)), allowed, mend)
            return [value] if isinstance(value, str) and value in classes else [None]
        for other in value:
            if not isinstance(other, str):
                self.mistakes.add(path, "class.%s.above: %s is not a class name" % (name, value_words(other)), allowed, "write the class's name in quotes")
            elif other not in classes:
                like = nearest(other, [known for known in classes if known != name])
                mend = "write %s, if that is meant, or add [class.%s]" % (like, other) if like else "add [class.%s], or take it out" % other
                known = ", ".join(known for known in classes if known != name) or "none: this is the only class"
                line = self.mistakes.places.line_of_word(path, other)
                self.mistakes.add(path, "class.%s.above: there is no class %s" % (name, other), known, mend, line)
            elif other == name:
                self.mistakes.add(path, "class.%s.above names %s itself" % (name, name), allowed, "take it out: each class may flow to itself anyway")
        return [other if isinstance(other, str) else None for other in value if other != name]

    def order(self, above):
        """Tells cycles, each class by class, and where there is no least class."""
        told = set()
        for name in above:
            cycle = None if name in told else _cycle(name, above)
            if cycle:
                told.update(_reach(name, above) & {other for other in above if name in _reach(other, above)})
                lines = ", ".join("%s: line %s" % (other, self.mistakes.places.line(("class", other, "above"))) for other in cycle[:-1])
                what = "the classes go round in a circle: %s (%s)" % (" above ".join(cycle), lines)
                allowed = "an order: no class above itself, by whatever way"
                self.mistakes.add(("class", name, "above"), what, allowed, "take one of these out of an `above`, or make these classes one")
        bottom = [name for name, others in above.items() if not others]
        if len(bottom) > 1:
            what = "there is no least class: nothing is said to lie below %s" % _listed(bottom)
            allowed = "one class below all others, which may flow to every class"
            mend = 'add a class below them, as in [class.base], and above = ["base"] to each; or put all but one of them above another class'
            self.mistakes.add(("class", bottom[1]), what, allowed, mend)

    def numbers(self, asked):
        """The class numbers by name: those asked for, and for the other classes the numbers left over, by place in the file."""
        taken = {}
        for name, number in asked.items():
            if number is not None and number in taken:
                what = "class.%s.number = %d is the number of %s too%s" % (name, number, taken[number], self.line_words(("class", taken[number], "number")))
                mend = "give one of them another, or take the lines out: the place in the file counts then"
                self.mistakes.add(("class", name, "number"), what, "each number once, 0 to %d" % (len(asked) - 1), mend)
            elif number is not None:
                taken[number] = name
        free = (number for number in range(len(asked)) if number not in taken)
        return {name: asked[name] if asked[name] is not None else next(free, None) for name in asked}

    def sum(self, epoch, minimums):
        total = sum(minimums.values())
        if epoch is None or total <= epoch:
            return
        parts = ", ".join("%s %d" % (name, minimum) for name, minimum in minimums.items() if minimum)
        if total <= LONGEST_EPOCH:
            mend = "raise epoch to %d or more, or lower the minimums by %d in all" % (total, total - epoch)
        else:
            mend = "lower the minimums by %d in all (an epoch has at most %d turns)" % (total - epoch, LONGEST_EPOCH)
        self.mistakes.add(("epoch",), "epoch = %d is less than the minimums' sum, %d (%s)" % (epoch, total, parts), "a sum of minimums of at most the epoch", mend)

    def text(self, epoch, timing, above, minimums, numbers):
        """The policy, once there are no mistakes. A class may flow to itself and to each class that reaches it by `above`."""
        by_number = sorted(above, key=numbers.get)
        rows = [class_mask(i) for i in range(len(by_number))]
        for name in by_number:
            for below in _reach(name, above):
                rows[numbers[below]] |= class_mask(numbers[name])
        policy = Policy(rows, epoch, [minimums[name] for name in by_number], [timing[key] for key in TIMING_KEYS if key in timing])
        return PolicyText(policy, Names({numbers[name]: name for name in by_number}, policy.ranks > 1), self.clock, self.converted)


def _reach(name, above):
    """The classes that a class lies above, by however many steps."""
    reached, todo = set(), list(above[name])
    while todo:
        other = todo.pop()
        if other in above and other not in reached:
            reached.add(other)
            todo += above[other]
    return reached


def _cycle(name, above):
    """A shortest way from a class back to itself, as a list from it to it; None where there is none."""
    ways, seen = [[name]], set()
    while ways:
        way = ways.pop(0)
        for other in above[way[-1]]:
            if other == name:
                return way + [name]
            if other in above and other not in seen:
                seen.add(other)
                ways.append(way + [other])
    return None


def read_policy_text(path):
    """The policy of a text. Mistakes end the command, all of them told."""
    return _Reader(path).read()


def names_for_text(policy, names):
    """A name for each class, made up where there is none."""
    known = {number: names.by_number[number] for number in range(policy.classes) if number in names.by_number}
    for number in range(policy.classes):
        name = known.get(number, "class_%d" % number)
        while name in [other for place, other in known.items() if place != number]:
            name += "_"
        known[number] = name
    return Names(known, names.with_ranks)


def text_of(policy, names, ordered=True):
    """A policy as a text, from which the same bytes are made. Classes stand by rising number, so that none has to be given. `above` has the classes directly below; where
    the flows are no order (`ordered` is False), every class below, so that none of the flows is lost."""
    names = names_for_text(policy, names)
    lines = ["epoch = %d" % policy.epoch, "", "[timing]"]
    lines += ["%s = %d" % item for item in zip(TIMING_KEYS, policy.timing)]
    for number in range(policy.classes):
        lines += ["", "[class.%s]" % names.of(number)]
        below = [other for other in policy.below(number) if not ordered or number in policy.covers(other)]
        if below:
            lines.append("above = [%s]" % ", ".join('"%s"' % names.of(other) for other in below))
        if policy.minimums[number]:
            lines.append("minimum = %d" % policy.minimums[number])
    return "\n".join(lines) + "\n"
