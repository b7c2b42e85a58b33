"""Any file taken apart as a policy file: each byte with its value, what it is, what is allowed, and which refusal number it brings about and why. This explains the proved
reader's answer and does not replace it: the number at the end is always the reader's."""

from dataclasses import dataclass, field

from .formats import CLASSES, REFUSALS, WRONG_TIMING
from .minimums import plan_words
from .policies import BODIES_START, ENTRY_KINDS, LARGEST_FILE, TIMING, TIMING_KEYS, TIMING_LENGTHS, Names, Policy
from .policy_ranges import LONGEST_EPOCH, TIMING_RANGES
from .sign_off import rank_words
from .tables import aligned

SMALLEST, LARGEST = 17, 65_535
# So many faults of one number are told, and so many bytes of a stretch without meaning are shown.
TOLD = 6
SHOWN = 8


@dataclass
class Field:
    """A number of the file. `value` is None where the file ends inside it, or where the bytes have no meaning."""

    part: str
    offset: int
    size: int
    value: int
    allowed: str
    what: str
    # Whether it can be judged by itself, even if the file's numbers cannot all be read.
    judged: bool = False


@dataclass(frozen=True)
class Fault:
    """What a refusal number is about: the offsets of the fields at fault, why, and what would mend it."""

    number: int
    offsets: tuple
    why: str
    mend: str


@dataclass
class Layout:
    """A file taken apart. `policy` is None where its numbers cannot all be read."""

    data: bytes
    names: Names
    fields: list = field(default_factory=list)
    faults: list = field(default_factory=list)
    policy: Policy = None

    def take(self, part, offset, size, allowed, what):
        """Adds the number at an offset, as far as the file goes, and hands it back."""
        if offset >= len(self.data):
            return None
        there = self.data[offset : offset + size]
        value = int.from_bytes(there, "little") if len(there) == size else None
        self.fields.append(Field(part, offset, len(there), value, allowed, what if value is not None else what + ": the file ends inside it", part == "contents"))
        return value

    def rest(self, part, offset, end, what):
        """Adds a stretch of bytes that have no meaning."""
        if offset < min(end, len(self.data)):
            self.fields.append(Field(part, offset, min(end, len(self.data)) - offset, None, "", what))

    def fault(self, number, offsets, why, mend):
        self.faults.append(Fault(number, tuple(offsets), why, mend))


def _entry_offsets(place):
    """Where an entry's kind, start and length stand."""
    first = 1 + 5 * place
    return first, first + 1, first + 3


def _class_count(layout, entries):
    """The number n. It stands at byte 16, unless the contents table is sound and gives the order no byte at all."""
    if len(layout.data) <= BODIES_START or (not layout.faults and entries[0][2] == 0):
        return None
    return layout.data[BODIES_START]


def _contents(layout):
    """The contents table, with what 1 asks of it; hands back the entries as kind, start and length."""
    size, entries = len(layout.data), []
    if not SMALLEST <= size <= LARGEST:
        mend = "the file is cut or empty: make it anew" if size < SMALLEST else "this is no policy file: the largest there is has %d bytes" % LARGEST_FILE
        layout.fault(1, (), "the file has %d bytes, and a policy file has %d to %s" % (size, SMALLEST, format(LARGEST, ",")), mend)
    bodies = layout.take("contents", 0, 1, "3", "how many bodies there are")
    if bodies is not None and bodies != len(ENTRY_KINDS):
        layout.fault(1, (0,), "byte 0 is %d, and there are always 3 bodies" % bodies, "write 3 into byte 0")
    expected = BODIES_START
    for place, kind_name in enumerate(ENTRY_KINDS):
        at_kind, at_start, at_length = _entry_offsets(place)
        kind = layout.take("contents", at_kind, 1, str(place + 1), "entry %d: kind (1 order, 2 turns, 3 timing)" % (place + 1))
        start = layout.take("contents", at_start, 2, "16" if place == 0 else "%s, the end of the body before" % expected, "entry %d, %s: start" % (place + 1, kind_name))
        length = layout.take("contents", at_length, 2, "", "entry %d, %s: length" % (place + 1, kind_name))
        entries.append((kind, start, length))
        if kind is not None and kind != place + 1:
            why = "byte %d, the kind of entry %d, is %d, and must be %d (%s)" % (at_kind, place + 1, kind, place + 1, kind_name)
            layout.fault(1, (at_kind,), why, "write %d into byte %d" % (place + 1, at_kind))
        if start is not None and start != expected:
            why = "the %s body starts at %d by bytes %d and %d, and must start at %s" % (kind_name, start, at_start, at_start + 1, expected)
            layout.fault(1, (at_start,), why, "the bodies abut from byte 16 on: write each start as the end of the body before")
        expected = "?" if start is None or length is None else start + length
    if expected != "?" and expected != size:
        why = "the timing body ends at %d by the contents, and the file at %d" % (expected, size)
        mend = "take out what is behind it" if expected < size else "add what is missing, or mend the length"
        layout.fault(1, (_entry_offsets(2)[2],), why, "the last body ends the file: %s" % mend)
    return entries


def _lengths(n):
    """The lengths that the three bodies of n classes may have."""
    return (1 + 2 * n,), (1 + n,), TIMING_LENGTHS


def _fit(lengths, n):
    return all(length in allowed for length, allowed in zip(lengths, _lengths(n)))


def _lengths_by_count(n, size):
    """The bodies' lengths where the contents table does not say them. The timing has the longer one of its lengths if the file ends with that."""
    (order,), (turns,), (shorter, longer) = _lengths(n)
    return order, turns, longer if size - BODIES_START - order - turns == longer else shorter


def _sizes(layout, entries, n):
    """What 2 asks: n, and the lengths that go with it. Fills in what lengths are allowed."""
    formulas = ("1 + 2n", "1 + n", "%d, or %d with a rank gap" % TIMING_LENGTHS)
    sound = n is not None and 1 <= n <= CLASSES
    fitting = next((count for count in range(1, CLASSES + 1) if _fit([length for _, _, length in entries], count)), None)
    mend_count = "write the number of classes into byte 16" if fitting is None else "write %d into byte 16: the lengths are those of %d classes" % (fitting, fitting)
    if n is None and len(layout.data) > BODIES_START:
        layout.fault(2, (_entry_offsets(0)[2],), "the order body has no byte, so there is no n", "the order's length is 1 + 2n")
    elif n is not None and not sound:
        layout.fault(2, (BODIES_START,), "n, byte %d, is %d, and a policy has 1 to 16 classes" % (BODIES_START, n), mend_count)
    for place, (_, _, length) in enumerate(entries):
        offset = _entry_offsets(place)[2]
        for known in layout.fields:
            if known.offset == offset:
                known.allowed = formulas[place] if not sound or place == 2 else "%s = %d" % (formulas[place], *_lengths(n)[place])
                known.judged = sound
        if length is not None and sound and length not in _lengths(n)[place]:
            must = formulas[place] if place == 2 else "%s = %d, since n is %d" % (formulas[place], *_lengths(n)[place], n)
            mend = "where n is wrong, %s; else mend the length and the body: a class has a row of 2 bytes and a minimum of 1" % mend_count
            if place == 2:
                mend = "give the timing body its %d numbers, or %d with the rank gap, and write that as its length" % TIMING_LENGTHS
            layout.fault(2, (offset,), "the %s body has a length of %d by bytes %d and %d, and must have %s" % (ENTRY_KINDS[place], length, offset, offset + 1, must), mend)
    return sound


def _bodies(layout, entries, n, sound):
    """The three bodies. A sound contents table says where they are; else n does, which stands at byte 16. Hands back the numbers that were read and where."""
    by_table = not any(fault.number == 1 for fault in layout.faults)
    if not by_table and not sound:
        layout.take("order", BODIES_START, 1, "1 to 16", "n, the number of classes")
        layout.rest("order", BODIES_START + 1, len(layout.data), "not read: neither the contents table nor n says what stands here")
        return None
    lengths = [length for _, _, length in entries] if by_table else _lengths_by_count(n, len(layout.data))
    at_order, at_turns = BODIES_START, BODIES_START + lengths[0]
    at_timing = at_turns + lengths[1]
    end = at_timing + lengths[2]
    if lengths[0] > 0:
        layout.take("order", at_order, 1, "1 to 16", "n, the number of classes")
    rows = _rows(layout, at_order + 1, at_turns, n)
    epoch = layout.take("turns", at_turns, 1, "1 to 64", "E, the turns of an epoch") if lengths[1] else None
    given = range(min(CLASSES, max(0, lengths[1] - 1)))
    minimums = [layout.take("turns", at_turns + 1 + i, 1, "sum at most E", "minimum of %s" % layout.names.of(i)) for i in given]
    layout.rest("turns", at_turns + 1 + CLASSES, at_timing, "minimums of classes that there are none of")
    timing = [layout.take("timing", at_timing + place, 1, _timing_words(key), words) for place, (key, words) in enumerate(TIMING) if place < lengths[2]]
    layout.rest("timing", at_timing + len(TIMING), end, "more than the %d numbers of the timing" % len(TIMING))
    layout.rest("behind", end, len(layout.data), "behind the last body")
    if sound and _fit(lengths, n) and None not in rows + minimums + timing + [epoch]:
        return Policy(rows, epoch, minimums, timing), at_order + 1, at_turns, at_timing
    return None


def _rows(layout, first, end, n):
    """The rows of the order, each with the classes that it lets its class flow to."""
    rows = []
    for i in range(min(CLASSES, max(0, end - first) // 2)):
        own = "bit %d set" % i
        allowed = own + (", bits 0 to %d alone" % (n - 1) if n and n <= CLASSES else "")
        row = layout.take("order", first + 2 * i, 2, allowed, "row %d" % i)
        if row is not None:
            to = [layout.names.of(j) for j in range(CLASSES) if row >> j & 1]
            layout.fields[-1].what += ": %s may flow to %s" % (layout.names.of(i), ", ".join(to) or "nothing")
        rows.append(row)
    layout.rest("order", first + 2 * len(rows), end, "rows of classes that there are none of" if len(rows) == CLASSES else "half a row")
    return rows


def _timing_words(key):
    fits = TIMING_RANGES[key]
    words = dict(TIMING)
    if fits.other is None:
        return "%d to %d" % (fits.lowest, fits.highest)
    other = words[fits.other]
    if key == "dead_time":
        return "%d to %d, below the %s" % (fits.lowest, fits.highest, other)
    return "%d to the %s" % (fits.lowest, other) + (" less 1" if fits.strict else "")


def _order_faults(layout, policy, at_rows):
    """What 3 to 6 ask of the rows."""
    n, name = policy.classes, layout.names.of

    def row_at(i):
        return at_rows + 2 * i

    for i in range(n):
        beyond = [j for j in range(n, CLASSES) if policy.rows[i] >> j & 1]
        if beyond:
            why = "row %d (%s, byte %d) has bit %s set, and there are %d classes" % (i, name(i), row_at(i), ", ".join(map(str, beyond)), n)
            layout.fault(3, (row_at(i),), why, "clear bit %s of row %d" % (", ".join(map(str, beyond)), i))
        if not policy.flows(i, i):
            layout.fault(3, (row_at(i),), "row %d (%s, byte %d) lacks its own bit, %d" % (i, name(i), row_at(i), i), "set bit %d of row %d: each class may flow to itself" % (i, i))
    for i in range(n):
        for j in range(i + 1, n):
            if policy.flows(i, j) and policy.flows(j, i):
                why = "%s may flow to %s (row %d, bit %d) and %s to %s (row %d, bit %d)" % (name(i), name(j), i, j, name(j), name(i), j, i)
                layout.fault(4, (row_at(i), row_at(j)), why, "clear bit %d of row %d or bit %d of row %d, or make the two classes one" % (j, i, i, j))
    for i, j, k in ((i, j, k) for i in range(n) for j in policy.above(i) for k in policy.above(j) if not policy.flows(i, k)):
        words = (name(i), name(j), i, j, name(j), name(k), j, k, name(i), name(k), i, k)
        why = "%s may flow to %s (row %d, bit %d) and %s to %s (row %d, bit %d), but %s not to %s (row %d lacks bit %d)" % words
        layout.fault(5, (row_at(i),), why, "set bit %d of row %d, byte %d, or take one of the other two flows out" % (k, i, row_at(i) + k // 8))
    if policy.least is None:
        for i in range(n):
            missing = ", ".join(name(j) for j in range(n) if not policy.flows(i, j))
            mend = "let one class flow to all (set bits 0 to %d of its row), or add a class that does" % (n - 1)
            layout.fault(6, (row_at(i),), "%s is not the least: it may not flow to %s" % (name(i), missing), mend)


def _turn_faults(layout, policy, at_turns):
    """What 7 asks of the epoch and the minimums."""
    total = sum(policy.minimums)
    if not 1 <= policy.epoch <= LONGEST_EPOCH:
        why = "the epoch, byte %d, is %d turns, and must be 1 to %d" % (at_turns, policy.epoch, LONGEST_EPOCH)
        layout.fault(7, (at_turns,), why, "write the turns of an epoch into byte %d" % at_turns)
    if total > policy.epoch:
        given = [i for i in range(policy.classes) if policy.minimums[i]]
        parts = " + ".join("%d (%s)" % (policy.minimums[i], layout.names.of(i)) for i in given)
        why = "the minimums add up to %s = %d, and the epoch has %d turns" % (parts, total, policy.epoch)
        layout.fault(7, [at_turns + 1 + i for i in given], why, "lengthen the epoch, byte %d, or lower a minimum" % at_turns)


def timing_faults(numbers, called=lambda words, place: "the " + words):
    """What 8 asks of each timing number: of those that are out of range the place, the key, and why. `called` is what the number is called there."""
    timing, words = dict(zip(TIMING_KEYS, numbers)), dict(TIMING)
    for place, (key, value) in enumerate(timing.items()):
        fits = TIMING_RANGES[key]
        if not fits.fits(value, timing):
            beside = "" if fits.other is None else " (the %s is %d)" % (words[fits.other], timing[fits.other])
            yield place, key, "%s is %d, and must be %s%s" % (called(words[key], place), value, _timing_words(key), beside)


def _timing_faults(layout, policy, at_timing):
    """The same of each timing byte of the file."""
    for place, key, why in timing_faults(policy.timing, lambda words, place: "the %s, byte %d," % (words, at_timing + place)):
        layout.fault(WRONG_TIMING, (at_timing + place,), why, _timing_mend(key, policy.timing[place]))


def _timing_mend(key, value):
    """What to mend of a timing byte. A rank gap of 0 may be meant for none, and none is a byte less."""
    if key == "rank_gap" and value == 0:
        return "give the rank gap 1 cycle or more; or, for one rank, take its byte out, and write %d as the length of the timing body" % TIMING_LENGTHS[0]
    return REFUSALS[WRONG_TIMING].mend


def decode(data, names):
    """Takes a file apart, whatever it is."""
    layout = Layout(bytes(data), names)
    entries = _contents(layout)
    n = _class_count(layout, entries)
    sound = _sizes(layout, entries, n)
    read = _bodies(layout, entries, n, sound)
    if read:
        layout.policy, at_rows, at_turns, at_timing = read
        _order_faults(layout, layout.policy, at_rows)
        _turn_faults(layout, layout.policy, at_turns)
        _timing_faults(layout, layout.policy, at_timing)
    return layout


def _verdict(layout, known):
    """Whether a field is fine, or the numbers that it gets. Where a file's numbers cannot all be read, the bodies are not judged."""
    numbers = sorted({fault.number for fault in layout.faults if known.offset in fault.offsets})
    if numbers:
        return "gets " + ", ".join(map(str, numbers))
    return "fine" if known.value is not None and (layout.policy or known.judged) else "-"


PARTS = {"contents": "Contents table", "order": "Order", "turns": "Turns", "timing": "Timing", "behind": "Behind the bodies"}


def shown(layout, title):
    """The file byte by byte, as lines."""
    lines = ["%s: %s" % (title, "1 byte" if len(layout.data) == 1 else "%d bytes" % len(layout.data))]
    heads = ("offset", "bytes", "value", "verdict", "allowed", "what it is")
    rows = []
    for known in layout.fields:
        there = layout.data[known.offset : known.offset + min(known.size, SHOWN)].hex(" ").upper()
        if known.size > SHOWN:
            there += " .."
        value = "" if known.value is None else str(known.value)
        what = known.what if known.size <= 2 else "%d bytes: %s" % (known.size, known.what)
        rows.append((str(known.offset).rjust(6), there, value.rjust(5), _verdict(layout, known), known.allowed, what))
    head, *rows = aligned([heads, *rows], len(heads))
    part = None
    for known, row in zip(layout.fields, rows):
        if known.part != part:
            lines += ["", PARTS[known.part]] + [head] * (part is None)
            part = known.part
        lines.append(row)
    if layout.faults and layout.policy is None:
        lines += ["", "-: not judged, since n, the lengths and the contents do not go together"]
    return lines


def cycle_of(policy):
    """A shortest round of three or more classes, each of which may flow to the next, as numbers; None where there is none."""
    for first in range(policy.classes):
        ways, seen = [[first]], {first}
        while ways:
            way = ways.pop(0)
            for other in policy.above(way[-1]):
                if other == first and len(way) > 2:
                    return way
                if other not in seen:
                    seen.add(other)
                    ways.append(way + [other])
    return None


def _told(faults):
    """The reasons of some faults, not too many of them."""
    lines = [fault.why for fault in faults[:TOLD]]
    return lines + ["and %d more like these" % (len(faults) - TOLD)] * (len(faults) > TOLD)


def _cycle_words(layout):
    """For 5: the round that the classes go, where there is one, and why it does not get 4."""
    cycle = cycle_of(layout.policy)
    if cycle is None:
        return [], None
    names = [layout.names.of(number) for number in cycle]
    way = " to ".join(names + names[:1])
    why = "%d classes flow in a circle, %s: a cycle of three or more classes gets 5, not 4, since no two of them flow to each other directly" % (len(cycle), way)
    return [why], "take one flow of the circle out, or make its classes one; adding flows leads on to 4"


def answer_words(layout, status):
    """The proved reader's answer, and what explains it, as lines; of a policy that is taken, its plan of home turns, and its ranks."""
    if status == 0:
        policy, names = layout.policy, layout.names
        caps = ", ".join("%s %d" % (names.of(i), policy.cap(i)) for i in range(policy.classes))
        return ["The proved reader: taken (0). The least class is %s; caps: %s." % (names.of(policy.least), caps), plan_words(policy, names), *rank_words(policy)]
    lines = ["The proved reader: refused %d: %s." % (status, REFUSALS[status].when)]
    faults = [fault for fault in layout.faults if fault.number == status]
    reasons, mends = _told(faults), list(dict.fromkeys(fault.mend for fault in faults))[:TOLD]
    if status == 1 and len(faults) > 2:
        mends = [REFUSALS[1].mend]
    if status == 5 and layout.policy:
        cycle, mend = _cycle_words(layout)
        reasons = cycle + reasons
        mends = [mend] if mend else mends
    lines += ["  at fault: %s" % reason for reason in reasons or ["no single byte can be named"]]
    lines.append("  usual cause: %s" % REFUSALS[status].cause)
    lines += ["  to mend: %s" % mend for mend in mends or [REFUSALS[status].mend]]
    behind = sorted({fault.number for fault in layout.faults if fault.number > status})
    for number in behind:
        lines += ["  behind it, %d: %s" % (number, why) for why in _told([fault for fault in layout.faults if fault.number == number])]
    return lines
