"""A trace in words, number by number."""

from .formats import OFFER, OFFER_BITS, is_offer, is_tick
from .words import request_words


def runs_of(words):
    """A trace as (place, cycle, word, ticks): ticks in a row are one entry with their number, anything else has none. Places count from 1, as the log's lines do."""
    cycle, begun, ticks = 0, 0, 0
    for place, word in enumerate(words, 1):
        if is_tick(word):
            begun, ticks = (begun, ticks + 1) if ticks else (place, 1)
            continue
        if ticks:
            yield begun, cycle, 0, ticks
            cycle, ticks = cycle + ticks, 0
        yield place, cycle, word, 0
    if ticks:
        yield begun, cycle, 0, ticks


def malformed_words(word):
    """Why a trace number is neither a tick nor an offer."""
    stray = [str(bit) for bit in range(32) if (word & ~OFFER_BITS) >> bit & 1]
    parts = [] if word & OFFER else ["bit 31 is not set"]
    if len(stray) == 1:
        parts.append("bit %s is set, which belongs to no field" % stray[0])
    elif stray:
        parts.append("bits %s are set, which belong to no field" % ", ".join(stray))
    return "malformed: " + "; ".join(parts)


def _row(place, cycle, word, ticks, names):
    """The places of an entry, and what it is."""
    if ticks == 1:
        return str(place), "cycle %d: 1 tick" % cycle
    if ticks:
        return "%d to %d" % (place, place + ticks - 1), "cycles %d to %d: %d ticks" % (cycle, cycle + ticks - 1, ticks)
    return str(place), "offer %s" % request_words(word, names) if is_offer(word) else malformed_words(word)


def shown_lines(words, left_over, names):
    """A line for each trace number with its place and its hexadecimal digits; ticks in a row are one line."""
    width = len("%d to %d" % (len(words), len(words)))
    for place, cycle, word, ticks in runs_of(words):
        places, what = _row(place, cycle, word, ticks, names)
        yield "%s  %08X  %s" % (places.ljust(width), word, what)
    if left_over:
        yield "left over at the end: %s" % left_over.hex(" ").upper()
