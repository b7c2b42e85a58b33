"""Requests, turns, refusals and whole calls in words, with the classes' names."""

from .formats import CLASSES, KINDS, REFUSALS, is_column, is_elided, is_offer, is_tick, owner_of, request_of, starts_turn, walk_of

# Said of two logs that differ in this field of turn numbers alone.
ONLY_IN_WALK = "only in how many classes the walk tried"


def counted(number, thing, things=None, form="d"):
    """A number of things, as in '1 entry' and '12 cycles'."""
    return "%s %s" % (format(number, form), thing if number == 1 else things or thing + "s")


def cycles_words(first, last):
    """The cycles from one to another, both counted."""
    return "cycle %d" % first if first == last else "cycles %d to %d" % (first, last)


def request_words(word, names):
    """A request: its class, kind, rank, bank and tag. The rank is said where the policy has four, and where it is not 0. Numbers that no request may have are shown as they are."""
    request = request_of(word)
    kind = KINDS[request.kind] if request.kind < len(KINDS) else "kind %d" % request.kind
    rank = "rank %d " % request.rank if names.with_ranks or request.rank else ""
    return "%s %s %sbank %d tag %d" % (names.of(request.class_), kind, rank, request.bank, request.tag)


def command_words(command, names, older=0):
    """A command: what it is, its request, and how many older requests of its class wait on as it passes them."""
    if command == 0:
        return "nothing"
    passing = ", passing %d older" % older if older else ""
    return "%s %s%s" % ("column" if is_column(command) else "activate", request_words(command, names), passing)


def turn_parts(owner, walk, elided, names):
    """A turn's owner, how many classes its walk tried, and its dead time. A walk of 1 is not said: the class at which the turn starts is its owner then, which tells as much."""
    return [names.of(owner)] + ["walk of %d" % walk] * (walk != 1) + ["dead time %s" % ("dropped" if elided else "kept")]


def turn_words(turn, names, home=None):
    """A turn number: whose turn starts, whose home turn it is, if that is handed in, its walk and its dead time. An extract hides the turns of others."""
    owner = owner_of(turn)
    if not 0 <= owner < CLASSES:
        return "turn of a class that may not be seen"
    parts = turn_parts(owner, walk_of(turn), is_elided(turn), names)
    if home is not None:
        parts.insert(1, "its home turn" if home == owner else "home turn of %s" % names.of(home))
    return "turn of " + ", ".join(parts)


def refusal_words(status):
    """A call's refusal: its number, and when it is given."""
    return "refused %d: %s" % (status, REFUSALS[status].when if status in REFUSALS else "no such number")


def policy_refusal_words(number):
    """A policy's refusal: its number, when it is given, and what to do about it."""
    refusal = REFUSALS[number]
    return "policy refused %d: %s. Usual cause: %s. To mend: %s." % (number, refusal.when, refusal.cause, refusal.mend)


def trace_words(word, names):
    """A trace number by itself."""
    if is_tick(word):
        return "tick"
    if is_offer(word):
        return "offer %s" % request_words(word, names)
    return "malformed %08X" % word


def tick_words(command, response, turn, names, home=None, older=0):
    """What a tick shows, with the class whose home turn starts, if there is one, and how many older requests its activate passes; empty where it shows nothing."""
    parts = []
    if starts_turn(turn):
        parts.append(turn_words(turn, names, home))
    if command:
        parts.append(command_words(command, names, older))
    if response:
        parts.append("answer %s" % request_words(response, names))
    return "; ".join(parts)


def call_words(call, names, policy=None, older=0):
    """A call and what it showed, as in 'cycle 4: turn of red, dead time kept; activate red read bank 3 tag 1'. With the policy it is said too whose home turn starts, and with the
    number of older requests that its activate passes, that it does."""
    where = "cycle %d" % call.cycle
    if call.status != 0:
        return "%s: %s: %s" % (where, trace_words(call.word, names), refusal_words(call.status))
    if is_tick(call.word):
        home = policy.home(call.cycle // policy.turn) if policy and starts_turn(call.turn) else None
        return "%s: %s" % (where, tick_words(call.command, call.response, call.turn, names, home, older) or "nothing")
    return "%s: %s: taken" % (where, trace_words(call.word, names))
