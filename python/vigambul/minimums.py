"""What minimums and caps do and guarantee under the rules in force: document 01 with requests W-202, W-203 and W-209 of document 02. The one place that says it: a request that
changes the rules changes this text."""

from .formats import MOST_PASSED
from .words import counted

RULE = """The last turns of an epoch, as many as the minimums add up to, are home turns: class by class in rising number, each class as often as its minimum. A home turn is
its class's if a request of that class waits as the turn starts; that needs no turns left and costs none. If none waits, the turn goes on up from that class (one with
nothing above it keeps the turn), and is not saved up. All other turns start at the least class. A minimum also lowers the cap of each class strictly below by as many
turns: a cap is the epoch less the minimums of all classes strictly above, and no class owns more turns of an epoch than its cap. A minimum of 0 gives no home turn."""

# When a request of a class must wait, by the number of its home turns.
STARTS = {1: "as that turn starts", 2: "as both of these start"}


def given(policy):
    """The classes with a minimum."""
    return [number for number in range(policy.classes) if policy.minimums[number]]


def places(turns):
    """Turns of an epoch in a row, in words: '4', '4 and 5', '4 to 7'."""
    first, last = turns[0], turns[-1]
    return str(first) if first == last else "%d %s %d" % (first, "and" if last == first + 1 else "to", last)


def plan_words(policy, names):
    """Where the walk of each turn of an epoch starts."""
    parts = []
    if policy.free_turns:
        starts = "starts" if policy.free_turns == 1 else "start"
        parts.append("%s %s at %s, the least class" % (places(range(policy.free_turns)), starts, names.of(policy.least)))
    homes = ["%s of %s" % (places(policy.home_turns(number)), names.of(number)) for number in given(policy)]
    parts.append("home turns are %s" % ", ".join(homes) if homes else "there are no home turns")
    return "The turns of an epoch, from 0 on: %s." % "; ".join(parts)


def class_words(policy, names, number):
    """What a class with a minimum may count on in an epoch."""
    minimum = policy.minimums[number]
    homes = "%s %s of %s" % ("home turn" if minimum == 1 else "home turns", places(policy.home_turns(number)), places(range(policy.epoch)))
    if minimum == policy.epoch:
        homes = "every turn is its home turn"
    least = "at least %s of an epoch in which it has a request waiting %s" % (counted(minimum, "turn"), STARTS.get(minimum, "as each of these starts"))
    return "%s, minimum %d: %s. It owns %s, and at most %d of any, its cap" % (names.of(number), minimum, homes, least, policy.cap(number))


def least_words(policy, names):
    """What the least class may count on in an epoch, beside what its minimum gives: none or one promise."""
    name, cap = names.of(policy.least), policy.cap(policy.least)
    if policy.classes == 1:
        return ["%s, the one class, owns every turn" % name]
    if cap == 0:
        return ["%s, the least class, owns no turn: the home turns of others fill the epoch, and its cap is 0" % name]
    if cap == policy.minimums[policy.least]:
        return []  # a minimum that is the cap says it already
    starts = "as each of the %d turns starts" % policy.epoch
    return ["%s, the least class, owns exactly %s, its cap, of an epoch in which it has a request waiting %s" % (name, counted(cap, "turn"), starts)]


def wait_words(policy):
    """How long a class with a minimum waits for a turn of its own, and for a request of its own to go out; and how many others go before its oldest: the same for all of them."""
    turns = "that turn (%s)" if policy.epoch == 1 else "one of the %d turns (%%s) from that one on, if the run has so many turns" % policy.epoch
    own = "A class with a minimum that has a request waiting as a turn starts owns %s" % (turns % counted(policy.epoch * policy.turn, "cycle"))
    enough = policy.turn >= 2 * policy.dead
    length = "A turn (%s) is %s twice the dead time (%d)" % (counted(policy.turn, "cycle"), "at least" if enough else "less than", policy.dead)
    goes = "a request of the class goes out in that turn of its own"
    oldest = "While a request is the oldest of its class, at most %d others of the class go out before it" % MOST_PASSED
    return [own, "%s, so %s" % (length, goes + ", if the run goes on to that turn's end" if enough else "it is not promised that " + goes), oldest]


def none_words(policy, names):
    """What classes may count on where none has a minimum."""
    if policy.classes == 1:
        return "Here the one class has no minimum: there are no home turns; it owns every turn; its cap is the epoch, %d." % policy.epoch
    owns = "every turn starts at %s, which owns it if a request of its own waits, and no other class is guaranteed a turn" % names.of(policy.least)
    return "Here no class has a minimum: there are no home turns; %s; every cap is the epoch, %d." % (owns, policy.epoch)


def minimum_words(policy, names):
    """The rule, and what it comes to here."""
    lines = RULE.splitlines()
    if not given(policy):
        return lines + [none_words(policy, names)]
    promises = [class_words(policy, names, number) for number in given(policy)] + least_words(policy, names) + wait_words(policy)
    return lines + ["Here, in every run and whatever the other classes do:"] + ["- %s." % promise for promise in promises]
