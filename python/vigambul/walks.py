"""How long a walk may be, which hardware must finish in one cycle (W-212): what the proved library says of each class, and what it comes to."""

from .errors import Refused
from .words import counted, refusal_words


def walk_bounds(library, policy_bytes, classes):
    """How many classes a walk from each class tries at most, by the proved library, of a policy that it takes."""
    bounds = []
    for number in range(classes):
        status, bound = library.walk_bound(policy_bytes, number)
        if status != 0:
            raise Refused("the bound of a walk from class %d: %s" % (number, refusal_words(status)))
        bounds.append(bound)
    return bounds


def longest_from(policy, bounds):
    """The class from which the longest walk may go, of those at which turns start: the least class, if turns start there, since every chain can begin at it."""
    return max(policy.starts, key=lambda number: bounds[number])


def bound_words(policy, names, bounds):
    """How many classes a walk from each class tries at most, and how many hardware must try in a cycle, as lines."""
    each = ", ".join("%s %d" % (names.of(number), bound) for number, bound in enumerate(bounds))
    first = longest_from(policy, bounds)
    whose = "the least class" if first == policy.least else "since no turn starts at %s, the least class" % names.of(policy.least)
    return [
        "A walk tries no more classes than the longest rising chain from its first class has, that class counted: from %s." % each,
        "In one cycle hardware must try at most %s, in a walk from %s, %s." % (counted(bounds[first], "class", "classes"), names.of(first), whose),
    ]
