"""Sets of classes, for those who compare notes (W-211): as a command line gives them, and how they are called. A set is a tuple of class numbers that rise; a class alone is a set
of one."""


def add_options(command, required, without=""):
    """The options that give a command its set, of which one alone may be there, and what is done without any; hands their group back. `of` is then the names, or None."""
    group = command.add_mutually_exclusive_group(required=required)
    several = "a class's name, or its number; given again, the set of these classes: what may flow to at least one of them" + without
    group.add_argument("--class", dest="of", metavar="NAME", action="append", help=several)
    group.add_argument("--no-class", dest="of", action="store_const", const=(), help="the empty set: the ticks alone, with nothing of any class")
    return group


def members_of(of, names, classes):
    """The set that names give; a class that is named twice is in it once."""
    return tuple(sorted({names.number(name, classes) for name in of}))


def called(members, names):
    """A set in a sentence, as in 'red', 'red and blue together', 'red, blue and green together'."""
    if not members:
        return "the empty set"
    *others, last = map(names.of, members)
    return "%s and %s together" % (", ".join(others), last) if others else last


def listed(members, names):
    """A set in a table."""
    return ", ".join(map(names.of, members)) or "no class"
