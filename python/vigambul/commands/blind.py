"""`vig blind`: whether a class, or a set of classes that compare notes, can tell two traces apart that differ only in what it may not know."""

from .. import build
from ..blind import difference_words, first_difference, premise, premise_words
from ..blind_search import HEADS, Figures, drawn_sets, learnt_words, progress, searched
from ..class_sets import add_options, called, listed, members_of
from ..errors import Wrong
from ..folders import folder_at, run_folder, taken_file
from ..policies import names_beside, policy_of
from ..seen import seen_of
from ..tables import aligned


def compare(library, paths, of):
    """Two folders: first the premise, then the extracts."""
    folders = [folder_at(path) for path in paths]
    if folders[0].policy_bytes != folders[1].policy_bytes:
        raise Wrong("%s and %s differ: two traces of one policy are compared" % tuple(folder.path / "policy.bin" for folder in folders))
    runs = [run_folder(library, folder) for folder in folders]
    policy, names = runs[0].policy, runs[0].names
    members = members_of(of, names, policy.classes)
    who, whose = called(members, names), "its" if len(members) == 1 else "the set's"
    place = premise(policy, members, *(ran.trace for ran in runs))
    if place is not None:
        head = "the two traces do not agree for %s, so nothing is said of %s extracts; once what it may not know is struck out, they first differ here:" % (who, whose)
        raise Wrong("\n".join([head, *premise_words(policy, members, names, runs, place)]))
    sides = [seen_of(library, ran, members) for ran in runs]
    print("the two traces agree for %s: %d trace numbers are left of each" % (who, len(sides[0].words)))
    for seen in sides:
        print("  %s: %d of %d struck out" % (seen.ran.folder.path, seen.struck, len(seen.ran.trace)))
    place = first_difference(sides[0].numbers, sides[1].numbers)
    if place is None:
        print("%s extracts are equal: %d numbers each" % (whose, len(sides[0].numbers)))
        return 0
    print("%s extracts differ: %d and %d numbers" % (whose, *(len(seen.numbers) for seen in sides)))
    print("\n".join(difference_words(sides, place, names)))
    return 1


def searched_sets(arguments, names, classes):
    """The sets that a search takes one after the other: the one that is named, random ones, or all classes."""
    if arguments.sets:
        return drawn_sets(classes, arguments.search, arguments.seed)
    return [(number,) for number in range(classes)] if arguments.of is None else [members_of(arguments.of, names, classes)]


def search(library, path, arguments):
    """Random pairs on one policy."""
    data = taken_file(library, path)
    names, pairs, seed = names_beside(path), arguments.search, arguments.seed
    sets = searched_sets(arguments, names, policy_of(data).classes)
    figures = searched(library, data, names, sets, pairs, seed, progress(pairs))
    every = sum(figures.values(), Figures())
    rows = [(listed(members, names), *one.row) for members, one in figures.items()]
    head = "class" if all(len(members) == 1 for members in figures) else "set"
    print("\n".join(aligned([(head, *HEADS), *rows, ("all", *every.row)])))
    for words in learnt_words(figures, names, seed):
        print(words)
    print(every.told)
    return 1 if every.extracts_differ else 0


def run(arguments):
    if arguments.search is not None:
        if len(arguments.paths) != 1:
            raise Wrong("--search takes one policy, as in vig blind --search 1000 policy.bin")
        if arguments.search < 1:
            raise Wrong("--search %d: the number of pairs is 1 or more" % arguments.search)
        return search(build.library(), arguments.paths[0], arguments)
    if arguments.sets:
        raise Wrong("--sets goes with --search, as in vig blind --search 1000 policy.bin --sets")
    if len(arguments.paths) != 2 or arguments.of is None:
        raise Wrong("two folders and --class NAME are wanted, as in vig blind A B --class red; or --search N and a policy")
    return compare(build.library(), arguments.paths, arguments.of)


def add(commands):
    command = commands.add_parser(
        "blind",
        help="whether a class, or several together, can tell apart what they may not know",
        usage="vig blind [-h] A B (--class NAME [--class NAME ..] | --no-class)\n"
        "       vig blind [-h] --search N POLICY [--class NAME [--class NAME ..] | --no-class | --sets] [--seed S]",
        description="Two folders with one policy: first the premise, that their traces agree for the class once malformed words and offers of classes that there are none of "
        "or that may not flow to it are struck out (else 2); then whether its two extracts are equal (0) or where they first differ (1). Several classes are taken together, as those "
        "who compare notes: struck out is then what may flow to none of them. With --search the same for N random pairs of traces on one policy, made so that neighbours act as "
        "differently as they can.",
        epilog="examples:\n  vig blind examples/two-tenants examples/two-tenants-busy --class red\n"
        "  vig blind examples/compared-notes examples/compared-notes-busy --class red --class blue\n"
        "  vig blind --search 1000 examples/diamond/policy.bin\n  vig blind --search 1000 examples/diamond/policy.bin --sets",
    )
    command.add_argument("paths", nargs="+", metavar="PATH", help="two folders, A and B, with policy.bin and trace.bin; with --search one policy file")
    sets = add_options(command, required=False, without="; with --search all classes in turn, if none is given")
    sets.add_argument("--sets", action="store_true", help="with --search: sets of the policy's classes, drawn at random")
    command.add_argument("--search", metavar="N", type=int, help="tries N random pairs")
    command.add_argument("--seed", metavar="S", type=int, default=0, help="another seed gives other pairs (0, if not given)")
    command.set_defaults(run=run)
