"""`vig policy`: policies as text. check tells what a text means and its mistakes, make writes the file, show takes any file apart."""

import sys
from pathlib import Path

from .. import build
from ..clock import converted_words
from ..errors import Refused, Wrong
from ..folders import read_file, write_file
from ..order_drawing import dot_of, svg_of
from ..policies import names_beside
from ..policy_show import answer_words, decode, shown
from ..policy_text import read_policy_text, text_of
from ..sign_off import sign_off
from ..walks import bound_words, walk_bounds
from ..words import counted, policy_refusal_words


def _taken(text, path):
    """The bytes of a text, which the proved reader must take: its answer is what counts."""
    data = text.policy.to_bytes()
    status = build.library().read(data)
    if status != 0:
        raise Refused("%s: the text has no mistake that could be told, but the proved reader refuses its bytes: %s" % (path, policy_refusal_words(status)))
    return data


def _walk_lines(data, policy, names):
    """What the proved library says of the walks of a policy that it takes."""
    return bound_words(policy, names, walk_bounds(build.library(), data, policy.classes))


def check(arguments):
    text = read_policy_text(arguments.text)
    policy = text.policy
    print("%s: %s, an epoch of %s\n" % (arguments.text, counted(policy.classes, "class", "classes"), counted(policy.epoch, "turn")))
    print("\n".join(sign_off(policy, text.names)))
    if text.converted:
        print(converted_words(text.clock, text.converted) + "\n")
    data = _taken(text, arguments.text)
    print("\n".join(["How long walks may be", *("  " + line for line in _walk_lines(data, policy, text.names)), ""]))
    print("The proved reader: taken (0), %d bytes." % len(data))


def make(arguments):
    text = read_policy_text(arguments.text)
    out = Path(arguments.out) if arguments.out else Path(arguments.text).with_suffix(".bin")
    beside = out.with_suffix(".names")
    if out.resolve() == Path(arguments.text).resolve() or out == beside:
        raise Wrong("%s: the policy file needs a name of its own, as in policy.bin" % out)
    data = _taken(text, arguments.text)
    write_file(out, data)
    write_file(beside, text.names.text())
    if text.converted:
        print(converted_words(text.clock, text.converted), file=sys.stderr)
    print("%s: %d bytes, taken by the proved reader; the classes' names are in %s" % (out, len(data), beside), file=sys.stderr)


def _bytes_and_names(path):
    """The bytes of a policy file, or those made from a text, with the classes' names."""
    if Path(path).suffix == ".toml":
        text = read_policy_text(path)
        return text.policy.to_bytes(), text.names
    return read_file(path), names_beside(path)


def show(arguments):
    data, names = _bytes_and_names(arguments.file)
    status = build.library().read(data)
    layout = decode(data, names)
    answer = "\n".join(answer_words(layout, status))
    if arguments.form is None:
        walks = [] if status else _walk_lines(data, layout.policy, names)
        print("\n".join([*shown(layout, arguments.file), "", answer, *walks]))
        return 1 if status else 0
    needs = 3 if arguments.form == "toml" else 7
    if 0 < status < needs:
        missing = "no numbers that a text could have" if arguments.form == "toml" else "no order that could be drawn"
        raise Refused("%s: there are %s.\n%s" % (arguments.file, missing, answer))
    policy = layout.policy
    if arguments.form == "toml":
        note = "".join("# %s\n" % line for line in answer.splitlines()) + "\n" if status else ""
        sys.stdout.write(note + text_of(policy, names, status == 0 or status > 6))
    else:
        sys.stdout.write((dot_of if arguments.form == "dot" else svg_of)(policy, names))
    if status:
        print("vig: %s: %s" % (arguments.file, answer), file=sys.stderr)
    return 1 if status else 0


def add(commands):
    command = commands.add_parser(
        "policy",
        help="policies as text: check, make, show",
        description="Policies as text: check what one means, make the file from it, show any policy file byte by byte.",
        epilog="example:\n  vig policy check examples/cloud/policy.toml\n  vig policy make examples/cloud/policy.toml -o policy.bin\n  vig policy show examples/refused/policy.bin",
    )
    parts = command.add_subparsers(metavar="check|make|show", dest="part", required=True)
    part = parts.add_parser(
        "check",
        help="what a policy text means, for sign-off, and its mistakes",
        description="Prints the flows, minimums, caps, home turns, what they guarantee, timing, and how long walks may be of a policy text, and ends with the proved reader's answer. "
        "Mistakes are told all at once; it then ends with 1.",
        epilog="example:\n  vig policy check examples/two-tenants/policy.toml",
    )
    part.add_argument("text", metavar="F.toml", help="a policy text; docs/REFERENCE.md has its keys")
    part.set_defaults(run=check)
    part = parts.add_parser(
        "make",
        help="makes policy.bin and policy.names from a policy text",
        description="Makes the policy file from a text, and beside it the file of the classes' names. Nothing is written unless the proved reader takes the bytes.",
        epilog="example:\n  vig policy make examples/two-tenants/policy.toml -o policy.bin",
    )
    part.add_argument("text", metavar="F.toml", help="a policy text")
    part.add_argument("-o", dest="out", metavar="policy.bin", help="the file to write; without it, beside the text with .bin for .toml")
    part.set_defaults(run=make)
    part = parts.add_parser(
        "show",
        help="takes a policy file apart byte by byte, a refused one too",
        description="Shows each byte of a policy file (or of the file that a text makes): its value, what is allowed, and whether it is at fault;\n"
        "then the proved reader's answer, the home turns, and how long walks may be.",
        epilog="example:\n  vig policy show examples/refused/policy.bin\n  vig policy show examples/diamond/policy.bin --svg > order.svg",
    )
    part.add_argument("file", metavar="F", help="a policy.bin, or any file; a .toml is a policy text")
    forms = part.add_mutually_exclusive_group()
    forms.add_argument("--dot", dest="form", action="store_const", const="dot", help="print the order for Graphviz instead: an edge to each class directly above")
    forms.add_argument("--svg", dest="form", action="store_const", const="svg", help="print a drawing of the order instead, the least class at the bottom")
    forms.add_argument("--toml", dest="form", action="store_const", const="toml", help="print the policy as text instead; a refused one too, to be mended there")
    part.set_defaults(run=show)
