"""TOML texts that people write: reading one, the line of a key, and mistakes told all at once, each with its place, what is allowed and what to mend."""

import difflib
import re
import tomllib
from dataclasses import dataclass

from .errors import Refused
from .folders import read_file

_HEADER = re.compile(r"\s*\[(\[?)([^\[\]]+)\]\]?\s*(#.*)?\Z")
_KEY = re.compile(r"""\s*((?:[A-Za-z0-9_-]+|"[^"]*"|'[^']*')(?:\s*\.\s*(?:[A-Za-z0-9_-]+|"[^"]*"|'[^']*'))*)\s*=""")
_PART = re.compile(r"""[A-Za-z0-9_-]+|"[^"]*"|'[^']*'""")
_TWICE = re.compile(r"Cannot declare (\(.*\)) twice")
# A longer number is not written out again: TOML has none of more than 64 bits.
LONGEST_NUMBER = 64
# A value may be as long as its file; of one that would fill the screen both ends are told.
LONGEST_WHAT = 2_000
_AT = re.compile(r" \(at (?:line (\d+), column (\d+)|end of document)\)\Z")


def _parts(dotted):
    return tuple(part.strip("\"'") for part in _PART.findall(dotted))


class Places:
    """The lines where the keys of a text stand. The reader of TOML gives none, so they are looked for in the text; a key that is not found has the line of the table around it.
    Tables in a row, as in [[stream]], are told apart by a number from 0 behind their name: ("stream", 1, "every")."""

    def __init__(self, text):
        self.lines = text.splitlines()
        self.found = {}
        table, rows = (), {}
        for place, line in enumerate(self.lines, 1):
            header, key = _HEADER.match(line), _KEY.match(line)
            if header:
                table = _parts(header.group(2))
                if header.group(1):
                    rows[table] = rows.get(table, -1) + 1
                    table += (rows[table],)
                self.found.setdefault(table, place)
            elif key:
                self.found.setdefault(table + _parts(key.group(1)), place)

    def line(self, path):
        """The line of a key, given by the tables that it stands in and itself; None where nothing of it is found."""
        while path and path not in self.found:
            inside = [place for known, place in self.found.items() if known[: len(path)] == path]
            if inside:
                return min(inside)
            path = path[:-1]
        return self.found.get(path)

    def line_of_word(self, path, word):
        """The line of a string inside a key's value, which may go over several lines."""
        first = self.line(path)
        for place in range(first or 1, len(self.lines) + 1):
            if '"%s"' % word in self.lines[place - 1] or "'%s'" % word in self.lines[place - 1]:
                return place
        return first


def value_words(value):
    """A value as a TOML text writes it."""
    if isinstance(value, bool):
        return "true" if value else "false"
    if isinstance(value, str):
        return '"%s"' % value
    if isinstance(value, list):
        return "[%s]" % ", ".join(value_words(item) for item in value)
    if isinstance(value, dict):
        return "a table"
    if isinstance(value, int) and value.bit_length() > LONGEST_NUMBER:
        return "a number of %d bits" % value.bit_length()
    return str(value)


def nearest(word, known):
    """The known word that an unknown one is most like, or None."""
    part_of = [other for other in known if len(word) > 2 and (word in other or other in word)]
    alike = difflib.get_close_matches(word, known, 1, 0.6)
    return alike[0] if alike else part_of[0] if part_of else None


def meant_key(key, known, table):
    """The known key that an unknown one of a table may be meant for, or None; and what to mend."""
    like = nearest(key, [other for other in known if other not in table])
    return like, "write %s, if that is meant, or take it out" % like if like else "take it out"


@dataclass(frozen=True)
class Mistake:
    """One thing to mend. The line is None where it is about the text as a whole."""

    line: int
    what: str
    allowed: str
    mend: str

    def text(self, file):
        where = "%s, line %d" % (file, self.line) if self.line else str(file)
        what = self.what if len(self.what) <= LONGEST_WHAT else "%s .. %s" % (self.what[: LONGEST_WHAT // 2], self.what[-LONGEST_WHAT // 4 :])
        return "%s: %s\n  allowed: %s\n  to mend: %s" % (where, what, self.allowed, self.mend)


class Mistakes:
    """What is wrong with a text, gathered so that all of it is told."""

    def __init__(self, file, text):
        self.file, self.places, self.found = file, Places(text), []

    def add(self, path, what, allowed, mend, line=None):
        self.found.append(Mistake(line or self.places.line(path), what, allowed, mend))

    def end(self):
        """Ends the command if there is a mistake."""
        if self.found:
            self.found.sort(key=lambda mistake: mistake.line or 0)
            count = "1 mistake" if len(self.found) == 1 else "%d mistakes" % len(self.found)
            raise Refused("\n".join(["%s in %s" % (count, self.file)] + [mistake.text(self.file) for mistake in self.found]))

    def unknown_keys(self, path, table, known, where):
        """Tells the keys of a table that are none of the known ones; hands back those that were meant, as far as can be guessed."""
        meant = set()
        for key in table:
            if key not in known:
                like, mend = meant_key(key, known, table)
                meant.add(like)
                self.add(path + (key,), "%s: there is no such key %s" % (".".join(path + (key,)), where), ", ".join(known), mend)
        return meant


def _syntax(error):
    """A mistake of the language itself. A table that stands twice is said in our words; the rest in those of the reader of TOML."""
    said = str(error)
    at = _AT.search(said)
    line = int(at.group(1)) if at and at.group(1) else None
    what = _AT.sub("", said)
    twice = _TWICE.match(what)
    if twice:
        name = ".".join(re.findall(r"'([^']*)'", twice.group(1)))
        return Mistake(line, "[%s] stands there twice" % name, "each table once", "give one of the two another name, or make them one")
    if what.startswith("Cannot overwrite a value"):
        return Mistake(line, "a key stands there twice", "each key of a table once", "take one of the two out")
    what = what.replace("Illegal character '\\n'", "the line ends inside a text in quotes")
    if at and at.group(2):
        what = "%s, column %s" % (what, at.group(2))
    elif at:
        what += ", at the end of the text"
    hint = "look at that place and just before it: a quote, a bracket or an equals sign may be missing; text stands in quotes"
    return Mistake(line, "not TOML: %s" % what, "TOML 1.0", hint)


def _no_text(path, data, offset):
    """What is said of a file that is no text, by the first byte that no text has."""
    line = data.count(b"\n", 0, offset) + 1
    what = "not TOML: byte %d, %d, is not part of a text" % (offset, data[offset])
    mistake = Mistake(line, what, "text in UTF-8", "save it as UTF-8 text; a policy.bin is shown by `vig policy show`")
    return Refused("1 mistake in %s\n%s" % (path, mistake.text(path)))


def read_toml(path, parse_float=float):
    """The tables of a text and its mistakes, none yet. A text that is not TOML ends the command: no more can be read of it."""
    data = read_file(path)
    try:
        text = data.decode("utf-8-sig")
    except UnicodeDecodeError as error:
        raise _no_text(path, data, error.start) from None
    if "\0" in text:
        raise _no_text(path, data, data.index(0))
    text = text.replace("\r\n", "\n")
    try:
        return tomllib.loads(text, parse_float=parse_float), Mistakes(path, text)
    except tomllib.TOMLDecodeError as error:
        mistake = _syntax(error)
    except RecursionError:
        mistake = Mistake(None, "not TOML that can be read: brackets stand inside brackets, too deep", "TOML 1.0", "take the inner brackets out")
    except ValueError:
        mistake = Mistake(None, "not TOML: a number has thousands of digits", "numbers of at most 64 bits", "write a shorter number")
    raise Refused("1 mistake in %s\n%s" % (path, mistake.text(path)))
