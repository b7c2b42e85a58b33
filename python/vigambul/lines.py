"""Lines of a log as numbers, many at a time: a log may have 17,000,000 of them, so what is as the program prints it is turned over in one piece. And what those share who
read a text line by line."""

import codecs
import re
from binascii import Error, unhexlify

from .formats import words_of

# Lines that are read at a time.
MANY = 1 << 15
# A line as the program prints it: four numbers of 8 digits, with three spaces between them and its end behind them.
LINE_BYTES = 36
LINE = re.compile(rb"([0-9A-Fa-f]{8}) ([0-9A-Fa-f]{8}) ([0-9A-Fa-f]{8}) ([0-9A-Fa-f]{8})[ \t\r]*\n?\Z")
CUT_TRACE = b"trace ends inside a word"
# What stands in place of a log where the policy is refused.
REFUSED = re.compile(rb"policy refused ([1-9][0-9]?)[ \t\r]*\n?\Z")


def numbered(file):
    """The lines of a file with their numbers, without the mark that some editors put before a text in UTF-8."""
    for number, line in enumerate(file, 1):
        yield number, line.removeprefix(codecs.BOM_UTF8) if number == 1 else line


def says_nothing(line):
    """Whether a line is empty or a comment."""
    return not line.strip() or line.lstrip().startswith(b"#")


def shown(line):
    """A line of a file for a message: its text, cut where it is long."""
    text = line.strip().decode("ascii", "backslashreplace")
    return repr(text if len(text) <= 60 else text[:60] + " ..")


def refusal_of(line):
    """The number that a line says the policy is refused with, or None where it says no such thing."""
    refused = REFUSED.match(line)
    return int(refused[1]) if refused else None


def _plain(lines):
    """The digits of lines that all stand as the program prints them, whatever their ends; else None."""
    data = b"".join(lines).replace(b"\r\n", b"\n")
    count = len(lines)
    if len(data) != LINE_BYTES * count or data[LINE_BYTES - 1 :: LINE_BYTES] != b"\n" * count:
        return None
    if any(data[place::LINE_BYTES] != b" " * count for place in (8, 17, 26)):
        return None
    digits = data.translate(None, b" \n")
    return digits if len(digits) == 32 * count else None


def numbers_of(lines):
    """The numbers of log lines, four each, or None where one of them is no such line."""
    digits = _plain(lines)
    if digits is None:
        matches = [LINE.match(line) for line in lines]
        if None in matches:
            return None
        digits = b"".join(b"".join(match.groups()) for match in matches)
    try:
        numbers, _ = words_of(unhexlify(digits))
    except Error:
        return None
    numbers.byteswap()
    return numbers
