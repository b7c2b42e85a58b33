"""Traffic as CSV: a header, then a line for each request; and a trace given back as CSV."""

import csv
import io

from .folders import read_file
from .formats import KINDS, LAST_CYCLE, is_offer, is_tick, rank_of, request_of
from .toml_text import Mistakes
from .trace_words import runs_of
from .traffic import MOST_CYCLES, TAG_FIELD, Entry, Place, Reader, Traffic, hex_of, number_of

COLUMNS = ("cycle", "class", "kind", "rank", "bank", "tag", "word", "note")
NEEDED = ("cycle", "class", "kind", "bank")
KIND_WORDS = {"read": 0, "r": 0, "0": 0, "write": 1, "w": 1, "1": 1, "2": 2, "3": 3}
KINDS_ALLOWED = "read (r, 0) or write (w, 1); for lines that are no request: end, word, bytes"
SEPARATORS = (",", ";", "\t")


def _cells(row, separator):
    try:
        return next(csv.reader([row], delimiter=separator))
    except csv.Error:
        # A cell of more than 131,072 characters; whatever it is, it is told as the mistake that it is.
        return row.split(separator)


def rows_of(text):
    """The rows of a CSV text with their lines. Blank lines and lines that begin with # are left out. The separator is the header's: a comma, a semicolon or a tab."""
    separator = None
    for line, row in enumerate(text.splitlines(), 1):
        if not row.strip() or row.lstrip().startswith("#"):
            continue
        separator = separator or next((mark for mark in SEPARATORS if mark in row), SEPARATORS[0])
        cells = [cell.strip() for cell in _cells(row, separator)]
        # A spreadsheet saves a comment with commas in it between quotes, and a blank line as separators alone.
        if any(cells) and not cells[0].startswith("#"):
            yield line, cells


class CsvReader(Reader):
    """Reads CSV. Lines may stand in any order; those of one cycle keep theirs."""

    def read(self):
        text = self.text()
        self.mistakes = Mistakes(self.path, text)
        self.end, self.end_line, self.left_over = None, None, b""
        rows = rows_of(text)
        columns = self.header(*next(rows, (None, [])))
        self.mistakes.end()
        lines = [(line, self.row(line, cells, columns)) for line, cells in rows]
        lines = [(line, entry) for line, entry in lines if entry is not None]
        cycles = self.length([entry.cycle for _, entry in lines])
        for line, entry in lines:
            self.within(Place(line, "column cycle"), entry.cycle, cycles)
        self.mistakes.end()
        # The sort is stable: equal cycles keep the order of the file.
        return Traffic(sorted((entry for _, entry in lines), key=lambda entry: entry.cycle), cycles, self.left_over, self.warnings)

    def text(self):
        data = read_file(self.path)
        try:
            return data.decode("utf-8-sig")
        except UnicodeDecodeError as error:
            self.mistakes = Mistakes(self.path, "")
            line = data.count(b"\n", 0, error.start) + 1
            self.tell(Place(line, "byte %d" % error.start), "not UTF-8", "text in UTF-8", "save the table as CSV in UTF-8; a trace.bin is shown by `vig trace show`")
            self.mistakes.end()

    def length(self, cycles_of_requests):
        """How many cycles there are: as asked for, else by the line of kind end, else by the policy's epoch."""
        if self.asked_cycles is not None:
            return self.asked()
        return self.end if self.end_line else self.to_the_epochs_end(max(cycles_of_requests, default=0))

    def header(self, line, cells):
        columns = [cell.lower() for cell in cells]
        missing = [name for name in NEEDED if name not in columns]
        for number, name in enumerate(columns, 1):
            place = Place(line, "column %d of the header" % number)
            if name and name not in COLUMNS:
                self.tell(place, name, ", ".join(COLUMNS), "rename the column, or take it out; what is only for people goes into the column note")
            elif name and name in columns[: number - 1]:
                self.tell(place, name, "each column once", "take one of the two out")
        if missing:
            mend = "begin the table with a line such as cycle,class,kind,bank,tag"
            self.tell(Place(line, "header"), "no column %s" % ", ".join(missing), "a header with " + ", ".join(NEEDED), mend)
        return columns

    def row(self, line, cells, columns):
        """The entry of a row; None for one that is no entry or has a mistake."""
        for number, cell in enumerate(cells[len(columns) :], len(columns) + 1):
            if cell:
                mend = "take the cell out, or put a cell with the separator in it between quotes"
                self.tell(Place(line, "column %d" % number), cell, "%d columns, as in the header" % len(columns), mend)
        values = dict.fromkeys(COLUMNS, "") | dict(zip(columns, cells))
        read = {"end": self.end_row, "word": self.word_row, "bytes": self.bytes_row}.get(values["kind"].lower(), self.request_row)
        return read(line, values)

    def empty(self, line, values, names):
        """These cells say nothing in a line of this kind."""
        for name in names:
            if values[name]:
                self.tell(Place(line, "column %s" % name), values[name], "nothing in a line of kind %s" % (values["kind"] or "read or write"), "leave the cell empty")

    def cycle(self, line, values):
        value = number_of(values["cycle"])
        if value is None or value > MOST_CYCLES:
            self.tell(Place(line, "column cycle"), values["cycle"] or None, "0 to %d" % LAST_CYCLE, "write the cycle before whose tick it comes")
            return None
        return value

    def tag(self, line, text):
        """A tag, or None for one that is left to be numbered."""
        value = number_of(text)
        if text and (value is None or value >= TAG_FIELD):
            mend = "write a number, or leave the cell empty: the tag is then the place among the class's requests"
            self.tell(Place(line, "column tag"), text, "0 to %d, or nothing" % (TAG_FIELD - 1), mend)
        return value

    def request_row(self, line, values):
        """A request. All its cells are looked at, so that each mistake is told."""
        cycle = self.cycle(line, values)
        number = self.class_number(Place(line, "column class"), values["class"], values["class"] or None)
        kind = KIND_WORDS.get(values["kind"].lower())
        if kind is None:
            self.tell(Place(line, "column kind"), values["kind"] or None, KINDS_ALLOWED, "write one of these")
        elif kind >= len(KINDS):
            self.warn(Place(line, "column kind"), "kind %d" % kind, 10)
        # A rank that is left out is 0.
        rank = self.rank(Place(line, "column rank"), number_of(values["rank"] or "0"), values["rank"])
        bank = self.bank(Place(line, "column bank"), number_of(values["bank"]), values["bank"] or None)
        tag = self.tag(line, values["tag"])
        self.empty(line, values, ("word",))
        return None if None in (cycle, number, kind, rank, bank) else Entry(cycle, number, kind, bank, tag, rank=rank)

    def word_row(self, line, values):
        """A trace number as it is. 0 would be a tick, and ticks are filled in."""
        self.empty(line, values, ("class", "rank", "bank", "tag"))
        cycle, word = self.cycle(line, values), hex_of(values["word"])
        if word is None or not 0 < word < 1 << 32:
            self.tell(Place(line, "column word"), values["word"] or None, "1 to FFFFFFFF in hexadecimal", "write the trace number; ticks (0) are filled in")
            return None
        if not is_offer(word):
            self.warn(Place(line, "column word"), "%08X" % word, 14)
        return None if cycle is None else Entry(cycle, word=word)

    def bytes_row(self, line, values):
        """Bytes left over at the end of the file."""
        self.empty(line, values, ("cycle", "class", "rank", "bank", "tag"))
        place, digits = Place(line, "column word"), values["word"].replace(" ", "")
        if len(digits) not in (2, 4, 6) or hex_of(digits) is None or digits[:2].lower() == "0x":
            self.tell(place, values["word"] or None, "1 to 3 bytes of two hexadecimal digits each, as in 07 00 01", "write the bytes that are left over after the last word")
        elif self.left_over:
            self.tell(place, values["word"], "one line of kind bytes", "take one of the two out")
        else:
            self.left_over = bytes.fromhex(digits)
            self.warnings.append("%s, line %d: %d bytes are left over at the end: they will not be run" % (self.path, line, len(self.left_over)))

    def end_row(self, line, values):
        """How many cycles there are."""
        self.empty(line, values, ("class", "rank", "bank", "tag", "word"))
        place = Place(line, "column cycle")
        if self.end_line:
            self.tell(place, values["cycle"] or None, "one line of kind end, and line %d is one" % self.end_line, "take one of the two out")
            return
        self.end, self.end_line = self.cycles(place, number_of(values["cycle"]), values["cycle"] or None), line


def _columns_for(words, left_over, names):
    """The columns that a trace needs: ranks where the policy has four or an offer has another than 0, and words where there are numbers that are no offers or bytes left over."""
    ranks = names.with_ranks or any(is_offer(word) and rank_of(word) for word in words)
    others = bool(left_over) or any(not is_tick(word) and not is_offer(word) for word in words)
    unused = {"note", *(() if ranks else ("rank",)), *(() if others else ("word",))}
    return [column for column in COLUMNS if column not in unused]


def csv_of(words, left_over, names):
    """A trace as CSV, from which it can be made again."""
    text = io.StringIO()
    out = csv.DictWriter(text, _columns_for(words, left_over, names), restval="", extrasaction="ignore", lineterminator="\n")
    out.writeheader()
    cycles = 0
    for _, cycle, word, ticks in runs_of(words):
        cycles += ticks
        if is_offer(word):
            request = request_of(word)
            kind = KINDS[request.kind] if request.kind < len(KINDS) else request.kind
            owner = names.by_number.get(request.class_, request.class_)
            out.writerow({"cycle": cycle, "class": owner, "kind": kind, "rank": request.rank, "bank": request.bank, "tag": request.tag})
        elif not ticks:
            out.writerow({"cycle": cycle, "kind": "word", "word": "%08X" % word})
    out.writerow({"cycle": cycles, "kind": "end"})
    if left_over:
        out.writerow({"kind": "bytes", "word": left_over.hex(" ").upper()})
    return text.getvalue()
