"""A run as a waveform: a value change dump (VCD, IEEE 1364) whose time is the cycle, and a GTKWave save file that lists its signals in groups.

Names stand in registers of characters, eight bits each, as Verilog keeps strings: the standard has no variable of text, and every viewer shows such a register as ASCII."""

from dataclasses import dataclass

from .formats import class_of, is_column, request_of
from .history import Replay

TOP = "vigambul"

# How GTKWave shows a value, all at the right, and how groups begin and end: the flags of its save files.
DECIMAL, BINARY, ASCII = 0x24, 0x28, 0x820
GROUP_BEGINS, GROUP_ENDS = 0x800200, 0x1000200

# Eight cycles to a line of GTKWave's grid, and none of its 27 markers set.
ZOOM = "*-3.000000" + " -1" * 27

TURN_BITS = 23
WALK_BITS = 5
CLASS_BITS, KIND_BITS, RANK_BITS, BANK_BITS, TAG_BITS = 5, 2, 2, 4, 16
LENGTH_BITS = 4
PASSED_BITS = 4
LEFT_BITS = 7


@dataclass(eq=False)
class Signal:
    """A variable of the dump: its scope and name, its width, how it is shown, its short code, and the value last written."""

    scope: str
    name: str
    bits: int
    shown: int
    code: str
    value: int

    @property
    def span(self):
        return "" if self.bits == 1 else "[%d:0]" % (self.bits - 1)

    @property
    def declaration(self):
        return "$var reg %s $end" % " ".join(part for part in (str(self.bits), self.code, self.name, self.span) if part)

    @property
    def path(self):
        return ".".join(part for part in (TOP, self.scope, self.name + self.span) if part)

    @property
    def line(self):
        """The value as a line of the dump."""
        return "%d%s" % (self.value, self.code) if self.bits == 1 else "b%s %s" % (format(self.value, "b"), self.code)


def _code(place):
    """The short code of the signal at a place: a visible character. There are 94, and at most 73 signals."""
    return chr(ord("!") + place)


def characters(text):
    """A text as the value of a register of characters."""
    return int.from_bytes(text.encode("ascii"), "big")


NO_NAME = characters("-")


def identifiers(names, classes):
    """The classes' names as identifiers, all different: other characters become underscores, and a name that is taken gets its class's number."""
    found = []
    for number in range(classes):
        name = "".join(character if character.isalnum() else "_" for character in names.of(number))
        while name in found:
            name += "_%d" % number
        found.append(name)
    return found


class Signals:
    """The signals of a policy's runs, in the order in which they are listed."""

    def __init__(self, policy, names):
        self.all = []
        self.policy = policy
        self.names = identifiers(names, policy.classes)
        self.texts = [characters(name) for name in self.names]
        self.turn, self.epoch = self._add("", "turn", TURN_BITS), self._add("", "epoch", TURN_BITS)
        self.walk = self._add("", "walk", WALK_BITS)
        self.owner, self.owner_name = self._add("owner", "class", CLASS_BITS), self._add_name("owner")
        self.home_valid = self._add("home", "valid", 1)
        self.home, self.home_name = self._add("home", "class", CLASS_BITS), self._add_name("home")
        self.elided, self.in_dead_time = self._add("dead_time", "dropped", 1), self._add("dead_time", "inside", 1)
        self.activate, self.column = self._add("command", "activate", 1), self._add("command", "column", 1)
        self.command = self._add_request("command")
        self.response_valid = self._add("answer", "valid", 1)
        self.response = self._add_request("answer")
        self.lengths = [self._add("queue", name, LENGTH_BITS) for name in self.names]
        self.passed = [self._add("passed", name, PASSED_BITS) for name in self.names]
        self.left = [self._add("turns_left", name, LEFT_BITS) for name in self.names]

    def _add(self, scope, name, bits):
        self.all.append(Signal(scope, name, bits, BINARY if bits == 1 else DECIMAL, _code(len(self.all)), 0))
        return self.all[-1]

    def _add_name(self, scope):
        self.all.append(Signal(scope, "name", 8 * max(len(name) for name in self.names), ASCII, _code(len(self.all)), NO_NAME))
        return self.all[-1]

    def _add_request(self, scope):
        """The signals of a request, by their names: class, name, kind, rank, if the policy has four, bank, tag."""
        signals = {"class": self._add(scope, "class", CLASS_BITS), "name": self._add_name(scope), "kind": self._add(scope, "kind", KIND_BITS)}
        if self.policy.ranks > 1:
            signals["rank"] = self._add(scope, "rank", RANK_BITS)
        return {**signals, "bank": self._add(scope, "bank", BANK_BITS), "tag": self._add(scope, "tag", TAG_BITS)}

    @property
    def scopes(self):
        """The scopes with their signals, in order."""
        by_scope = {}
        for signal in self.all:
            by_scope.setdefault(signal.scope, []).append(signal)
        return by_scope


class Waveform(Replay):
    """Writes a run to a file as a value change dump. In the time of a cycle: the command and the answer of its tick, the turn that it lies in, the turns left once that
    turn's owner was charged for it, where it is, and the queue lengths, and how many have passed the oldest, as the tick finds them, offers before it counted and its own activate
    not yet."""

    def __init__(self, policy, names, file):
        super().__init__(policy)
        self.signals = Signals(policy, names)
        self.file = file
        # The values from the next tick written on, and the class whose queue a tick's activate has changed.
        self.pending = {}
        self.shortened = None
        self.command, self.response = 0, 0

    def header(self, what):
        """The declarations. A dollar sign begins a keyword, in a comment too."""
        about = "%s: one unit of time is one cycle" % what.replace("$", "_")
        lines = ["$version vig vcd $end", "$comment %s $end" % about, "$timescale 1 ns $end", "$scope module %s $end" % TOP]
        for scope, signals in self.signals.scopes.items():
            inner = [signal.declaration for signal in signals]
            lines += ["$scope module %s $end" % scope, *inner, "$upscope $end"] if scope else inner
        self.file.write("\n".join([*lines, "$upscope $end", "$enddefinitions $end"]) + "\n")

    def taken(self, word):
        self._queue(class_of(word))

    def turn_started(self):
        signals, pending = self.signals, self.pending
        pending[signals.turn], pending[signals.epoch], pending[signals.walk] = self.turn, self.epoch, self.walk
        pending[signals.owner], pending[signals.owner_name] = self.owner, signals.texts[self.owner]
        pending[signals.home_valid] = int(self.home is not None)
        pending[signals.home], pending[signals.home_name] = (0, NO_NAME) if self.home is None else (self.home, signals.texts[self.home])
        pending[signals.elided] = int(self.elided)
        pending.update(zip(signals.left, self.left))

    def activated(self, word, offered, older):
        self.shortened = class_of(word)

    def ticked(self, command, response):
        signals, pending = self.signals, self.pending
        pending[signals.in_dead_time] = int(self.in_dead_time)
        if command != self.command:
            self.command = command
            pending[signals.activate] = int(command != 0 and not is_column(command))
            pending[signals.column] = int(is_column(command))
            self._request(signals.command, command)
        if response != self.response:
            self.response = response
            pending[signals.response_valid] = int(response != 0)
            self._request(signals.response, response)
        self._write()
        if self.shortened is not None:
            self._queue(self.shortened)
            self.shortened = None

    def _queue(self, number):
        self.pending[self.signals.lengths[number]] = self.lengths[number]
        self.pending[self.signals.passed[number]] = self.queues[number].passed

    def _request(self, signals, word):
        """The fields of a request; where there is none they are 0, and the name is a dash."""
        request = request_of(word)
        text = self.signals.texts[request.class_] if word else NO_NAME
        values = {"class": request.class_, "name": text, "kind": request.kind, "rank": request.rank, "bank": request.bank, "tag": request.tag}
        self.pending.update((signal, values[name]) for name, signal in signals.items())

    def _write(self):
        """Writes the values that have changed; before the first cycle's, all."""
        changed = []
        for signal, value in self.pending.items():
            if value != signal.value:
                signal.value = value
                changed.append(signal.line)
        self.pending.clear()
        if self.cycle == 0:
            self._write_all()
        elif changed:
            self.file.write("#%d\n%s\n" % (self.cycle, "\n".join(changed)))

    def _write_all(self):
        self.file.write("#0\n$dumpvars\n%s\n$end\n" % "\n".join(signal.line for signal in self.signals.all))

    def write(self, ran, what):
        """The whole dump. Its last time is the end of the last cycle."""
        self.header(what)
        self.run(ran)
        if self.cycle == 0:
            self._write()
        else:
            self.file.write("#%d\n" % self.cycle)


TITLES = {"": "turn", "home": "home turn", "dead_time": "dead time", "turns_left": "turns left"}


def save_file(policy, names, dump_name):
    """A GTKWave save file for a dump of that name, beside it: the signals in groups, numbers in decimal and names as text."""
    lines = ["[*] GTKWave save file: gtkwave %s" % dump_name, '[dumpfile] "%s"' % dump_name, "[timestart] 0", ZOOM, "[size] 1600 900", "[pos] -1 -1", "[sst_expanded] 1"]
    for scope, signals in Signals(policy, names).scopes.items():
        title = TITLES.get(scope, scope)
        lines += ["@%x" % GROUP_BEGINS, "-" + title]
        for signal in signals:
            lines += ["@%x" % signal.shown, signal.path]
        lines += ["@%x" % GROUP_ENDS, "-" + title]
    return "\n".join(lines) + "\n"
