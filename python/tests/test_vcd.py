"""The waveform: read back by a strict reader of value change dumps, and compared with the log cycle by cycle."""

import re

from vigambul import build
from vigambul.folders import folder_at, run_folder
from vigambul.formats import is_column, is_elided, owner_of, request_of, walk_of
from vigambul.history import calls_of
from vigambul.policies import Names, Policy
from vigambul.waveform import identifiers

from .samples import FIVE, FIVE_NAMES, generated, write, write_five
from .support import EXAMPLES, Case

IDENTIFIER = re.compile(r"[A-Za-z_][A-Za-z0-9_$]*\Z")


class Dump:
    """A dump that was read: the widths of its signals by their full names, the values in each cycle, and the last time."""

    def __init__(self, text):
        header, _, body = text.partition("$enddefinitions $end\n")
        self.widths, self.codes = {}, {}
        self._declare(header.split())
        self.cycles, self.last = [], None
        self._read(body.splitlines())

    def _declare(self, tokens):
        scopes, sections = [], []
        while tokens:
            keyword, end = tokens[0], tokens.index("$end")
            words, tokens = tokens[1:end], tokens[end + 1 :]
            sections.append(keyword)
            if keyword == "$scope":
                assert words[0] == "module" and IDENTIFIER.match(words[1]), words
                scopes.append(words[1])
            elif keyword == "$upscope":
                scopes.pop()
            elif keyword == "$var":
                self._variable(scopes, *words)
            else:
                assert keyword in ("$version", "$comment", "$timescale"), keyword
        assert not scopes and sections.count("$timescale") == 1

    def _variable(self, scopes, kind, width, code, name, span=None):
        path = ".".join([*scopes, name])
        assert kind == "reg" and IDENTIFIER.match(name) and path not in self.widths and code not in self.codes, path
        assert all(33 <= ord(character) <= 126 for character in code), code
        assert span == (None if width == "1" else "[%d:0]" % (int(width) - 1)), span
        self.widths[path], self.codes[code] = int(width), path

    def _read(self, lines):
        values, dumping = {}, False
        for line in lines:
            if line.startswith("#"):
                self._until(int(line[1:]), values)
            elif line == "$dumpvars":
                assert self.last == 0 and not values
                dumping = True
            elif line == "$end":
                assert dumping and set(values) == set(self.widths)
                dumping = False
            else:
                assert dumping or self.last > 0
                path, value = self._change(line)
                assert dumping or values[path] != value, "%s at %d is no change" % (path, self.last)
                values[path] = value
        assert not dumping
        self.values = values

    def _until(self, time, values):
        """Fills the cycles up to a time, which must be above the one before."""
        assert time == 0 if self.last is None else time > self.last, time
        self.cycles += [dict(values) for _ in range(time - (self.last or 0))]
        self.last = time

    def _change(self, line):
        digits, code = line[1:].split(" ") if line[0] == "b" else (line[0], line[1:])
        path = self.codes[code]
        assert re.fullmatch("[01]+", digits) and len(digits) <= self.widths[path], line
        assert (line[0] == "b") == (self.widths[path] > 1), line
        return path, int(digits, 2)


def text_of(value):
    return value.to_bytes((value.bit_length() + 7) // 8, "big").decode()


class VcdCase(Case):
    def dump(self, folder):
        self.succeeds("vcd", folder, "-o", self.room / "out.vcd")
        return Dump((self.room / "out.vcd").read_text())

    def check(self, ran, dump):
        """Each cycle of the dump against the log. Queues and turns left are counted here on their own: a class is charged for the turns that it owns, but not for a home turn of its own
        that starts with a request waiting."""
        policy, names = ran.policy, identifiers(ran.names, ran.policy.classes)
        queues, passed, caps = [[] for _ in names], [0 for _ in names], [policy.cap(number) for number in range(policy.classes)]
        owners, charged, elided, walk = [], [], False, 0
        for call in calls_of(ran.trace, ran.log):
            if call.ticks:
                if call.turn:
                    owners.append(owner_of(call.turn))
                    home, elided, walk = policy.home(call.cycle // policy.turn), is_elided(call.turn), walk_of(call.turn)
                    charged.append(None if home == owners[-1] and queues[home] else owners[-1])
                wanted = {"walk": walk, **self.values_of(call, policy, names, owners, elided)}
                this_epoch = charged[len(charged) - 1 - (len(charged) - 1) % policy.epoch :]
                for number, name in enumerate(names):
                    wanted["queue." + name] = len(queues[number])
                    wanted["passed." + name] = passed[number]
                    wanted["turns_left." + name] = max(0, caps[number] - this_epoch.count(number))
                self.assertEqual(dump.cycles[call.cycle], {"vigambul." + path: value for path, value in wanted.items()}, call.cycle)
                if call.command and not is_column(call.command):
                    owner = owners[-1]
                    passed[owner] = 0 if call.command == queues[owner][0] else passed[owner] + 1
                    queues[owner].remove(call.command)
            elif call.offers and call.status == 0:
                queues[request_of(call.word).class_].append(call.word)

    def values_of(self, call, policy, names, owners, elided):
        text = lambda name: int.from_bytes(name.encode(), "big")
        offset, place = call.cycle % policy.turn, call.cycle // policy.turn % policy.epoch
        homes = [number for number in range(policy.classes) for _ in range(policy.minimums[number])]
        homes = [None] * (policy.epoch - len(homes)) + homes
        values = {
            "turn": call.cycle // policy.turn,
            "epoch": call.cycle // policy.turn // policy.epoch,
            "owner.class": owners[-1],
            "owner.name": text(names[owners[-1]]),
            "home.valid": int(homes[place] is not None),
            "home.class": homes[place] or 0,
            "home.name": text("-" if homes[place] is None else names[homes[place]]),
            "dead_time.dropped": int(elided),
            "dead_time.inside": int(not elided and offset >= policy.turn - policy.dead),
            "command.activate": int(call.command != 0 and not is_column(call.command)),
            "command.column": int(is_column(call.command)),
            "answer.valid": int(call.response != 0),
        }
        for scope, word in (("command", call.command), ("answer", call.response)):
            request = request_of(word)
            values[scope + ".name"] = text(names[request.class_] if word else "-")
            values.update({scope + ".class": request.class_, scope + ".kind": request.kind, scope + ".bank": request.bank, scope + ".tag": request.tag})
            if policy.ranks > 1:
                values[scope + ".rank"] = request.rank
        return values


class Compared(VcdCase):
    def test_examples(self):
        for name in ("busy-bank", "chain-of-three", "diamond", "printed-log", "refused-calls", "single-class", "two-ranks", "two-tenants-busy"):
            with self.subTest(name):
                ran = run_folder(build.library(), folder_at(EXAMPLES / name))
                dump = self.dump(EXAMPLES / name)
                self.assertEqual(dump.last, len(dump.cycles))
                self.assertEqual(len(dump.cycles), sum(call.ticks for call in calls_of(ran.trace, ran.log)))
                self.check(ran, dump)

    def test_generated(self):
        """Up to 16 classes, without names."""
        for ran in generated(build.library(), self.room, 12, 150):
            dump = self.dump(ran.folder.path)
            self.assertEqual(len(dump.cycles), 150)
            self.check(ran, dump)

    def test_by_hand(self):
        """The busy tenants in cycle 7: the turn is red's home turn, its column command goes out, and the base's third read is answered. The base is charged for turn 0, red not for
        its home turn."""
        values = {path.removeprefix("vigambul."): value for path, value in self.dump(EXAMPLES / "two-tenants-busy").cycles[7].items()}
        self.assertEqual((values["turn"], values["epoch"], text_of(values["owner.name"])), (1, 0, "red"))
        self.assertEqual((values["home.valid"], values["home.class"], text_of(values["home.name"])), (1, 1, "red"))
        self.assertEqual((values["command.activate"], values["command.column"], text_of(values["command.name"]), values["command.bank"]), (0, 1, "red", 0))
        self.assertEqual((values["answer.valid"], text_of(values["answer.name"]), values["answer.tag"]), (1, "base", 3))
        self.assertEqual((values["queue.base"], values["queue.red"], values["queue.blue"]), (3, 7, 2))
        self.assertEqual((values["turns_left.base"], values["turns_left.red"], values["turns_left.blue"]), (0, 3, 3))

    def test_home_turns_by_hand(self):
        """The diamond's turns 7 and 8, from cycles 35 and 40 on, are the top's: the first is no home turn, the second that of the idle left."""
        dump = self.dump(EXAMPLES / "diamond")
        for cycle, valid, number, name in ((39, 0, 0, "-"), (40, 1, 1, "left"), (44, 1, 1, "left")):
            values = dump.cycles[cycle]
            self.assertEqual(text_of(values["vigambul.owner.name"]), "top")
            self.assertEqual((values["vigambul.home.valid"], values["vigambul.home.class"], text_of(values["vigambul.home.name"])), (valid, number, name))

    def test_passed_by_hand(self):
        """Behind the busy bank two pass graphics' oldest, in cycles 10 and 12, and it goes in cycle 14; each is seen in the cycle after. In cycle 22 one passes the next oldest."""
        passed = [values["vigambul.passed.graphics"] for values in self.dump(EXAMPLES / "busy-bank").cycles]
        self.assertEqual(passed, [0] * 11 + [1] * 2 + [2] * 2 + [0] * 8 + [1] * 3 + [0] * 8)

    def test_ranks_by_hand(self):
        """The two ranks: the command wires' ranks where they carry something, and the answers'. A policy of one rank has no such signals."""
        dump = self.dump(EXAMPLES / "two-ranks")
        self.assertEqual((dump.widths["vigambul.command.rank"], dump.widths["vigambul.answer.rank"]), (2, 2))
        busy = [values for values in dump.cycles if values["vigambul.command.activate"] or values["vigambul.command.column"]]
        self.assertEqual([values["vigambul.command.rank"] for values in busy], [0, 0, 1, 1, 1, 1, 0, 0, 1, 1, 1, 1, 0, 0, 0, 0, 1, 1])
        self.assertEqual([values["vigambul.answer.rank"] for values in dump.cycles if values["vigambul.answer.valid"]], [0, 1, 1, 0, 1, 1, 0, 0, 1])
        self.assertEqual({values["vigambul.command.rank"] for values in dump.cycles if values not in busy}, {0})
        self.assertEqual([path for path in self.dump(EXAMPLES / "diamond").widths if path.endswith(".rank")], [])

    def test_no_ticks(self):
        """Only the values before the first cycle: what waits is shown."""
        dump = self.dump(write(self.room / "still", FIVE, [0x81000001, 0x81000002], FIVE_NAMES))
        self.assertEqual((dump.cycles, dump.last, dump.values["vigambul.queue.alice"]), ([], 0, 2))

    def test_stored(self):
        self.succeeds("vcd", EXAMPLES / "printed-log", "-o", self.room / "printed.vcd")
        self.stored("vcd/printed-log.vcd", (self.room / "printed.vcd").read_text())
        self.stored("vcd/printed-log.gtkw", (self.room / "printed.gtkw").read_text())


class SaveFile(VcdCase):
    def test_lists_every_signal(self):
        dump = self.dump(write_five(self.room / "five", 30))
        lines = (self.room / "out.gtkw").read_text().splitlines()
        listed = [line for line in lines if line.startswith("vigambul.")]
        span = lambda path: path if dump.widths[path] == 1 else "%s[%d:0]" % (path, dump.widths[path] - 1)
        self.assertEqual(listed, [span(path) for path in dump.widths])
        titles = [line for line in lines if line.startswith("-")]
        self.assertEqual(titles[0::2], titles[1::2])
        self.assertEqual(titles[0::2], ["-turn", "-owner", "-home turn", "-dead time", "-command", "-answer", "-queue", "-passed", "-turns left"])
        self.assertIn('[dumpfile] "out.vcd"', lines)

    def test_lists_the_ranks(self):
        """Between kind and bank, in both scopes; and with sixteen classes there are codes enough."""
        self.dump(EXAMPLES / "two-ranks")
        listed = [line for line in (self.room / "out.gtkw").read_text().splitlines() if line.startswith(("vigambul.command.", "vigambul.answer."))]
        fields = ["class[4:0]", "name[39:0]", "kind[1:0]", "rank[1:0]", "bank[3:0]", "tag[15:0]"]
        wanted = ["command." + field for field in ["activate", "column", *fields]] + ["answer." + field for field in ["valid", *fields]]
        self.assertEqual(listed, ["vigambul." + path for path in wanted])
        policy = Policy([0xFFFF] + [1 << number for number in range(1, 16)], 1, [0] * 16, [6, 3, 2, 2, 2, 2, 3, 3, 1, 3, 2])
        dump = self.dump(write(self.room / "sixteen", policy, [0]))
        self.assertEqual(len(dump.codes), 73)


class NamesAndUsage(VcdCase):
    def test_identifiers(self):
        """Names may have hyphens, which identifiers may not; two names that fall together are told apart."""
        self.assertEqual(identifiers(Names({0: "a-b", 1: "a_b", 3: "class_2"}), 4), ["a_b", "a_b_1", "class_2", "class_2_3"])

    def test_mistakes(self):
        self.assertIn("nowhere: no such folder", self.fails(2, "vcd", self.room / "nowhere", "-o", self.room / "out.vcd"))
        self.fails(2, "vcd", EXAMPLES / "diamond")
        self.assertIn("No such file", self.fails(2, "vcd", EXAMPLES / "diamond", "-o", self.room / "no" / "out.vcd"))
        self.assertIn("save file", self.fails(2, "vcd", EXAMPLES / "diamond", "-o", self.room / "out.gtkw"))
        self.assertIn("policy refused 5", self.fails(1, "vcd", EXAMPLES / "refused", "-o", self.room / "out.vcd"))
        self.assertEqual(list(self.room.iterdir()), [])
