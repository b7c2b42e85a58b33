"""`vig trace`: texts made into traces, traces shown and given back, and what is wrong with a text."""

import shutil
import tomllib

from vigambul.draws import Draws
from vigambul.formats import bytes_of, is_offer, is_tick, request_of, words_of
from vigambul.traffic import Entry, Known, Traffic, trace_of
from vigambul.traffic_csv import CsvReader

from .support import EXAMPLES, Case, vig

FOLDERS = [EXAMPLES / name for name in ("chain-of-three", "diamond", "printed-log", "refused", "refused-calls", "single-class", "two-ranks", "two-tenants", "two-tenants-busy")]

BAD_CSV = """\
cycle,class,kind,bank,tag,word
0,red,read,3,1
x,red,read,3,1
0,gree,read,3,1
0,bleu,read,3,1
0,red,fetch,3,1
0,red,read,99,1
0,red,read,3,70000
-1,,,,
0,red,read,3,1,,5
0,red,read,3,1,80000001
50,red,read,3,1
40,,end,,
40,red,end,,
0,,word,,
0,,word,,,0
0,,word,,,100000000
0,,bytes,,,07
,,bytes,,,07 0
,,bytes,,,01 02 03 04
,,bytes,,,AA
,,bytes,,,BB
99999999,red,read,3,1
"""

BAD_TOML = """\
cycles = 100
sede = 4

[[stream]]
class = "green"
from = -1
every = 0
burst = 2000
banks = []
writes = 1.5
pick = "any"
seed = "x"

[[stream]]
class = 1
to = 300
evry = 3

[[stream]]
every = 7
to = 101
from = 102
banks = [1, 9, 16, "a"]
writes = nan

[[stream]]
class = "red"
from = 90
to = 80
every = true
"""


class TraceCase(Case):
    def setUp(self):
        """The room has the policy of two tenants, and its names."""
        super().setUp()
        for name in ("policy.bin", "policy.names"):
            shutil.copy(EXAMPLES / "two-tenants" / name, self.room)

    def text(self, name, text):
        path = self.room / name
        path.write_text(text)
        return path

    def made(self, name, text, *options):
        """The trace made of a text that must be sound, and what was said of it."""
        status, out, err = vig("trace", "make", self.text(name, text), "-o", self.room / "trace.bin", *options)
        self.assertEqual((status, out), (0, ""), err)
        return words_of((self.room / "trace.bin").read_bytes())[0], self.said(err)

    def mistakes(self, name, text, *options):
        """What is said of a text that is not; no trace is written."""
        err = self.fails(1, "trace", "make", self.text(name, text), "-o", self.room / "trace.bin", *options)
        self.assertFalse((self.room / "trace.bin").exists())
        return self.said(err)

    def said(self, err):
        return err.replace("%s/" % self.room, "")


class Examples(TraceCase):
    def test_texts_give_the_bytes(self):
        """Of all examples, those that come later too."""
        folders = [path.parent for path in EXAMPLES.glob("*/trace.bin")]
        self.assertLessEqual(set(FOLDERS), set(folders))
        for folder in folders:
            with self.subTest(folder.name):
                (text,) = folder.glob("traffic.*")
                self.succeeds("trace", "make", text, "-o", self.room / "made.bin")
                self.assertEqual((self.room / "made.bin").read_bytes(), (folder / "trace.bin").read_bytes())

    def test_shown(self):
        for folder in FOLDERS:
            with self.subTest(folder.name):
                self.stored("trace/%s.txt" % folder.name, self.succeeds("trace", "show", folder / "trace.bin"))

    def test_csv_gives_the_bytes(self):
        for folder in FOLDERS:
            with self.subTest(folder.name):
                path = self.text("shown.csv", self.succeeds("trace", "show", "--csv", folder / "trace.bin"))
                self.succeeds("trace", "make", path, "-o", self.room / "made.bin", "--policy", folder / "policy.bin")
                self.assertEqual((self.room / "made.bin").read_bytes(), (folder / "trace.bin").read_bytes())

    def test_csv_stored(self):
        self.stored("trace/refused-calls.csv", self.succeeds("trace", "show", "--csv", EXAMPLES / "refused-calls" / "trace.bin"))
        self.stored("trace/printed-log.csv", self.succeeds("trace", "show", "--csv", EXAMPLES / "printed-log" / "trace.bin"))

    def test_warnings(self):
        _, _, err = vig("trace", "make", EXAMPLES / "refused-calls" / "traffic.csv", "-o", self.room / "made.bin")
        self.stored("trace/warnings.txt", self.said(err).replace(str(EXAMPLES), "examples"))


class RoundTrips(TraceCase):
    def test_any_trace(self):
        """Words of all forms and left-over bytes, with names and without."""
        draws = Draws("round trips")
        for number in range(30):
            words = [0 if draws.chance(0.5) else draws.below(1 << 32) for _ in range(draws.below(40))]
            words += [1 << 31 | draws.below(1 << 24) for _ in range(draws.below(5))]
            data = bytes_of(words) + bytes(draws.below(256) for _ in range(draws.below(4)))
            (self.room / "any.bin").write_bytes(data)
            options = () if number % 2 else ("--policy", EXAMPLES / "printed-log" / "policy.bin")
            path = self.text("any.csv", self.succeeds("trace", "show", "--csv", self.room / "any.bin", *options))
            self.succeeds("trace", "make", path, "-o", self.room / "again.bin", *options)
            self.assertEqual((self.room / "again.bin").read_bytes(), data)

    def test_shown_covers_each_number(self):
        """Ticks, offers with and without a rank, and malformed numbers, of bits 29 and 30 too, which belong to no field."""
        (self.room / "any.bin").write_bytes(bytes_of([0, 0, 1 << 31, 0, 0xFFFFFFFF, 0x80C00000, 0x20000000, 0xA0400000, 0xC0C00000]) + b"\x01")
        self.stored("trace/any.txt", self.succeeds("trace", "show", self.room / "any.bin"))

    def test_empty(self):
        (self.room / "none.bin").write_bytes(b"")
        self.assertEqual(self.succeeds("trace", "show", self.room / "none.bin"), "")
        csv = self.succeeds("trace", "show", "--csv", self.room / "none.bin")
        self.assertEqual(csv, "cycle,class,kind,bank,tag\n0,,end,,\n")
        self.assertEqual(len(self.made("none.csv", csv)[0]), 0)


class Csv(TraceCase):
    def test_order_of_lines_and_columns(self):
        """By cycle; those of one cycle in the order of the file. Tags count within the class."""
        words, _ = self.made("t.csv", "Bank, KIND,class,cycle\n1,r,red,2\n\n# a comment, \"with a quote\n2,W,blue,0\n3,1,red,0\n4,0,2,2\n,end,,4\n")
        self.assertEqual([hex(word) for word in words], ["0x82120001", "0x81130001", "0x0", "0x0", "0x81010002", "0x82040002", "0x0", "0x0"])

    def test_spreadsheets(self):
        """Semicolons, a byte order mark, ends of lines as on Windows, blank rows, a comment between quotes."""
        (self.room / "t.csv").write_bytes("\ufeffcycle;class;kind;bank;tag\r\n\"# to, do\";;;;\r\n;;;;\r\n0;red;read;3;0x1F\r\n2;;end;;\r\n".encode())
        self.succeeds("trace", "make", self.room / "t.csv", "-o", self.room / "trace.bin")
        self.assertEqual(list(words_of((self.room / "trace.bin").read_bytes())[0]), [0x8103001F, 0, 0])

    def test_cells_that_go_too_far(self):
        """Numbers of thousands of digits, and cells that are longer than Python reads."""
        long = "9" * 5000
        lines = ("%s,red,r,1,1" % long, "0,%s,r,1,1" % long, "0,red,r,%s,1" % long, "0,red,r,1,%s" % long, "%s,,end,," % long, "0,red,r,1,1" + "x" * 200_000)
        told = self.mistakes("t.csv", "cycle,class,kind,bank,tag\n" + "\n".join(lines) + "\n")
        self.assertTrue(told.startswith("vig: 6 mistakes in"), told[:200])
        self.assertLess(max(map(len, told.splitlines())), 2_000)

    def test_ranks(self):
        """A column of its own, which may be missing or have empty cells: rank 0. Numbers may be hexadecimal."""
        shutil.copy(EXAMPLES / "two-ranks" / "policy.bin", self.room)
        words, said = self.made("t.csv", "cycle,rank,class,kind,bank\n0,1,0,r,3\n0,0x2,0,w,3\n1,,1,r,3\n1,3,1,w,7\n2,,,end,\n")
        self.assertEqual([hex(word) for word in words], ["0x80430001", "0x80930002", "0x0", "0x81030001", "0x81d70002", "0x0"])
        self.assertNotIn("warning", said)
        self.assertEqual(list(self.made("t.csv", "cycle,class,kind,bank\n0,0,r,3\n1,,end,\n")[0]), [0x80030001, 0])

    def test_mistakes_of_ranks(self):
        lines = ("0,red,read,4,3", "0,red,read,-1,3", "0,red,read,one,3", "9,,end,0,", "0,,word,1,")
        self.stored("trace/bad-ranks.csv.txt", self.mistakes("bad.csv", "cycle,class,kind,rank,bank\n" + "\n".join(lines) + "\n"))

    def test_a_rank_that_will_be_refused(self):
        """The tenants' policy has one rank: a warning for each other one. With a policy of four, or none that is known, there is nothing to warn of."""
        text = "cycle,class,kind,rank,bank\n0,1,read,0,3\n0,1,read,1,3\n0,1,read,3,8\n1,,end,,\n"
        words, said = self.made("t.csv", text)
        self.assertEqual([hex(word) for word in words], ["0x81030001", "0x81430002", "0x81c80003", "0x0"])
        self.stored("trace/rank-warnings.txt", said)
        self.assertEqual(self.made("t.csv", text, "--policy", EXAMPLES / "two-ranks" / "policy.bin")[1].count("warning"), 1)
        (self.room / "policy.bin").unlink()
        self.assertEqual(self.made("t.csv", text)[1].count("warning"), 1)

    def test_ranks_given_back(self):
        """A trace as CSV has the column where the policy has four ranks or an offer has another than 0; whatever else there is beside it."""
        for words, left_over, policy, head in (
            ([0x80030001, 0], b"", "two-tenants", "cycle,class,kind,bank,tag"),
            ([0x80430001, 0], b"", "two-tenants", "cycle,class,kind,rank,bank,tag"),
            ([0x80030001, 0], b"", "two-ranks", "cycle,class,kind,rank,bank,tag"),
            ([0x80C30001, 0xA0000000, 0], b"\x01", "two-tenants", "cycle,class,kind,rank,bank,tag,word"),
        ):
            data, options = bytes_of(words) + left_over, ("--policy", EXAMPLES / policy / "policy.bin")
            (self.room / "any.bin").write_bytes(data)
            csv = self.succeeds("trace", "show", "--csv", self.room / "any.bin", *options)
            self.assertEqual(csv.splitlines()[0], head)
            self.succeeds("trace", "make", self.text("any.csv", csv), "-o", self.room / "again.bin", *options)
            self.assertEqual((self.room / "again.bin").read_bytes(), data)

    def test_tags_wrap(self):
        words = trace_of(Traffic([Entry(0, 1)] * 65_537, 0, b"", []))
        self.assertEqual([request_of(word).tag for word in (words[0], words[65_534], words[65_535], words[65_536])], [1, 65_535, 0, 1])

    def test_length(self):
        """An epoch has 18 cycles here: to the end of the one after the last request's, unless the text or the option says otherwise."""
        for cycle, cycles in ((0, 36), (17, 36), (18, 54)):
            self.assertEqual(self.made("t.csv", "cycle,class,kind,bank\n%d,red,r,1\n" % cycle)[0].count(0), cycles)
        self.assertEqual(self.made("t.csv", "cycle,class,kind,bank\n0,red,r,1\n7,,end,\n")[0].count(0), 7)
        self.assertEqual(self.made("t.csv", "cycle,class,kind,bank\n0,red,r,1\n7,,end,\n", "--cycles", 9)[0].count(0), 9)
        self.assertEqual(list(self.made("t.csv", "cycle,class,kind,bank\n1,red,r,1\n1,,end,\n")[0]), [0, 0x81010001])

    def test_no_policy(self):
        for name in ("policy.bin", "policy.names"):
            (self.room / name).unlink()
        self.stored("trace/no-policy.txt", self.mistakes("t.csv", "cycle,class,kind,bank\n0,red,r,1\n"))
        self.assertEqual(list(self.made("t.csv", "cycle,class,kind,bank\n0,1,r,1\n", "--cycles", 1)[0]), [0x81010001, 0])

    def test_names_from_beside_the_trace(self):
        text = self.room / "texts" / "t.csv"
        text.parent.mkdir()
        text.write_text("cycle,class,kind,bank\n0,blue,r,1\n1,,end,\n")
        self.succeeds("trace", "make", text, "-o", self.room / "trace.bin")
        self.assertEqual(list(words_of((self.room / "trace.bin").read_bytes())[0]), [0x82010001, 0])

    def test_too_long_is_warned_of(self):
        for cycles, warnings in ((16_777_215, 0), (16_777_216, 1)):
            traffic = CsvReader(self.text("t.csv", "cycle,class,kind,bank\n%d,,end,\n" % cycles), Known(), None).read()
            self.assertEqual((traffic.cycles, len(traffic.warnings)), (cycles, warnings))
        self.assertEqual(self.said(traffic.warnings[0]), "t.csv, line 2: column cycle: the last of 16777216 ticks will be refused: 16,777,215 ticks have passed")

    def test_mistakes(self):
        self.stored("trace/bad.csv.txt", self.mistakes("bad.csv", BAD_CSV))

    def test_mistakes_of_the_header(self):
        self.stored("trace/header.txt", self.mistakes("bad.csv", "Cycle;Class;tga;bank;bank\n"))
        self.stored("trace/empty.txt", self.mistakes("bad.csv", ""))

    def test_not_text(self):
        shutil.copy(EXAMPLES / "two-tenants" / "trace.bin", self.room / "bad.csv")
        self.stored("trace/binary.txt", self.said(self.fails(1, "trace", "make", self.room / "bad.csv", "-o", self.room / "trace.bin")))


class Streams(TraceCase):
    HEAD = "cycles = 60\n"
    RED = '[[stream]]\nclass = "red"\nfrom = 3\nto = 50\nevery = 6\nburst = 2\nbanks = [1, 4]\nwrites = 0.3\nseed = 7\n'
    BLUE = '[[stream]]\nclass = "blue"\nevery = 5\nbanks = [0, 1, 2]\nwrites = 0.5\nseed = 1\n'

    def of_class(self, words, owner):
        """The requests of a class with their cycles."""
        cycle, found = 0, []
        for word in words:
            if is_tick(word):
                cycle += 1
            elif request_of(word).class_ == owner:
                found.append((cycle, word))
        return found

    def test_stream(self):
        words, _ = self.made("t.toml", self.HEAD + self.RED)
        self.assertEqual(words.count(0), 60)
        self.assertTrue(all(is_tick(word) or is_offer(word) for word in words))
        red = self.of_class(words, 1)
        self.assertEqual([cycle for cycle, _ in red], [cycle for cycle in range(3, 51, 6) for _ in range(2)])
        self.assertEqual([request_of(word).tag for _, word in red], list(range(1, 17)))
        self.assertEqual({request_of(word).bank for _, word in red}, {1, 4})
        self.assertEqual({request_of(word).kind for _, word in red}, {0, 1})

    def test_stays_the_same(self):
        """What is random is fixed by the seed for good: stored, so that it is seen if another Python draws otherwise."""
        self.made("t.toml", self.HEAD + self.RED + self.BLUE)
        self.stored("trace/streams.csv", self.succeeds("trace", "show", "--csv", self.room / "trace.bin"))

    def test_one_class_leaves_the_others_alone(self):
        red = self.of_class(self.made("t.toml", self.HEAD + self.RED)[0], 1)
        for blue in (self.BLUE, self.BLUE.replace("seed = 1", "seed = 2"), self.BLUE.replace("every = 5", "every = 1")):
            for text in (self.RED + blue, blue + self.RED):
                self.assertEqual(self.of_class(self.made("t.toml", self.HEAD + text)[0], 1), red)

    def test_seed_and_class_make_a_difference(self):
        def shape(text):
            return [word & 0x3F0000 for word in self.made("t.toml", self.HEAD + text)[0] if word]

        others = (self.RED.replace("seed = 7", "seed = 8"), self.RED.replace('"red"', '"blue"'))
        self.assertEqual(len({tuple(shape(text)) for text in (self.RED, *others)}), 3)

    def test_share_of_writes(self):
        for share, low, high in (("0", 0, 0), ("1", 2000, 2000), ("0.25", 400, 600)):
            words, _ = self.made("t.toml", 'cycles = 2000\n[[stream]]\nclass = "red"\nevery = 1\nwrites = %s\n' % share)
            writes = sum(request_of(word).kind for word in words if word)
            self.assertTrue(low <= writes <= high, writes)
            self.assertEqual(len(words), 4000)

    def test_in_turn(self):
        words, _ = self.made("t.toml", 'cycles = 9\n[[stream]]\nclass = 0\nevery = 1\nbanks = [5, 6]\nwrites = 0.3\npick = "in turn"\n')
        requests = [request_of(word) for word in words if word]
        self.assertEqual([request.bank for request in requests], [5, 6, 5, 6, 5, 6, 5, 6, 5])
        self.assertEqual([request.kind for request in requests], [0, 0, 0, 1, 0, 0, 1, 0, 0])

    def test_ranks_in_turn(self):
        """All banks on a rank, then on the next."""
        words, _ = self.made("t.toml", 'cycles = 9\n[[stream]]\nclass = 0\nevery = 1\nranks = [2, 0]\nbanks = [5, 6]\npick = "in turn"\n')
        requests = [request_of(word) for word in words if word]
        self.assertEqual([(request.rank, request.bank) for request in requests], [(2, 5), (2, 6), (0, 5), (0, 6), (2, 5), (2, 6), (0, 5), (0, 6), (2, 5)])

    def test_ranks_at_random(self):
        """Those of the list, each about as often as it stands there. On a single rank banks and kinds are the same, whichever it is; without the key it is 0."""
        shutil.copy(EXAMPLES / "two-ranks" / "policy.bin", self.room)
        every = 'cycles = 2000\n[[stream]]\nclass = 1\nevery = 1\nwrites = 0.5\n'
        drawn = [request_of(word).rank for word in self.made("t.toml", every + "ranks = [1, 1, 3]\n")[0] if word]
        self.assertEqual(set(drawn), {1, 3})
        self.assertTrue(1200 < drawn.count(1) < 1470, drawn.count(1))
        plain = [request_of(word) for word in self.made("t.toml", every)[0] if word]
        self.assertEqual({request.rank for request in plain}, {0})
        for rank in range(4):
            words, said = self.made("t.toml", every + "ranks = [%d]\n" % rank)
            self.assertEqual([request_of(word) for word in words if word], [request._replace(rank=rank) for request in plain])
            self.assertNotIn("warning", said)

    def test_mistakes_of_ranks(self):
        streams = "".join('[[stream]]\nclass = "red"\nranks = %s\n' % ranks for ranks in ("[]", "1", '[0, 4, -1, true, "x"]'))
        self.stored("trace/bad-ranks.toml.txt", self.mistakes("bad.toml", "cycles = 3\n" + streams + '[[stream]]\nclass = "red"\nrank = 1\n'))

    def test_defaults(self):
        """A single burst of one request at cycle 0; without cycles, to the end of the epoch after it."""
        words, _ = self.made("t.toml", '[[stream]]\nclass = "red"\n')
        self.assertEqual((len(words), words.count(0)), (37, 36))
        self.assertEqual(request_of(words[0]).kind, 0)
        words, _ = self.made("t.toml", self.HEAD + '[[stream]]\nclass = "red"\nevery = 59\n')
        self.assertEqual([cycle for cycle, _ in self.of_class(words, 1)], [0, 59])
        words, _ = self.made("t.toml", self.HEAD + '[[stream]]\nclass = "red"\nevery = 59\n', "--cycles", 59)
        self.assertEqual([cycle for cycle, _ in self.of_class(words, 1)], [0])
        self.assertEqual(words.count(0), 59)

    def test_mistakes(self):
        self.stored("trace/bad.toml.txt", self.mistakes("bad.toml", BAD_TOML))
        self.assertEqual(len(tomllib.loads(BAD_TOML)["stream"]), 4)

    def test_other_mistakes(self):
        self.stored("trace/one-bracket.txt", self.mistakes("bad.toml", 'cycles = 3\n[stream]\nclass = "red"\n'))
        self.stored("trace/syntax.txt", self.mistakes("bad.toml", 'cycles = 3\n[[stream]\nclass = "red"\n'))
        self.stored("trace/no-end.txt", self.mistakes("bad.toml", '[[stream]]\nclass = "red"\nevery = 2\n'))
        self.assertIn("a number of 20000 bits", self.mistakes("bad.toml", 'cycles = 3\n[[stream]]\nclass = "red"\nevery = 0x%s\n' % ("f" * 5000)))
        told = self.mistakes("bad.toml", 'cycles = 3\n[[stream]]\nclass = "red"\nwrites = 1e-999999999\n')
        self.assertIn("writes: 1E-999999999\n  allowed: 0 to 1, as in 0.25, with at most 15 places", told)
        self.stored("trace/bad-cycles.txt", self.mistakes("bad.toml", 'cycles = "9"\n[[stream]]\nclass = "red"\n'))

    def test_warnings(self):
        _, err = self.made("t.toml", 'cycles = 3\n[[stream]]\nclass = 17\n[[stream]]\nclass = "red"\nranks = [0, 2]\nbanks = [8]\n')
        self.stored("trace/stream-warnings.txt", err)


class Usage(TraceCase):
    def test_files(self):
        room = self.room
        self.assertEqual(self.said(self.fails(2, "trace", "make", room / "no.csv", "-o", room / "x.bin")), "vig: no.csv: no such file\n")
        self.assertEqual(self.said(self.fails(2, "trace", "show", room / "no.bin")), "vig: no.bin: no such file\n")
        self.assertIn("a folder, where a file is wanted", self.fails(2, "trace", "show", room))
        self.assertIn("ends in .csv", self.fails(2, "trace", "make", room / "policy.bin", "-o", room / "x.bin"))
        text = self.text("t.csv", "cycle,class,kind,bank\n")
        self.assertIn("no.bin: no such file", self.fails(2, "trace", "make", text, "-o", room / "x.bin", "--policy", room / "no.bin"))
        self.assertIn("no.bin: no such file", self.fails(2, "trace", "show", text, "--policy", room / "no.bin"))
        self.assertIn("No such file", self.fails(2, "trace", "make", text, "-o", room / "no" / "x.bin"))
        self.assertIn("written over its text", self.fails(2, "trace", "make", text, "-o", text))

    def test_words(self):
        self.assertIn("make or show?", self.fails(2, "trace"))
        self.assertIn("-o", self.fails(2, "trace", "make", "t.csv"))
        for part in ("make", "show"):
            self.assertIn("example:", self.succeeds("trace", part, "--help"))
