"""`vig match`: a lab's two recordings held together, their files, and where the answer delay is from."""

import shutil
import unittest
from pathlib import Path
from unittest import mock

from vigambul import build
from vigambul.draws import Draws
from vigambul.errors import Wrong
from vigambul.formats import MOST_IN_32_BITS, REFUSALS, UNSOUND, bytes_of
from vigambul.lab_recordings import CORES, WIRES, Recording, file_in, recording_at
from vigambul.partners import fault_words, held
from vigambul.policies import Names

from .support import EXAMPLES, ROOT, Case, vig

LAB, RANKS, REFUSED = EXAMPLES / "lab-recording", EXAMPLES / "two-ranks", EXAMPLES / "refused"
NAMES = Names({0: "host", 1: "camera", 2: "radio"})
ONE, TWO, THREE = 0x80000001, 0x81040002, 0x82170003
COLUMN = 0xC1040002


def numbers(*events):
    """A recording's numbers: cycle, word, cycle, word."""
    return [number for event in events for number in event]


def is_sound(row, delay):
    """By the sentence of the request, for the wires with their delay and for the cores with 0."""
    cycles = row[0::2]
    return len(row) % 2 == 0 and all(one < other for one, other in zip(cycles, cycles[1:])) and all(cycle + delay <= MOST_IN_32_BITS for cycle in cycles)


def first_alone(wires, cores, delay):
    """By the sentence of the request, event by event: the answer that the library must give."""
    for which, row, late in ((1, wires, delay), (2, cores, 0)):
        if not is_sound(row, late):
            return UNSOUND, which, len(wires)
    activates, answers = (list(zip(row[0::2], row[1::2])) for row in (wires, cores))
    events = [(cycle + delay, 1, 2 * place, any(answer == (cycle + delay, word) for answer in answers)) for place, (cycle, word) in enumerate(activates)]
    events += [(cycle, 2, 2 * place, any((was + delay, other) == (cycle, word) for was, other in activates)) for place, (cycle, word) in enumerate(answers)]
    return next(((0, which, at) for _, which, at, has in sorted(events) if not has), (0, 0, len(wires)))


def a_recording(draws, most, step):
    """Some events of three words, mostly with rising cycles."""
    cycle, row = draws.below(4), []
    for _ in range(draws.below(most)):
        row += [cycle, draws.one_of((ONE, TWO, THREE))]
        cycle += draws.below(step) + (not draws.chance(0.02))
    return row


class Asked(Case):
    """The library, by the tool's bindings."""

    def setUp(self):
        super().setUp()
        self.library = build.library()

    def test_answers(self):
        for wires, cores, delay, answer in (
            ((), (), 0, (0, 0, 0)),
            ((), (), 255, (0, 0, 0)),
            ([0, ONE], [3, ONE], 3, (0, 0, 2)),
            ([0, ONE], [0, ONE], 0, (0, 0, 2)),
            ([0, ONE], [255, ONE], 255, (0, 0, 2)),
            ([0, ONE], [3, ONE], 2, (0, 1, 0)),
            ([0, ONE], [3, ONE], 4, (0, 2, 0)),
            ([0, ONE, 2, TWO], [3, ONE], 3, (0, 1, 2)),
            ([0, ONE], [3, ONE, 5, TWO], 3, (0, 2, 2)),
            ([0, ONE], (), 3, (0, 1, 0)),
            ((), [0, ONE], 3, (0, 2, 0)),
            # One due cycle and two words: the activate comes first.
            ([0, ONE], [3, TWO], 3, (0, 1, 0)),
            ([MOST_IN_32_BITS - 3, ONE], [MOST_IN_32_BITS, ONE], 3, (0, 0, 2)),
            ([MOST_IN_32_BITS - 2, ONE], [MOST_IN_32_BITS, ONE], 3, (18, 1, 2)),
            ([0, ONE, 4], [3, ONE], 3, (18, 1, 3)),
            ([0, ONE], [3, ONE, 5], 3, (18, 2, 2)),
            ([4, ONE, 4, TWO], [7, ONE, 7, TWO], 3, (18, 1, 4)),
            ([4, ONE, 6, TWO], [7, ONE, 7, TWO], 3, (18, 2, 4)),
        ):
            with self.subTest(wires=wires, cores=cores, delay=delay):
                self.assertEqual(self.library.match(wires, cores, delay), answer)
                self.assertEqual(first_alone(list(wires), list(cores), delay), answer)

    def test_drawn(self):
        """Against the sentence read off event by event; each answer comes often."""
        seen = {}
        for number in range(3000):
            draws = Draws("recordings", number)
            delay = draws.below(4)
            wires = a_recording(draws, 8, 3)
            cores = [item + delay * (place % 2 == 0) for place, item in enumerate(wires)]
            for _ in range(draws.below(3)):
                row = draws.one_of((wires, cores))
                if not row:
                    break
                place = 2 * draws.below(len(row) // 2)
                if draws.chance(0.5):
                    row[place : place + 2] = []
                else:
                    row[place : place + 2] = draws.one_of(([row[place] + 1, row[place + 1]], [max(0, row[place] - 1), row[place + 1]], [row[place], THREE]))
            if draws.chance(0.05):
                (wires if draws.chance(0.5) else cores).append(1000)
            answer = self.library.match(wires, cores, delay)
            self.assertEqual(answer, first_alone(wires, cores, delay), (wires, cores, delay))
            seen[answer[:2]] = seen.get(answer[:2], 0) + 1
        self.assertEqual(set(seen), {(0, 0), (0, 1), (0, 2), (18, 1), (18, 2)})
        self.assertGreater(min(seen.values()), 50, seen)

    def test_recordings_of_a_log(self):
        """Ticks that were made count cycles; offers and ticks that were refused do not, and what stands in their lines is not looked at."""
        trace = [ONE, 0, 0, 1, 0, 0]
        log = [0, 5, 5, 0, 0, ONE, 0, 0, 0, ONE | 1 << 30, TWO, 0, 14, ONE, ONE, 0, 12, ONE, ONE, 0, 0, THREE, ONE, 0]
        for start in (0, 40):
            self.assertEqual(self.recorded(self.library.wires, trace, log, start), (0, [start, ONE, start + 2, THREE]))
            self.assertEqual(self.recorded(self.library.cores, trace, log, start), (0, [start + 1, TWO, start + 2, ONE]))

    def test_recordings_that_are_refused(self):
        """With 17 before 12; a stretch may end with the last tick that there is."""
        for asked in (self.library.wires, self.library.cores):
            self.assertEqual(self.recorded(asked, (), (), 0), (0, []))
            self.assertEqual(self.recorded(asked, [0], [0] * 5, 0), (17, []))
            self.assertEqual(self.recorded(asked, [0], [0] * 5, 16_777_215), (17, []))
            self.assertEqual(self.recorded(asked, [0], [0, ONE, ONE, 0], 16_777_215), (12, []))
            self.assertEqual(self.recorded(asked, [0], [0, ONE, ONE, 0], 16_777_214), (0, [16_777_214, ONE]))
            self.assertEqual(self.recorded(asked, [ONE], [0, ONE, ONE, 0], 16_777_215), (0, []))

    def recorded(self, asked, *words):
        status, out = asked(*words)
        return status, list(out)


class Files(Case):
    def read(self, name, data):
        path = self.room / name
        path.write_bytes(data)
        return list(recording_at(CORES, path).numbers)

    def test_text(self):
        """Cycles in decimal, words in hexadecimal; comments, empty lines and a header say nothing, and cells may stand apart as in a spreadsheet's file."""
        whole = [4, ONE, 10, TWO]
        for text in (
            b"4 80000001\n10 81040002\n",
            b"# answers\n\n 4\t0x80000001  # host\r\n10 81040002",
            b"\xef\xbb\xbfcycle,word\n4,80000001\n10,81040002\n",
            b"Cycle;Word\n4 ; 80000001\n\n010;0X81040002\n",
            b"# made by hand\ncycle word\n4, 80000001 # one\n10\t81040002\n",
        ):
            for name in ("cores.txt", "cores.csv", "probe.log"):
                self.assertEqual(self.read(name, text), whole, text)
        self.assertEqual(self.read("cores.txt", b""), [])
        self.assertEqual(self.read("cores.txt", b"# nothing came\n"), [])
        self.assertEqual(self.read("cores.txt", b"4294967295 f\n3 0\n"), [MOST_IN_32_BITS, 15, 3, 0])

    def test_mistakes_in_text(self):
        for text, line, told in (
            (b"4 80000001\n10\n", 2, "'10' is not a cycle, in decimal, and a word, in hexadecimal"),
            (b"4 80000001 5\n", 1, "'4 80000001 5' is not a cycle"),
            (b"x4 80000001\n", 1, "is not a cycle"),
            (b"-4 80000001\n", 1, "is not a cycle"),
            (b"4 180000001\n", 1, "is not a cycle"),
            (b"4 80000001\ncycle word\n", 2, "'cycle word' is not a cycle"),
            (b"\n4294967296 1\n", 2, "cycle 4294967296 is above 4294967295, the most that 32 bits hold"),
            (b"\x04\0\0\0\x01\0\0\x80", 1, r"'\x04"),
        ):
            with self.subTest(text=text), self.assertRaises(Wrong) as wrong:
                self.read("cores.txt", text)
            self.assertTrue(str(wrong.exception).startswith("%s, line %d: " % (self.room / "cores.txt", line)), wrong.exception)
            self.assertIn(told, str(wrong.exception).replace("\\\\", "\\"))

    def test_numbers(self):
        """An odd number of numbers is the library's to turn down; bytes that make no number are no recording."""
        self.assertEqual(self.read("cores.bin", bytes_of([4, ONE])), [4, ONE])
        self.assertEqual(self.read("CORES.BIN", bytes_of([4, ONE, 7])), [4, ONE, 7])
        self.assertEqual(self.read("cores.bin", b""), [])
        for left_over, told in ((1, "1 byte left over"), (3, "3 bytes left over")):
            with self.assertRaisesRegex(Wrong, "cores.bin: %s at the end: the file was cut off inside a number of 32 bits$" % told):
                self.read("cores.bin", bytes_of([4, ONE]) + bytes(left_over))

    def test_in_a_folder(self):
        with self.assertRaisesRegex(Wrong, "no recording of the wires in it, which is called wires.bin or wires.txt or wires.csv$"):
            file_in(self.room, WIRES)
        (self.room / "wires.txt").write_text("")
        self.assertEqual(file_in(self.room, WIRES), self.room / "wires.txt")
        (self.room / "wires.bin").write_bytes(b"")
        with self.assertRaisesRegex(Wrong, "wires.bin and wires.txt: two recordings of the wires; --wires names the one that is meant$"):
            file_in(self.room, WIRES)


class Faults(unittest.TestCase):
    def test_where_and_why(self):
        """The first event at fault."""
        most = MOST_IN_32_BITS
        for side, row, told in (
            (WIRES, [0, ONE, 4], "event 2: its cycle, 4, is the last number, and no word stands behind it"),
            (CORES, [7], "event 1: its cycle, 7, is the last number, and no word stands behind it"),
            (WIRES, [0, ONE, 5, TWO, 5, ONE], "event 3: cycle 5 is not above the one before, 5"),
            (CORES, [9, ONE, 5, TWO, 4], "event 2: cycle 5 is not above the one before, 9"),
            (WIRES, [most - 3, ONE, most - 2, TWO], "event 2: the answer to cycle 4294967293 would be due in cycle 4294967296, and 32 bits hold 4294967295 at most"),
            (CORES, [most, ONE], "no event was found that is at fault"),
        ):
            self.assertEqual(fault_words(Recording(side, Path("f"), row), 3), told)


class MatchCase(Case):
    def said(self, text):
        return text.replace("%s/" % self.room, "").replace(str(EXAMPLES), "examples")

    def put(self, wires, cores, names=True):
        """A folder with two recordings, and the example's policy and names beside them if they are wanted."""
        for side, row in (("wires", wires), ("cores", cores)):
            (self.room / (side + ".bin")).write_bytes(bytes_of(row))
        if names:
            shutil.copy(LAB / "policy.bin", self.room)
            shutil.copy(LAB / "policy.names", self.room)

    def match(self, wires, cores, delay):
        """What the command says of two recordings: its exit status and its lines below what was held together."""
        self.put(wires, cores)
        status, out, err = vig("match", self.room, "--delay", delay)
        self.assertEqual(err, "")
        lines = out.splitlines()
        self.assertEqual([line.partition(": ")[0] for line in lines[:3]], ["wires", "cores", "answer delay"])
        return status, lines[3:]


class Match(MatchCase):
    def test_the_example(self):
        """One answer is missing: the activate without it is the first event without a partner, and nothing else is amiss."""
        status, out, err = vig("match", LAB)
        self.assertEqual((status, err), (1, ""))
        self.stored("match/lab-recording.txt", self.said(out))
        self.assertIn("  cycle 32: 81040003, camera read bank 4 tag 3\n", out)

    def test_all_have_partners(self):
        for wires, cores, delay, told in (
            (numbers((0, ONE), (2, TWO)), numbers((4, ONE), (6, TWO)), 4, "2 activates on the wires and 2 answers at the cores, 4 cycles apart"),
            ([7, ONE], [8, ONE], 1, "1 activate on the wires and 1 answer at the cores, 1 cycle apart"),
            ([7, ONE], [7, ONE], 0, "1 activate on the wires and 1 answer at the cores, 0 cycles apart"),
        ):
            self.assertEqual(self.match(wires, cores, delay), (0, ["all have partners: " + told]))

    def test_what_was_held_together(self):
        self.put([7, ONE, 9, ONE], [])
        out = vig("match", self.room, "--delay", 1)[1]
        self.assertEqual(self.said(out).splitlines()[:3], ["wires: wires.bin: 2 activates, cycles 7 to 9", "cores: cores.bin: 0 answers", "answer delay: 1 cycle, as given"])
        self.put([], [7, ONE])
        self.assertIn("cores.bin: 1 answer, cycle 7\n", vig("match", self.room, "--delay", 1)[1])

    def test_both_empty(self):
        self.assertEqual(self.match([], [], 4), (0, ["both recordings are empty, so no event is without a partner"]))

    def test_one_empty(self):
        status, lines = self.match([3, ONE], [], 4)
        told = [
            "the first event without a partner is an activate on the wires:",
            "  cycle 3: 80000001, host read bank 0 tag 1",
            "  it is event 1 of 1: nothing comes before it; the rest of the wires' recording, from it on, has 1 event",
            "  its answer is due in cycle 7, and the cores' recording has nothing in that cycle",
            "  no answer with this word is left over at the cores",
        ]
        self.assertEqual((status, lines[:5]), (1, told))
        status, lines = self.match([], [3, ONE, 9, ONE], 4)
        told = [
            "the first event without a partner is an answer at the cores:",
            "  cycle 3: 80000001, host read bank 0 tag 1",
            "  it is event 1 of 2: nothing comes before it; the rest of the cores' recording, from it on, has 2 events",
            "  no activate can be 4 cycles before it",
            "  no activate with this word is left over on the wires",
        ]
        self.assertEqual((status, lines[:5]), (1, told))

    def test_a_shared_due_cycle(self):
        """Of an activate and an answer with other words the activate is named, and the other shown beside it."""
        status, lines = self.match(numbers((0, ONE), (2, TWO)), numbers((4, ONE), (6, THREE)), 4)
        told = [
            "the first event without a partner is an activate on the wires:",
            "  cycle 2: 81040002, camera read bank 4 tag 2",
            "  it is event 2 of 2: 1 activate and 1 answer before it have partners; the rest of the wires' recording, from it on, has 1 event",
            "  its answer is due in cycle 6, and the cores' recording has another word in that cycle: 82170003, radio write bank 7 tag 3",
            "  no answer with this word is left over at the cores",
            "",
            "   cycle  due  wires                              cores",
            "       0    4  80000001 host read bank 0 tag 1    80000001 host read bank 0 tag 1",
            "*      2    6  81040002 camera read bank 4 tag 2  82170003 radio write bank 7 tag 3",
        ]
        self.assertEqual((status, lines), (1, told))

    def test_late_and_early(self):
        """The nearest answer with the word to which there is no activate; one that has its own is not taken for it."""
        _, lines = self.match(numbers((0, ONE), (4, ONE)), numbers((6, ONE), (8, ONE)), 4)
        self.assertIn("  an answer with this word, and no activate to it, is in cycle 6, 2 cycles later than due", lines)
        _, lines = self.match(numbers((10, ONE)), numbers((15, ONE)), 4)
        self.assertIn("  an answer with this word, and no activate to it, is in cycle 15, 1 cycle later than due", lines)
        _, lines = self.match(numbers((10, ONE)), numbers((13, ONE)), 4)
        self.assertEqual(lines[0], "the first event without a partner is an answer at the cores:")
        self.assertIn("  its activate would be in cycle 9, and the wires' recording has nothing in that cycle", lines)
        self.assertIn("  an activate with this word, and no answer to it, is in cycle 10: this answer comes 1 cycle earlier than due", lines)
        _, lines = self.match(numbers((0, TWO), (10, ONE), (12, TWO)), numbers((4, TWO), (13, ONE), (16, TWO)), 4)
        rows = [
            "   cycle  due  wires                              cores",
            "       0    4  81040002 camera read bank 4 tag 2  81040002 camera read bank 4 tag 2",
            "*      9   13  -                                  80000001 host read bank 0 tag 1",
            "      10   14  80000001 host read bank 0 tag 1    -",
            "      12   16  81040002 camera read bank 4 tag 2  81040002 camera read bank 4 tag 2",
        ]
        self.assertEqual(lines[6:], rows)

    def test_four_due_cycles_around_are_shown(self):
        events = [(10 * place, ONE + place) for place in range(40)]
        answers = [(cycle + 4, word) for cycle, word in events]
        for missing in (0, 2, 20, 38, 39):
            _, lines = self.match(numbers(*events), numbers(*answers[:missing], *answers[missing + 1 :]), 4)
            rows = lines[lines.index("") + 2 :]
            shown = range(max(0, missing - 4), min(39, missing + 4) + 1)
            self.assertEqual([row.split()[row[0] == "*"] for row in rows], [str(10 * place) for place in shown])
            self.assertEqual([place for place, row in zip(shown, rows) if row[0] == "*"], [missing])

    def test_words_that_are_no_requests(self):
        """A recorder that took column commands for activates is told so; other words are shown as they are."""
        _, lines = self.match(numbers((0, TWO), (1, COLUMN)), numbers((4, TWO)), 4)
        self.assertEqual(lines[1], "  cycle 1: C1040002, column command of camera read bank 4 tag 2")
        self.assertIn("  column commands have no answers: the wires' recording is to have the activates alone", lines)
        _, lines = self.match(numbers((0, 7)), [], 4)
        self.assertEqual(lines[1], "  cycle 0: 00000007, malformed: bit 31 is not set")
        self.assertFalse([line for line in lines if "column" in line])
        self.assertEqual(self.match([0, 7], [4, 7], 4)[0], 0)

    def test_the_greatest_delay(self):
        self.assertEqual(self.match([0, ONE], [255, ONE], 255)[0], 0)
        most = MOST_IN_32_BITS
        self.assertEqual(self.match([most - 255, ONE], [most, ONE], 255)[0], 0)

    def test_what_is_told_is_what_the_library_said(self):
        """Of drawn recordings: exit status, side, event and rest."""
        for number in range(150):
            draws = Draws("told", number)
            delay, wires = draws.below(5), []
            while not wires or not is_sound(wires, 0):
                wires = a_recording(draws, 12, 4)
            cores = [item + delay * (place % 2 == 0) for place, item in enumerate(wires)]
            if draws.chance(0.8):
                place = 2 * draws.below(len(cores) // 2)
                del cores[place : place + 2]
            if draws.chance(0.3):
                # The other way round: what was missing at the cores is missing on the wires.
                wires, cores = cores, [item + 2 * delay * (place % 2 == 0) for place, item in enumerate(wires)]
            said, which, at = first_alone(wires, cores, delay)
            status, lines = self.match(wires, cores, delay)
            self.assertEqual((said, status), (0, 1 if which else 0))
            if which:
                side, row = (WIRES, wires) if which == 1 else (CORES, cores)
                self.assertEqual(lines[0], "the first event without a partner is an %s %s:" % (side.event, side.place))
                self.assertTrue(lines[1].startswith("  cycle %d: %08X, " % (row[at], row[at + 1])))
                self.assertTrue(lines[2].startswith("  it is event %d of %d: " % (at // 2 + 1, len(row) // 2)))
                left = len(row) // 2 - at // 2
                self.assertTrue(lines[2].endswith(" has %d event%s" % (left, "" if left == 1 else "s")), lines[2])

    def test_the_tool_decides_nothing(self):
        """Whatever the library says is told, though the recordings look otherwise."""
        library = build.library()
        for answer, status, told in (
            ((0, 0, 20), 0, "all have partners: 10 activates on the wires and 9 answers at the cores, 4 cycles apart\n"),
            ((0, 2, 4), 1, "is an answer at the cores:\n  cycle 8: 80020003, host read bank 2 tag 3\n  it is event 3 of 9: 2 activates and 2 answers before it have partners"),
            ((0, 1, 18), 1, "is an activate on the wires:\n  cycle 40: 82170002, radio write bank 7 tag 2\n  it is event 10 of 10: "),
        ):
            library.match = mock.Mock(return_value=answer)
            with mock.patch.object(build, "library", return_value=library):
                ended, out, err = vig("match", LAB)
            self.assertEqual((ended, err), (status, ""))
            self.assertIn(told, out)
            (wires, cores, delay), _ = library.match.call_args
            self.assertEqual((bytes_of(wires), bytes_of(cores), delay), ((LAB / "wires.bin").read_bytes(), (LAB / "cores.bin").read_bytes(), 4))


class Unsound(MatchCase):
    def unsound(self, wires, cores, delay=4):
        """What is said of an unsound recording; nothing is said of partners."""
        self.put(wires, cores)
        status, out, err = vig("match", self.room, "--delay", delay)
        self.assertEqual((status, out), (2, ""))
        return self.said(err)

    def test_each_kind(self):
        most, fine = MOST_IN_32_BITS, [0, ONE]
        head = "vig: the recording of the %s is unsound (18), so nothing is said of partners; %s.bin, event %s\n"
        for wires, cores, delay, told in (
            ([0, ONE, 9], fine, 4, ("wires", "wires", "2: its cycle, 9, is the last number, and no word stands behind it")),
            (fine, [4], 4, ("cores", "cores", "1: its cycle, 4, is the last number, and no word stands behind it")),
            ([3, ONE, 3, TWO], fine, 4, ("wires", "wires", "2: cycle 3 is not above the one before, 3")),
            (fine, [4, ONE, 3, TWO], 4, ("cores", "cores", "2: cycle 3 is not above the one before, 4")),
            ([most - 3, ONE], fine, 4, ("wires", "wires", "1: the answer to cycle 4294967292 would be due in cycle 4294967296, and 32 bits hold 4294967295 at most")),
            # Both: the wires' is named.
            ([3, ONE, 3, TWO], [4], 4, ("wires", "wires", "2: cycle 3 is not above the one before, 3")),
        ):
            with self.subTest(told=told):
                self.assertEqual(self.unsound(wires, cores, delay), head % told)

    def test_the_reference_shows_one(self):
        told = self.unsound([0, ONE], [4, ONE, 8, TWO, 8, THREE]).replace("; cores.bin", "; lab/cores.bin")
        self.assertIn(told, (ROOT / "docs" / "REFERENCE.md").read_text())

    def test_a_due_cycle_at_the_end_of_32_bits(self):
        """One at the last is fine, and an answer may be in the last cycle whatever the delay is."""
        most = MOST_IN_32_BITS
        self.assertEqual(self.match([most - 4, ONE], [most, ONE], 4)[0], 0)
        self.assertEqual(self.match([], [most, ONE], 255)[0], 1)
        self.assertIn("is unsound (18)", self.unsound([most - 254, ONE], [most, ONE], 255))

    def test_no_fault_is_made_up(self):
        """If the library called a recording unsound in which the tool sees nothing wrong, the library's answer stands."""
        library = mock.Mock(match=mock.Mock(return_value=(18, 2, 2)))
        fine = [Recording(side, Path(side.name), [0, ONE]) for side in (WIRES, CORES)]
        with self.assertRaisesRegex(Wrong, r"^the recording of the cores is unsound \(18\), .*; cores, no event was found that is at fault$"):
            held(library, *fine, 4)

    def test_files_that_are_no_recordings(self):
        self.put([0, ONE], [4, ONE])
        (self.room / "cores.bin").write_bytes(bytes(5))
        self.assertIn("cores.bin: 1 byte left over at the end", self.fails(2, "match", self.room))
        (self.room / "lab.txt").write_text("4 80000001\nfive\n")
        self.assertIn("lab.txt, line 2: 'five' is not a cycle", self.fails(2, "match", self.room, "--cores", self.room / "lab.txt"))

    def test_the_number_is_in_the_table(self):
        self.assertIn("odd length", REFUSALS[UNSOUND].when)


class Delay(MatchCase):
    def test_of_ten_and_of_eleven_timing_bytes(self):
        """The tenth byte is the answer delay; the eleventh, the rank gap, is not taken for it. Ranks are told where there are four."""
        for folder, length, rank in ((LAB, 10, ""), (RANKS, 11, "rank 0 ")):
            data = bytearray((folder / "policy.bin").read_bytes())
            self.assertEqual(int.from_bytes(data[14:16], "little"), length)
            self.put([0, ONE], [4, ONE], names=False)
            for delay in (4, 3, 2):
                data[len(data) - length + 9] = delay
                (self.room / "policy.bin").write_bytes(data)
                status, out, _ = vig("match", self.room)
                self.assertEqual(status, 0 if delay == 4 else 1)
                self.assertIn("answer delay: %d cycles, by " % delay, out)
            self.assertIn("cycle 0: 80000001, class 0 read %sbank 0 tag 1\n" % rank, out)
        out = self.succeeds("match", "--wires", self.room / "wires.bin", "--cores", self.room / "cores.bin", "--policy", RANKS)
        self.assertIn("answer delay: 4 cycles, by %s\n" % (RANKS / "policy.bin"), out)

    def test_which_policy(self):
        """The one that is named, a file or its folder; else the folder's; else the one beside a recording."""
        self.put([0, ONE], [4, ONE], names=False)
        lone = ["--wires", self.room / "wires.bin", "--cores", self.room / "cores.bin"]
        for words in (["--policy", LAB], ["--policy", LAB / "policy.bin"]):
            for first in ([self.room], lone):
                self.assertIn("answer delay: 4 cycles, by %s\n" % (LAB / "policy.bin"), self.succeeds("match", *first, *words))
        wanted = "vig: the answer delay is wanted: --delay N (0 to 255), or --policy P with a policy file or its folder\n"
        self.assertEqual([self.fails(2, "match", self.room), self.fails(2, "match", *lone)], [wanted] * 2)
        self.assertIn("by %s\n" % (LAB / "policy.bin"), vig("match", "--wires", LAB / "wires.bin", "--cores", self.room / "cores.bin")[1])
        self.assertIn("by %s\n" % (LAB / "policy.bin"), vig("match", "--wires", self.room / "wires.bin", "--cores", LAB / "cores.bin")[1])
        shutil.copy(EXAMPLES / "busy-bank" / "policy.bin", self.room)
        self.assertIn("by %s\n" % (self.room / "policy.bin"), vig("match", self.room, "--cores", LAB / "cores.bin")[1])
        self.assertIn("policy.bin differ: --policy names the one that is meant", self.fails(2, "match", "--wires", self.room / "wires.bin", "--cores", LAB / "cores.bin"))
        shutil.copy(LAB / "policy.bin", self.room)
        self.assertEqual(vig("match", "--wires", self.room / "wires.bin", "--cores", LAB / "cores.bin")[0], 1)

    def test_given(self):
        """It goes before the policy's, whose names are used all the same; a refused policy has names too."""
        out = vig("match", LAB, "--delay", 3)[1]
        self.assertIn("answer delay: 3 cycles, as given\n", out)
        self.assertIn("cycle 0: 80000001, host read bank 0 tag 1\n", out)
        out = vig("match", LAB, "--delay", 3, "--policy", REFUSED)[1]
        self.assertIn("cycle 0: 80000001, low read bank 0 tag 1\n", out)
        out = vig("match", "--wires", LAB / "wires.bin", "--cores", LAB / "cores.bin", "--delay", 4, "--policy", EXAMPLES / "two-tenants")[1]
        self.assertIn("cycle 32: 81040003, red read bank 4 tag 3\n", out)

    def test_a_refused_policy(self):
        self.assertIn("policy refused 5", self.fails(1, "match", LAB, "--policy", REFUSED))

    def test_out_of_range(self):
        for delay in ("256", "-1", "4.5", "four", ""):
            self.assertIn("is not a delay, 0 to 255" if delay != "-1" else "--delay", self.fails(2, "match", LAB, "--delay=" + delay))


class Usage(MatchCase):
    def test_recordings_are_named_or_in_the_folder(self):
        self.assertIn("vig: --wires F is wanted, or a folder with the recording", self.fails(2, "match"))
        self.assertIn("vig: --cores F is wanted", self.fails(2, "match", "--wires", LAB / "wires.bin"))
        self.assertIn("no recording of the wires in it", self.fails(2, "match", EXAMPLES / "cloud"))
        self.assertIn("no recording of the wires in it", self.fails(2, "match", ""))
        self.assertIn("no such folder", self.fails(2, "match", self.room / "no"))
        self.assertIn("not a folder", self.fails(2, "match", LAB / "wires.bin"))
        self.assertIn("no such file", self.fails(2, "match", LAB, "--cores", self.room / "no.bin"))
        self.assertIn("a folder, where a file is wanted", self.fails(2, "match", LAB, "--cores", LAB))
        self.assertIn("no such file", self.fails(2, "match", LAB, "--policy", self.room / "no.bin"))
        self.assertIn("policy.bin: no such file", self.fails(2, "match", LAB, "--policy", self.room))

    def test_one_may_be_named_in_place_of_the_folders(self):
        (self.room / "mine.txt").write_text("36 81040003\n")
        out = vig("match", LAB, "--cores", self.room / "mine.txt")[1]
        self.assertIn("cores: %s: 1 answer, cycle 36\n" % (self.room / "mine.txt"), out)
        self.assertIn("wires: %s: 10 activates, cycles 0 to 40\n" % (LAB / "wires.bin"), out)

    def test_text_and_numbers_are_the_same(self):
        """The example's recordings as text, in a folder without a policy."""
        for side in (WIRES, CORES):
            recording = recording_at(side, LAB / (side.name + ".bin"))
            lines = ["%d,%08x" % event for event in zip(recording.cycles, recording.words)]
            (self.room / (side.name + ".csv")).write_text("cycle,word\n" + "\n".join(lines) + "\n")
        texts, bins = (vig("match", *words, "--policy", LAB)[1].replace(str(folder), "").replace(".csv", ".bin") for words, folder in (((self.room,), self.room), ((LAB,), LAB)))
        self.assertEqual(texts.splitlines()[3:], bins.splitlines()[3:])

    def test_a_library_that_is_too_old(self):
        library = build.library()
        library._match = None
        with mock.patch.object(build, "library", return_value=library):
            self.assertIn("vig: the built library is too old to say which events of two recordings have partners", self.fails(2, "match", LAB))

    def test_help(self):
        text = self.succeeds("match", "--help")
        self.assertIn("examples:", text)
        self.assertIn("low byte first", text)
