"""`vig record`: the two recordings of a run or of a stretch of it, what is in flight where it is cut, and that they are what `vig match` takes."""

import shutil
from unittest import mock

from vigambul import build
from vigambul.formats import COLUMN, bytes_of, words_of
from vigambul.history import calls_of, ticks_of
from vigambul.lab_recordings import CORES, WIRES, recording_at
from vigambul.stretch import stretch_of

from .samples import FIVE, generated, write, write_five
from .support import EXAMPLES, ROOT, Case, vig

LAB, RANKS = EXAMPLES / "lab-recording", EXAMPLES / "two-ranks"
TAKEN = sorted(path.parent for path in EXAMPLES.glob("*/policy.bin") if path.parent.name != "refused")


def carried(ran):
    """What the log has, read off line by line: activates and answers, each as a cycle and a word."""
    ticks = [call for call in calls_of(ran.trace, ran.log) if call.ticks]
    return [(call.cycle, call.command) for call in ticks if call.command and not call.command & COLUMN], [(call.cycle, call.response) for call in ticks if call.response]


def events(recording):
    return list(zip(recording.cycles, recording.words))


class Recorded(Case):
    def test_generated(self):
        """Whole runs and stretches of them: the events that the log has in those cycles. Where nothing is in flight at either end all have partners under the policy's delay, and
        where an event is cut off not: the library says so, and the notes do."""
        library, clean, cut = build.library(), 0, 0
        for number, ran in enumerate(generated(library, self.room, 12, 100)):
            ticks, delay = ticks_of(ran.trace, ran.log), ran.policy.answer_delay
            activates, answers = carried(ran)
            for first in (None, *range(number % 3, ticks, 7)):
                for last in (None, *range(first or 0, ticks, 9)):
                    stretch = stretch_of(library, ran, first, last)
                    start, end = first or 0, ticks if last is None else last + 1
                    self.assertEqual((stretch.first, stretch.end), (start, end))
                    for recording, whole in ((stretch.wires, activates), (stretch.cores, answers)):
                        self.assertEqual(events(recording), [event for event in whole if start <= event[0] < end])
                    flying = [sum(cycle < place <= cycle + delay for cycle, _ in activates) for place in (start, end)]
                    self.assertEqual([len(stretch.in_flight(place)) for place in (start, end)], flying)
                    status, which, _ = library.match(stretch.wires.numbers, stretch.cores.numbers, delay)
                    self.assertEqual((status, bool(which)), (0, bool(list(stretch.notes()))))
                    if not any(flying):
                        self.assertEqual(which, 0)
                        self.assertTrue(stretch.told().endswith("; nothing is in flight at either end"))
                        clean += 1
                    cut += which != 0
        self.assertGreater(clean, 100)
        self.assertGreater(cut, 100)

    def test_where_to_cut_instead(self):
        """What a note names is the next cut of that end at which nothing is in flight, and no other lies between."""
        library, named = build.library(), 0
        for ran in generated(library, self.room, 6, 80):
            ticks = ticks_of(ran.trace, ran.log)
            for first in range(0, ticks, 5):
                stretch = stretch_of(library, ran, first, ticks - 1)
                cut = stretch._later_cut()
                self.assertEqual([bool(stretch.in_flight(place)) for place in range(first, cut + 1)], [True] * (cut - first) + [False])
                stretch = stretch_of(library, ran, 0, first)
                cut = stretch._earlier_cut()
                self.assertEqual([bool(stretch.in_flight(place)) for place in range(cut, first + 2)], [False] + [True] * (first + 1 - cut))
                named += cut != first + 1
        self.assertGreater(named, 20)

    def test_every_example(self):
        """A folder that is made of a run is one that `vig match` takes; where nothing is in flight as the run ends all have partners, and else an activate has none."""
        whole = 0
        for folder in TAKEN:
            with self.subTest(folder.name):
                out = self.room / folder.name
                status, printed, err = vig("record", folder, "-o", out)
                self.assertEqual((status, printed), (0, ""))
                ends = "nothing is in flight at either end\n" in err
                status, told, _ = vig("match", out)
                self.assertEqual(status, 0 if ends else 1, err)
                self.assertIn("all have partners: " if ends else "the first event without a partner is an activate on the wires:\n", told)
                whole += ends
        self.assertGreater(whole, 8)

    def test_ticks_past_the_last(self):
        """Ticks that are refused make no cycle; they come after all that are made. A run of 16,777,216 ticks would take too long here."""
        ran = mock.Mock(trace=words_of(bytes_of([0, 0x80000001, 0, 0, 0]))[0], policy=FIVE)
        ran.log = words_of(bytes_of([0, 0x80000009, 0, 0, 0, 0, 0, 0, 0, 0x80000008, 0x80000009, 0, 12, 0, 0, 0, 12, 0, 0, 0]))[0]
        stretch = stretch_of(build.library(), ran)
        self.assertEqual((stretch.first, stretch.end, events(stretch.wires), events(stretch.cores)), (0, 2, [(0, 0x80000009), (1, 0x80000008)], [(1, 0x80000009)]))
        stretch = stretch_of(build.library(), ran, 1, 1)
        self.assertEqual((events(stretch.wires), events(stretch.cores)), ([(1, 0x80000008)], [(1, 0x80000009)]))


class Record(Case):
    def test_stored(self):
        for name, words in (("wires", ["--wires"]), ("cores", ["--cores"]), ("cut", ["--from", 5, "--to", 33, "--cores"])):
            status, out, err = vig("record", LAB, *words)
            self.assertEqual(status, 0)
            self.stored("record/lab-recording-%s.txt" % name, out + err)
        # What the reference shows of a cut.
        self.assertIn(err, (ROOT / "docs" / "REFERENCE.md").read_text())
        self.assertIn("host read rank 1 bank 3 tag 2\n", self.succeeds("record", RANKS, "--wires"))

    def test_the_examples_wires_are_the_models_and_one_answer_is_not(self):
        """What the lab recorded on the wires is what the model's run has there; at the cores one answer of it is missing, and no other event differs."""
        self.succeeds("record", LAB, "-o", self.room / "model")
        self.assertEqual((self.room / "model" / "wires.bin").read_bytes(), (LAB / "wires.bin").read_bytes())
        model, lab = (events(recording_at(CORES, folder / "cores.bin")) for folder in (self.room / "model", LAB))
        self.assertEqual([event for event in model if event not in lab], [(36, 0x81040003)])
        self.assertEqual([event for event in lab if event not in model], [])

    def test_the_two_commands_chain(self):
        model = self.room / "model"
        status, out, err = vig("record", LAB, "-o", model)
        self.assertEqual((status, out, err), (0, "", "cycles 0 to 47: 10 activates on the wires, 10 answers at the cores; nothing is in flight at either end\n"))
        self.assertEqual(sorted(path.name for path in model.iterdir()), ["cores.bin", "policy.bin", "policy.names", "wires.bin"])
        for name in ("policy.bin", "policy.names"):
            self.assertEqual((model / name).read_bytes(), (LAB / name).read_bytes())
        for words in ((model,), (model, "--wires", LAB / "wires.bin"), ("--wires", LAB / "wires.bin", "--cores", model / "cores.bin")):
            self.assertIn("all have partners: 10 activates on the wires and 10 answers at the cores, 4 cycles apart\n", self.succeeds("match", *words))
        status, out, _ = vig("match", model, "--cores", LAB / "cores.bin")
        self.assertEqual(status, 1)
        self.assertIn("  cycle 32: 81040003, camera read bank 4 tag 3\n", out)

    def test_text_is_what_match_takes(self):
        for side in (WIRES, CORES):
            (self.room / (side.name + ".txt")).write_text(self.succeeds("record", LAB, "--" + side.name))
        self.assertIn("all have partners: 10 activates", self.succeeds("match", self.room, "--policy", LAB))
        self.assertIn("all have partners: 10 activates", self.succeeds("match", self.room, "--delay", 4))

    def test_stretches(self):
        """Cycles are those of the whole run, and both ends are in the stretch."""
        self.assertEqual(self.succeeds("record", LAB, "--from", 16, "--to", 31, "--wires"), "16 82060001  # radio read bank 6 tag 1\n24 80030004  # host read bank 3 tag 4\n")
        self.assertEqual(self.succeeds("record", LAB, "--from", 16, "--to", 16, "--wires"), "16 82060001  # radio read bank 6 tag 1\n")
        self.assertEqual(self.succeeds("record", LAB, "--from", 40, "--cores"), "44 82170002  # radio write bank 7 tag 2\n")
        self.assertEqual(self.succeeds("record", LAB, "--to", 4, "--cores"), "4 80000001  # host read bank 0 tag 1\n")
        whole = self.succeeds("record", LAB, "--cores")
        self.assertEqual(self.succeeds("record", LAB, "--from", 0, "--to", 47, "--cores"), whole)
        self.succeeds("record", LAB, "--from", 16, "--to", 31, "-o", self.room / "part")
        self.assertIn("all have partners: 2 activates", self.succeeds("match", self.room / "part"))

    def test_cuts(self):
        """What is said where a request is in flight: what of it is in the stretch, and where to cut instead."""
        ends = "it is cut while a request is in flight\n"
        late, camera = "host read bank 2 tag 3, activated in cycle 4", "the first is camera read bank 4 tag 3, activated in cycle 32"
        one, two = "1 request is in flight (%s): its %s has no partner in the stretch", "2 requests are in flight (%s): their %s have no partners in the stretch"
        begins, stops = "; --from %d begins where nothing is in flight", "; --to %d ends where nothing is in flight"
        radio, camera_wrote = "radio write bank 7 tag 2, activated in cycle 40", "camera write bank 4 tag 1, activated in cycle 8"
        for words, *told in (
            (["--from", 8], "as cycle 8 begins, " + one % (late, "answer") + begins % 15),
            (["--from", 5], "as cycle 5 begins, " + two % ("the first is host read bank 1 tag 2, activated in cycle 2", "answers") + begins % 15),
            (["--to", 35], "as cycle 35 ends, " + two % (camera, "activates") + stops % 31),
            (["--to", 40], "as cycle 40 ends, " + one % (radio, "activate") + stops % 39),
            # Here there is no such cut inside the stretch.
            (["--to", 3], "as cycle 3 ends, " + two % ("the first is host read bank 0 tag 1, activated in cycle 0", "activates")),
            (["--from", 8, "--to", 9], "as cycle 8 begins, " + one % (late, "answer"), "as cycle 9 ends, " + one % (camera_wrote, "activate")),
        ):
            with self.subTest(words=words):
                status, _, err = vig("record", LAB, *words, "--wires")
                self.assertEqual(status, 0)
                self.assertEqual(err.partition(ends)[2].splitlines(), ["vig: " + line for line in told])
        err = vig("record", LAB, "--from", 3, "--to", 3, "--wires")[2]
        self.assertEqual(err, "cycle 3: 0 activates on the wires, 0 answers at the cores; what is in flight at its ends is so throughout, and has no event in it\n")
        self.assertIn("; nothing is in flight at either end\n", vig("record", LAB, "--from", 15, "--to", 31, "--wires")[2])

    def test_a_cut_as_the_library_sees_it(self):
        self.succeeds("record", LAB, "--from", 5, "--to", 33, "-o", self.room / "cut")
        status, out, _ = vig("match", self.room / "cut")
        self.assertEqual(status, 1)
        self.assertIn("an answer at the cores:\n  cycle 6: 80010002, host read bank 1 tag 2\n  it is event 1 of 6: nothing comes before it", out)

    def test_what_is_there_stays(self):
        """A lab's recording cannot be made anew. Nothing is written if one of the files is there and says something else."""
        lab = self.room / "lab"
        shutil.copytree(LAB, lab)
        kept = {path.name: path.read_bytes() for path in lab.iterdir()}
        self.assertEqual(self.fails(2, "record", lab, "-o", lab), "vig: %s: is there already, and says something else; take another folder, or remove that file\n" % (lab / "cores.bin"))
        self.assertEqual({path.name: path.read_bytes() for path in lab.iterdir()}, kept)
        (lab / "cores.bin").unlink()
        self.succeeds("record", lab, "-o", lab)
        self.succeeds("record", lab, "-o", lab)
        self.assertIn("all have partners", self.succeeds("match", lab))
        other = self.room / "other"
        other.mkdir()
        shutil.copy(RANKS / "policy.bin", other)
        self.assertIn("policy.bin: is there already", self.fails(2, "record", LAB, "-o", other))
        self.assertEqual([path.name for path in other.iterdir()], ["policy.bin"])
        nameless, named = self.room / "nameless", self.room / "named"
        shutil.copytree(LAB, nameless)
        (nameless / "policy.names").unlink()
        named.mkdir()
        shutil.copy(LAB / "policy.names", named)
        self.assertIn("policy.names: is there already", self.fails(2, "record", nameless, "-o", named))

    def test_where_it_cannot_be_written(self):
        (self.room / "file").write_text("")
        self.assertIn("file: not a folder", self.fails(2, "record", LAB, "-o", self.room / "file"))
        self.assertIn("No such file or directory", self.fails(2, "record", LAB, "-o", self.room / "no" / "such"))

    def test_without_names_and_without_ticks(self):
        for trace, told in (([], "no cycle"), ([0x80000001], "no cycle"), ([0], "cycle 0")):
            folder, out = write(self.room / ("run-%d-%s" % (len(trace), bool(sum(trace)))), FIVE, trace), self.room / "out"
            err = vig("record", folder, "-o", out)[2]
            self.assertEqual(err, "%s: 0 activates on the wires, 0 answers at the cores; nothing is in flight at either end\n" % told)
            self.assertEqual(sorted(path.name for path in out.iterdir()), ["cores.bin", "policy.bin", "wires.bin"])
            self.assertIn("both recordings are empty", self.succeeds("match", out))
            self.assertEqual(self.succeeds("record", folder, "--wires"), "")
            shutil.rmtree(out)

    def test_refused_calls_and_a_longer_run(self):
        folder = write_five(self.room / "five")
        self.succeeds("record", folder, "-o", self.room / "model")
        wires, cores = (recording_at(side, self.room / "model" / (side.name + ".bin")) for side in (WIRES, CORES))
        self.assertGreater(len(wires), 30)
        self.assertLessEqual(len(wires) - len(cores), 2)
        # Twelve ticks among calls that are refused.
        self.assertTrue(vig("record", EXAMPLES / "refused-calls", "--wires")[2].startswith("cycles 0 to 11: "))

    def test_mistakes(self):
        for words, told in (
            (["--from", 48, "--wires"], "vig: --from 48: the run's last cycle is 47\n"),
            (["--to", 48, "--wires"], "vig: --to 48: the run's last cycle is 47\n"),
            (["--from", 9, "--to", 8, "--wires"], "vig: --to 8: before the first cycle of the stretch, 9\n"),
        ):
            self.assertEqual(self.fails(2, "record", LAB, *words), told)
        empty = write(self.room / "empty", FIVE, [0x80000001])
        self.assertEqual(self.fails(2, "record", empty, "--from", 0, "--wires"), "vig: --from 0: the run has no ticks\n")
        self.assertEqual(self.fails(2, "record", empty, "--to", 0, "--wires"), "vig: --to 0: the run has no ticks\n")
        self.assertIn("is not a cycle, a number from 0 on", self.fails(2, "record", LAB, "--from=-1", "--wires"))
        self.assertIn("is required", self.fails(2, "record", LAB))
        self.assertIn("not allowed with argument", self.fails(2, "record", LAB, "--wires", "--cores"))
        self.assertIn("policy refused 5", self.fails(1, "record", EXAMPLES / "refused", "--wires"))
        self.assertIn("no such folder", self.fails(2, "record", self.room / "no", "--wires"))

    def test_a_library_that_is_too_old(self):
        library = build.library()
        library._wires = library._cores = None
        with mock.patch.object(build, "library", return_value=library):
            self.assertIn("vig: the built library is too old to say what a lab would record of a run", self.fails(2, "record", LAB, "--wires"))

    def test_a_recording_that_is_refused(self):
        """The tool never causes it; if it came, it would be told."""
        library = build.library()
        library.wires = mock.Mock(return_value=(12, []))
        with mock.patch.object(build, "library", return_value=library):
            self.assertEqual(self.fails(1, "record", LAB, "--wires"), "vig: recording of the wires refused 12: 16,777,215 ticks have passed\n")

    def test_help(self):
        self.assertIn("examples:", self.succeeds("record", "--help"))
