"""The report: stored tables of the examples, figures counted by hand, and figures counted anew, slowly, on generated runs."""

import csv
import json
import statistics
from collections import Counter, defaultdict

from vigambul import build
from vigambul.figures import figures_of
from vigambul.folders import folder_at, run_folder
from vigambul.formats import COLUMN, is_elided, owner_of, request_of, walk_of
from vigambul.history import calls_of
from vigambul.tables import aligned, grouped

from .samples import FIVE, generated, write, write_five
from .support import EXAMPLES, Case, vig

TAKEN = ("busy-bank", "chain-of-three", "diamond", "printed-log", "refused-calls", "single-class", "two-ranks", "two-tenants", "two-tenants-busy")


class Stored(Case):
    """Folders are named as from the root of the repository, so that what is stored holds everywhere."""

    def named(self, text):
        return text.replace(str(EXAMPLES), "examples").replace(str(self.room), "room")

    def test_examples(self):
        for name in TAKEN:
            with self.subTest(name):
                self.stored("report/%s.txt" % name, self.named(self.succeeds("report", EXAMPLES / name)))

    def test_several_with_one_policy(self):
        out = self.succeeds("report", EXAMPLES / "two-tenants", EXAMPLES / "two-tenants-busy", "--epochs", "--csv", self.room / "f.csv", "--json", self.room / "f.json")
        self.stored("report/both-tenants.txt", self.named(out))
        self.stored("report/both-tenants.csv", self.named((self.room / "f.csv").read_text()))
        self.stored("report/both-tenants.json", self.named((self.room / "f.json").read_text()))

    def test_with_ranks(self):
        """A policy of four ranks beside one of one: the CSV has a column for each rank, empty for those that there are none of; the JSON of the other is as it was."""
        self.succeeds("report", EXAMPLES / "two-ranks", EXAMPLES / "printed-log", "--csv", self.room / "f.csv", "--json", self.room / "f.json")
        self.stored("report/with-ranks.csv", self.named((self.room / "f.csv").read_text()))
        self.stored("report/with-ranks.json", self.named((self.room / "f.json").read_text()))

    def test_together_with_ranks(self):
        """One folder twice: each figure doubles. A run's first activate is on no other rank than the last of the run before."""
        out = self.succeeds("report", EXAMPLES / "two-ranks", EXAMPLES / "two-ranks")
        changes = ["on another rank than the one before: %d of %d activates" % pair for pair in ((5, 9), (5, 9), (10, 18))]
        self.assertEqual([line for line in out.splitlines() if line.startswith("on another rank")], changes)
        ranks = [line.split()[-4:] for line in out.splitlines() if line.startswith(("host", "video"))]
        self.assertEqual(ranks[-2:], [["8", "6", "0", "0"], ["0", "4", "0", "0"]])

    def test_five(self):
        self.stored("report/five.txt", self.named(self.succeeds("report", write_five(self.room / "five"), "--epochs")))


class Usage(Case):
    def test_different_policies(self):
        status, out, err = vig("report", EXAMPLES / "diamond", EXAMPLES / "single-class", "--json", self.room / "f.json")
        self.assertEqual(status, 0)
        self.assertNotIn("all 2 folders", out)
        self.assertIn("different policies", err)
        self.assertIsNone(json.loads((self.room / "f.json").read_text())["all"])

    def test_missing(self):
        self.assertIn("nowhere: no such folder", self.fails(2, "report", EXAMPLES / "diamond", self.room / "nowhere"))
        self.fails(2, "report")
        (self.room / "half").mkdir()
        (self.room / "half" / "policy.bin").write_bytes(FIVE.to_bytes())
        self.assertIn("trace.bin: no such file", self.fails(2, "report", self.room / "half"))
        self.assertIn("No such file", self.fails(2, "report", EXAMPLES / "diamond", "--csv", self.room / "no" / "f.csv"))

    def test_refused_policy(self):
        self.assertIn("policy refused 5", self.fails(1, "report", EXAMPLES / "refused", "--csv", self.room / "f.csv"))
        self.assertFalse((self.room / "f.csv").exists())

    def test_left_over_bytes(self):
        status, _, err = vig("report", EXAMPLES / "refused-calls")
        self.assertEqual(status, 0)
        self.assertIn("3 bytes left over", err)

    def test_no_ticks(self):
        """No cycle, no turn, no epoch: dashes, and no division by 0."""
        folder = write(self.room / "still", FIVE, [0x81000001])
        out = self.succeeds("report", folder, "--epochs", "--json", self.room / "f.json")
        self.assertIn("0 cycles, 0 turns, 0 whole epochs of 8 turns", out)
        first = json.loads((self.room / "f.json").read_text())["folders"][0]
        self.assertEqual(first["classes"][1]["offers"], {"taken": 1, "refused_11": 0})
        self.assertEqual(first["classes"][1]["waits"], {"sum": 0, "mean": None, "median": None, "95th": None, "longest": None})
        self.assertEqual(first["command_wires"]["busy_percent"], None)


class Numbers(Case):
    def figures(self, name):
        return figures_of(run_folder(build.library(), folder_at(EXAMPLES / name)))

    def test_single_class(self):
        """All eight are offered before cycle 0, so the waits are the answers' cycles: 9, 13, 19, 21, 23, 27, 30, 38. Turn 3, from cycle 36 on, has no activate."""
        service = self.figures("single-class").services[0]
        self.assertEqual(service.waited, 180)
        self.assertEqual((service.answers, service.mean, service.median, service.nearest_rank(95), service.longest), (8, 180 / 8, 21, 38, 38))
        self.assertEqual((service.turns, service.idle, service.elided, service.activates), (4, 1, 4, 8))
        self.assertEqual((service.passing, service.past_one), (0, 0))

    def test_passing(self):
        """Behind the busy bank tags 2 and 4 of graphics pass tag 1, and tag 6 passes tag 5. All are offered before cycle 0; tags 2, 4, 1, 3, 6 and 5 are answered in cycles 14, 16,
        18, 24, 26 and 29. The host's two reads pass nothing."""
        host, graphics = self.figures("busy-bank").services
        self.assertEqual((graphics.activates, graphics.passing, graphics.past_one), (6, 3, 2))
        self.assertEqual(sorted(graphics.waits.elements()), [14, 16, 18, 24, 26, 29])
        self.assertEqual((host.activates, host.passing, host.past_one), (2, 0, 0))

    def test_waits_of_who_passes_and_who_is_passed(self):
        """Red's tags 3 and 4 wait from cycle 0 on. Tag 4 passes tag 3 in cycle 24 and is answered in cycle 27, tag 3 in cycle 29."""
        service = self.figures("two-tenants").services[1]
        self.assertEqual(sorted(service.waits.elements()), [9, 11, 27, 29, 39, 41])
        self.assertEqual((service.activates, service.passing, service.past_one), (7, 1, 1))

    def test_late_offers(self):
        """The chain's class 1 has four late offers, before cycle 22: answered in cycles 28, 30, 32 and 38, after 6, 8, 10 and 16."""
        waits = self.figures("chain-of-three").services[1].waits
        self.assertEqual(sorted(waits.elements()), sorted([6, 8, 18, 20, 26, 6, 8, 10, 16]))

    def test_idle(self):
        """Tenant 2 owns two turns and uses none; where it is busy, both."""
        self.assertEqual(self.figures("two-tenants").services[2].idle, 2)
        self.assertEqual(self.figures("two-tenants-busy").services[2].idle, 0)

    def test_home_turns(self):
        """In the cloud red owns turn 10 of its home turns 2, 3, 10 and 11, and turn 1, which is none; the shared class has none, and audit owns its two, one of them idle."""
        services = self.figures("cloud").services
        self.assertEqual([(service.homes, service.homes_owned) for service in services], [(0, 0), (4, 1), (4, 2), (2, 2), (2, 2)])
        self.assertEqual([service.turns for service in services], [2, 2, 3, 4, 5])

    def test_ranks(self):
        """Of the nine activates the host's are on ranks 0, 1, 1, 0, then 0, 0, 1, and video's two in between on rank 1: five are on another rank than the one before."""
        figures = self.figures("two-ranks")
        self.assertEqual([service.on_ranks for service in figures.services], [[4, 3, 0, 0], [0, 2, 0, 0]])
        self.assertEqual(figures.rank_changes, 5)

    def test_nearest_ranks(self):
        """The nearest rank of 1 to 100, and of few."""
        service = self.figures("printed-log").services[0]
        service.waits.clear()
        for wait in range(1, 101):
            service.waits[wait] += 1
        self.assertEqual((service.median, service.nearest_rank(95), service.longest), (50, 95, 100))
        service.waits.clear()
        service.waits.update([7, 3])
        self.assertEqual((service.median, service.nearest_rank(95)), (3, 7))

    def test_generated(self):
        """Every figure counted once more from the calls, in another way."""
        seen = left = passed = most = changes = longest = 0
        for ran in generated(build.library(), self.room, 25, 300):
            figures = figures_of(ran)
            calls = list(calls_of(ran.trace, ran.log))
            ticks = [call for call in calls if call.ticks]
            owners, walks = ([field(call.turn) for call in ticks if call.turn] for field in (owner_of, walk_of))
            requests = [(call.cycle // ran.policy.turn, request_of(call.command)) for call in ticks if call.command and not call.command & COLUMN]
            activates = [(turn, request.class_) for turn, request in requests]
            ranks = [request.rank for _, request in requests]
            self.assertEqual(figures.rank_changes, sum(one != other for one, other in zip(ranks, ranks[1:])))
            changes += figures.rank_changes
            self.assertEqual((figures.ticks, figures.turns), (len(ticks), len(owners)))
            self.assertEqual(figures.busy, sum(call.command != 0 for call in ticks))
            self.assertEqual(figures.refusals, Counter(call.status for call in calls if call.status))
            whole = [owners[start : start + ran.policy.epoch] for start in range(0, len(owners), ran.policy.epoch)]
            for number, service in enumerate(figures.services):
                mine = [call for call in calls if call.offers and request_of(call.word).class_ == number]
                self.assertEqual(service.taken, sum(call.status == 0 for call in mine))
                self.assertEqual(service.full, sum(call.status == 11 for call in mine))
                self.assertEqual(service.turns, owners.count(number))
                homes = [turn for turn in range(len(owners)) if turn % ran.policy.epoch in ran.policy.home_turns(number)]
                self.assertEqual((service.homes, service.homes_owned), (len(homes), sum(owners[turn] == number for turn in homes)))
                left += service.homes - service.homes_owned
                self.assertEqual(service.activates, sum(owner == number for _, owner in activates))
                mine_on = [request.rank for _, request in requests if request.class_ == number]
                self.assertEqual(service.on_ranks, [mine_on.count(rank) for rank in range(4)])
                self.assertEqual(service.idle, sum(owner == number and (turn, number) not in activates for turn, owner in enumerate(owners)))
                self.assertEqual(service.elided, sum(owner_of(call.turn) == number and is_elided(call.turn) for call in ticks))
                from_it = [walks[turn] for turn in range(len(owners)) if turn in homes or number == ran.policy.least and ran.policy.home(turn) is None]
                self.assertEqual(service.walks, Counter(from_it))
                longest = max(longest, service.longest_walk or 0)
                self.assertEqual((service.passing, service.past_one), passing_of(number, calls))
                passed += service.passing
                most = max(most, service.past_one)
                waits = waits_of(number, calls)
                self.assertEqual(sorted(service.waits.elements()), sorted(waits))
                if waits:
                    self.assertAlmostEqual(service.mean, statistics.mean(waits))
                    self.assertEqual(service.median, statistics.median_low(waits))
                    self.assertEqual(service.nearest_rank(95), sorted(waits)[-(-95 * len(waits) // 100) - 1])
                self.assertEqual(list(figures.turns_in_epochs(number)), [epoch.count(number) for epoch in whole if len(epoch) == ran.policy.epoch])
                seen += len(waits)
            if len(owners) % ran.policy.epoch:
                self.assertEqual(figures.part, [whole[-1].count(number) for number in range(ran.policy.classes)])
            else:
                self.assertIsNone(figures.part)
        self.assertGreater(seen, 500)
        self.assertGreater(left, 20)
        self.assertGreater(passed, 100)
        self.assertGreater(most, 2)
        self.assertGreater(changes, 100)
        self.assertGreater(longest, 3)

    def test_together(self):
        """Over all: the CSV's rows of a class add up to the JSON's figures over all."""
        folders = [write_five(self.room / str(cycles), cycles) for cycles in (50, 240, 333)]
        self.succeeds("report", *folders, "--csv", self.room / "f.csv", "--json", self.room / "f.json")
        rows = list(csv.DictReader((self.room / "f.csv").read_text().splitlines()))
        self.assertEqual(len(rows), 15)
        together = json.loads((self.room / "f.json").read_text())["all"]
        self.assertEqual(together["ticks"], 50 + 240 + 333)
        for value in together["classes"]:
            mine = [row for row in rows if row["name"] == value["name"]]
            added = {"answers": value["answers"], "wait_sum": value["waits"]["sum"], "turns_owned": value["turns"]["owned"], "activates": value["activates"]}
            added.update({"home_turns_" + key: number for key, number in value["home_turns"].items()})
            added["activates_passing"] = value["passing"]["activates"]
            for key, number in added.items():
                self.assertEqual(sum(int(row[key]) for row in mine), number)
            self.assertEqual(max(int(row["wait_longest"]) for row in mine if row["wait_longest"]), value["waits"]["longest"])
            self.assertEqual(max(int(row["activates_past_one"]) for row in mine), value["passing"]["past_one"])
            self.assertEqual(max(int(row["epoch_turns_most"]) for row in mine if row["epoch_turns_most"]), value["whole_epochs"]["most"])


def waits_of(number, calls):
    """A class's waits: equal requests leave, and so are answered, in the order of their offers."""
    offered, waits = defaultdict(list), []
    for call in calls:
        if call.offers and call.status == 0 and request_of(call.word).class_ == number:
            offered[call.word].append(call.cycle)
        if call.response and request_of(call.response).class_ == number:
            waits.append(call.cycle - offered[call.response].pop(0))
    return waits


def passing_of(number, calls):
    """How many activates of a class passed an older request, and the most that passed one oldest."""
    waiting, passing, past = [], 0, [0]
    for call in calls:
        if call.offers and call.status == 0 and request_of(call.word).class_ == number:
            waiting.append(call.word)
        elif call.command in waiting:
            oldest = waiting[0] == call.command
            waiting.remove(call.command)
            passing += not oldest
            past = [*past, 0] if oldest else [*past[:-1], past[-1] + 1]
    return passing, max(past)


class Tables(Case):
    def test_aligned(self):
        self.assertEqual(aligned([["a", "bb"], ["ccc", 1]]), ["a    bb", "ccc   1"])

    def test_groups(self):
        """A title that is wider than its columns widens the first of them."""
        self.assertEqual(grouped([("", 1), ("wide", 2)], [["a", "b", "c"], ["x", 1, 2]]), ["   - wide -", "a      b  c", "x      1  2"])
