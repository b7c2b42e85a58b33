"""`vig extract`: what a class may see, in numbers and in words."""

import shutil

from vigambul.formats import REFUSALS, bytes_of

from .support import EXAMPLES, Case


class ExtractCase(Case):
    def check_words(self, folder, options, others):
        """One line in words for each line of numbers; what is hidden is hidden in words too, and no word is of others."""
        lines = self.succeeds("extract", folder, *options).splitlines()[1:]
        words = self.succeeds("extract", folder, *options, "--words").splitlines()
        self.assertEqual(len(lines), len(words))
        for line, text in zip(lines, words):
            status, command, answer, turn = (int(number, 16) for number in line.split())
            self.assertEqual("activate" in text or "column" in text, command != 0)
            self.assertEqual("answer" in text, answer != 0)
            self.assertEqual("turn of" in text, turn != 0)
            self.assertEqual("turn of a class that may not be seen" in text, turn == 512)
            self.assertFalse(turn == 512 and "home turn" in text)
            self.assertEqual("refused" in text, status != 0)
        self.assertFalse([text for text in words if any(other in text for other in others)])


class Extract(ExtractCase):
    def test_stored(self):
        for folder, name in (("two-tenants-busy", "red"), ("two-tenants-busy", "blue"), ("refused-calls", "low"), ("diamond", "left"), ("two-ranks", "host")):
            with self.subTest(folder, name=name):
                self.stored("extract/%s-%s.txt" % (folder, name), self.succeeds("extract", EXAMPLES / folder, "--class", name))
                self.stored("extract/%s-%s.words.txt" % (folder, name), self.succeeds("extract", EXAMPLES / folder, "--class", name, "--words"))

    def test_words_have_the_lines(self):
        for name, others in (("base", ("red", "blue")), ("red", ("blue",)), ("blue", ("red",))):
            self.check_words(EXAMPLES / "two-tenants-busy", ["--class", name], others)

    def test_passing(self):
        """A class sees who passes among those that it may see, and no others."""
        for name, passing in (("host", 0), ("graphics", 3)):
            words = self.succeeds("extract", EXAMPLES / "busy-bank", "--class", name, "--words")
            self.assertEqual(words.count(", passing "), passing)
        self.assertEqual(words, self.succeeds("run", EXAMPLES / "busy-bank", "--words"))

    def test_offers_of_a_rank_that_there_is_none_of(self):
        """Under a policy of one rank they are offers all the same, refused with 10: a class sees its own and those of classes that may flow to it, and no others. Malformed words
        are gone."""
        shutil.copy(EXAMPLES / "two-tenants" / "policy.bin", self.room)
        words = [0x80400001, 0x81800002, 0x82C00003, 0x83400004, 0xA0400005, 0xC0400006, 0]
        (self.room / "trace.bin").write_bytes(bytes_of(words))
        for seen_by, shown in (("0", [0]), ("1", [0, 1]), ("2", [0, 2])):
            lines = self.succeeds("extract", self.room, "--class", seen_by, "--words").splitlines()
            told = ["cycle 0: offer class %d read rank %d bank 0 tag %d: refused 10: %s" % (number, number + 1, number + 1, REFUSALS[10].when) for number in shown]
            self.assertEqual(lines[:-1], told)
            self.assertTrue(lines[-1].startswith("cycle 0: turn of "), lines[-1])

    def test_greatest_class_sees_the_log(self):
        self.assertEqual(self.succeeds("extract", EXAMPLES / "diamond", "--class", "top"), (EXAMPLES / "diamond" / "expected.txt").read_text())

    def test_by_number(self):
        by_number, by_name = (self.succeeds("extract", EXAMPLES / "diamond", "--class", name) for name in ("2", "right"))
        self.assertEqual(by_number, by_name)

    def test_mistakes(self):
        folder = EXAMPLES / "two-tenants"
        self.assertEqual(self.fails(2, "extract", folder, "--class", "green"), "vig: green: no class of this policy; its classes are base, red, blue\n")
        self.assertEqual(self.fails(2, "extract", folder, "--class", "3"), "vig: 3: no class of this policy; its classes are base, red, blue\n")
        self.assertIn("--class", self.fails(2, "extract", folder))
        self.assertIn("policy refused 5", self.fails(1, "extract", EXAMPLES / "refused", "--class", "low"))
        self.assertIn("no such folder", self.fails(2, "extract", self.room / "no", "--class", "low"))
        shutil.copy(folder / "policy.bin", self.room)
        self.assertIn("trace.bin: no such file", self.fails(2, "extract", self.room, "--class", "0"))

    def test_without_names(self):
        """A class is then called as the messages call it, or by its number. A name of a class that the policy does not have is no name."""
        for name in ("policy.bin", "trace.bin"):
            shutil.copy(EXAMPLES / "diamond" / name, self.room)
        by_number, as_shown = (self.succeeds("extract", self.room, "--class", name) for name in ("2", "class 2"))
        self.assertEqual(by_number, as_shown)
        self.assertIn("its classes are class 0, class 1, class 2, class 3", self.fails(2, "extract", self.room, "--class", "right"))
        (self.room / "policy.names").write_text("0 base\n9 more\n")
        self.assertIn("more: no class of this policy; its classes are base, class 1", self.fails(2, "extract", self.room, "--class", "more"))
        (self.room / "policy.names").write_text("%s base\n" % ("0" * 5000))
        self.assertIn("policy.names, line 1: ", self.fails(2, "extract", self.room, "--class", "0"))

    def test_empty_trace(self):
        shutil.copy(EXAMPLES / "two-tenants" / "policy.bin", self.room)
        (self.room / "trace.bin").write_bytes(b"")
        self.assertEqual(self.succeeds("extract", self.room, "--class", "0"), "status command answer turn\n")
        self.assertEqual(self.succeeds("extract", self.room, "--class", "0", "--words"), "")

    def test_help(self):
        self.assertIn("examples:", self.succeeds("extract", "--help"))
