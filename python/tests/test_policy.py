"""`vig policy` on the examples: check, make and show against stored outputs, and what make leaves behind."""

from unittest import mock

from vigambul import build

from .support import EXAMPLES, ROOT, Case, vig

FOLDERS = sorted(path.parent.name for path in EXAMPLES.glob("*/policy.bin"))
# The policy of `refused` lacks a flow that a text always has: its text is that of the mended policy.
TEXTS = {name: EXAMPLES / name / ("mended.toml" if name == "refused" else "policy.toml") for name in FOLDERS}
MENDED = {"refused": {17: 0x07}}


def plain(text):
    """An output without the path of the repository."""
    return text.replace(str(ROOT) + "/", "")


class Examples(Case):
    def test_the_texts_make_the_files_and_the_names(self):
        self.assertGreaterEqual(len(FOLDERS), 8)
        for name in FOLDERS:
            expected = bytearray((EXAMPLES / name / "policy.bin").read_bytes())
            for offset, value in MENDED.get(name, {}).items():
                self.assertNotEqual(expected[offset], value)
                expected[offset] = value
            out = self.room / name / "made.bin"
            out.parent.mkdir()
            status, said, err = vig("policy", "make", TEXTS[name], "-o", out)
            self.assertEqual((status, said), (0, ""), err)
            self.assertIn("%s: %d bytes, taken by the proved reader" % (out, len(expected)), err)
            self.assertEqual(out.read_bytes(), expected, name)
            self.assertEqual(out.with_suffix(".names").read_text(), (EXAMPLES / name / "policy.names").read_text(), name)

    def test_check(self):
        for name in FOLDERS:
            self.stored("policy/check-%s.txt" % name, plain(self.succeeds("policy", "check", TEXTS[name])))

    def test_show(self):
        for name in FOLDERS:
            status, out, err = vig("policy", "show", EXAMPLES / name / "policy.bin")
            self.assertEqual((status, err), (1 if name == "refused" else 0, ""))
            self.stored("policy/show-%s.txt" % name, plain(out))

    def test_a_text_is_shown_like_the_file_that_it_makes(self):
        file = EXAMPLES / "diamond" / "policy.bin"
        of_text, of_file = self.succeeds("policy", "show", TEXTS["diamond"]), self.succeeds("policy", "show", file)
        self.assertEqual(of_text.replace(str(TEXTS["diamond"]), ""), of_file.replace(str(file), ""))

    def test_the_text_of_a_file(self):
        for name in FOLDERS:
            status, out, _ = vig("policy", "show", "--toml", EXAMPLES / name / "policy.bin")
            self.assertEqual(status, 1 if name == "refused" else 0)
            again = self.room / "again.toml"
            again.write_text(out)
            self.succeeds("policy", "make", again)
            made = self.room / "made.bin"
            self.succeeds("policy", "make", TEXTS[name], "-o", made)
            self.assertEqual((self.room / "again.bin").read_bytes(), made.read_bytes(), name)

    def test_the_text_of_a_refused_file(self):
        """The refused example as text is mended by that, and says why it was refused."""
        status, out, err = vig("policy", "show", "--toml", EXAMPLES / "refused" / "policy.bin")
        self.assertEqual(status, 1)
        self.assertIn("refused 5", err)
        self.stored("policy/toml-refused.txt", out)


class Making(Case):
    def test_without_a_name_the_file_stands_beside_the_text(self):
        text = self.room / "own.toml"
        text.write_text(TEXTS["diamond"].read_text())
        self.succeeds("policy", "make", text)
        self.assertEqual((self.room / "own.bin").read_bytes(), (EXAMPLES / "diamond" / "policy.bin").read_bytes())
        self.assertEqual((self.room / "own.names").read_text(), "0 base\n1 left\n2 right\n3 top\n")

    def test_the_text_is_not_written_over(self):
        text = self.room / "own.toml"
        text.write_text(TEXTS["diamond"].read_text())
        self.assertIn("needs a name of its own", self.fails(2, "policy", "make", text, "-o", text))
        self.assertIn("needs a name of its own", self.fails(2, "policy", "make", text, "-o", self.room / "own.names"))
        self.assertEqual(text.read_text(), TEXTS["diamond"].read_text())

    def test_the_proved_reader_has_the_last_word(self):
        """Were it to refuse bytes that the text's reader found nothing wrong with, no file would be left behind."""
        with mock.patch.object(build, "library") as library:
            library.return_value.read.return_value = 6
            out = self.room / "policy.bin"
            self.assertIn("policy refused 6: there is no least class", self.fails(1, "policy", "make", TEXTS["diamond"], "-o", out))
            self.assertIn("policy refused 6", self.fails(1, "policy", "check", TEXTS["diamond"]))
        self.assertEqual(list(self.room.iterdir()), [])

    def test_missing_files_and_wrong_usage(self):
        for part in ("check", "make", "show"):
            self.assertIn("nowhere.toml: no such file", self.fails(2, "policy", part, self.room / "nowhere.toml"))
            self.assertIn("a folder, where a file is wanted", self.fails(2, "policy", part, self.room))
        self.fails(2, "policy")
        self.fails(2, "policy", "show", "--dot", "--svg", EXAMPLES / "diamond" / "policy.bin")
        self.assertIn("no/such: No such file or directory", self.fails(2, "policy", "make", TEXTS["diamond"], "-o", "no/such").replace("no/such/", ""))
