"""docs/REFERENCE.md says what the tool does: its table of refusals, its examples, and that no command or option is forgotten. The READMEs of the examples show what it prints too."""

import os
import re
import shlex

from vigambul.cli import COMMANDS
from vigambul.formats import REFUSALS

from .support import EXAMPLES, ROOT, Case, vig

TEXT = (ROOT / "docs" / "REFERENCE.md").read_text()
PARTS = {"policy": ("check", "make", "show"), "trace": ("make", "show")}


def without_seconds(text):
    """Rows of vig regress end with the seconds that they took."""
    return re.sub(r" +[0-9]+\.[0-9]{2}$", "", text, flags=re.MULTILINE)


def blocks(kind="", text=TEXT):
    """The texts between fences of a kind."""
    return re.findall(r"^```%s\n(.*?)^```$" % kind, text, flags=re.MULTILINE | re.DOTALL)


def examples_of(text):
    """The commands that a text shows, each with the lines that it prints below it."""
    return [example for block in blocks(text=text) if block.startswith("$ ") for example in block[2:].split("\n$ ")]


def pattern(lines):
    """What fits the lines of an example; a line of three dots stands for any lines."""
    return "".join("(?:.*\n)*" if line == "..." else re.escape(line + "\n") for line in lines)


class Reference(Case):
    def test_refusals(self):
        section = TEXT[TEXT.index("\n## What is refused\n") : TEXT.index("\n## Limits\n")]
        rows = re.findall(r"^\| ([0-9]+) \| (.*?) \| (.*?) \| (.*?) \|$", section, flags=re.MULTILINE)
        table = {int(number): words for number, *words in rows}
        self.assertEqual(table, {number: [refusal.when, refusal.cause, refusal.mend] for number, refusal in REFUSALS.items()})

    def test_examples(self):
        """Each example prints what stands below it, here and in the README of a folder."""
        os.symlink(EXAMPLES, self.room / "examples")
        here = os.getcwd()
        self.addCleanup(os.chdir, here)
        os.chdir(self.room)
        examples, in_folders = examples_of(TEXT), [example for path in EXAMPLES.glob("*/README.md") for example in examples_of(path.read_text())]
        self.assertEqual(len(examples), len(re.findall(r"^\$ ", TEXT, flags=re.MULTILINE)))
        self.assertGreater(len(examples), 15)
        self.assertGreater(len(in_folders), 8)
        for example in examples + in_folders:
            command, *lines = example.splitlines()
            launcher, *words = shlex.split(command)
            self.assertEqual(launcher, "./vig", command)
            status, out, err = vig(*words)
            self.assertIn(status, (0, 1), command + "\n" + err)
            fits = re.fullmatch(pattern([without_seconds(line) for line in lines]), without_seconds(out))
            self.assertTrue(fits, "%s prints\n%s" % (command, out))

    def test_the_policy_file(self):
        """The text of the example makes the bytes that are listed."""
        text = next(block for block in blocks("toml") if "[class.keys]" in block)
        path = self.room / "policy.toml"
        path.write_text(text)
        self.succeeds("policy", "make", path)
        listing = next(block for block in blocks() if block.startswith("03  "))
        data = bytes.fromhex("".join(re.match(r"(?:[0-9A-F]{2} )+", line)[0] for line in listing.splitlines()))
        self.assertEqual((self.room / "policy.bin").read_bytes(), data)
        self.assertEqual((EXAMPLES / "cloud" / "policy.bin").read_bytes(), data)

    def test_the_slower_clock(self):
        """The timing of a DDR4-2400 at a quarter of its clock is taken, and with the memory's own clocks it is not."""
        timing = next(block for block in blocks("toml") if "300 MHz" in block)
        path = self.room / "policy.toml"
        path.write_text("epoch = 1\n%s\n[class.only]\n" % timing)
        self.succeeds("policy", "check", path)
        path.write_text(path.read_text().replace("turn_length = 48", "turn_length = 192").replace("dead_time = 18", "dead_time = 68"))
        self.assertIn("timing.dead_time = 68 is out of range", self.fails(1, "policy", "check", path))

    def test_traffic(self):
        """The CSV that stands there makes the trace that is shown below it."""
        text = next(block for block in blocks() if "cycle,class,kind,bank,tag" in block and "its tag will be" in block)
        shown = next(block for block in blocks() if block.startswith("1         81030001"))
        (self.room / "traffic.csv").write_text(text)
        for name in ("policy.bin", "policy.names"):
            (self.room / name).write_bytes((EXAMPLES / "two-tenants" / name).read_bytes())
        self.succeeds("trace", "make", self.room / "traffic.csv", "-o", self.room / "trace.bin")
        self.assertEqual(self.succeeds("trace", "show", self.room / "trace.bin"), shown)

    def test_contents(self):
        """The contents list all sections, with links that lead to them."""
        headings = [heading for heading in re.findall(r"^## (.*)$", TEXT, flags=re.MULTILINE) if heading != "Contents"]
        listed = re.findall(r"^- \[(.*)\]\(#(.*)\)$", TEXT, flags=re.MULTILINE)
        self.assertEqual([title for title, _ in listed], headings)
        for title, link in listed:
            self.assertEqual(link, re.sub(r"[^a-z0-9 -]", "", title.lower()).replace(" ", "-"))

    def test_commands_and_options(self):
        """Each command has its place, and each option is named."""
        for name in COMMANDS:
            for part in PARTS.get(name, ("",)):
                words = ("%s %s" % (name, part)).split()
                self.assertIn("vig " + " ".join(words), TEXT)
                status, out, _ = vig(*words, "--help")
                self.assertEqual(status, 0)
                options = set(re.findall(r"(?<![\w-])--[a-z][a-z-]*", out)) - {"--help"}
                self.assertEqual([option for option in options if option not in TEXT], [], " ".join(words))
