"""What the README and the first example show is what the tool gives."""

import re

from .support import EXAMPLES, ROOT, Case

README = (ROOT / "README.md").read_text()
CLOUD = EXAMPLES / "cloud"


def blocks(language):
    """The README's blocks of a language."""
    return [text for named, text in re.findall(r"^```(\w*)\n(.*?)^```$", README, re.MULTILINE | re.DOTALL) if named == language]


class Readme(Case):
    def test_the_policy_is_the_first_examples(self):
        policy, _ = blocks("toml")
        self.assertIn(policy, (CLOUD / "policy.toml").read_text())

    def test_the_stream_is_one_of_the_first_example(self):
        _, traffic = blocks("toml")
        text = (CLOUD / "traffic.toml").read_text()
        cycles, stream = traffic.split("\n\n")
        self.assertIn(cycles + "\n", text)
        self.assertIn(stream.strip() + "\n", text)

    def test_the_report_is_the_tools(self):
        (report,) = blocks("")
        self.assertEqual(self.succeeds("report", CLOUD).replace(str(CLOUD), "examples/cloud"), report)

    def test_the_picture_is_the_tools(self):
        picture = self.room / "picture.svg"
        self.succeeds("picture", CLOUD, "--from", 144, "--to", 287, "-o", picture)
        self.assertEqual(picture.read_text().replace(str(CLOUD), "examples/cloud"), (CLOUD / "picture.svg").read_text())

    def test_the_commands_go_from_text_to_a_picture(self):
        mine = self.room / "mine"
        mine.mkdir()
        for name in ("policy.toml", "traffic.toml"):
            (mine / name).write_text((CLOUD / name).read_text())
        commands = re.findall(r"^    \./vig (.*?)  +#", README, re.MULTILINE)
        self.assertEqual([command.split()[0] for command in commands], ["policy", "policy", "trace", "run", "report", "picture"])
        for command in commands:
            self.succeeds(*(word.replace("mine", str(mine)) if word.startswith("mine") else word for word in command.split()))
        for name in ("policy.bin", "trace.bin"):
            self.assertEqual((mine / name).read_bytes(), (CLOUD / name).read_bytes())
        self.assertIn("<svg", (mine / "picture.svg").read_text())
