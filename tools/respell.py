#!/usr/bin/env python3
"""Spells the repository's own definitions, lemmas and record fields as today's Rattle does: words in snake case.

usage: tools/respell.py     at the top of the repository, once, after the kit's port.py

    classMask, length-listOf  ->  class_mask, length-list_of     (a definition, and so each lemma that is named after it)
    row.at-least              ->  row.at_least                   (a field of a record)

It goes over crates/ (.antt, the clauses of .rt, the texts of must-fail/*.edit) and over what stands in backticks in comments, README.md and docs/. Functions of src/,
exported names and files keep theirs: none of those has a name of either form. It stops, and writes nothing, where two names would fall together.
"""

import os
import re
import sys

TOKEN = re.compile(r"[^\s(){}\[\].;,:\"`«»@\\?!]+")
CAMEL = re.compile(r"(?:^|[-_])[a-z][a-z0-9_']*[A-Z]")
NOT_OURS = re.compile(r"^use (?!Rattle\.)|^ghost use (?!Rattle\.)|^use Rattle\.std\.|^ghost use Rattle\.std\.")

# Lemmas whose name a definition gets: each goes by its dash.
LEMMAS = {"goes_on": "goes-on", "in_pairs": "in-pairs", "left_by": "left-by", "passes_on": "passes-on", "turns_at": "turns-at"}


def texts(root):
    for folder, dirs, files in os.walk(root):
        dirs[:] = sorted(d for d in dirs if d != "out")
        for name in sorted(files):
            if name.endswith((".antt", ".rt", ".edit")):
                yield os.path.join(folder, name)


def split_comment(line, mark):
    """The code and the comment of a line. A mark inside a text in quotes is code."""
    quoted = False
    for i, c in enumerate(line):
        if c == '"':
            quoted = not quoted
        if not quoted and line.startswith(mark, i) and (mark == "//" or i == 0 or line[i - 1] == " "):
            return line[:i], line[i:]
    return line, ""


def snake(name):
    parts = []
    for part in name.split("-"):
        part = part.replace("getD", "get_or")
        if CAMEL.search(part):
            part = re.sub(r"(?<=[a-z0-9])([A-Z])", lambda m: "_" + m.group(1).lower(), part)
        parts.append(part)
    return "-".join(parts)


def fields_of(lines):
    """The names of the fields of the records that a file of antt declares."""
    inside = None
    for line in lines:
        code = split_comment(line, "--")[0]
        if not code.strip():
            continue
        indent = len(code) - len(code.lstrip())
        if inside is not None and indent <= inside:
            inside = None
        if re.match(r"\s*(?:pub )?record [A-Z]", code):
            inside = indent
        elif inside is not None and (m := re.match(r"\s*pub ([^\s:({]+) :", code)):
            yield m.group(1)


def names_of(root):
    seen, fields, foreign, spoken = set(), set(), set(), set()
    for path in texts(root):
        if path.endswith(".edit"):
            continue
        with open(path, encoding="utf-8") as f:
            lines = f.read().split("\n")
        mark = "--" if path.endswith(".antt") else "//"
        for line in lines:
            words = TOKEN.findall(split_comment(line, mark)[0])
            seen.update(words)
            if NOT_OURS.match(line):
                foreign.update(words)
            if path.endswith(".antt") and not line.startswith("use "):
                spoken.update(words)
        if path.endswith(".antt"):
            fields.update(fields_of(lines))
    table = {}
    for name in seen | fields:
        if name in foreign or re.match(r"0x|[0-9]", name):
            continue
        if (new := snake(name)) != name:
            table[name] = new
    # A field whose new name a definition or a lemma has would hide it in the fields below: it keeps its dash.
    taken = spoken | set(table.values())
    for name in sorted(fields - foreign):
        new = table.get(name, name).replace("-", "_")
        if new != name and name not in table:
            if new in taken:
                print(f"kept: the field `{name}`, since `{new}` is there")
            else:
                table[name] = new
    return table, spoken


def respell(text, table, lemmas):
    for old, new in lemmas.items():
        text = re.sub(rf"(?<![.\w-]){old}(?![.\w-])", new, text)
    return TOKEN.sub(lambda m: table.get(m.group(0), m.group(0)), text)


def quoted(text, table):
    return re.sub(r"`[^`]*`", lambda m: respell(m.group(0), table, {}), text)


def turn(path, table):
    with open(path, encoding="utf-8") as f:
        before = f.read()
    if path.endswith(".md"):
        after = quoted(before, table)
    else:
        mark = "//" if path.endswith(".rt") else "--"
        lines = []
        for line in before.split("\n"):
            code, comment = (line, "") if path.endswith(".edit") else split_comment(line, mark)
            lines.append(respell(code, table, LEMMAS if mark == "--" else {}) + quoted(comment, table))
        after = "\n".join(lines)
    if after == before:
        return False
    with open(path, "w", encoding="utf-8") as f:
        f.write(after)
    return True


def main():
    table, seen = names_of("crates")
    new = {}
    for old, name in sorted(table.items()):
        if name in seen and name not in LEMMAS:
            print(f"look: `{old}` becomes `{name}`, which some file has already")
        if name in new:
            print(f"stop: `{old}` and `{new[name]}` both become `{name}`")
            return 1
        new[name] = old
    pages = ["README.md", *(os.path.join(d, f) for d, _, fs in os.walk("docs") for f in fs if f.endswith(".md"))]
    turned = sum(turn(p, table) for p in [*texts("crates"), *pages])
    print(f"{len(table)} names, {turned} files")
    return 0


if __name__ == "__main__":
    sys.exit(main())
