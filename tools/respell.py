#!/usr/bin/env python3
"""Spells the repository's own definitions and lemmas as today's Rattle does: words in snake case, types in camel case.

usage: respell.py [FOLDER]            turns crates/ and docs/ of FOLDER (default: this repository) by respelled.tsv beside this file
       respell.py --table [FOLDER]    prints that table for FOLDER: a line for each name, old, a tab, new, a tab, and 'field', 'name' or 'lemma'

Run it once, after port.py. A name of a specs/ file or of a lemma file in proofs/ is a row of the table. A local name of a Proof.antt has
no row: it turns by the same rule in its file alone. A name that a library has too stays. Where two names would be one, that of the lemma
gets '_lem'. In .rt files only names of clauses can be rows, as Rust has neither lowerCamel names nor dashes in one. Prose turns where it
has a lowerCamel name, or a name between backticks.
"""

import collections
import os
import re
import sys

HERE = os.path.dirname(os.path.realpath(__file__))
TABLE = os.path.join(HERE, "respelled.tsv")
NAME = r'[^\s(){}.;,@"«»]+'
TOKEN = re.compile(NAME)
DECLARED = re.compile(r"^(\s*)((?:unfoldable |abbrev |pub |ruleset )*)(" + NAME + r")((?: \{[^{}\n]*\})*) :(\s|$)")
USE = re.compile(r"(?m)^\s*(?:pub )?(?:ghost )?use ([^\s;{]+?)\.?\{([^}]*)\}")
ALIAS = re.compile(r"(?m)^\s*(?:pub )?(?:ghost )?use \S+ as (\w+)")
WORDS = ("record", "data", "module", "let", "in", "use", "where")


def files(root, endings):
    # docs/LANDINGS.md tells of earlier texts, and keeps their names.
    for top in ("crates", "docs", "README.md", "CONTRIBUTING.md"):
        path = os.path.join(root, top)
        if os.path.isfile(path):
            yield path
        for folder, dirs, names in os.walk(path):
            dirs[:] = sorted(d for d in dirs if d != "out")
            for name in sorted(names):
                if name.endswith(endings) and name != "LANDINGS.md":
                    yield os.path.join(folder, name)


def read(path):
    with open(path, encoding="utf-8") as f:
        return f.read()


def respelled(name):
    """The name in snake case; a type's is left as it is."""
    if name[0].isupper():
        return name
    name = name.replace("getD", "get_or")
    name = re.sub(r"(?<=\d)N\b", "n", name)
    name = re.sub(r"([a-z0-9])([A-Z])", lambda m: m.group(1) + "_" + m.group(2).lower(), name)
    return re.sub(r"(?<=[^-])-(?=[^-])", "_", name)


def table(root):
    """Rows of the names that turn: old, new and kind."""
    crates = set(os.listdir(os.path.join(root, "crates")))
    own, fields, foreign = {}, set(), set()
    for path in files(root, (".antt", ".rt")):
        text = read(path)
        for module, items in USE.findall(text):
            parts = module.split(".")
            if parts[0] != "Rattle" or len(parts) < 2 or parts[1] not in crates:
                foreign |= {item.strip().split(" as ")[0] for item in items.split(",")}
        if path.endswith(".rt") or os.path.basename(path) == "Proof.antt":
            continue
        record = None
        for line in text.split("\n"):
            depth = len(line) - len(line.lstrip())
            if record is not None and line.strip() and depth <= record:
                record = None
            if re.match(r"\s*(?:pub )?record ", line):
                record = depth
            found = DECLARED.match(line)
            if found and found.group(3) not in WORDS:
                own.setdefault(found.group(3), path)
                if record is not None and depth > record:
                    fields.add(found.group(3))
            found = re.match(r"^\s*(?:pub )?(?:record|data) (" + NAME + ")", line)
            if found:
                own.setdefault(found.group(1), path)
    turned = {n: respelled(n) for n in own if respelled(n) != n and n not in foreign}
    meets = collections.defaultdict(list)
    for name in own:
        meets[turned.get(name, name)].append(name)
    rows = []
    for name, new in sorted(turned.items()):
        others = [n for n in meets[new] if n != name]
        lemma = "-" in name and (others or new in foreign)
        rows.append((name, new + "_lem" if lemma else new, "field" if name in fields else "name"))
        if "-" not in name and new in own and new not in turned:
            # a lemma that port.py has spelled so already; in .rt files the word is a function's
            rows.append((new, new + "_lem", "lemma"))
    seen = collections.Counter(new for _, new, _ in rows)
    for old, new, _ in rows:
        if seen[new] > 1 or (new in own and new not in turned and new not in {row[0] for row in rows}) or new in foreign:
            print(f"respell: {old} would fall together with another {new}", file=sys.stderr)
    return rows


class Speller:
    def __init__(self, rows):
        self.new = {old: new for old, new, _ in rows}
        self.lemmas = {old for old, _, kind in rows if kind == "lemma"}
        self.fields = {old for old, _, kind in rows if kind == "field"}

    def code(self, text, aliases):
        """The text with each name turned: one that stands behind a dot only if it is a field, or an item of a module's short name."""

        def turn(found):
            name, at = found.group(0), found.start()
            if name not in self.new:
                return name
            if at > 0 and text[at - 1] == ".":
                before = re.search(r"([\w'-]+)\.$", text[:at])
                if not (name in self.fields or (before and before.group(1) in aliases)):
                    return name
            return self.new[name]

        return TOKEN.sub(turn, text)

    def prose(self, text):
        def span(found):
            return "`" + self.code(found.group(1), ()) + "`"

        def word(found):
            return self.new.get(found.group(0), found.group(0))

        text = re.sub(r"`([^`\n]+)`", span, text)
        return re.sub(r"(?<![\w'`.·/-])[a-z0-9]+[A-Z]\w*(?![\w'`-])", word, text)


def locals_of(text, taken):
    """The local names of a Proof.antt that turn: not those of goals, which are spelled as Rattle spells them."""
    turned = {}
    words = set(TOKEN.findall(text))
    for line in text.split("\n"):
        found = DECLARED.match(line)
        if not found or " : tie.Need-" in line or re.search(r": tie\.(invariant|decreases)", line):
            continue
        name = found.group(3)
        new = respelled(name)
        if name not in WORDS and new != name and name not in taken and new not in words and not name.endswith(("-spec", "_spec")):
            turned[name] = new
    return turned


def without_lemmas(speller):
    """For text in which such a word is a function's."""
    here = Speller([])
    here.new = {old: new for old, new in speller.new.items() if old not in speller.lemmas}
    here.fields = speller.fields
    return here


def turn_file(path, speller):
    text = read(path)
    if path.endswith(".md"):
        new = without_lemmas(speller).prose(text)
    else:
        aliases = set(ALIAS.findall(text)) - {"tie", "goal"}
        here = speller
        if os.path.basename(path) == "Proof.antt":
            own = locals_of(text, speller.new)
            here = Speller([])
            here.new = {**speller.new, **own}
            here.fields = speller.fields | set(own)
        if path.endswith(".rt"):
            here = without_lemmas(speller)
        mark = "//" if path.endswith(".rt") else "--"
        lines = []
        for line in text.split("\n"):
            start = re.search(r"(?:^|\s)" + re.escape(mark) + r"(?:\s|$)", line)
            at = start.start() if start else len(line)
            lines.append(here.code(line[:at], aliases) + here.prose(line[at:]))
        new = "\n".join(lines)
    if new != text:
        with open(path, "w", encoding="utf-8") as f:
            f.write(new)
        return 1
    return 0


def main(argv):
    only_table = argv[:1] == ["--table"]
    argv = argv[1:] if only_table else argv
    root = argv[0] if argv else os.path.dirname(HERE)
    if only_table:
        for row in table(root):
            print("\t".join(row))
        return 0
    rows = [tuple(line.split("\t")) for line in read(TABLE).splitlines() if line]
    speller = Speller(rows)
    print("respell:", sum(turn_file(p, speller) for p in files(root, (".antt", ".rt", ".md"))), "files changed")
    return 0


if __name__ == "__main__":
    sys.exit(main(sys.argv[1:]))
