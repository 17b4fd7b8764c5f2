#!/usr/bin/env python3
"""Brings the must-fail edits over: their lines are spelled as port.py and tools/respell.py spelled the files that they edit.

usage: turn_edits.py COMMIT    rewrites crates/*/must-fail/*.edit of this repository from those of COMMIT (before the port), and says what is left
       turn_edits.py --look COMMIT    writes nothing: prints of each pair the line that it changes and its new text, each as it was and as it is

Run it once: edits that were worded anew after it (docs/PORT.md lists them) would get their old wording back.
An edit is turned if its old lines, so spelled, stand exactly once in the file as it is now; its new lines are spelled by the same rules, so
that they differ from the old ones by what they differed by before. Lines that no rule gives (imports, patterns) stand below in BY_HAND.
"""

import glob
import os
import re
import subprocess
import sys

sys.path.insert(0, os.path.dirname(os.path.realpath(__file__)))
import respell

ROOT = os.path.dirname(respell.HERE)

# What stands now for a line of an edit: port.py put imports of std together, and a pattern has its constructor between its places.
BY_HAND = {
    ("definitions/conflict_refused", "use mathlib.Core.Bool.{Bool, cond}"): "specs.Prelude.{Bool, cond,",
    ("definitions/conflict_refused", "use mathlib.Core.Bool.{Bool, not, cond}"): "specs.Prelude.{Bool, not, cond,",
    ("definitions/last_clause_named", "use Prim.Native.Nat.{ℕ, suc}"): "◌∷◌, ℕ, suc, ltb,",
    ("definitions/last_clause_named", "use Prim.Native.Nat.{ℕ, suc, _-_}"): "◌∷◌, ℕ, suc, ◌-◌, ltb,",
}
# What port.py itself turned, so that respelled.tsv has no row for it.
BY_PORT = {"getD": "get_or", "bitOf": "bit_of", "nextOf": "next_of", "setAt": "set_at"}
STOP = "([{=;|,λ"
OPERATORS = {"++", "∷", "&&", "||", "+", "-", "*", "/", "%", "^", "≡", "≤", "<", ">>=", "→", "↦", "←", ".", "in", "let", "of", "do"}


def lines_of(text):
    """The file that an edit names, and its pairs."""
    path, pairs, old = None, [], None
    for line in text.split("\n"):
        if line.startswith("file: "):
            path = line[6:]
        elif line.startswith("old: "):
            old = line[5:]
        elif line.startswith("new: "):
            pairs.append((old, line[5:]))
    return path, pairs


def tight(text):
    """Projections of the older antt, `f x .field`, as they are written now: `x.field` of one word, `(f x).field` of more."""
    while True:
        found = re.search(r"(?<=[^\s.]) \.(\w+)", text)
        if not found:
            return text
        at, depth, start = found.start(), 0, 0
        for i in range(at - 1, -1, -1):
            c = text[i]
            if c in ")]}":
                depth += 1
            elif depth and c in "([{":
                depth -= 1
            elif not depth and c in STOP:
                start = i + 1
                break
        spine, words, depth = text[start:at], [], 0
        for m in re.finditer(r"[()\[\]{}]|[^\s()\[\]{}]+", spine):
            if not depth and m.group(0) in OPERATORS | {"λ", "elim"} or not depth and m.group(0).endswith(".") and m.group(0) != ".":
                words = []
            elif m.group(0) in "([{":
                words += [] if depth else [m.start()]
                depth += 1
            elif m.group(0) in ")]}":
                depth -= 1
            elif not depth:
                words.append(m.start())
        begin = start + words[0]
        value, tail = text[begin:at], "." + found.group(1)
        if len(words) > 1:
            value = "(" + value + ")"
        end = found.end()
        if begin and text[begin - 1] == "(" and end < len(text) and text[end] == ")":
            begin, end = begin - 1, end + 1
        text = text[:begin] + value + tail + text[end:]


def spelled(text, path, speller):
    """The line as port.py and respell.py spell it."""
    if path.endswith(".rt"):
        return respell.without_lemmas(speller).code(text, ())
    text = re.sub(r"(?<=\w)′", "'", tight(text))
    text = re.sub(r"(\[|\|) _∷_ (\w+) (\w+) ↦", r"\1 \2 ∷ \3 ↦", text)
    text = respell.TOKEN.sub(lambda m: BY_PORT.get(m.group(0), m.group(0)), text)
    return speller.code(text, ())


def at_commit(commit, path):
    found = subprocess.run(["git", "-C", ROOT, "show", f"{commit}:{path}"], capture_output=True, text=True)
    return found.stdout if found.returncode == 0 else None


def whole_line(text, part):
    at = text.index(part)
    return text[:at][text.rfind("\n", 0, at) + 1 :] + text[at:].split("\n")[0]


def main(argv):
    look = argv[:1] == ["--look"]
    argv = argv[1:] if look else argv
    commit = argv[0]
    rows = [tuple(line.split("\t")) for line in respell.read(respell.TABLE).splitlines() if line]
    speller = respell.Speller(rows)
    listed = subprocess.run(["git", "-C", ROOT, "ls-tree", "-r", "--name-only", commit, "crates"], capture_output=True, text=True, check=True)
    turned, left = 0, 0
    for edit in listed.stdout.split("\n"):
        found = re.fullmatch(r"crates/(\w+)/must-fail/(\w+)\.edit", edit)
        if not found:
            continue
        name = "/".join(found.groups())
        text = at_commit(commit, edit)
        path, pairs = lines_of(text)
        path = f"crates/{found.group(1)}/{path}"
        before, now = at_commit(commit, path), respell.read(os.path.join(ROOT, path))
        new_text, good, shown = text, True, []
        for old, new in pairs:
            turn = [BY_HAND.get((name, line)) or spelled(line, path, speller) for line in (old, new)]
            new_text = new_text.replace(f"old: {old}\nnew: {new}", f"old: {turn[0]}\nnew: {turn[1]}")
            if now.count(turn[0]) != 1:
                good = False
                print(f"left: {name}: stands {now.count(turn[0])} times: {turn[0]}")
            if good:
                shown.append((whole_line(before, old), whole_line(now, turn[0]), new, turn[1]))
                before, now = before.replace(old, new), now.replace(*turn)
        left += not good
        turned += good
        if look and good:
            print(f"== {name} ({path})")
            for row in shown:
                for label, line in zip(("was", "is ", "was", "is "), row):
                    print(f"  {label} {line}")
        elif good:
            with open(os.path.join(ROOT, edit), "w", encoding="utf-8") as f:
                f.write(new_text)
    print(f"turn_edits: {turned} turned, {left} left")
    return 1 if left else 0


if __name__ == "__main__":
    sys.exit(main(sys.argv[1:]))
