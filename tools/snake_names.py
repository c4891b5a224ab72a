#!/usr/bin/env python3
"""Brings the repository's own definitions and lemmas to the spelling of today's Rattle. Run once, at the top, right after the kit's port.py.

What stands for a value, a fact's proof or a field is spelled in snake case: `byArrival` is `by_arrival`. In the name of a lemma a dash joins two names, as
in `length-taken`, and a plain word is added with `_`, as in `kept_all`. Types and modules keep their capitals; functions of src/ keep their names.
It prints each name that it changes, and refuses to let two names fall together.

usage: python3 tools/snake_names.py [--names]      --names prints the table and writes nothing
"""

import glob
import re
import sys

LIBRARY = [f for g in ("specs", "proofs") for f in glob.glob(f"crates/*/{g}/*.antt")]
EVERY = [f for g in ("specs", "proofs") for f in glob.glob(f"crates/*/{g}/**/*.antt", recursive=True)]
CODE = glob.glob("crates/*/src/*.rt")
EDITS = glob.glob("crates/*/must-fail/*.edit")
PAGES = ["README.md"] + glob.glob("docs/**/*.md", recursive=True)

# The words of the kit's own names that a dash may stand before.
WORDS = set("length map take drop append sum count get_or set min replicate concat tabulate snoc".split())
# What port.py itself respelled, which edits and pages still have in the old form: it prints this list.
ALREADY = "tools/snake_names.txt"

# A name of antt: no blank, bracket, dot or comma.
NAME = r"[^\s(){}\[\].,;:`|\"]+"
TOKEN = re.compile(r"(?<![^\s(){}\[\].,;:`|\"λ])" + NAME)
DECLARED = re.compile(
    r"^(?P<blank> *)(?P<marks>(?:(?:unfoldable|abbrev|pub|private) )*)(?P<kind>(?:record|data) )?(?:pub )?(?P<name>" + NAME + r")(?: [^:=]*)? : ?(?P<type>.*)$"
)


def snake(part):
    if not re.match(r"[a-z]", part):
        return part
    return "get_or" if part == "getD" else re.sub(r"([A-Z]+)", lambda m: "_" + m.group(1).lower(), part)


def declarations():
    """Each name that specs/ and the files of laws declare, with whether it is a definition."""
    found = {}
    for f in LIBRARY:
        inside = 0
        for line in open(f, encoding="utf-8"):
            m = DECLARED.match(line)
            if m is None or m.group("kind"):
                continue
            if line.lstrip().startswith("--") or m.group("name") in ("use", "λ"):
                continue
            definition = "/specs/" in f or bool(m.group("marks").strip().replace("pub", "").strip())
            found[m.group("name")] = found.get(m.group("name"), False) or definition
    return found


def is_name(part, definitions):
    return part in definitions or not re.match(r"[a-z]", part)


def brought_in():
    """The names that a file has from the kit: one of ours with such a name keeps it."""
    found = set()
    for f in EVERY + CODE:
        for m in re.finditer(r"^(?:ghost )?use (?!Rattle\.(?!std\.))[\w.]+\.\{([^}]*)\}", open(f, encoding="utf-8").read(), re.M):
            for item in re.split(r",\s*", m.group(1)):
                found.update(w for w in item.split() if w != "as")
    return found


def table():
    kit = brought_in()
    names = {n: d for n, d in declarations().items() if n not in kit}
    definitions = {snake(n) for n, d in names.items() if d} | WORDS
    changed = {}
    for name in sorted(names):
        parts = [snake(p) for p in name.split("-")]
        new, left = parts[0], parts[0]
        for p in parts[1:]:
            if new and is_name(left, definitions) and is_name(p, definitions):
                new, left = new + "-" + p, p
            else:
                new, left = new + ("_" if new and p else "-") + p, left + "_" + p
        if new in kit:
            new += "_lem"
        if new != name:
            changed[name] = new
    # "A lemma that would have its function's name gets `_lem`".
    spelled = {}
    for name in names:
        spelled.setdefault(changed.get(name, name), []).append(name)
    for new, olds in sorted(spelled.items()):
        if len(olds) > 1:
            laws = [o for o in olds if not names[o]]
            print("falls together:", new, olds, "laws:", laws, file=sys.stderr)
            for o in laws[: len(olds) - 1]:
                changed[o] = new + "_lem"
    return changed


def camel(text):
    """Names of parts, of locals and of what a page has, that are no declared name but hold one."""
    return re.sub(r"(?<![\w'])[a-z][a-z0-9]*(?:[A-Z][A-Za-z0-9]*)+(?!\w)", lambda m: m.group(0) if m.group(0) in ("nL", "kL") else snake(m.group(0)), text)


def main():
    changed = table()
    if sys.argv[1:] == ["--names"]:
        for old, new in changed.items():
            print(old, new)
        return
    already = {}
    for line in open(ALREADY, encoding="utf-8"):
        old, new = line.split()
        already[old] = new

    def turn(text, names):
        return TOKEN.sub(lambda m: names.get(m.group(0), m.group(0)), text)

    for f in EVERY:
        old = open(f, encoding="utf-8").read()
        new = camel(turn(old, changed))
        if new != old:
            open(f, "w", encoding="utf-8").write(new)
    clause = re.compile(r"^\s*(ghost use|requires|ensures|let |λ)|⌜|≡|-- |use Rattle")
    for f in CODE + EDITS:
        old = open(f, encoding="utf-8").read()
        lines = []
        for line in old.split("\n"):
            if clause.search(line) or f.endswith(".edit"):
                line = turn(turn(line, already), changed)
            lines.append(camel(line) if not f.endswith(".rt") or not re.match(r"\s*//", line) else camel(line))
        new = "\n".join(lines)
        if new != old:
            open(f, "w", encoding="utf-8").write(new)
    for f in PAGES:
        old = open(f, encoding="utf-8").read()
        new = re.sub(r"`[^`\n]+`", lambda m: camel(turn(turn(m.group(0), already), changed)), old)
        if new != old:
            open(f, "w", encoding="utf-8").write(new)


main()
