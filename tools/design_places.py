#!/usr/bin/env python3
"""Lists the places of src/ that docs/DESIGN-PASS.md counts: `tools/design_places.py POINT`, 1 to 8, at the top of the repository.

It reads text and knows no types, so it finds more than there is: which of its lines are places, the page says.
"""
import re
import sys
from pathlib import Path

import same_shape

SOURCES = sorted(Path(".").glob("crates/*/src/**/*.rt"))
FUNCTION = re.compile(r"^( *)(?:pub(?:\(crate\))? )?(?:extern \"C\" )?fn ([a-z_0-9]+)(?:<[^>]*>)?\(([^)]*)\)[^{;]*?((?:\n *(?:requires|ensures)[^\n]*(?:\n {8,}[^\n]*)*)*)\n\1\{", re.M)


def lines(pattern, files=SOURCES):
    for file in files:
        for at, line in enumerate(file.read_text().split("\n"), 1):
            if re.search(pattern, line):
                yield f"{file}:{at}: {line.strip()}"


def functions():
    for file in SOURCES:
        for found in FUNCTION.finditer(file.read_text()):
            yield file.parts[1], found.group(2), found.group(3), found.group(4)


def enums():
    yield from lines(r"^ *(pub(\(crate\))? )?enum ")
    yield from lines(r"=> [0-9]+,|number: [0-9]+,|\b(kind|table|which): u8")


def twins():
    groups = {}
    for file in SOURCES:
        for name, body in same_shape.functions(file.read_text()):
            form = same_shape.shape(body)
            if len(form) >= 12:
                groups.setdefault(form, []).append(f"{file.parts[1]}::{name}")
    yield from (" ".join(group) for group in groups.values() if len(group) > 1)


def by_hand():
    names = r"equal|same|none|copy|plus|least|numbers?_?of|refuse|told_by|line_of\w*|number_\w+|\w+_(number|numbers|told|rows)|digit|letter|spell|bytes?|words?|number|put|put_(number|refused|line|page|answer)"
    yield from lines(rf"\bfn ({names})\b *(<[^>]*>)?\(")


def facts():
    """Facts of a requires that stand in three functions or more, and functions of six parameters or more."""
    where = {}
    for crate, name, _, clauses in functions():
        for clause in re.findall(r"requires(?: [a-z_]+)? \{(.*?)\}(?=\n|$)", clauses, re.S):
            for fact in clause.split("×"):
                fact = re.sub(r"\s+", " ", fact.strip()).strip("()")
                where.setdefault(fact, []).append(f"{crate}::{name}")
    yield from (f"{fact}: {' '.join(names)}" for fact, names in where.items() if len(names) > 2)
    for crate, name, parameters, _ in functions():
        count = len([p for p in parameters.split(",") if p.strip()])
        if count > 5:
            yield f"{crate}::{name}: {count} parameters"


def buffers():
    yield from lines(r"\b(at|end|kept|size|end): usize\b")


def switches():
    yield from lines(r"\b(table|which|step|mode): u8\b|match (table|which|step|mode)\b|fn\([a-z0-9]")


def answers():
    yield from lines(r"^pub [a-z]", sorted(Path(".").glob("crates/*/proofs/**/Answers.antt")))


def main():
    points = [enums, twins, lambda: lines(r"^ *while "), by_hand, facts, buffers, switches, answers]
    found = list(points[int(sys.argv[1]) - 1]())
    print("\n".join(found))
    print(f"{len(found)} places")


main()
