#!/usr/bin/env python3
"""Lists the functions of src/ that are equal but for names, types and numbers: `tools/same_shape.py [LEAST]`.

A function's body is cut into words and signs; each name of its own, each type and each number is replaced by the place where it first stood. Bodies of
LEAST signs or more (40 where it is not given) that are then equal make a group. Contracts and comments are not read.
"""
import re
import sys
from pathlib import Path

WORDS = {"let", "mut", "if", "else", "while", "for", "in", "return", "match", "as", "fn", "true", "false", "impl", "break"}
SIGN = re.compile(r"[A-Za-z_][A-Za-z_0-9]*|0x[0-9A-Fa-f]+|[0-9]+[a-z0-9]*|\S")


def functions(text):
    """Each function's name and body, by counting braces."""
    text = re.sub(r"//[^\n]*", "", text)
    for found in re.finditer(r"\bfn ([a-z_0-9]+)", text):
        start = re.compile(r"\n *\{\n|\{\n").search(text, found.end())
        if not start:
            continue
        depth, at = 1, start.end()
        while depth and at < len(text):
            depth += {"{": 1, "}": -1}.get(text[at], 0)
            at += 1
        yield found.group(1), text[start.end() : at - 1]


def shape(body):
    places = {}
    out = []
    for sign in SIGN.findall(body):
        if sign in WORDS or not (sign[0].isalnum() or sign[0] == "_"):
            out.append(sign)
        elif sign[0].isdigit():
            out.append("0")
        else:
            out.append(f"n{places.setdefault(sign, len(places))}")
    return tuple(out)


def main():
    least = int(sys.argv[1]) if len(sys.argv) > 1 else 40
    groups = {}
    for file in sorted(Path(".").glob("crates/*/src/**/*.rt")):
        for name, body in functions(file.read_text()):
            form = shape(body)
            if len(form) >= least:
                groups.setdefault(form, []).append(f"{file.parts[1]}::{name}")
    found = [group for group in groups.values() if len(group) > 1]
    for group in found:
        print(" ".join(group))
    print(f"{len(found)} groups of {sum(map(len, found))} functions")


if __name__ == "__main__":
    main()
