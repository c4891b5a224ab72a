#!/usr/bin/env python3
"""Writes into a crate's lemmas by clauses the impossible cases that the check asks for: "write the clause `f [] x = elim x [ ]`".

usage: rt check >LOG; python3 tools/mend_clauses.py FOLDER LOG      FOLDER is the crate's; the status is 0 if anything was written
"""

import re
import sys

ASKED = re.compile(r"^(\./\S+?):\d+:\d+: error: `([^`]+)`: write the clauses? (`[^`]+`(?:(?:,| and) `[^`]+`)*)", re.M)


def mend(file, name, clauses):
    """Puts the clauses before the first one of the declaration."""
    lines = open(file, encoding="utf-8").read().split("\n")
    for i, line in enumerate(lines):
        first = re.match(r"(\s*)" + re.escape(name) + r" (?!:)", line)
        if first:
            lines[i:i] = [first.group(1) + clause for clause in clauses]
            open(file, "w", encoding="utf-8").write("\n".join(lines))
            print(f"{file}: {name}")
            return True
    return False


def main():
    folder, log = sys.argv[1:]
    asked = ASKED.findall(open(log, encoding="utf-8").read())
    mended = [mend(f"{folder}/{file}", name, re.findall(r"`([^`]+)`", clauses)) for file, name, clauses in asked]
    sys.exit(0 if any(mended) else 1)


main()
