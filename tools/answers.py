#!/usr/bin/env python3
"""Turns proofs of the older form, one Proof.antt a function that names each need, into today's Invariants.antt and Answers.antt.

usage: python3 tools/answers.py CRATE [FUNCTION..]      at the top, when every crate below CRATE is proved

It asks `rt check --generated` what each goal and each step was called and is called, turns paths and names, and leaves out what the search finds
alone. What it can't turn it marks with `TURN`. The check decides; what it refuses is mended by hand.
"""

import glob
import json
import os
import re
import subprocess
import sys
import tempfile

TOP = os.getcwd()
FIELD = r"[A-Za-z0-9_'₀-₉-]+"


def functions():
    """Of each function of each crate: its `&mut` parameters, all its parameters, and the names of its clauses."""
    found = {}
    for f in glob.glob(f"{TOP}/crates/*/src/*.rt"):
        crate = f.split("/crates/")[1].split("/")[0]
        text = re.sub(r"//[^\n]*", "", open(f, encoding="utf-8").read())
        for m in re.finditer(r"\bfn (\w+)(?:<[^>]*>)?\(", text):
            depth, i = 1, m.end()
            while depth:
                depth += {"(": 1, ")": -1}.get(text[i], 0)
                i += 1
            params = [p.strip() for p in text[m.end() : i - 1].split(",") if ":" in p]
            head = text[i : text.find("\n{", i) if text.find("\n{", i) > 0 else i]
            end = re.search(r"\n\s*(pub )?(unsafe )?(extern \"C\" )?fn ", head)
            head = head[: end.start()] if end else head
            clauses = {k: re.findall(rf"\b{k}\*? ?(\w*) ?\{{", head) for k in ("ensures", "requires")}
            found[f"{crate}::{m.group(1)}"] = dict(
                mut=[p.split(":")[0].replace("mut ", "").strip() for p in params if "&mut" in p],
                all=[p.split(":")[0].replace("mut ", "").strip() for p in params],
                **clauses,
            )
    return found


FUNCTIONS = functions()
# Fields of the start that have other names now.
ROOT = {"fits": "ranges", "pre": "requires", "as": "args"}
OWN = {"well-formed": "well_formed", "type-inv": "type_inv", "view-is": "view_is"}


def plain(name):
    return name.replace("_", "-")


class Function:
    def __init__(self, crate, path, lts):
        self.crate, self.path, self.lts = crate, path, lts
        self.own = FUNCTIONS.get(f"{crate}::{path[-1]}", {})
        self.needs = {}
        for (old, new), (_, at) in zip(lts["needs"], lts["asked_at"]):
            self.needs.setdefault(plain(old), []).append((new, at))
        self.place = {}  # old place, new place
        self.parent = {}
        self.at = {}  # new place -> its step
        self.step = {}  # old step -> (new step, callee)
        # new place -> of each step that says what a variable's type says, the variable, where it still lives
        self.typed = {new: {plain(step): var for var, step in of} for new, of in zip(lts["places_by_name"], lts["typed"])}
        self.arms = {}  # new place -> the new name of its arm, and each field's old path
        for new, arm in zip(lts["places_by_name"], lts["arms"]):
            if arm:
                self.arms[new] = (arm[0], [(to, [plain(old)] + [plain(x) for x in way]) for to, old, way in arm[2]])
        for p, new in zip(lts["places"], lts["places_by_name"]):
            self.place[plain(p[0])] = new
            self.parent[new] = plain(p[1]) if p[1] else None
            self.step[plain(p[2][0])] = (p[2][1], p[3])
            self.at[new] = (plain(p[2][0]), p[2][1], p[3])

    def need(self, old):
        old = plain(old)
        for name in (old, re.sub(r"^(overflow|nonzero)-", "", old), re.sub(r"^slice-bounds-", "part-", old)):
            if name in self.needs:
                return self.needs[name]
        return None

    def up(self, place, n):
        for _ in range(n):
            old = self.parent.get(place)
            # The older form had some steps more: what leads past the start is the start.
            place = self.place.get(old, place) if old else place
        return place

    def above(self, place):
        """The places from here to the start."""
        while place:
            yield place
            old = self.parent.get(place)
            place = self.place.get(old) if old else None

    def step_at(self, place, old):
        for at in self.above(place):
            if self.at[at][0] == old:
                return self.at[at][1:]
        return self.step[old]

    def fields(self, fields, said, place, here):
        """A path below `c`, turned."""
        out = [OWN.get(f, f) for f in fields]
        out[:1] = [ROOT.get(f, f) for f in out[:1]]
        if not out:
            return out
        first = plain(out[0])
        if first not in self.step and first[:1].lower() + first[1:] in self.step:
            first = first[:1].lower() + first[1:]
        for at in self.above(place):
            name, ways = self.arms.get(at, (None, []))
            for to, way in ways:
                if [plain(x) for x in out[: len(way)]] == way:
                    return [name, to] + out[len(way) :]
            if self.at[at][0] == first:
                break
        callee = self.crate + "::" + self.path[-1]
        if first in self.typed.get(here, {}) and out[1:2] == ["given"]:
            return ["type_inv", self.typed[here][first]] + out[2:]
        if first in self.step and first != "":
            new, of = self.step_at(place, first)
            out[0] = new
            callee = of
        elif out[0] not in ("args", "requires", "ranges", "lifetimes", "well_formed", "type_inv"):
            said.append("step " + out[0])
        sig = FUNCTIONS.get(callee or "", {})
        for i in range(1, len(out)):
            # The parameters were nested to the right.
            if i < len(out) and out[i - 1] in ("new", "auto") and out[i] in ("0", "1"):
                k = 0
                while i + k < len(out) and out[i + k] == "1":
                    k += 1
                if i + k < len(out) and out[i + k] == "0" and k < len(sig.get("all", [])):
                    out[i : i + k + 1] = [sig["all"][k]]
            if i >= len(out):
                break
            if out[i].isdigit() and out[i - 1] in ("new", "auto") and int(out[i]) < len(sig.get("mut", [])):
                out[i] = sig["mut"][int(out[i])]
            if out[i].isdigit() and out[i - 1] in ("ensures", "requires"):
                labels = sig.get(out[i - 1], [])
                if len(labels) > int(out[i]) and all(labels):
                    out[i] = labels[int(out[i])]
        if out[0] == "requires" and len(out) > 1 and out[1].isdigit():
            labels = self.own.get("requires", [])
            if len(labels) > int(out[1]) and all(labels):
                out[1] = labels[int(out[1])]
        return out


CHAIN = re.compile(r"(?<![\w.'-])(?P<root>[A-Za-z_][\w'-]*)(?P<fields>(?:\.(?:" + FIELD + r"))*)")


def chains(text, fn, var, place, goal, said):
    """Turns each path from the record `var` in text."""
    short = {}
    for m in re.finditer(r"let ([\w'-]+) = " + re.escape(var) + r"((?:\.before)*)\.([a-z][\w'.-]*) in", text):
        short[m.group(1)] = (m.group(2).count("."), m.group(3).split("."))

    def turn(m):
        if m.group("root") in short and m.group("fields"):
            n, fields = short[m.group("root")]
            own = [f for f in m.group("fields").split(".") if f]
            at = fn.up(place, n) if place else None
            prefix = fn.fields(fields, [], at, place)
            whole = fn.fields(fields + own, [], at, place)
            if whole[: len(prefix)] == prefix:
                return ".".join([m.group("root")] + whole[len(prefix) :])
            return ".".join([var] + whole)
        if m.group("root") != var:
            return m.group(0)
        fields = [f for f in m.group("fields").split(".") if f]
        n = 0
        while fields and fields[0] == "before":
            fields.pop(0)
            n += 1
        if not fields:
            if n == 0:
                return var
            at = fn.up(place, n) if place else None
            fn.used.add(str(at))
            if goal:
                return f"(goal.at.{goal} {var}).{at}"
            steps = list(fn.above(place)).index(at) if place else n
            return var + ".before" * steps
        return ".".join([var] + fn.fields(fields, said, fn.up(place, n) if place else None, place))

    return CHAIN.sub(turn, text)


LET = re.compile(r"let (\w[\w'-]*) (?:: tie\.[\w-]+(?: [\w-]+)* )?= (\w[\w'-]*)((?:\.before)+) in\s*")


def inline(text):
    """A name bound to an earlier record is written out."""
    while True:
        m = LET.search(text)
        if not m:
            return text
        name, root, path = m.groups()
        rest = text[m.end() :]
        rest = re.sub(rf"(?<![\w.'-]){re.escape(name)}(?![\w'-])", root + path, rest)
        text = text[: m.start()] + rest


def split(text):
    """Blocks that begin at the left edge."""
    blocks, now = [], []
    for line in text.split("\n"):
        begins = line and not line[0].isspace()
        if begins and now and not (
            now[-1].startswith("--") or re.match(r"(unfolding|opaque) ", now[-1]) or same(now, line) or re.match(r"unfolding ", line)
        ):
            blocks.append("\n".join(now).rstrip())
            now = []
        now.append(line)
    blocks.append("\n".join(now).rstrip())
    return [b for b in blocks if b.strip()]


def name_of(line):
    m = re.match(r"(?:pub |abbrev |unfoldable )*([^\s(){}:]+)", line)
    return m.group(1) if m else None


def same(now, line):
    """Whether the line goes on with the declaration of these lines."""
    heads = [x for x in now if x and not x[0].isspace() and not x.startswith("--") and not x.startswith("unfolding")]
    if not heads or line.startswith("use ") or line.startswith("--") or line.startswith("module "):
        return False
    return name_of(heads[0]) == name_of(line) and not re.match(r"(?:pub |abbrev )*\S+ :", line)


TRIVIAL = re.compile(r"^(search rules|omega arith|tt|refl|search \(rules\)|\(tt, tt\)|\(refl, refl\))$")


def convert(crate, path, lts):
    fn = Function(crate, path, lts)
    folder = f"{TOP}/crates/{crate}/proofs/" + "/".join(path)
    text = open(folder + "/Proof.antt", encoding="utf-8").read()
    module = f"Rattle.{crate}.proofs." + ".".join(path)
    comment, uses, invariants, answers, said = [], [], [], [], []
    # Where an answer cites another, by its old name.
    fn.cited = re.sub(r"(?m)^(pub )?[^\s]+ (:|c( κs)?( \S+)* =)|^    [^\s]+$", "", text[: text.rfind("tie.close")])
    fn.named = {}
    fn.used = set()
    fn.helpers = {}
    for old, need in re.findall(r"(?m)^([^\s(){}:]+) : tie\.Need-([^\s]+)", text):
        if fn.need(need) and fn.need(need)[0][0] != old:
            fn.named[old] = fn.need(need)[0][0]
    aliases = {}
    for block in split(text):
        lines = block.split("\n")
        heads = [x for x in lines if not x.startswith("--")]
        if not heads:
            (answers if uses else comment).append(block)
            continue
        if heads[0].startswith("use "):
            if lines[0].startswith("--"):
                comment += [x for x in lines if x.startswith("--")]
            uses += [x for x in heads if not re.search(r"\.Statement\.\{|\.Tie as tie", x)]
            continue
        head = heads[0]
        above = [x for x in lines if x.startswith("--")]
        m = re.match(r"(?:pub |abbrev |unfoldable )*([^\s(){}:]+) : (.*)$", head)
        if m and "tie.close" in block:
            continue
        if m and re.match(r"tie\.(invariant|decreases)-", m.group(2)):
            invariants.append(invariant(fn, m, heads, above, said))
            continue
        if m and m.group(2).startswith("tie.Need-"):
            answers += answer(fn, m, heads, above, aliases, said)
            continue
        answers.append(helper(fn, block, aliases, said))
    kept = [a for a in answers if a]
    if invariants:
        invariants, kept, lent = shared(invariants, kept)
        write(folder + "/Invariants.antt", comment if not kept else [], uses + [f"use {module}.Given as goal"], invariants)
        if lent:
            uses.append(f"use {module}.Invariants.{{{', '.join(lent)}}}")
    if kept:
        goals = [f"use {module}.Goals as goal"]
        if fn.used:
            goals.append(f"use {module}.Goals.{{{', '.join(sorted(fn.used))}}}")
        write(folder + "/Answers.antt", comment, uses + goals, kept)
    # The old text stays in git.
    os.remove(folder + "/Proof.antt")
    for s in sorted(set(said)):
        print(f"{'::'.join(path)}: {s}")


def shared(invariants, answers):
    """What an invariant cites of the helpers stands beside it, and the answers have it from there."""
    lent, rest, moved = [], list(answers), []
    found = True
    while found:
        found = False
        for at, block in enumerate(rest):
            heads = [x for x in block.split("\n") if not x.startswith("--")]
            m = heads and re.match(r"(abbrev |unfoldable )?([^\s(){}:]+) : (?!goal\.)", heads[0]) or heads and re.match(r"()(?:record|data) ([^\s(){}:]+)", heads[0])
            if m and re.search(rf"(?<![\w.'-]){re.escape(m.group(2))}(?![\w'-])", "\n".join(invariants + moved)):
                lent.append(m.group(2))
                block = block.replace(heads[0], (m.group(1) or "") + "pub " + heads[0][len(m.group(1) or "") :], 1)
                if m.re.pattern.startswith("()"):
                    block = re.sub(r"\n  (?!pub )(?=\S)", "\n  pub ", block)
                moved.insert(0, block)
                del rest[at]
                found = True
                break
    return moved + invariants, rest, lent


def write(file, comment, uses, blocks):
    open(file, "w", encoding="utf-8").write("\n".join(comment + uses) + "\n\n" + "\n\n".join(blocks) + "\n")


def invariant(fn, m, heads, above, said):
    kind, old = re.match(r"tie\.(invariant|decreases)-(\S+)", m.group(2)).groups()
    index = [i for i, l in enumerate(fn.lts["loops"]) if plain(l[0][0]) == plain(old)]
    if not index:
        said.append("loop " + old)
        return "\n".join(["-- TURN"] + heads)
    (_, new), names = fn.lts["loops"][index[0]]
    changed = fn.lts["changed"][index[0]]
    body = "\n".join(heads[1:])
    unfolding = ""
    if body.startswith("unfolding"):
        unfolding, body = body.split("\n", 1)
        unfolding += "\n"
    h = re.match(r"(\S+)((?: [^\s=]+)*) =\s*", body)
    params = h.group(2).split()
    rest = body[h.end() :]
    ways = [("l.initial." if c else "l.") + n for n, c in zip(names, changed)] + ["l." + n for n, c in zip(names, changed) if c]
    if len(ways) != len(params):
        said.append(f"loop {old}: {params} for {ways}")
    table = dict(zip(params, ways))
    rest = re.sub(
        r"(?<![\w.'₀-₉-])[A-Za-z_][\w'₀-₉-]*", lambda t: table.get(t.group(0), t.group(0)), rest
    )
    name = f"{kind}-{new}"
    return "\n".join(above + [f"abbrev pub {name} : goal.{name}"]) + f"\n{unfolding}{name} l ={' ' if not rest.startswith(chr(10)) else ''}{rest}"


def answer(fn, m, heads, above, aliases, said):
    old = re.match(r"tie\.Need-(\S+)", m.group(2)).group(1)
    body = "\n".join(heads[1:])
    unfolding = ""
    if body.startswith("unfolding"):
        unfolding, body = body.split("\n", 1)
        unfolding += "\n"
    body = inline(body)
    found = fn.need(old)
    h = re.match(r"(\S+) (\S+)((?: κs)?)((?: [^\s=]+)*) =\s*", body)
    if not h:
        said.append("answer " + m.group(1))
        return ["-- TURN\n" + "\n".join("-- " + x for x in heads)]
    rest = body[h.end() :].rstrip()
    rest = re.sub(r"^λ κs\. ", "", rest)
    if TRIVIAL.match(rest) and not unfolding and not re.search(rf"(?<![\w.'-]){re.escape(m.group(1))}(?![\w'-])", fn.cited):
        return []
    if not found:
        said.append("goal " + old)
        return ["\n".join(["-- TURN: no goal is called so now"] + ["-- " + x for x in (heads[0] + "\n" + unfolding + h.group(0) + rest).split("\n")])]
    out = []
    for new, place in found:
        turned = rest
        for name, path in aliases.items():
            turned = re.sub(rf"\({re.escape(name)} ([\w'.-]+)\)", r"\1" + path, turned)
        turned = chains(turned, fn, h.group(2), place, new, said)
        for name, to in fn.named.items():
            turned = re.sub(rf"(?<![\w.'-]){re.escape(name)}(?![\w'-])(?= )", to, turned)
        turned = re.sub(r"\bnot-(?:true|false) (?:_|\S+) (?=c\.)", "", turned)
        turned = re.sub(r"\.ptr\b", ".ref_ptr", turned)
        turned = by_clause(turned, fn, new)
        for record in sorted(set(re.findall(r"\(goal\.at\.\S+ \w+\)\.[\w-]+", turned))):
            if turned.count(record) > 2:
                name = next(x for x in ("k", "k2", "k3", "k4") if not re.search(rf"(?<![\w.'-]){x}(?![\w'-])", turned))
                turned = f"let {name} = {record} in\n    " + turned.replace(record, name)
        gap = "\n    " if "\n" in turned or len(turned) > 110 else " "
        out.append("\n".join(above + [f"pub {new} : goal.{new}"]) + f"\n{unfolding}{new} {h.group(2)}{h.group(4)} ={gap}{turned}")
    return out


def by_clause(body, fn, goal):
    """A tuple for several clauses is a record of them by name."""
    labels = fn.own.get("ensures", []) if goal.startswith("returns") else []
    if len(labels) < 2 or not all(labels):
        return body
    ends = [m.end() for m in re.finditer(r"\bin\b", body) if body[: m.end()].count("(") == body[: m.end()].count(")")]
    last = body[ends[-1] if ends else 0 :].strip()
    if re.match(r"\w", last) and not re.fullmatch(r"[\w.'-]+", last) and not re.match(r"(rw|search|omega|cc|simp|elim|absurd|subst|let|grind)\b", last):
        head = body[: len(body) - len(last)] if body.endswith(last) else body[: body.rindex(last)]
        return head + "record { " + "; ".join(f"{l} = ({last}).{k}" for k, l in enumerate(labels)) + " }"
    if not body.endswith(")"):
        return body
    depth, i = 0, len(body)
    while i:
        i -= 1
        depth += {")": 1, "(": -1}.get(body[i], 0)
        if depth == 0:
            break
    before, inner = body[:i], body[i + 1 : -1]
    if before.strip() and not re.search(r"(\bin|=|↦)\s*$", before):
        return body
    parts, depth, now = [], 0, ""
    for ch in inner:
        depth += {"(": 1, "[": 1, "{": 1, ")": -1, "]": -1, "}": -1}.get(ch, 0)
        if ch == "," and depth == 0:
            parts.append(now.strip())
            now = ""
        else:
            now += ch
    if now.strip():
        parts.append(now.strip())
    if len(parts) != len(labels):
        return body
    return before + "record { " + "; ".join(f"{l} = {p}" for l, p in zip(labels, parts)) + " }"


def inside(fn, block):
    """In a helper, another one over an earlier record is written out."""
    for name, (var, body) in fn.helpers.items():

        def put(m):
            return "(" + re.sub(rf"(?<![\w.'-]){var}(?![\w'-])", m.group(1), body) + ")"

        block = re.sub(rf"\({re.escape(name)} (\w+(?:\.before)+)\)", put, block)
    m = re.match(r"(?:--[^\n]*\n)*([^\s(){}:]+) : \((\w+) : tie\.[^\n]*\n(?:unfolding [^\n]*\n)?\1 \2 =\s*((?:.|\n)*)$", block)
    if m and "unfolding" not in block:
        fn.helpers[m.group(1)] = (m.group(2), m.group(3).strip())
    return block


def helper(fn, block, aliases, said):
    block = inline(block)

    def alias(a):
        aliases[a.group(1)] = a.group(3)
        return ""

    block = re.sub(r"\n *abbrev (\w+) : tie\.[\w-]+[^\n]*\n *\1 = (\w+)((?:\.before)+)\n", alias, block)
    for name, path in aliases.items():
        block = re.sub(rf"(?<![\w.'-]){re.escape(name)}(?=\.)", "c" + path, block)
        block = re.sub(rf"\({re.escape(name)} ([\w'.-]+)\)", r"\1" + path, block)
    for name, path in aliases.items():
        block = re.sub(rf"(?<![\w.'-]){re.escape(name)}(?![\w'.:-])(?! :)", "c" + path, block)
    block = inside(fn, block)
    places = []

    def type_of(t):
        old = plain(t.group(1))
        places.append(fn.place.get(old))
        if old not in fn.place:
            said.append("type " + old)
        fn.used.add(str(fn.place.get(old, t.group(1))))
        return str(fn.place.get(old, t.group(1)))

    block = re.sub(r"tie\.([A-Za-z][\w-]*)(?: invariant-[\w-]+| decreases-[\w-]+)*", type_of, block)
    binders = [v for v, of in re.findall(r"\((\w+) : ([A-Z][\w-]*)", block) if of in fn.used]
    for var in dict.fromkeys(binders or ["c"]):
        block = chains(block, fn, var, places[0] if places else None, None, said)
    block = re.sub(r"\bnot-(?:true|false) (?:_|\S+) (?=c\.)", "", block)
    return block


def names_of(crate):
    """What each goal and each step of the crate's functions was called, and is called."""
    with tempfile.TemporaryDirectory() as out:
        said = subprocess.run(["rt", "check", "--generated", out, "--old-names"], cwd=f"{TOP}/crates/{crate}", capture_output=True, text=True)
        if not os.path.exists(out + "/names.json"):
            print(said.stdout[-3000:], said.stderr[-2000:])
            raise SystemExit(1)
        return json.load(open(out + "/names.json", encoding="utf-8"))


def main():
    crate, only = sys.argv[1], sys.argv[2:]
    for key, lts in names_of(crate).items():
        m = re.match(r"Rattle-\w+-proofs\.(.*)\.Lts$", key)
        if not m:
            continue
        path = m.group(1).split(".")
        if only and path[-1] not in only:
            continue
        if os.path.exists(f"{TOP}/crates/{crate}/proofs/" + "/".join(path) + "/Proof.antt"):
            convert(crate, path, lts)


main()
