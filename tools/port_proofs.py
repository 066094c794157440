#!/usr/bin/env python3
"""Turns each Proof.antt that walks a function's code by hand to Invariants.antt and Answers.antt.

    tools/port_proofs.py NAMES CRATE..      at the top of the repository

NAMES is a folder that `rt names NAMES` wrote. An answer that one tactic gives with no lemma is left out, since the check
tries it by itself. What it could not turn is printed.
"""

import json
import os
import re
import sys

OPS = {"add": "overflow-add", "sub": "overflow-sub", "mul": "overflow-mul", "shl": "overflow-shl", "shr": "overflow-shr", "cast": "overflow-cast", "div": "nonzero-div", "rem": "nonzero-rem", "part": "slice-bounds", "ghost": "invariant-of", "index": "bounds", "offset": "offset-bounds"}
TRIVIAL = re.compile(r"search rules|omega arith|refl|search rules depth \d+")
W = r"[A-Za-z0-9_'+·-]+"
said = []


def canon(name):
    return name.replace("_", "-")


def blocks(text):
    """The comment lines at the head, the use lines, and the declarations."""
    head, uses, decls, now, seen = [], [], [], [], False
    lines = text.split("\n")
    i = 0
    while i < len(lines):
        line = lines[i]
        if not seen and line.startswith("--") and not uses:
            head.append(line)
        elif line.startswith("use "):
            seen = True
            uses.append(line)
        elif not line.strip():
            if now:
                decls.append(now)
            now = []
        else:
            seen = True
            now.append(line)
        i += 1
    if now:
        decls.append(now)
    # an indented block after a blank line goes with the one before
    out = []
    for d in decls:
        if out and d[0].startswith((" ", "\t")):
            out[-1] += ["", *d]
        else:
            out.append(d)
    return head, uses, out


class Function:
    def __init__(self, names):
        self.names = names
        self.needs = {}
        for old, new in names["needs"]:
            self.needs.setdefault(canon(old), new)
            first, _, rest = old.partition("-")
            if first in OPS:
                self.needs.setdefault(canon(OPS[first] + "-" + rest), new)
            self.needs.setdefault(canon(new), new)
        self.at = {}
        for (old, new), (place, _) in zip(names["needs"], names["asked_at"]):
            self.at[new] = place
        self.places = {p[0]: (k, p) for k, p in enumerate(names["places"])}

    def chain(self, place):
        while place in self.places:
            k, it = self.places[place]
            yield k, it
            place = it[1]

    def step(self, place, path):
        """The new path for the fields in path, which begin with an old step's name."""
        want = canon(path[0])
        for k, it in self.chain(place):
            arms = self.names["arms"][k]
            if arms:
                # the longest first
                for field, step, below in sorted(arms[2], key=lambda f: -len(f[2])):
                    if canon(step) == want and [canon(b) for b in path[1 : 1 + len(below)]] == [canon(b) for b in below]:
                        if field.endswith("-own"):
                            if it[2] and canon(it[2][0]) == want:
                                return [arms[0], *path[1:]], f"arm {arms[0]} of {'.'.join(path)}"
                            continue
                        return [arms[0], field, *path[1 + len(below) :]], None
            old, new = it[2]
            if canon(old) == want:
                return [new, *path[1:]], None
        for old, new in (p[2] for p in self.names["places"]):
            if canon(old) == want:
                return [new, *path[1:]], f"step {path[0]} is not on the way to {place}"
        return path, f"no step {path[0]}"


def turned_body(text, f, place, where):
    text = text.replace(" κs", "")
    # a name for c or for a step back is c
    while True:
        it = re.search(rf"let ({W}) = c((?:\.before)*) in\s*", text)
        if not it:
            break
        text = text[: it.start()] + text[it.end() :]
        text = re.sub(rf"(?<![\w.'-]){re.escape(it[1])}\.", "c.", text)

    def one(m):
        path = m[1].split(".")[1:]
        while path and path[0] == "before":
            path = path[1:]
        if not path:
            return "c"
        if path[0] in ("args", "ranges", "requires", "well_formed", "type_inv", "lifetimes"):
            for old, new in f.names["args"]:
                o = old.replace(" ", "").split(".")[1:]
                n = new.replace(" ", "").split(".")[1:]
                if len(o) == 2 and path[: len(o)] == o:
                    path = n + path[len(o) :]
            return "c." + ".".join(path)
        new, why = f.step(place, path)
        if why:
            said.append(f"{where}: {why}")
        return "c." + ".".join(new)

    text = re.sub(rf"(?<![\w.'-])c((?:\.{W})+)", one, text)
    return text.replace(".in_default.rest", ".in_default-own.rest")


def sub_names(text, table):
    def one(m):
        if m.start() and text[m.start() - 1] == ".":
            return m[0]
        return table.get(m[0], m[0])

    return re.sub(r"[A-Za-z_][A-Za-z0-9_'₀₁₂₃-]*", one, text)


def convert(path, f, crate, inner):
    with open(path, encoding="utf-8") as it:
        text = it.read()
    head, uses, decls = blocks(text)
    uses = list(dict.fromkeys(u for u in uses if not re.search(r"\.Statement\.\{statement\}|\.Tie as tie", u)))
    answers, invariants, helpers = [], [], []
    names = f.names
    for d in decls:
        body = list(d)
        comments = []
        while body and body[0].startswith("--"):
            comments.append(body.pop(0))
        if not body:
            helpers.append(d)
            continue
        joined = "\n".join(body)
        if re.match(rf"pub {W}[-_]spec\b", joined) and "statement" in joined:
            continue
        inv = re.match(rf"(?:abbrev )?({W}) : tie\.((?:invariant|decreases)-({W}))", body[0])
        need = re.match(rf"({W}) : tie\.Need-({W})", body[0])
        if inv:
            loops = names["loops"]
            at = next((k for k, it in enumerate(loops) if canon(it[0][0]) == canon(inv[3])), None)
            if at is None:
                said.append(f"{path}: no loop {inv[3]}")
                helpers.append(d)
                continue
            (old, new), variables = loops[at]
            changed = names["changed"][at]
            kind = inv[2].split("-")[0]
            eq = re.match(rf"{re.escape(inv[1])} (.*?) =\s*(.*)", "\n".join(body[1:]), re.S)
            if not eq:
                said.append(f"{path}: cannot read {inv[1]}")
                helpers.append(d)
                continue
            params = eq[1].split()
            to = ["l.initial." + v if c else "l." + v for v, c in zip(variables, changed)] + ["l." + v for v, c in zip(variables, changed) if c]
            if len(to) != len(params):
                said.append(f"{path}: {inv[1]} has {len(params)} names for {len(to)}")
            table = {p: t for p, t in zip(params, to) if p != "_"}
            table.pop("l", None)
            invariants.append("\n".join([*comments, f"abbrev pub {kind}-{new} : goal.{kind}-{new}", f"{kind}-{new} l = " + sub_names(eq[2], table)]))
            continue
        if need:
            new = f.needs.get(canon(need[2]))
            if new is None:
                if need[2] not in ():
                    said.append(f"{path}: no goal {need[2]}")
                continue
            rest = "\n".join(body[1:])
            eq = re.match(rf"(unfolding [^\n]*\n)?{re.escape(need[1])} (\S+(?: κs)?) =\s*(.*)", rest, re.S)
            if not eq:
                said.append(f"{path}: cannot read {need[1]}")
                helpers.append(d)
                continue
            if not eq[1] and TRIVIAL.fullmatch(eq[3].strip()):
                continue
            place = f.at[new]
            c = eq[2].split()[0]
            if c != "c" and c != "_":
                said.append(f"{path}: {need[1]} names {c}")
            answers.append("\n".join([*comments, f"pub {new} : goal.{new}", *([eq[1].rstrip("\n")] if eq[1] else []), f"{new} {c} =\n    " + turned_body(eq[3], f, place, f"{path}: {new}")]))
            continue
        helpers.append(d)
    module = f"Rattle.{crate}.proofs." + inner.replace("/", ".")
    folder = os.path.dirname(path)
    helped = ["\n".join(h) for h in helpers]
    names_of = [re.match(rf"(?:\(|)(?:pub )?(?:abbrev |unfoldable )?(?:pub )?({W}|[^\s:]+)", "\n".join(l for l in h if not l.startswith("--"))) for h in helpers]
    names_of = [n[1] for n in names_of if n]
    in_invariants = [n for n in names_of if any(re.search(rf"(?<![\w.'-]){re.escape(n)}(?![\w'-])", t) for t in invariants)]
    if in_invariants:
        said.append(f"{path}: the invariants name {in_invariants}")
    os.remove(path)
    if invariants:
        with open(f"{folder}/Invariants.antt", "w", encoding="utf-8") as it:
            it.write("\n".join([*head, *uses, f"use {module}.Given as goal", "", "\n\n".join((helped if in_invariants else []) + invariants), ""]))
    if answers:
        with open(f"{folder}/Answers.antt", "w", encoding="utf-8") as it:
            it.write("\n".join([*head, *uses, f"use {module}.Goals as goal", "", "\n\n".join((helped) + answers), ""]))
    elif helped and not in_invariants:
        said.append(f"{path}: helpers with no answer: {names_of}")
    if not answers and not invariants and not os.listdir(folder):
        os.rmdir(folder)


def main(listed, crates):
    for crate in crates:
        with open(f"{listed}/crates/{crate}/names.json", encoding="utf-8") as it:
            names = json.load(it)
        top = f"crates/{crate}/proofs"
        for folder, _, files in os.walk(top):
            if "Proof.antt" in files:
                inner = os.path.relpath(folder, top)
                key = f"Rattle-{crate}-proofs.{inner.replace('/', '.')}.Lts"
                if key not in names:
                    said.append(f"{folder}: no names")
                    continue
                convert(f"{folder}/Proof.antt", Function(names[key]), crate, inner)
        for folder, folders, files in os.walk(top, topdown=False):
            if not os.listdir(folder) and folder != top:
                os.rmdir(folder)
    print("\n".join(said))


if __name__ == "__main__":
    main(sys.argv[1], sys.argv[2:])
