#!/usr/bin/env python3
"""Spells the repository's own definitions and lemmas as today's Rattle does: words in snake case.

    tools/port_names.py         at the top of the repository, once, after port.py
    tools/port_names.py FILE..  spells names in these texts (.md, .edit, ..) by the list that the first form left

port.py respells the names that a library had too, and leaves the others. What is spelled so is each name that a file of specs/ or
a file of lemmas in proofs/ declares, with its uses, and each variable in camel case. Words that a dash joined take `_`, and where a definition has that name the lemma
gets `_lem`. A definition that would get the name of a field, a parameter or a constant of src/ gets `_of`. The list of names goes into
tools/port_names.tsv. Functions, types and fields of src/ keep their names, and so do strings, inputs and outputs.
"""

import collections
import os
import re
import sys

LIST = "tools/port_names.tsv"
SIGNATURE = re.compile(
    r"^(\s*)(?:pub\s+)?(?:(abbrev|unfoldable|record|data)\s+)?(?:pub\s+)?([^\s:(){}.,;«»λ]+)((?:\s+\([^)]*\)|\s+\{[^}]*\})*)\s*:\s+(.*)$"
)
WORDS = {"let", "in", "use", "mod", "where", "module", "open", "elim", "record", "unfolding", "infix", "infixl", "infixr", "data", "pub"}
TOKEN = re.compile(r"[^\s(){};,.«»\[\]|`\"]+")
CAMEL = re.compile(r"[a-z][A-Za-z0-9₀-₉']*[A-Z][A-Za-z0-9₀-₉']*")
DASHED = re.compile(r"[a-z0-9₀-₉']+(-[a-z0-9₀-₉']+)+")


def files(*endings):
    for folder, folders, names in os.walk("crates"):
        folders[:] = sorted(f for f in folders if f != "out")
        for name in sorted(names):
            if name.endswith(endings):
                yield os.path.join(folder, name)


def read(path):
    with open(path, encoding="utf-8") as f:
        return f.read()


def write(path, text):
    with open(path, "w", encoding="utf-8") as f:
        f.write(text)


def is_of_a_function(path):
    parts = path.split("/")
    return parts[2] == "proofs" and len(parts) > 4


def snake(word):
    word = re.sub(r"([a-z0-9])([A-Z])", r"\1_\2", word)
    return re.sub(r"([A-Z]+)([A-Z][a-z])", r"\1_\2", word).lower()


def declared():
    """The names that files of specs/ and lemma files declare, and those that stand for a type."""
    own, types = set(), set()
    for path in files(".antt"):
        if is_of_a_function(path):
            continue
        for line in read(path).split("\n"):
            it = SIGNATURE.match(line)
            if not it or line.lstrip().startswith(("--", "let ")) or it[3] in WORDS:
                continue
            own.add(it[3])
            if it[2] in ("record", "data") or re.search(r"(^|→ )Type 0\s*(where)?\s*$", it[5]):
                types.add(it[3])
    return own, types


def of_libraries():
    """The names that some file takes from a library of the kit."""
    crates = set(os.listdir("crates"))
    found = set()
    for path in files(".antt", ".rt"):
        for at, names in re.findall(r"(?m)^(?:ghost )?use ([^\s{]+)\.\{([^}]*)\}", read(path)):
            head = at.split(".")
            if not (head[0] == "Rattle" and len(head) > 1 and head[1] in crates):
                found.update(n.strip().split(" as ")[0] for n in names.split(","))
    return found


def of_source():
    """The fields, parameters, bindings and constants of src/."""
    found = set()
    for path in files(".rt"):
        text = re.sub(r"//[^\n]*", "", read(path))
        found.update(re.findall(r"(?:\b|_)([a-z_][a-z0-9_]*)\s*:(?!:)", text))
        found.update(re.findall(r"\b(?:let|for)\s+(?:mut\s+)?([a-z_][a-z0-9_]*)", text))
    return found


def spelled():
    own, types = declared()
    library, source = of_libraries(), of_source()
    new = {}
    for name in sorted(own - library):
        if name[0].islower() and name in types:
            new[name] = name[0].upper() + name[1:]
        elif CAMEL.fullmatch(name):
            new[name] = snake(name)
    taken = set(own) | set(new.values())
    for name, to in new.items():
        if to in source or to in library or to in own:
            new[name] = to + ("_of" if to + "_of" not in taken else "_value")
            taken.add(new[name])
    for name in sorted(own - library):
        if DASHED.fullmatch(name):
            to = name.replace("-", "_")
            new[name] = to + "_lem" if to in taken or to in source or to in library else to
            taken.add(new[name])
        elif "-" in name and re.fullmatch(r"[A-Za-z0-9₀-₉'-]+", name):
            parts = [new.get(p, snake(p)) if p[:1].islower() and CAMEL.fullmatch(p) else p for p in name.split("-")]
            if "-".join(parts) != name:
                new[name] = "-".join(parts)
    for path in files(".antt"):
        for token in TOKEN.findall(re.sub(r"--[^\n]*", "", read(path))):
            if CAMEL.fullmatch(token) and token not in new and token not in library:
                new[token] = snake(token)
    by = collections.defaultdict(list)
    for name, to in new.items():
        by[to].append(name)
    double = {to: names for to, names in by.items() if len(names) > 1}
    if double:
        raise SystemExit(f"port_names: names that fall together: {double}")
    return new


def turned(text, new, dashed=True, after_dot=True):
    def one(it):
        word = it[0]
        if word not in new or ("-" in word and not dashed):
            return word
        if "-" in word and not after_dot and text[it.start() - 1 : it.start()] == ".":
            return word
        return new[word]

    return TOKEN.sub(one, text)


def turned_antt(text, new, after_dot):
    lines = []
    for line in text.split("\n"):
        code, dashes, comment = re.match(r"((?:(?!--(?:\s|$)).)*)(--(?:\s|$))?(.*)", line).groups()
        lines.append(turned(code, new, after_dot=after_dot) + (dashes or "") + turned(comment, new, dashed=False))
    return "\n".join(lines)


def closing(text, at):
    depth = 0
    for i in range(at, len(text)):
        depth += {"{": 1, "}": -1}.get(text[i], 0)
        if depth == 0:
            return i + 1
    return len(text)


def turned_source(text, new):
    """Clauses and imports wholly, comments in camel case alone, and the code not at all."""
    out, at = [], 0
    for it in re.finditer(r"(?m)^\s*ghost use [^;]*;|\b(?:requires|ensures|ghost)\b\*?[^{;\n]*\{|//[^\n]*", text):
        if it.start() < at:
            continue
        end = closing(text, it.end() - 1) if it[0].endswith("{") else it.end()
        out += [text[at : it.start()], turned(text[it.start() : end], new, dashed=not it[0].startswith("//"))]
        at = end
    return "".join(out) + text[at:]


def main(paths):
    if paths:
        new = dict(line.split("\t") for line in read(LIST).splitlines())
        for path in paths:
            write(path, turned(read(path), new))
        return
    new = spelled()
    write(LIST, "".join(f"{name}\t{to}\n" for name, to in sorted(new.items())))
    for path in files(".antt"):
        write(path, turned_antt(read(path), new, after_dot=not is_of_a_function(path)))
    for path in files(".rt"):
        write(path, turned_source(read(path), new))
    print(f"port_names: {len(new)} names")


if __name__ == "__main__":
    main(sys.argv[1:])
