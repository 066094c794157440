#!/usr/bin/env python3
"""design_places.py [--list] [FOLDER]: counts, in crates/*/src of a checkout, the places that docs/DESIGN-PASS.md tells of, by its points.

With --list each place is printed. A place that the page keeps is counted too: the page says which these are and why.
"""
import argparse
import collections
import glob
import os
import re

NUMBERED = r"(?:u64|usize|u8)"


def sources(folder):
    for path in sorted(glob.glob(os.path.join(folder, "crates/*/src/**/*.rt"), recursive=True)):
        with open(path, encoding="utf-8") as source:
            yield os.path.relpath(path, folder), source.read()


def functions(text):
    """(line, name, head, contract, body) of each function."""
    for m in re.finditer(r"^ *(?:pub(?:\(crate\))? )?(?:extern \"C\" )?fn (\w+)", text, re.M):
        depth, at = 0, None
        head_end = None
        i = m.end()
        while i < len(text):
            c = text[i]
            if c == "{":
                # a clause stands on a line that begins with requires or ensures
                start = text.rfind("\n", 0, i) + 1
                clause = re.match(r"\s*(requires|ensures)\b", text[start:i])
                if head_end is None and not clause:
                    head_end, at = i, i
                depth += 1
            elif c == "}":
                depth -= 1
                if depth == 0 and at is not None:
                    break
            elif c == ";" and depth == 0 and text[i + 1:i + 2] == "\n":
                break
            i += 1
        if at is None:
            continue
        whole = text[m.start():at]
        cut = re.search(r"^\s*(?:requires|ensures)\b", whole, re.M)
        head = whole[:cut.start()] if cut else whole
        contract = whole[cut.start():] if cut else ""
        yield text.count("\n", 0, m.start()) + 1, m.group(1), head, contract, text[at:i + 1]


def lines(folder, pattern, skip=None):
    found = []
    for path, text in sources(folder):
        if skip and re.search(skip, path):
            continue
        for n, line in enumerate(text.split("\n"), 1):
            if not line.strip().startswith("//") and re.search(pattern, line):
                found.append(f"{path}:{n}: {line.strip()}")
    return found


def by_function(folder, test):
    return [f"{path}:{n}: {name}" for path, text in sources(folder) for n, name, head, contract, body in functions(text) if test(path, name, head, contract, body)]


def refused_by_number(path, name, head, contract, body):
    return not path.startswith(("crates/boundary", "crates/vectors")) and "-> u64" in head and ("refusal" in name or "ensures number" in contract or "_refusal" in contract or "eliminated" in contract or "substituted" in contract)


def plain(body):
    body = re.sub(r"//.*", "", body)
    body = re.sub(r"\b[A-Z]\w*\b", "T", body)
    body = re.sub(r"\b\d[\w.]*\b", "0", body)
    body = re.sub(r"(?<![.:\w])[a-z]\w*(?![\w(:!])", "v", re.sub(r"\b(let|mut|if|else|for|in|while|return|match|as)\b", lambda m: m.group(1).upper(), body))
    return re.sub(r"\s+", " ", body)


def twins(folder):
    groups = collections.defaultdict(list)
    for path, text in sources(folder):
        for n, name, head, contract, body in functions(text):
            body = plain(body)
            if len(body) > 40:
                groups[body].append(f"{path}:{n}: {name}")
    return [", ".join(places) for places in groups.values() if len(places) > 1]


def repeated_facts(folder):
    where = collections.defaultdict(list)
    for path, text in sources(folder):
        for n, name, head, contract, body in functions(text):
            for clause in re.findall(r"requires (?:\w+ )?\{(.*?)\}\s*$", contract, re.M):
                for atom in clause.split("×"):
                    atom = re.sub(r"\s+", " ", atom).strip()
                    while atom.startswith("(") and atom.count("(") > atom.count(")"):
                        atom = atom[1:]
                    while atom.endswith(")") and atom.count(")") > atom.count("("):
                        atom = atom[:-1]
                    if atom.startswith("(") and atom.endswith(")"):
                        atom = atom[1:-1]
                    where[atom].append(f"{path}:{n}")
    return [f"{atom}: {len(places)} functions, {', '.join(sorted({p.split('/')[1] for p in places}))}" for atom, places in sorted(where.items()) if len(places) > 2]


def travelling(folder):
    where = collections.defaultdict(set)
    for path, text in sources(folder):
        for n, name, head, contract, body in functions(text):
            names = re.findall(r"(\w+): ([^,()]+(?:\[[^\]]*\])?)", head.split("->")[0])
            names = [f"{a}: {re.sub(r'&(mut )?', '', b).strip()}" for a, b in names]
            for k in range(len(names) - 2):
                where[", ".join(names[k:k + 3])].add(f"{path}:{n}: {name}")
    return [f"({three}): {len(places)} functions" for three, places in sorted(where.items()) if len(places) > 2]


POINTS = [
    ("1a", "a refusal's number, or what has ended a run, in a field beside values", lambda f: lines(f, r"^ *(pub )?(refusal|over): u64,")),
    ("1b", "a flag in a field that says whether the value beside it counts", lambda f: lines(f, r"^ *(pub )?(digits|well_formed): bool,")),
    ("1c", "own enums of the shape of Option or Result", lambda f: lines(f, r"^(pub )?enum (Answer|Count|Found|Decimal|Reading)\b")),
    ("1d", "functions below the boundary that answer a refusal by its number", lambda f: by_function(f, refused_by_number)),
    ("1e", "parameters and fields that number a kind", lambda f: lines(f, rf"\b(call|which|kind|electrode_type|chemistry): {NUMBERED}\b")),
    ("1f", "constants that number kinds, causes or refusals", lambda f: lines(f, r"\bconst [A-Z_]+: u64 = \d{1,2};")),
    ("2a", "functions named after a size", lambda f: lines(f, r"\bfn [a-z_]+_(33|64|96|512)\b")),
    ("2b", "groups of functions whose bodies differ in types, sizes or constants alone", twins),
    ("3a", "loops that count by hand", lambda f: lines(f, r"^ *('\w+: )?(while|loop)\b")),
    ("3b", "`for` over a range, the counter an index", lambda f: lines(f, r"^ *('\w+: )?for \w+ in .*\.\.")),
    ("4a", "conversions by hand", lambda f: by_function(f, lambda p, n, h, c, b: re.fullmatch(r"flag|joined|low_byte|ending_number|of_numbers|numbers|digit|is_decimal|is_letter|phase_of", n))),
    ("4b", "equality by hand", lambda f: by_function(f, lambda p, n, h, c, b: n.startswith("same_"))),
    ("4c", "printing by hand", lambda f: lines(f, r"\bio::(write_all|print_decimal)\(")),
    ("5a", "facts in the `requires` of three or more functions", repeated_facts),
    ("5b", "three parameters side by side in three or more functions", travelling),
    ("6a", "an array or a slice with a length beside it among the parameters", lambda f: by_function(f, lambda p, n, h, c, b: re.search(r"\w+: &?(mut )?\[[^\]]*\], (\w+: f64, )*(n|count|turns): usize", h))),
    ("6b", "an array with a count beside it in a record", lambda f: lines(f, r"^ *pub \w+: \[\w+; \d+\],")),
    ("7a", "a choice of the call by a number", lambda f: lines(f, r"\bmatch (call|which|kind)\b|\bif (call|which|kind) (<=|==)")),
    ("8a", "answer and invariant files of proofs", lambda f: sorted(glob.glob(os.path.join(f, "crates/*/proofs/**/Answers.antt"), recursive=True) + glob.glob(os.path.join(f, "crates/*/proofs/**/Invariants.antt"), recursive=True))),
]


def main():
    parser = argparse.ArgumentParser()
    parser.add_argument("--list", action="store_true")
    parser.add_argument("folder", nargs="?", default=".")
    args = parser.parse_args()
    for point, what, find in POINTS:
        places = find(args.folder)
        print(f"{point}: {len(places)}: {what}")
        if args.list:
            for place in places:
                print(f"    {place}")


if __name__ == "__main__":
    main()
