#!/usr/bin/env python3
"""Lists declarations that nothing leads to: no contract, no proof of a function, no must-fail edit, no document.

    tools/uncited.py [CRATE ..]

It starts from every word of the .rt files, of the files in proofs/FUNCTION, of the must-fail edits and of the documents (a file that a document names whole counts with
all that it makes public), and follows the declarations of specs and of the other files of proofs, types and bodies. What is left may go, or a document should say
what it is for: a worked instance or a computed test is cited there and nowhere else. Words that are spelled alike count as the same, so more may be dead than is listed.
"""
import re
import sys
from collections import Counter

sys.dont_write_bytecode = True
from definitions import Library
from source_text import TOP, crates, without_comments, words


def is_of_function(path):
    """Whether a file says how a function is proved: it stands in a folder of proofs, and lemmas beside the folders."""
    inside = path.relative_to(TOP / "crates").parts
    return path.suffix == ".antt" and inside[1] == "proofs" and len(inside) > 3


def in_attributes(path, text):
    """What the tactics of a function are handed by their paths, `using(crate::proofs::Runs::a_lemma)`."""
    for listed in re.findall(r"\b(?:using|unfolding)\(([^()]*)\)", text):
        for name in (n.strip().split("::") for n in listed.split(",")):
            crate = path.relative_to(TOP / "crates").parts[0] if name[0] == "crate" else name[0]
            yield ".".join(["Rattle", crate, *name[1:-1]]), name[-1]


def roots(names):
    """Texts from which everything is to be reached: the file that gives the words their meaning, and the text."""
    for crate in names:
        folder = TOP / "crates" / crate
        for path in sorted(folder.rglob("*")):
            if path.suffix == ".rt":
                yield path, without_comments(path.read_text(encoding="utf-8"), "//")
            elif is_of_function(path):
                yield path, without_comments(path.read_text(encoding="utf-8"), "--")


def main():
    names, library = crates(), Library()
    everything = []
    for crate in names:
        for folder in ("specs", "proofs"):
            for path in sorted((TOP / "crates" / crate / folder).rglob("*.antt")):
                if path.name != "Lib.antt" and not is_of_function(path):
                    everything += library.source(path).declared
    reached, queue = set(), []

    def follow(path, text, line=None):
        for meaning in [*library.source(path).meanings(text, line), *in_attributes(path, text)]:
            d = library.find(*meaning) if isinstance(meaning, tuple) else meaning
            if d is not None and d not in reached:
                reached.add(d)
                queue.append(d)

    for path, text in roots(names):
        follow(path, text)
    documents = [p for p in [TOP / "README.md", *sorted((TOP / "docs").glob("*.md"))] if p.name != "DEFINITIONS.md"]
    lines = [line for p in documents for line in p.read_text(encoding="utf-8").splitlines()]
    said = set(words(re.sub(r"[`:,()/{}]", " ", " ".join(lines))))
    whole = [set(re.findall(r"\w+", re.sub(r"\w+: [^`}]*", " ", line))) for line in lines]
    edits = {c: set(words(" ".join(e.read_text(encoding="utf-8") for e in (TOP / "crates" / c / "must-fail").glob("*.edit")))) for c in names}
    for d in everything:
        crate = d.path.relative_to(TOP / "crates").parts[0]
        if d.name in said or d.name in edits[crate] or (d.public and any(crate in line and d.path.stem in line for line in whole)):
            reached.add(d)
            queue.append(d)
    while queue:
        d = queue.pop()
        if d.kind != "struct":
            follow(d.path, d.type + "\n" + d.body, d.line)
    wanted, count = [a for a in sys.argv[1:] if not a.startswith("-")] or names, Counter()
    for d in everything:
        crate = d.path.relative_to(TOP / "crates").parts[0]
        if d not in reached and crate in wanted:
            count[crate] += d.last - d.first + 1
            print(f"{d.path.relative_to(TOP)}:{d.line}: {d.name}")
    for crate in wanted:
        if count[crate]:
            print(f"{count[crate]:5} lines in {crate}")
    print(f"{sum(count.values()):5} lines that nothing leads to")


if __name__ == "__main__":
    main()
