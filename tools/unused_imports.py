#!/usr/bin/env python3
"""Lists imports that nothing in their file needs.

    tools/unused_imports.py [CRATE ..]     a line for each: FILE:LINE: NAME, of MODULE; at the end how many by crate
    tools/unused_imports.py --check        the same, and fails where there is one
    tools/unused_imports.py --write        takes them out; a line that brings nothing more goes

A name counts as used where it, or a part of it if it is an operator, stands anywhere else in the file outside comments: in a signature, a body, a pattern, an
`unfolding` line, a list handed to a tactic; and in what a must-fail edit writes there. A bound variable so spelled counts too. Never listed: what `pub use` passes
on; `◌>>=◌` and `◌>>◌` beside a `do` or `←`; a module that another `use` line begins with; a line that a must-fail edit replaces. Fields and methods are found by their
record's type and need no import. Of a crate that proves `rt tidy` drops those of .antt files by what the prover needs.
"""
import re
import sys
from collections import Counter

sys.dont_write_bytecode = True
from source_text import TOP, USE, bare, crates, imports, parts, without_comments, words


def edits_of(path):
    """What the crate's must-fail edits write into a file: an edit that lost a name would be refused for that, and show nothing."""
    crate = TOP / "crates" / path.relative_to(TOP / "crates").parts[0]
    for edit in sorted((crate / "must-fail").glob("*.edit")):
        text = edit.read_text(encoding="utf-8")
        if f"file: {path.relative_to(crate)}" in text.splitlines():
            yield re.sub(r"(?m)^(?:file|old|new): ?", "", text)


def unused(path):
    raw = path.read_text(encoding="utf-8")
    text = without_comments(raw, "--" if path.suffix == ".antt" else "//")
    brought = list(imports(text))
    edits = "\n".join(edits_of(path))
    rest = USE.sub("", text + "\n" + edits)
    if path.suffix == ".rt":
        rest = re.sub(r"&&|\|\||\+\+|[^\w'≡≤<≥>]", lambda m: m.group() if ord(m.group()[0]) > 127 else f" {m.group()} ", rest)
    used = set()
    for word in words(rest):
        used.add(word)
        used.update(parts(word))
        if path.suffix == ".rt":
            used.update(re.split(r"[<>]+", word))  # `Result<T, Refusal>`, `&View<'_>`
    heads = {re.split(r"[.:]", i.path)[0] for i in brought}
    acts = "do" in used or "←" in used
    lines = raw.splitlines()
    for i in brought:
        if "pub" in i.marks or "*" in i.path or lines[i.line - 1] in edits.splitlines():
            continue
        name = bare(i.name)
        if acts and name in ("◌>>=◌", "◌>>◌"):
            continue
        pieces = [name] if "::" in i.path else parts(i.name)
        if (i.item is None and name in heads) or name in used or any(p in used for p in pieces):
            continue
        yield i


def take_out(path, found):
    """The file's text without the names found; `rt fmt` lays out what is left."""
    gone = {(i.line, i.name) for i in found}
    text = path.read_text(encoding="utf-8")

    def one(m):
        number, brought = text.count("\n", 0, m.start()) + 1, list(imports(m.group()))
        left = [i for i in brought if (number, i.name) not in gone]
        if len(left) == len(brought):
            return m.group()
        items = ", ".join(i.item if i.name == i.item.split(".")[-1] else f"{i.item} as {i.name}" for i in left)
        return re.sub(r"\{[^}]*\}", lambda _: "{" + items + "}", m.group()) if left else "\0"

    return USE.sub(one, text).replace("\0\n", "")


def main():
    wanted = [a for a in sys.argv[1:] if not a.startswith("-")] or crates()
    count = Counter()
    for crate in wanted:
        for path in sorted((TOP / "crates" / crate).rglob("*")):
            if path.suffix in (".antt", ".rt"):
                found = list(unused(path))
                for i in found:
                    count[crate] += 1
                    print(f"{path.relative_to(TOP)}:{i.line}: {i.name}, of {i.path}")
                if found and "--write" in sys.argv:
                    path.write_text(take_out(path, found), encoding="utf-8")
    for crate in wanted:
        if count[crate]:
            print(f"{count[crate]:5} {crate}")
    print(f"{sum(count.values()):5} imports that nothing needs")
    if "--check" in sys.argv and count:
        sys.exit(1)


if __name__ == "__main__":
    main()
