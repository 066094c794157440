#!/usr/bin/env python3
"""Holds the pages to the folder in which a cited definition or theorem stands: specs/ or proofs/ of its crate.

    tools/cited_places.py            lists citations whose folder is not the name's, and fails where there is one
    tools/cited_places.py --write    mends them

A citation is `CRATE/specs/FILE: name, name` or `crates/CRATE/specs/FILE.antt: ..`, with or without names; one named `specs/FILE: ..` alone is of the crate named last before it.
Theorems on definitions that a must-fail edit changes stand in proofs/, so that the edit is refused by a contract's proof and read as text no more.
"""
import re
import sys

sys.dont_write_bytecode = True
from source_text import TOP, crates, declarations

PAGES = [TOP / "README.md", TOP / "CONTRIBUTING.md", *sorted(p for p in (TOP / "docs").glob("*.md") if p.name not in ("DEFINITIONS.md", "PORT.md"))]
CITED = re.compile(r"(?P<head>(?:crates/)?(?:(?P<crate>\w+)/)?)(?P<part>specs|proofs)/(?P<file>[A-Z]\w*)(?P<end>\.antt)?(?P<names>: [^`]+)?")
known = {}


def declared(crate, part, file):
    key = crate, part, file
    if key not in known:
        path = TOP / "crates" / crate / part / f"{file}.antt"
        known[key] = {d.name for d in declarations(path)} if path.exists() else None
    return known[key]


def mended(text, names):
    """The page with each citation in the folder where its names stand."""
    def one(m):
        crate = m["crate"]
        if crate is None:
            crate = ([w for w in re.findall(r"\w+", text[:m.start()][-2000:]) if w in names] or [None])[-1]
        if crate not in names:
            return m[0]
        here, other = m["part"], "proofs" if m["part"] == "specs" else "specs"
        own, else_ = declared(crate, here, m["file"]), declared(crate, other, m["file"])
        if else_ is None:
            return m[0]
        if not m["names"]:
            return m[0] if own is not None else f"{m['head']}{other}/{m['file']}{m['end'] or ''}"
        words = m["names"][2:].split(", ")
        moved = [w for w in words if w in else_ and w not in (own or ())]
        stays = [w for w in words if w not in moved]
        said = [f"{m['head']}{p}/{m['file']}{m['end'] or ''}: {', '.join(ws)}" for p, ws in ((here, stays), (other, moved)) if ws]
        return "`, `".join(said)

    return CITED.sub(lambda m: one(m) if text.count("`", 0, m.start()) % 2 else m[0], text)


def main():
    names, stale = set(crates()), 0
    for page in PAGES:
        text = page.read_text(encoding="utf-8")
        new = mended(text, names)
        if new == text:
            continue
        for number, (a, b) in enumerate(zip(text.split("\n"), new.split("\n")), 1):
            if a != b:
                stale += 1
                print(f"{page.relative_to(TOP)}:{number}")
        if "--write" in sys.argv:
            page.write_text(new, encoding="utf-8")
    if stale and "--write" not in sys.argv:
        sys.exit("citations by another folder than the name's: tools/cited_places.py --write")


if __name__ == "__main__":
    main()
