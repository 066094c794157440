#!/usr/bin/env python3
"""Makes docs/DEFINITIONS.md: the files of definitions that contracts and theorems rest on, in reading order.

    tools/definitions.py            fails where the page is stale (the same as --check)
    tools/definitions.py --write    makes it anew
    tools/definitions.py --list     prints each definition with what it was reached from

It starts from the names in the contracts of the library crates' public functions and in the statements of the theorems that docs/CLAIMS.md cites
(`CRATE/specs/FILE: name`), and follows each definition's own text, down to the records of src and the kit's library. Proofs are not followed: whoever believes
the checker need not read them.
"""
import functools
import re
import sys

sys.dont_write_bytecode = True
from architecture import read_crates
from source_text import TOP, bare, crates, declarations, imports, parts, without_comments, words

PAGE = TOP / "docs" / "DEFINITIONS.md"
CLAIMS = TOP / "docs" / "CLAIMS.md"
# A declaration with no mark is a law, and its proof decides nothing, unless its result is one of these.
DATA = {"ℕ", "ℤ", "Bool", "Float", "Fraction", "List", "Type"}


class Source:
    """An .antt or .rt file: what its words mean, and what it declares."""

    def __init__(self, path):
        self.path = path
        self.text = path.read_text(encoding="utf-8")
        self.names, self.modules = {}, {}
        for i in imports(self.text):
            if i.item is None and "::" not in i.path:
                self.modules[i.name] = i.path
            else:
                for part in parts(i.name) + [bare(i.name)]:
                    self.names.setdefault(part, []).append((i.path, i.item))
        self.own = {}
        self.declared = declarations(path) if path.suffix == ".antt" else list(structs(self))
        for d in self.declared:
            for part in {d.name, *parts(d.name)}:
                self.own.setdefault(part, []).append(d)

    def meanings(self, text, line=None):
        """(path of a module, name) or a declaration of this file above the line, for each word of a text."""
        for alias, name in re.findall(r"([^\s(){}.;,@\"«»]+)\.(«[^»]*»|[^\s(){}.;,@\"«»]+)", text):
            if alias in self.modules:
                yield self.modules[alias], bare(name)
        for word in words(text):
            for part in {word, *parts(word)}:
                yield from (d for d in self.own.get(part, []) if line is None or d.kind == "struct" or d.line <= line)
                yield from self.names.get(part, [])


class Struct:
    kind, last = "struct", 0

    def __init__(self, source, name, first, line, text):
        self.path, self.name, self.first, self.line, self.type, self.body = source.path, name, first, line, text, ""
        self.last = line + text.count("\n")


def structs(source):
    for m in re.finditer(r"^((?://[^\n]*\n)*(?:#\[[^\n]*\]\n)*)(?:pub )?(?:struct|enum) (\w+)(?:<[^>\n]*>)? \{.*?^\}", source.text, re.M | re.S):
        first = source.text.count("\n", 0, m.start()) + 1
        line = first + m.group(1).count("\n")
        text = m.group()[len(m.group(1)):]
        model = re.search(r"^impl(?:<[^>\n]*>)? Model for " + m.group(2) + r"\b.*?^\}", source.text, re.M | re.S)
        if model:  # what stands for the record in clauses, and its invariant
            text += "\n" + model.group()
        yield Struct(source, m.group(2), first, line, without_comments(text, "//"))


class Library:
    def __init__(self):
        self.sources = {}

    def source(self, path):
        if path not in self.sources:
            self.sources[path] = Source(path)
        return self.sources[path]

    def find(self, module, name):
        """The declaration that a module's path and a name mean, or None for the kit's."""
        m = re.fullmatch(r"Rattle\.(\w+)\.(specs|proofs)\.(.+)", module)
        rust = re.fullmatch(r"(\w+)(?:::\w+)+", module)
        if rust or (m and m.group(3).startswith("declared.")):
            folder = TOP / "crates" / (rust or m).group(1) / "src"
            name = name if rust else next(w for w in m.group(3).split(".")[1:] if w[0].isupper())
            for path in sorted(folder.rglob("*.rt")):
                for d in self.source(path).declared:
                    if d.name == name:
                        return d
            return None
        if not m:
            return None
        path = TOP / "crates" / m.group(1) / m.group(2) / (m.group(3).replace(".", "/") + ".antt")
        if not path.exists():
            return None
        for d in self.source(path).declared:
            if d.name == name:
                return d
            if d.kind == "data" and name in words(d.type):
                return d
        return None


def is_own(module):
    """Whether a module is of a crate here, and not of the kit."""
    found = re.match(r"Rattle\.(\w+)\.", module)
    return found is not None and (TOP / "crates" / found.group(1)).is_dir()


def is_law(d):
    if d.kind != "plain":
        return False
    result = words(re.split(r"[→:]", re.sub(r"\([^()]*\)", " ", d.type))[-1])
    return not result or result[0] not in DATA


@functools.cache
def models():
    """The types of src that another value stands for in clauses."""
    return {m for path in (TOP / "crates").glob("*/src/**/*.rt") for m in re.findall(r"^impl\b.* Model for (\w+)", path.read_text(encoding="utf-8"), re.M)}


def contracts(path):
    """Each public function of a file: its name, whether C calls it, the clauses of its contract with the types of its signature that have a model."""
    text = without_comments(path.read_text(encoding="utf-8"), "//")
    for m in re.finditer(r"^( *)pub (extern \"C\" )?fn (\w+)", text, re.M):
        head = re.split(r"\n" + m.group(1) + r"\{\n", text[m.start():], maxsplit=1)[0]
        of = re.findall(r"^impl\b.*?(\w+)(?:<[^>\n]*>)? \{$", text[:m.start()], re.M)[-1:] if m.group(1) else []
        types = [w for w in re.findall(r"\b[A-Z]\w+", re.split(r"\n *(?:requires|ensures)\b", head)[0]) + of if w in models()]
        yield m.group(3), bool(m.group(2)), " ".join(re.findall(r"(?:requires|ensures)[^{\n]*\{.*", head) + types)


def cited(library, names):
    """The theorems and definitions that docs/CLAIMS.md names with their file, in specs/ or proofs/; one named with no crate is of the crate named last before it."""
    missing = []
    for line in CLAIMS.read_text(encoding="utf-8").splitlines():
        for m in re.finditer(r"(?:(\w+)/)?(?:(?:specs|proofs)/)?\{?([A-Z]\w*): ([^`}]+)", line):
            before = [m.group(1)] if m.group(1) in names else [w for w in re.findall(r"\w+", line[:m.start()]) if w in names][-1:]
            paths = [TOP / "crates" / (before or ["-"])[0] / part / f"{m.group(2)}.antt" for part in ("specs", "proofs")]
            paths = [path for path in paths if path.exists()]
            if not paths:
                continue
            declared = {}
            for path in paths:
                for d in library.source(path).declared:
                    declared.setdefault(d.name, d)
            for item in m.group(3).split(", "):
                if item in declared:
                    yield declared[item]
                elif not any((path.parent / f"{item}.antt").exists() for path in paths) and not any(re.search(rf"^  pub {re.escape(item)} :", path.read_text(encoding="utf-8"), re.M) for path in paths):
                    missing.append(f"{paths[0].relative_to(TOP)} has no {item}")
    if missing:
        sys.exit("docs/CLAIMS.md: " + "; ".join(missing))


class Reached:
    """The definitions that some texts rest on, the texts' own order kept, and the kit's names."""

    def __init__(self, library):
        self.library, self.why, self.kit, self.queue = library, {}, {}, []

    def add(self, d, reason):
        if d not in self.why and not is_law(d):
            self.why[d] = reason
            self.queue.append(d)

    def follow(self, source, text, reason, line=None):
        for meaning in source.meanings(text, line):
            d = self.library.find(*meaning) if isinstance(meaning, tuple) else meaning
            if d is not None:
                self.add(d, reason)
            elif "::" not in meaning[0] and not is_own(meaning[0]):
                self.kit.setdefault(meaning[0], set()).add(meaning[1])

    def close(self):
        while self.queue:
            d = self.queue.pop(0)
            self.follow(self.library.source(d.path), d.type + "\n" + d.body, f"{d.path.stem}: {d.name}", d.line)


def survey():
    """What the calls from C and the theorems rest on, what all contracts do, the theorems, and how many contracts there are."""
    library, names = Library(), crates()
    outer, every = Reached(library), Reached(library)
    functions = calls = 0
    for crate in names:
        if (TOP / "crates" / crate / "src" / "main.rt").exists():
            continue
        for path in sorted((TOP / "crates" / crate / "src").rglob("*.rt")):
            for name, exported, clauses in contracts(path):
                functions += 1
                calls += exported
                for reach in (outer, every) if exported else (every,):
                    reach.follow(library.source(path), clauses, f"the contract of {crate}::{name}")
    theorems = []
    for d in cited(library, names):
        for reach in (outer, every):
            if is_law(d):
                reach.follow(library.source(d.path), d.type, f"the theorem {d.name}", d.line)
        if is_law(d) and d not in theorems:
            theorems.append(d)
    outer.close()
    every.close()
    return outer, every, theorems, functions, calls


# ---- the page

def in_order(paths, names):
    """Files by crate as in crates.txt; in a crate a file after those of it that it imports, records first."""
    def of_crate(path):
        return path.relative_to(TOP / "crates").parts[0]

    out = []

    def put(path):
        if path in out:
            return
        if path.suffix == ".antt":
            text = path.read_text(encoding="utf-8")
            for i in imports(text):
                m = re.fullmatch(rf"Rattle\.{of_crate(path)}\.(specs|proofs)\.(.+)", i.path)
                near = TOP / "crates" / of_crate(path) / m.group(1) / (m.group(2).replace(".", "/") + ".antt") if m else None
                if near in paths and near != path:
                    put(near)
        out.append(path)

    for crate in names:
        for path in sorted((p for p in paths if of_crate(p) == crate), key=lambda p: (p.suffix == ".antt", p)):
            put(path)
    return out


def code(name):
    return "`" + name.replace("|", "\\|") + "`"


def lines_of(declared):
    return sum(d.last - d.first + 1 for d in declared)


def link(path):
    return f"[{path.relative_to(TOP / 'crates')}](../{path.relative_to(TOP)})"


def page():
    outer, every, theorems, functions, calls = survey()
    groups, _ = read_crates()
    names = [c for g in groups.values() for c in g]
    by_file = {}
    for d in every.why:
        by_file.setdefault(d.path, []).append(d)
    files = in_order(set(by_file), names)
    outer_files = {d.path for d in outer.why}
    out = [
        "# What a reader must believe",
        "",
        "<!-- made by tools/definitions.py --write -->",
        "A contract or a theorem says what its words mean, and the definitions below are what they mean: this is the text to hold beside REFERENCE.md. The",
        "checker proves the rest, so laws and proofs may be left unread. Names are followed from the contracts of the library crates' public functions",
        f"({functions}, of which {calls} are called from C) and from the statements of the theorems that CLAIMS.md cites ({len(theorems)}), through each definition's own text.",
        "",
        f"- All of them: {len(files)} files, {lines_of(every.why)} lines of definitions with their comments ({lines_of(d for d in every.why if d.kind == 'struct')} of these are records in `src`).",
        f"- The calls from C and the theorems alone rest on {len(outer_files)} files, {lines_of(outer.why)} lines; what only an inner function's contract cites is in *italics*.",
        "",
        "Files stand in reading order: each after those that it cites. `lines` counts the definitions that are reached, `of` the whole file, laws and imports included.",
        "",
        "## The statements",
        "",
        "| theorems | file |",
        "|---|---|",
    ]
    for path in in_order({d.path for d in theorems}, names):
        out.append(f"| {', '.join(code(d.name) for d in theorems if d.path == path)} | {link(path)} |")
    out += [f"| the calls from C: their contracts | {link(exported_file())} |", ""]
    for group, members in groups.items():
        part = [p for p in files if p.relative_to(TOP / "crates").parts[0] in members]
        if not part:
            continue
        count = sum(lines_of(by_file[p]) for p in part)
        out += [f"## {group}: {len(part)} files, {count} lines", "", "| file | lines | of | definitions |", "|---|---|---|---|"]
        for p in part:
            shown = [code(d.name) if d in outer.why else f"*{code(d.name)}*" for d in sorted(by_file[p], key=lambda d: d.line)]
            whole = len(p.read_text(encoding="utf-8").splitlines())
            out.append(f"| {link(p)} | {lines_of(by_file[p])} | {whole} | {', '.join(shown)} |")
        out.append("")
    out += ["## The kit's", "", "What the definitions take from Rattle's library, by module.", "", "| module | names |", "|---|---|"]
    for module in sorted(every.kit):
        out.append(f"| {module} | {', '.join(code(n) for n in sorted(every.kit[module]))} |")
    return "\n".join(out + [""])


def exported_file():
    for crate in crates():
        path = TOP / "crates" / crate / "src" / "lib.rt"
        if path.exists() and any(exported for _, exported, _ in contracts(path)):
            return path
    return TOP / "crates.txt"


def main():
    if "--list" in sys.argv:
        for d, reason in survey()[1].why.items():
            print(d.path.relative_to(TOP), d.kind, d.name, "<-", reason)
        return
    text = page()
    if "--write" in sys.argv:
        PAGE.write_text(text, encoding="utf-8")
    elif not PAGE.exists() or PAGE.read_text(encoding="utf-8") != text:
        sys.exit("docs/DEFINITIONS.md is not what contracts and theorems rest on: tools/definitions.py --write")


if __name__ == "__main__":
    main()
