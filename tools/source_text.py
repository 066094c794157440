"""What the scripts here read out of .antt and .rt files: words, `use` lines, declarations. No parser: where a text leaves a doubt, more words count as used
and not fewer."""
import re
from pathlib import Path

TOP = Path(__file__).resolve().parent.parent
# A name is a run of anything else; what stands between « and » is one name.
WORD = re.compile(r"«[^»]*»|[^\s(){}.;,@\"«»⌜⌝]+")
USE = re.compile(r"^(?P<marks>(?:unfoldable |pub |ghost )*)use (?P<path>[^\s{};]+?)(?:(?P<joint>\.|::)\{(?P<items>[^}]*)\}| as (?P<alias>[^\s;]+))?;?[ \t]*$", re.M)
MARKS = r"(?:(?:unfoldable|abbrev|pub|axiom)\s+)*"
HEAD = re.compile(r"^(?P<indent> *)(?P<marks>" + MARKS + r")(?:(?P<kind>record|data|ruleset)\s+)?(?P<name>«[^»]*»|[^\s(){}.;,@\"«»]+)(?P<rest>\s.*|)$")


def crates():
    lines = (TOP / "crates.txt").read_text(encoding="utf-8").splitlines()
    return [line.split(":")[0].split()[0] for line in lines if ":" in line.split("#")[0]]


def bare(name):
    return name[1:-1] if name.startswith("«") else name


def without_comments(text, mark):
    """Comments as spaces, line for line. `--` begins one where a word could begin."""
    if mark == "--":
        text = re.sub(r"\{-.*?-\}", lambda m: re.sub(r"[^\n]", " ", m.group()), text, flags=re.S)
        return re.sub(r"(?m)(^|(?<=\s))--(?=\s|-|$).*$", lambda m: " " * len(m.group()), text)
    return re.sub(r"(?m)//.*$", lambda m: " " * len(m.group()), text)


def words(text):
    return [bare(w) for w in WORD.findall(text)]


def parts(name):
    """What an operator is written with: ◌⊕◌ is ⊕. A name that is no operator has one part, itself."""
    return [name[1:-1]] if name.startswith("«") else [p for p in name.split("◌") if p] or [name]


class Import:
    """One name of a `use` line: what it is called here, and where it comes from."""

    def __init__(self, line, marks, path, item, name):
        self.line, self.marks, self.path, self.item, self.name = line, marks, path, item, name


def imports(text):
    for m in USE.finditer(text):
        line, marks, path = text.count("\n", 0, m.start()) + 1, m["marks"].split(), m["path"]
        if m["items"] is not None:
            for item in (i.strip() for i in m["items"].split(",")):
                source, _, alias = item.partition(" as ")
                if source:
                    module = f"{path}::{source.strip()}" if m["joint"] == "::" else path
                    yield Import(line, marks, module, source.strip(), (alias or re.split(r"::|\.", source)[-1]).strip())
        elif m["alias"]:
            yield Import(line, marks, path, None, m["alias"])
        elif not path.endswith("*"):
            tail = path.split("::")
            yield Import(line, marks, path, tail[-1] if len(tail) > 1 else None, re.split(r"::|\.", path)[-1])


class Declaration:
    def __init__(self, path, name, kind, first, line):
        self.path, self.name, self.kind, self.first, self.line = path, name, kind, first, line
        self.type = self.body = ""
        self.last = line


def declarations(path):
    """The declarations of an .antt file, each with its type (with what the modules around it take) and its body; lines count the comment above it."""
    raw = path.read_text(encoding="utf-8")
    lines, plain = raw.splitlines(), without_comments(USE.sub("", raw), "--").splitlines()
    plain = [p if not USE.match(l) else "" for p, l in zip(plain + [""] * len(lines), lines)]
    found, modules, now, comment, heading = [], [], None, None, None
    for i, line in enumerate(plain):
        if not line.strip():
            if lines[i].strip().startswith("--"):
                if comment is None and not re.match(r"\s*-- ----", lines[i]):
                    comment = i
            else:
                comment = None
            continue
        indent = len(line) - len(line.lstrip())
        inside = now and indent > now.indent and (now.kind in ("record", "data") or now.open)
        start, comment = (i if comment is None else comment), None
        if not inside:
            modules = [m for m in modules if m[0] < indent]
        if not inside and line.lstrip().startswith("module "):
            heading = [indent, line.strip()]
            modules.append(heading)
            now = None
            if line.rstrip().endswith("where"):
                heading = None
            continue
        if heading is not None and indent > heading[0]:
            heading[1] += " " + line.strip()
            if line.rstrip().endswith("where"):
                heading = None
            continue
        m = HEAD.match(line)
        typed = m and not inside and (m["kind"] or re.match(r"\s+:(\s|$)", m["rest"]))
        if typed and bare(m["name"]) not in ("infix", "infixl", "infixr", "unfolding", "let", "where", "in", "_"):
            marks = m["marks"].split()
            kind = m["kind"] or ("abbrev" if "abbrev" in marks else "unfoldable" if "unfoldable" in marks else "plain")
            now = Declaration(path, bare(m["name"]), kind, start + 1, i + 1)
            now.indent, now.open, now.public = indent, True, "pub" in marks
            now.type = " ".join(h for _, h in modules) + " " + line
            found.append(now)
            now.last = i + 1
            continue
        if now is None:
            continue
        if inside:
            now.type += "\n" + line
        else:
            now.open = False
            now.body += "\n" + line
        if indent >= now.indent:
            now.last = i + 1
    return found
