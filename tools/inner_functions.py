#!/usr/bin/env python3
"""Lists the inner functions of the library crates that docs/DECISIONS.md names, crate by crate.

    tools/inner_functions.py            prints both lists
    tools/inner_functions.py --check    fails where the page does not have them, word for word
    tools/inner_functions.py --write    puts them into the page

The first list has every public function with a `requires`. The second has every public function that gives a number, an array of
numbers or a record of numbers with no refusal beside it, by itself, in an Option or beside an error that is no refusal, and so may give
a NaN or an infinity. Calls of the stepper, which give a `Result<.., Refusal>`, are in neither.
"""
import re
import sys
from pathlib import Path

TOP = Path(__file__).resolve().parent.parent
PAGE = TOP / "docs" / "DECISIONS.md"
WIDTH = 170
# Records that a caller fills in, of which nothing is worked out.
INPUTS = {"ElectrodeParams", "ElectrolyteParams", "DfnParams", "SpmConfig", "SpmParts", "ParticleView"}
# What is always finite: a count, the zeros before a first step, a decimal that is read.
FINITE = {"profile::count_f64", "solver_step::no_state", "decimal_text::nearest", "decimal_text::read"}


def libraries():
    return [line.split(":")[0].split()[0] for line in (TOP / "crates.txt").read_text().splitlines() if ":" in line and not line.startswith("#")]


def functions(crate):
    """Each public function of a crate: its name, what it returns, whether it asks something."""
    for path in sorted((TOP / "crates" / crate / "src").rglob("*.rt")):
        text = path.read_text(encoding="utf-8")
        text = re.sub(r"^pub trait .*?^\}", lambda m: re.sub(r"^    fn ", "    pub fn ", m.group(), flags=re.M), text, flags=re.M | re.S)
        for m in re.finditer(r"^( *)pub (?:const )?fn (\w+)", text, re.M):
            head = re.split(r"\n" + m.group(1) + r"\{\n|;\n", text[m.start():], maxsplit=1)[0]
            results = re.findall(r"\) -> ((?:(?!\) -> )[^\n])+)$", head, re.M)  # the last: those before it are of closures that it takes
            yield m.group(2), results[-1].strip(" {") if results else "", "\n" + m.group(1) + "    requires" in head


def records(names):
    """The records that hold a number of the field and no number of the table."""
    found = set()
    for crate in names:
        for path in (TOP / "crates" / crate / "src").rglob("*.rt"):
            for name, body in re.findall(r"pub struct (\w+)(?:<[^>]*>)? \{(.*?)\n\}", path.read_text(encoding="utf-8"), re.S):
                if "f64" in body and "refusal:" not in body and name not in INPUTS:
                    found.add(name)
    return found


def is_bare(result, plain):
    """Whether a result has a number of the field, by itself or in a record, and no refusal beside it."""
    wrapped = re.fullmatch(r"(?:Option<(.*)>|Result<(.*), (\w+)>)", result)
    if wrapped:
        return wrapped.group(3) != "Refusal" and is_bare(wrapped.group(1) or wrapped.group(2), plain)
    return result == "f64" or result.startswith("[f64") or result.split("<")[0] in plain


def lists():
    names = [c for c in libraries() if (TOP / "crates" / c / "src" / "lib.rt").exists()]
    plain = records(names)
    asks, numbers = [], []
    for crate in names:
        public = list(functions(crate))
        asks.append((crate, [n for n, _, requires in public if requires]))
        numbers.append((crate, [n for n, r, _ in public if f"{crate}::{n}" not in FINITE and is_bare(r, plain)]))
    return asks, numbers


def paragraph(title, rows):
    words = [title] + [f"`{c}` ({', '.join(f'`{n}`' for n in ns)})" + "," for c, ns in rows if ns]
    words[-1] = words[-1][:-1] + "."
    out, line = [], "   "
    for word in " ".join(words).split(" "):
        if len(line) + 1 + len(word) > WIDTH:
            out.append(line)
            line = "   "
        line += " " + word
    return "\n".join(out + [line])


def main():
    asks, numbers = lists()
    text = "\n".join([
        "    <!-- made by tools/inner_functions.py -->",
        paragraph("With a `requires`:", asks),
        "",
        paragraph("May give a NaN or an infinity, by itself or in a record:", numbers),
        "    <!-- end -->",
    ])
    page = PAGE.read_text(encoding="utf-8")
    part = re.compile(r"    <!-- made by tools/inner_functions.py -->.*?<!-- end -->", re.S)
    if "--write" in sys.argv:
        PAGE.write_text(part.sub(lambda _: text, page), encoding="utf-8")
    elif "--check" in sys.argv:
        if text not in page:
            sys.exit("docs/DECISIONS.md does not have the inner functions as they are: tools/inner_functions.py --write")
    else:
        print(text)


main()
