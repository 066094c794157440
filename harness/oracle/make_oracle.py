#!/usr/bin/env python3
"""Makes the oracle's sources: the published Rust with the stand-ins of docs/REFERENCE.md in place of exp, ln, powf, asinh and powi.

    make_oracle.py --out FOLDER [--source FOLDER]

Six textual edits, none of which moves a line:
  1. the line that uses serde becomes one that uses the stand-ins' trait;
  2. `Serialize, Deserialize` leave the derives;
  3. `.exp(`, `.ln(`, `.powf(`, `.asinh(` and `.powi(` become `.oracle_exp(` and so on, methods of that trait on f64, so that
     receiver, argument and precedence stay;
  4. the reference temperature: both records of electrode.rs and electrolyte.rs gain a last field `t_ref`, which is 298.15 in the
     four ready records and stands in the three formulas in place of their constant 298.15;
  5. the ohmic drop: the terminal voltage of solver.rs loses the factor `* current_a.signum()` of v_ohm;
  6. the sub-step: the two factors 0.45 of `dt_stable` in `step` of solver.rs become 0.30.
The diff is printed. A source that is missing or changed, a count of edits other than the expected one, a transcendental
method, a fixed reference temperature, a sign of the current or a factor 0.45 that is left ends the script with one line and
status 1, and nothing is written. Beside solver.rs stand earlier_ohmic_drop.rs, which lacks edit 5 alone, and
earlier_sub_steps.rs, which lacks edit 6 alone: what is said of rows before and after an edit is asked of solver.rs and of these.
"""
import argparse
import difflib
import hashlib
import os
import re
import shutil
import sys
import tempfile
from collections import Counter

HERE = os.path.dirname(os.path.abspath(__file__))
REPOSITORY = os.path.dirname(os.path.dirname(HERE))
DEFAULT_SOURCE = os.path.join(os.path.dirname(REPOSITORY), "shared", "docs", "src")
CHECKSUMS = os.path.join(HERE, "sources.sha256")
LICENCE = "LICENSE.txt"

SERDE = "use serde::{Deserialize, Serialize};"
TRAIT = "use crate::standins::StandIn as _;"
DERIVE = ", Serialize, Deserialize"
REPLACED = re.compile(r"\.(exp|ln|powf|asinh|powi)\(")
# what no line of code may call after the edits: sqrt alone is left, which IEEE 754 decides
LEFT = re.compile(
    r"\.(exp|exp2|exp_m1|ln|ln_1p|log|log2|log10|powf|powi|cbrt|hypot|sin|cos|tan|sin_cos|asin|acos|atan|atan2"
    r"|sinh|cosh|tanh|asinh|acosh|atanh|mul_add)\(|\bf64::(exp|ln|powf|powi|mul_add)\b|serde"
)
WITH_REFERENCE = ("electrode.rs", "electrolyte.rs")
# edit 4: the whole line, and what stands in its place; the constant's line stays, empty
REFERENCE = {
    "t_ref fields": (r"    pub (k_bv|e_a_kappa): f64,", r"    pub \1: f64, pub t_ref: f64,"),
    "t_ref ready values": (r"            (k_bv: 2\.0e-11|e_a_kappa: 12_000\.0),", r"            \1, t_ref: 298.15,"),
    "t_ref constants": (r"        const T_REF: f64 = 298\.15;", ""),
    "t_ref formulas": (r"(        self\.\w+ \* \(self\.\w+ / R_GAS \* \(1\.0 / )T_REF( - 1\.0 / temp_k\)\)\.exp\(\))", r"\1self.t_ref\2"),
}
FIXED = re.compile(r"T_REF|(?<!t_ref: )298\.15")
SOLVER = "solver.rs"
STABLE = "        let dt_{} = self.{}.dt_stable(temp_k) * {};"
ELECTRODES = (("neg", "anode"), ("pos", "cathode"))
# edits 5 and 6: whole lines, and what stands in their place
OF_SOLVER = {
    "signum factors": {
        "        let voltage = (u_pos + eta_pos) - (u_neg + eta_neg) - v_ohm * current_a.signum();":
        "        let voltage = (u_pos + eta_pos) - (u_neg + eta_neg) - v_ohm;",
    },
    "sub-step factors": {STABLE.format(*names, "0.45"): STABLE.format(*names, "0.30") for names in ELECTRODES},
}
# the solvers that lack one of these
EARLIER = {"earlier_ohmic_drop.rs": "signum factors", "earlier_sub_steps.rs": "sub-step factors"}
EXPECTED = {
    "method calls": 28, "use lines": 4, "derives": 10,
    "t_ref fields": 2, "t_ref ready values": 4, "t_ref constants": 3, "t_ref formulas": 3,
    "signum factors": 1, "sub-step factors": 2,
}


def refuse(why):
    print(f"make_oracle: {why}", file=sys.stderr)
    sys.exit(1)


def read_sources(folder):
    """Each file of the list of checksums, as bytes, by its path."""
    if not os.path.isdir(folder):
        refuse(f"no source folder {folder}")
    sources = {}
    with open(CHECKSUMS, encoding="ascii") as lines:
        for line in lines:
            expected, path = line.split()
            try:
                with open(os.path.join(folder, path), "rb") as file:
                    content = file.read()
            except OSError as error:
                refuse(f"cannot read {path}: {error.strerror}")
            if hashlib.sha256(content).hexdigest() != expected:
                refuse(f"{path} is not the file that this oracle was made from (checksum)")
            sources[path] = content
    return sources


def with_reference(line, counts):
    for kind, (old, new) in REFERENCE.items():
        found = re.fullmatch(old, line)
        if found:
            counts[kind] += 1
            return found.expand(new)
    return line


def edited(name, text, counts):
    lines = []
    for line in text.split("\n"):
        if name in WITH_REFERENCE:
            line = with_reference(line, counts)
        if line == SERDE:
            line = TRAIT
            counts["use lines"] += 1
        elif line.startswith("#[derive(") and DERIVE in line:
            line = line.replace(DERIVE, "")
            counts["derives"] += 1
        elif not line.lstrip().startswith("//"):
            line, n = REPLACED.subn(r".oracle_\1(", line)
            counts["method calls"] += n
        lines.append(line)
    return "\n".join(lines)


def solver_with(text, kinds, counts):
    """solver.rs with these of its own edits."""
    for kind in kinds:
        lines = text.split("\n")
        counts[kind] += sum(line in OF_SOLVER[kind] for line in lines)
        text = "\n".join(OF_SOLVER[kind].get(line, line) for line in lines)
    return text


def code_of(line):
    return line.split("//", 1)[0]


def refuse_left(path, name, text):
    for number, line in enumerate(text.split("\n"), 1):
        if LEFT.search(code_of(line)):
            refuse(f"{path}:{number}: a method that the stand-ins do not cover is left: {line.strip()}")
        if name in WITH_REFERENCE and FIXED.search(code_of(line)):
            refuse(f"{path}:{number}: a fixed reference temperature is left: {line.strip()}")
        if name == SOLVER and "signum" in code_of(line):
            refuse(f"{path}:{number}: a sign of the current is left: {line.strip()}")
        if name == SOLVER and "0.45" in code_of(line):
            refuse(f"{path}:{number}: a factor 0.45 is left: {line.strip()}")


def main():
    parser = argparse.ArgumentParser(description=__doc__.split("\n", 1)[0])
    parser.add_argument("--source", default=DEFAULT_SOURCE, help="the folder with LICENSE.txt and src/battery/p2d")
    parser.add_argument("--out", required=True, help="where the edited files go; replaced as a whole")
    options = parser.parse_args()

    sources = read_sources(options.source)
    with open(os.path.join(REPOSITORY, "NOTICE"), "rb") as notice:
        if notice.read() != sources.pop(LICENCE):
            refuse("NOTICE is not the licence of the sources")

    counts = dict.fromkeys(EXPECTED, 0)
    results, diff = {}, []
    for path, content in sources.items():
        before, name = content.decode("utf-8"), os.path.basename(path)
        after = edited(name, before, counts)
        if name == SOLVER:
            for earlier, lacking in EARLIER.items():
                results[earlier] = solver_with(after, OF_SOLVER.keys() - {lacking}, Counter())
            after = solver_with(after, OF_SOLVER, counts)
        refuse_left(path, name, after)
        results[name] = after
        diff += difflib.unified_diff(before.split("\n"), after.split("\n"), path, f"oracle/{name}", lineterm="", n=0)
    if counts != EXPECTED:
        refuse(f"made {counts}, expected {EXPECTED}")

    parent = os.path.dirname(os.path.abspath(options.out))
    os.makedirs(parent, exist_ok=True)
    fresh = tempfile.mkdtemp(dir=parent)
    try:
        for name, text in results.items():
            with open(os.path.join(fresh, name), "w", encoding="utf-8") as file:
                file.write(text)
        shutil.rmtree(options.out, ignore_errors=True)
        os.rename(fresh, options.out)
    except OSError as error:
        shutil.rmtree(fresh, ignore_errors=True)
        refuse(f"cannot write {options.out}: {error.strerror}")
    print("\n".join(diff))
    print("oracle: " + ", ".join(f"{n} {what}" for what, n in counts.items()) + " edited")


if __name__ == "__main__":
    main()
