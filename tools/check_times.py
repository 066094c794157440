#!/usr/bin/env python3
"""Says where the prover's time goes in a crate, function by function, with the crates below as `rt check` has proved them.

    tools/check_times.py NAME [ROWS]

The prover saves a module as soon as it has checked it; the times between two files are theirs. For each function prints its seconds and those of
its parts: Lts is the walk through its code (calls, exits), Tie what the walk leaves to be shown, Proof, Answers and Invariants how that is shown. The first function
of a crate also has the time that its libraries take to load.
"""
import collections
import re
import subprocess
import sys
import tempfile
from pathlib import Path

from prover import TOP, check_command

PARTS = {"Lts", "Tie", "Proof", "Answers", "Invariants", "Goals", "Code", "Mir", "Reads", "Kinds", "Met", "Named", "Symbol", "Key", "Layout", "Statement", "TheLink"}


def module(crate, path):
    """The function or file that a saved module belongs to, and which part of it."""
    found = re.search(rf"Rattle-{crate}[-.](specs|proofs)\.(.*?)(\.decls)?\.oantt$", path.name)
    if not found:
        return "the crate as a whole", ""
    words = found[2].split(".")
    end = next((i for i, word in enumerate(words) if word in PARTS), len(words))
    return f"{found[1]} {'.'.join(words[:end])}", ".".join(words[end:])


def main():
    crate, rows = sys.argv[1], int(sys.argv[2]) if len(sys.argv) > 2 else 20
    with tempfile.TemporaryDirectory() as folder:
        said = subprocess.run(check_command(crate, TOP / "crates" / crate) + ["--incremental", folder], stdout=subprocess.PIPE, stderr=subprocess.STDOUT, text=True).stdout
        saved = sorted((p.stat().st_mtime, p) for p in Path(folder).rglob("*") if p.is_file())
    print(said.splitlines()[-1][:40])
    times, parts = collections.Counter(), collections.defaultdict(collections.Counter)
    for (before, _), (after, path) in zip(saved, saved[1:]):
        name, part = module(crate, path)
        times[name] += after - before
        parts[name][part] += after - before
    for name, seconds in times.most_common(rows):
        print(f"{seconds:6.2f} s  {name}: " + ", ".join(f"{part or 'itself'} {s:.2f}" for part, s in parts[name].most_common(3)))
    print(f"{sum(times.values()):6.2f} s  in all")


main()
