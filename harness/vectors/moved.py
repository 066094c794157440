#!/usr/bin/env python3
"""Says what moved from one fixed list to another: of the single-particle cell also which rows, by the sign of their current, which refusals, and which
steps, by their count of sub-steps.

    moved.py BEFORE NOW

BEFORE and NOW are folders of lists (FORMAT.md), such as crates/vectors/data of an earlier commit, in the folder that
`git worktree add` makes, and of this one. A line is known by its arguments. Of `cell_step`, `simulate_discharge`, `replay` and `cycle` the rows of a line are
compared one by one, as far as both have them; a step has one row, its report. The count of sub-steps stands in the answers of `cell_step` alone.
"""
import os
import sys
from collections import Counter

WITH_ROWS = ("cell_step", "simulate_discharge", "replay", "cycle")
ROW, CURRENT, SUB_STEPS = 8, 1, 9
ZERO, MINUS_ZERO, MINUS = 16 * "0", "8" + 15 * "0", "89ABCDEF"


def read(folder, file):
    """The answers of a list by their arguments; none where the folder has no such list."""
    try:
        with open(os.path.join(folder, file), encoding="ascii") as lines:
            return dict(line.rstrip("\n").rpartition("\t")[::2] for line in lines)
    except FileNotFoundError:
        return {}
    except OSError as error:
        sys.exit(f"moved: {error.filename}: {error.strerror}")


def rows_of(name, answer):
    """The rows of an answer, each eight words."""
    words = answer.split(" ")
    if name == "cell_step":
        return [words[1 : 1 + ROW]] if words[0] == ZERO else []
    places = int(words[2], 16)
    return [words[at : at + ROW] for at in range(3, 3 + places, ROW)]


def kind_of(current):
    if current == MINUS_ZERO:
        return "of -0"
    return "of a charge" if current[0] in MINUS else "of a current not negative"


def change_of(before, now):
    """A row's voltage is its first word, and whether it is cut off its last."""
    if before == now:
        return "as before"
    return "another voltage" if before[1:-1] == now[1:-1] and before[0] != now[0] else "more than the voltage"


def counted(name, before, now):
    """The rows of a line by kind and change."""
    return Counter((kind_of(new[CURRENT]), change_of(old, new)) for old, new in zip(rows_of(name, before), rows_of(name, now)))


def refusal_of(name, answer):
    """The number that an answer has, 0 where it is none."""
    return int(answer.split(" ")[0 if name == "cell_step" else 1], 16)


def print_refusals(name, pairs):
    changes = Counter(tuple(refusal_of(name, answer) for answer in pair) for pair in pairs)
    for (old, new), count in sorted(changes.items()):
        if old != new:
            print(f"    {count} lines refused with {old} before, with {new} now (0: not refused)")


def print_counts(pairs):
    """Of the steps that are accepted, before and now, by what became of their count of sub-steps."""
    kept, moved = Counter(), Counter()
    for before, now in pairs:
        old, new = (answer.split(" ") for answer in (before, now))
        if old[0] == new[0] == ZERO:
            count, later = (int(words[SUB_STEPS], 16) for words in (old, new))
            change = "alike" if count == later else "more" if count < later else "fewer"
            (kept if before == now else moved)[change] += 1
    for change in sorted(kept | moved):
        print(f"    sub-steps {change}: {kept[change]} lines as before, {moved[change]} moved")


def main():
    if len(sys.argv) != 3:
        sys.exit("moved: say which folder has the list before, and which the list now")
    folders = sys.argv[1:]
    for file in sorted(set(os.listdir(folders[0])) | set(os.listdir(folders[1]))):
        name = file.removesuffix(".txt")
        before, now = (read(folder, file) for folder in folders)
        both = before.keys() & now.keys()
        moved = [arguments for arguments in both if before[arguments] != now[arguments]]
        print(f"{name}: {len(both) - len(moved)} lines as before, {len(moved)} moved, {len(now.keys() - both)} new, {len(before.keys() - both)} gone")
        if name in WITH_ROWS:
            pairs = [(before[arguments], now[arguments]) for arguments in both]
            rows = sum((counted(name, *pair) for pair in pairs), Counter())
            for (kind, change), count in sorted(rows.items()):
                print(f"    {count} rows {kind}: {change}")
            other = sum(len(rows_of(name, old)) != len(rows_of(name, new)) for old, new in pairs)
            print(f"    {other} lines have another count of rows")
            print_refusals(name, pairs)
        if name == "cell_step":
            print_counts(pairs)


if __name__ == "__main__":
    main()
