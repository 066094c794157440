#!/usr/bin/env python3
"""Draws what a change moved, before and after it over each other, as SVG to standard output.

    harness/plot/before_after.py [--title TEXT] < harness/differences/low_rates.csv > docs/low_rates.svg

test_before_after.py has the titles of the pictures in docs. The CSV has a line of names with their units, `current [A],before [V],now [V]`, and rows of numbers. Its first column is the axis below, each other one a line in the legend.
Both axes have their unit with the prefix, such as fA or aV, that keeps their numbers short.
"""
import argparse
import sys

sys.dont_write_bytecode = True
from curve import BOTTOM, HEIGHT, INK, LEFT, PALETTE, RIGHT_EDGE, TOP, WIDTH, Legend, Panel, padded, text_at, write
from run_csv import BadInput, read_row, read_text, shown

PREFIXES = {-18: "a", -15: "f", -12: "p", -9: "n", -6: "µ", -3: "m", 0: "", 3: "k", 6: "M"}


def read_columns(text):
    """Names and columns of the CSV on standard input."""
    lines = [(place, line.strip()) for place, line in enumerate(text.split("\n"), 1) if line.strip()]
    if len(lines) < 3:
        raise BadInput("standard input: expected a line of names and at least two rows")
    names = lines[0][1].split(",")
    if len(names) < 2 or not all(name.endswith("]") and " [" in name for name in names):
        raise BadInput(f"standard input, line {lines[0][0]}: expected names with their units, such as current [A],before [V], found: {shown(lines[0][1])}")
    rows = [read_row(f"standard input, line {place}", line, names) for place, line in lines[1:]]
    return names, list(zip(*rows))


def scaled(unit, columns):
    """The columns in the unit with the prefix that brings their largest number to 1 or more, and that unit."""
    largest = max(abs(value) for column in columns for value in column)
    power = max((p for p in PREFIXES if 10.0**p <= largest), default=0)
    return PREFIXES[power] + unit, [[value / 10.0**power for value in column] for column in columns]


def parts(name):
    """A column's name and its unit."""
    words, unit = name[:-1].rsplit(" [", 1)
    return words, unit


def picture(names, columns, title):
    (below, x_unit), lines = parts(names[0]), [parts(name) for name in names[1:]]
    x_unit, (xs,) = scaled(x_unit, columns[:1])
    y_unit, curves = scaled(lines[0][1], columns[1:])
    values = [value for curve in curves for value in curve]
    panel = Panel(TOP, (min(xs), max(xs)), padded(min(values), max(values), 0.05), f"[{y_unit}]")
    legend = Legend(panel.top + 10)
    body = panel.axes()
    for (words, _), curve, colour in zip(lines, curves, PALETTE):
        body.append(panel.line(xs, curve, colour, 'class="curve"'))
        legend.entry(words, colour)
    body.append(text_at((LEFT + RIGHT_EDGE) / 2, panel.bottom + 42, f"{below} [{x_unit}]", 'class="x-label" text-anchor="middle"'))
    height = TOP + HEIGHT + BOTTOM
    return "\n".join([
        f'<svg xmlns="http://www.w3.org/2000/svg" width="{WIDTH}" height="{height}" viewBox="0 0 {WIDTH} {height}" '
        f'font-family="sans-serif" font-size="12" fill="{INK}">',
        f'<rect width="{WIDTH}" height="{height}" fill="white"/>',
        text_at(LEFT, 34, title, 'class="title" font-size="17"'),
        *body, *legend.out, "</svg>", "",
    ])


def main():
    parser = argparse.ArgumentParser(prog="before_after.py", description=__doc__, formatter_class=argparse.RawDescriptionHelpFormatter)
    parser.add_argument("--title", default="", help="the line above the picture")
    options = parser.parse_args()
    try:
        write(picture(*read_columns(read_text("-")), options.title))
    except BadInput as error:
        sys.exit(f"before_after.py: {error}")


if __name__ == "__main__":
    main()
