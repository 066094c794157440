#!/usr/bin/env python3
"""Draws runs: the voltages over each other, and under them the stoichiometries, as SVG to standard output. Where a current varies, it has a panel between them.

    target/bin/discharge nmc | harness/plot/curve.py > curve.svg
    harness/plot/curve.py 1A.csv 5A.csv 10A.csv > rates.svg

Each FILE is what the program discharge, replay or cycle writes; - or no FILE is standard input. The title has cell, load or phases, current and temperature, as far as the
runs tell them; what differs from run to run is in the legend too, with the capacity in Ah, the ending, and when a surface became full or empty.
Dashed lines stand at v_min and v_max, where that leaves the curve at least a twentieth of the height, else their values stand at the edge.
Marks stand where the surface of an electrode is full (1) or empty (0) for the first time: from there on charge is lost and the rows are not
the cell's any more, so the voltage is pale.
The axis above is the capacity, the integral of the current over the rows. Runs of different currents have no common one: take --x capacity, which puts
the capacity below and leaves the axis above out. Behind a cycle that is drawn alone over the time each phase is a band, in one of three colours for charge, rest and discharge.
Several runs have no bands and no averages of the stoichiometry.
"""
import argparse
import colorsys
import math
import os
import sys

sys.dont_write_bytecode = True
from run_csv import AVERAGES, SURFACES, BadInput, number, read_run

WIDTH, LEFT, RIGHT, LIMITS = 1140, 80, 390, 105
TOP, UPPER_AXIS, HEIGHT, CURRENT_HEIGHT, GAP, BOTTOM = 60, 44, 270, 150, 50, 60
RIGHT_EDGE = WIDTH - RIGHT
INK, GREY, RED = "#333333", "#666666", "#b00020"
ELECTRODE = {"anode": "#1b6ca8", "cathode": "#c2410c"}
BANDS = {"charge": "#dce9f7", "rest": "#efefef", "discharge": "#fdebd3"}
PALETTE = ["#0072b2", "#d55e00", "#009e73", "#cc79a7", "#e69f00", "#333333", "#56b4e9", "#7a4fbf"]
DASHES = "6 4"


def colours(count):
    """A colour for each run."""
    if count == 1:
        return [INK]
    if count <= len(PALETTE):
        return PALETTE[:count]
    parts = [colorsys.hls_to_rgb(k / count, 0.42, 0.8) for k in range(count)]
    return ["#" + "".join(f"{round(255 * part):02x}" for part in rgb) for rgb in parts]


def escaped(text):
    """A text as it may stand in SVG, without control characters."""
    text = "".join(c if c.isprintable() else " " for c in text)
    return text.replace("&", "&amp;").replace("<", "&lt;").replace(">", "&gt;")


def shortened(text, most):
    """The text, or its end, which tells more of a path than its beginning."""
    return text if len(text) <= most else "…" + text[1 - most:]


def text_at(x, y, words, rest=""):
    return f'<text x="{x:.1f}" y="{y:.1f}" {rest}>{escaped(words)}</text>'


def line_at(x1, y1, x2, y2, rest):
    return f'<line x1="{x1:.1f}" y1="{y1:.1f}" x2="{x2:.1f}" y2="{y2:.1f}" {rest}/>'


def ticks(low, high, count):
    """Round numbers from low to high, at most about `count` of them, as they are written."""
    span = high - low
    power = math.floor(math.log10(span / count))
    step = next(k * 10.0**power for k in (1, 2, 5, 10, 20) if k * 10.0**power * count >= span)
    first, last = math.ceil(low / step - 1e-9), math.floor(high / step + 1e-9)
    places = max(0, -math.floor(math.log10(step) + 1e-9))
    return [(k * step, f"{k * step:.{places}f}") for k in range(first, last + 1)]


def padded(low, high, part):
    """The range with a part of it added at both ends; never so narrow that its numbers become long."""
    pad = max(part * (high - low), 1e-3 * max(1.0, abs(low), abs(high)))
    return low - pad, high + pad


class Panel:
    """A part of the picture with its own axes."""

    def __init__(self, top, x_range, y_range, label, height=HEIGHT):
        self.top, self.bottom, self.height, self.label = top, top + height, height, label
        (self.x0, self.x1), (self.y0, self.y1) = x_range, y_range

    def x(self, value):
        return LEFT + (RIGHT_EDGE - LEFT) * (value - self.x0) / (self.x1 - self.x0)

    def y(self, value):
        return self.top + self.height * (self.y1 - value) / (self.y1 - self.y0)

    def axes(self):
        """The frame, and the ticks of both axes with their numbers."""
        out = []
        for value, words in ticks(self.x0, self.x1, 8):
            out.append(line_at(self.x(value), self.top, self.x(value), self.bottom, 'stroke="#ddd"'))
            out.append(text_at(self.x(value), self.bottom + 18, words, 'class="tick-x" text-anchor="middle"'))
        for value, words in ticks(self.y0, self.y1, 6):
            out.append(line_at(LEFT, self.y(value), RIGHT_EDGE, self.y(value), 'stroke="#ddd"'))
            out.append(text_at(LEFT - 8, self.y(value) + 4, words, 'class="tick-y" text-anchor="end"'))
        middle = self.top + self.height / 2
        out.append(text_at(22, middle, self.label, f'text-anchor="middle" transform="rotate(-90 22 {middle})"'))
        out.append(f'<rect x="{LEFT}" y="{self.top}" width="{RIGHT_EDGE - LEFT}" height="{self.height}" fill="none" stroke="#444"/>')
        return out

    def upper_axis(self, factor, label):
        """The axis above the frame, whose numbers are those below times the factor."""
        out = []
        for value, words in ticks(self.x0 * factor, self.x1 * factor, 8):
            at = self.x(value / factor)
            out.append(line_at(at, self.top - 5, at, self.top, 'stroke="#444"'))
            out.append(text_at(at, self.top - 9, words, 'class="tick-upper" text-anchor="middle"'))
        return out + [text_at((LEFT + RIGHT_EDGE) / 2, self.top - 28, label, 'class="upper-label" text-anchor="middle"')]

    def band(self, first, last, kind):
        """A phase, over the panel's height."""
        left, right = self.x(first), self.x(last)
        return f'<rect x="{left:.2f}" y="{self.top}" width="{right - left:.2f}" height="{self.height}" class="band {kind}" fill="{BANDS[kind]}"/>'

    def line(self, xs, ys, colour, rest=""):
        if len(xs) == 1:
            return f'<circle cx="{self.x(xs[0]):.2f}" cy="{self.y(ys[0]):.2f}" r="2.5" fill="{colour}" {rest}/>'
        points = " ".join(f"{self.x(x):.2f},{self.y(y):.2f}" for x, y in zip(xs, ys))
        return f'<polyline points="{points}" fill="none" stroke="{colour}" stroke-width="1.8" stroke-linejoin="round" {rest}/>'

    def limits(self, values):
        """Lines at v_min and v_max, and their names right of the frame; the name alone, at the edge, where a value is out of the range."""
        out, last = [], -math.inf
        for value, name in sorted(values, reverse=True):
            arrow = "↑ " if value > self.y1 else "↓ " if value < self.y0 else ""
            at = min(max(self.y(value), self.top), self.bottom)
            if not arrow:
                out.append(line_at(LEFT, at, RIGHT_EDGE, at, f'class="{name}" stroke="{RED}" stroke-dasharray="8 5"'))
            last = max(at, last + 14)
            out.append(text_at(RIGHT_EDGE + 6, last + 4, f"{arrow}{name} {value:g} V", f'class="{name}-label" fill="{RED}"'))
        return out


def mark_at(x, y, electrode, state, colour, name="mark"):
    """A circle for the anode, a square for the cathode; filled where it is full, hollow where it is empty."""
    style = f'class="{name} {electrode}-{state}" stroke="{colour}" stroke-width="2" fill="{colour if state == "full" else "white"}"'
    if electrode == "anode":
        return f'<circle cx="{x:.2f}" cy="{y:.2f}" r="5" {style}/>'
    return f'<rect x="{x - 4.5:.2f}" y="{y - 4.5:.2f}" width="9" height="9" {style}/>'


class Legend:
    """The entries right of the panels, from above to below."""

    def __init__(self, top):
        self.at, self.left, self.out = top, RIGHT_EDGE + LIMITS + 12, []

    def entry(self, words, colour, rest="", kind="entry"):
        self.out.append(line_at(self.left, self.at, self.left + 28, self.at, f'stroke="{colour}" stroke-width="1.8" {rest}'))
        self.words(words, f'class="{kind}"')

    def mark(self, electrode, state):
        self.out.append(mark_at(self.left + 14, self.at, electrode, state, GREY, "mark-key"))
        self.words(f"{electrode} surface {state}", 'class="mark-label"')

    def band(self, kind):
        self.out.append(f'<rect x="{self.left}" y="{self.at - 6:.1f}" width="28" height="12" class="band-key" fill="{BANDS[kind]}" stroke="#ccc"/>')
        self.words(kind, 'class="band-label"')

    def words(self, words, rest):
        self.out.append(text_at(self.left + 38, self.at + 4, shortened(words, 31), rest))
        self.at += 20

    def note(self, words):
        """A smaller line under an entry."""
        self.out.append(text_at(self.left + 38, self.at + 1, shortened(words, 40), f'class="note" font-size="10" fill="{GREY}"'))
        self.at += 15

    def space(self):
        self.at += 10


class Picture:
    """The runs with what the command line says of them."""

    def __init__(self, runs, options):
        self.runs, self.options = runs, options
        self.colours = colours(len(runs))
        self.limits = {name: self.limit_values(name) for name in ("v_min", "v_max")}
        self.current = self.common([run.current for run in runs])
        self.by_capacity = options.x == "capacity"
        self.xs = [run.capacities if self.by_capacity else run.times for run in runs]
        self.phases = runs[0].phases() if len(runs) == 1 and not self.by_capacity else []

    def common(self, values):
        """The value that all runs have, or None."""
        return values[0] if len(set(values)) == 1 else None

    def limit_values(self, name):
        given = getattr(self.options, name)
        return [given] if given is not None else sorted({run.settings[name] for run in self.runs if name in run.settings})

    def settings_of(self, run):
        """Cell, load or phases, current and temperature in words; each '' where the run does not tell it, and the current where it varies or is a phase's."""
        temperature = run.settings.get("temperature")
        current = None if run.phases() else run.current
        return [run.cell, run.load, self.current_words(current), "" if temperature is None else f"{temperature:g} K"]

    def current_words(self, current):
        if current is None:
            return ""
        rate = self.options.nominal_capacity
        return f"{current:g} A" + (f" ({abs(current) / rate:.3g}C)" if rate else "")

    def title(self):
        """Cell, load or phases, current and temperature; all values where the runs differ, and the first and the last of more than five."""
        if self.options.title is not None:
            return self.options.title
        parts, most = [], 70 if len(self.runs) == 1 else 40
        for values in zip(*map(self.settings_of, self.runs)):
            values = list(dict.fromkeys(shortened(value, most) for value in values if value))
            parts.append(", ".join(values) if len(values) <= 5 else f"{values[0]} .. {values[-1]}")
        return " · ".join(part for part in parts if part) or "Discharge" + ("s" if len(self.runs) > 1 else "")

    def labels(self):
        """What tells a run from the others: the settings that differ, or the file's name where they do not tell it."""
        if self.options.label:
            return self.options.label
        if len(self.runs) == 1:
            return ["terminal voltage"]
        settings = [self.settings_of(run) for run in self.runs]
        differ = [k for k in range(len(settings[0])) if len({words[k] for words in settings}) > 1]
        labels = [", ".join(words[k] for k in differ if words[k]) for words in settings]
        unclear = {label for label in labels if labels.count(label) > 1 or not label}
        return [", ".join(filter(None, [label, run.name])) if label in unclear else label for label, run in zip(labels, self.runs)]

    def voltage_range(self):
        """All voltages, and the limits where the curves keep a twentieth of the range."""
        values = [voltage for run in self.runs for voltage in run.voltages]
        low, high = min(values), max(values)
        every = [low, high, *self.limits["v_min"], *self.limits["v_max"]]
        wide = max(every) - min(every)
        return padded(min(every), max(every), 0.06) if 20 * (high - low) >= wide else padded(low, high, 0.15)

    def capacity_words(self):
        signs = {current > 0 for run in self.runs for current in run.currents if current}
        return {(True,): "capacity discharged [Ah]", (False,): "capacity charged [Ah]"}.get(tuple(signs), "capacity [Ah]")

    def upper_axis(self, panel):
        """The capacity over the time, or the time over the capacity, where all rows have one current."""
        if not self.current:
            return []
        hourly = abs(self.current) / 3600
        return panel.upper_axis(1 / hourly, "time [s]") if self.by_capacity else panel.upper_axis(hourly, self.capacity_words())

    def draw_voltages(self, panel, legend):
        """The upper panel; a curve is pale after its first mark."""
        out = self.bands(panel) + panel.axes() + self.upper_axis(panel)
        out += panel.limits([(value, name) for name, values in self.limits.items() for value in values])
        above = []
        for run, xs, colour, label in zip(self.runs, self.xs, self.colours, self.labels()):
            marks = run.marks()
            end = marks[0][2] if marks else len(xs) - 1
            out.append(panel.line(xs[:end + 1], run.voltages[:end + 1], colour, 'class="voltage"'))
            if end < len(xs) - 1:
                out.append(panel.line(xs[end:], run.voltages[end:], colour, 'class="voltage-after" stroke-opacity="0.5"'))
            above += [mark_at(panel.x(xs[row]), panel.y(run.voltages[row]), electrode, state, colour) for electrode, state, row in marks]
            self.describe(run, marks, colour, label, legend)
        for electrode, state in sorted({mark[:2] for run in self.runs for mark in run.marks()}):
            legend.mark(electrode, state)
        if above:
            legend.note("pale after the first mark: the rows are")
            legend.note("not the cell's any more")
        for kind in dict.fromkeys(kind for kind, _, _ in self.phases):
            legend.band(kind)
        return out + above

    def describe(self, run, marks, colour, label, legend):
        """A run in the legend."""
        legend.entry(label, colour, kind="run")
        if run.capacities:
            both = min(run.currents) < 0 < max(run.currents)
            legend.note(f"{run.capacities[-1]:.4g} Ah{' net' if both else ''} in {run.times[-1]:g} s")
        legend.note(run.ending or f"no line says how it ended; rows: {len(run.times)}")
        for electrode, state, row in marks:
            at = f", {run.capacities[row]:.4g} Ah" if run.capacities else ""
            legend.note(f"{electrode} {state} from {run.times[row]:g} s{at}")
        legend.space()

    def bands(self, panel):
        """The phases of a cycle, behind all else in a panel."""
        return [panel.band(first, last, kind) for kind, first, last in self.phases]

    def draw_currents(self, panel, legend):
        """The panel between, in steps: a row's current flowed since the row before it."""
        out = self.bands(panel) + panel.axes()
        for run, xs, colour in zip(self.runs, self.xs, self.colours):
            if None not in run.currents:
                edges = [x for pair in zip([0.0, *xs], xs) for x in pair]
                out.append(panel.line(edges, [current for current in run.currents for _ in range(2)], colour, 'class="current"'))
        legend.entry("current, discharge positive", INK if len(self.runs) == 1 else GREY)
        return out

    def draw_stoichiometries(self, panel, legend):
        """The lower panel. One run has its electrodes in colours and averages dashed; several have their own colours, and the cathode is dashed."""
        out, above = self.bands(panel) + panel.axes(), []
        one = len(self.runs) == 1
        for run, xs, colour in zip(self.runs, self.xs, self.colours):
            for electrode in SURFACES:
                ink = ELECTRODE[electrode] if one else colour
                dashed = "" if one or electrode == "anode" else f'stroke-dasharray="{DASHES}"'
                out.append(panel.line(xs, run.columns[SURFACES[electrode]], ink, f'class="surface" {dashed}'))
                if one:
                    out.append(panel.line(xs, run.columns[AVERAGES[electrode]], ink, f'class="average" stroke-dasharray="{DASHES}"'))
            for electrode, state, row in run.marks():
                ink = ELECTRODE[electrode] if one else colour
                above.append(mark_at(panel.x(xs[row]), panel.y(run.columns[SURFACES[electrode]][row]), electrode, state, ink))
        for electrode in SURFACES:
            ink = ELECTRODE[electrode] if one else GREY
            legend.entry(f"{electrode}, surface", ink, "" if one or electrode == "anode" else f'stroke-dasharray="{DASHES}"')
            if one:
                legend.entry(f"{electrode}, average", ink, f'stroke-dasharray="{DASHES}"')
        return out + above

    def svg(self):
        """The whole picture."""
        values = [x for xs in self.xs for x in xs]
        x_range = min(0.0, *values), (max(0.0, *values) or 1.0) * 1.02
        stoichiometries = [theta for run in self.runs for name in SURFACES.values() for theta in run.columns[name]]
        upper = Panel(TOP + (UPPER_AXIS if self.current else 0), x_range, self.voltage_range(), "voltage [V]")
        legend = Legend(upper.top + 10)
        body, bottom = self.draw_voltages(upper, legend), upper.bottom
        if any(run.varies for run in self.runs):
            currents = [current for run in self.runs for current in run.currents if current is not None]
            middle = Panel(bottom + GAP, x_range, padded(min(0.0, *currents), max(0.0, *currents), 0.08), "current [A]", CURRENT_HEIGHT)
            legend.at = max(legend.at + 14, middle.top + 10)
            body += self.draw_currents(middle, legend)
            bottom = middle.bottom
        lower = Panel(bottom + GAP, x_range, padded(min(0.0, *stoichiometries), max(1.0, *stoichiometries), 0.05), "stoichiometry [1]")
        legend.at = max(legend.at + 14, lower.top + 10)
        body += self.draw_stoichiometries(lower, legend)
        body.append(text_at((LEFT + RIGHT_EDGE) / 2, lower.bottom + 42, self.capacity_words() if self.by_capacity else "time [s]",
                            'class="x-label" text-anchor="middle"'))
        height = max(lower.bottom + BOTTOM, math.ceil(legend.at))
        return "\n".join([
            f'<svg xmlns="http://www.w3.org/2000/svg" width="{WIDTH}" height="{height}" viewBox="0 0 {WIDTH} {height}" '
            f'font-family="sans-serif" font-size="12" fill="{INK}">',
            f'<rect width="{WIDTH}" height="{height}" fill="white"/>',
            text_at(LEFT, 34, shortened(self.title(), 95), 'class="title" font-size="17"'),
            *body, *legend.out, "</svg>", "",
        ])


class Parser(argparse.ArgumentParser):
    """Says in one line what is wrong with the arguments."""

    def error(self, message):
        raise BadInput(f"{message}; --help says more")


def parse(arguments):
    parser = Parser(prog="curve.py", description=__doc__, formatter_class=argparse.RawDescriptionHelpFormatter)
    parser.add_argument("files", metavar="FILE", nargs="*", help="the CSV of a run; - or none is standard input")
    parser.add_argument("--x", choices=["time", "capacity"], default="time", help="the axis below (default: time)")
    parser.add_argument("--title", help="instead of cell, load, current and temperature")
    parser.add_argument("--label", action="append", metavar="TEXT", help="a run's name in the legend; once for each FILE, in their order")
    parser.add_argument("--v-min", metavar="V", help="draw the lower limit here, whatever the runs say")
    parser.add_argument("--v-max", metavar="V", help="draw the upper limit here, whatever the runs say")
    parser.add_argument("--nominal-capacity", metavar="AH", help="the cell's; currents are then given as C-rates too")
    options = parser.parse_args(arguments)
    options.files = options.files or ["-"]
    for name in ("v_min", "v_max", "nominal_capacity"):
        if getattr(options, name) is not None:
            setattr(options, name, number(getattr(options, name), "--" + name.replace("_", "-")))
    if options.nominal_capacity is not None and options.nominal_capacity <= 0:
        raise BadInput("--nominal-capacity: expected a number above 0")
    if options.label and len(options.label) != len(options.files):
        raise BadInput(f"--label: {len(options.label)} given for {len(options.files)} runs")
    if options.files.count("-") > 1:
        raise BadInput("standard input can be one run only")
    return options


def write(text):
    """To standard output; where it takes no more, nothing is tried again at the end."""
    try:
        sys.stdout.buffer.write(text.encode("ascii", "xmlcharrefreplace"))
        sys.stdout.buffer.flush()
    except OSError as error:
        print(f"curve.py: standard output: {error.strerror}", file=sys.stderr, flush=True)
        os._exit(1)


def main():
    try:
        options = parse(sys.argv[1:])
        runs = [read_run(path) for path in options.files]
        if options.x == "capacity":
            for run in runs:
                if not run.capacities:
                    raise BadInput(f"{run.name}: no current, so no capacity to draw over")
        write(Picture(runs, options).svg())
    except BadInput as error:
        sys.exit(f"curve.py: {error}")


if __name__ == "__main__":
    main()
