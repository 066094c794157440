"""Reads what the programs `discharge`, `replay` and `cycle` write: a line of column names with their units, rows of numbers, and remarks after '#'. A row of `cycle` also
has the word of its phase.

A remark with at least one of the four names of SETTINGS says how the run was set, its cell first:

    # nmc current=5 A temperature=298.15 K v_min=3 V v_max=4.2 V
    # nmc load=drive.txt temperature=298.15 K v_min=3 V v_max=4.2 V
    # lfp discharge=3 A rest=600 s charge=1.5 A repeat=2 dt=10 s budget=5000 temperature=298.15 K v_min=3 V v_max=4.2 V

Any of them may be missing, and so may units. The last of the other remarks says how the run ended.
"""
import math
import re
import sys

SURFACES = {"anode": "theta_neg [1]", "cathode": "theta_pos [1]"}
AVERAGES = {"anode": "theta_neg_avg [1]", "cathode": "theta_pos_avg [1]"}
COLUMNS = ["time [s]", "voltage [V]", *SURFACES.values(), *AVERAGES.values()]
SETTINGS = ["current", "temperature", "v_min", "v_max"]
KINDS = ["charge", "rest", "discharge"]
KIND, WHICH = "kind", ["repeat [1]", "phase [1]"]
LARGEST = 1e15


class BadInput(Exception):
    """What is wrong with the input, in one line for the reader."""


class Run:
    """A run: its columns by their names, its settings as far as the file tells them, what was applied in words where it is not one current, and its ending in words."""

    def __init__(self, name, columns, remarks):
        self.name, self.columns = name, columns
        self.cell, self.load, self.settings, self.ending = "", "", {}, ""
        for remark in remarks:
            self.take_remark(remark)
        self.times, self.voltages = columns["time [s]"], columns["voltage [V]"]
        self.currents = columns.get("current [A]") or [self.settings.get("current")] * len(self.times)
        self.varies = len(set(self.currents)) > 1
        self.current = None if self.varies else self.currents[0]
        self.capacities = self.integrate() if None not in self.currents else None

    def take_remark(self, remark):
        found = re.findall(rf"(?:^|\s)({'|'.join(SETTINGS)})=(\S*)", remark)
        if not found:
            self.ending = remark
            return
        self.cell = re.split(r"(?:^|\s)[\w.]+=", remark)[0].strip() or self.cell
        load = re.search(rf"(?:^|\s)load=(.*?)(?:\s(?:{'|'.join(SETTINGS)})=|$)", remark)
        self.load = load.group(1).split("/")[-1] if load else ", ".join(phases_in(remark)) or self.load
        for name, value in found:
            self.settings[name] = number(value, f"{self.name}: {name} in a remark")

    def integrate(self):
        """The charge in Ah that has passed at each row, counted from 0 in the direction of the run: a row's current flowed since the row before it."""
        total, before, sums = 0.0, 0.0, []
        for time, current in zip(self.times, self.currents):
            total += current * (time - before) / 3600
            before = time
            sums.append(total)
        return [-s for s in sums] if total < 0 else sums

    def phases(self):
        """The phases of a cycle in their order: kind, the times at which it began and ended."""
        if not {KIND, *WHICH} <= set(self.columns):
            return []
        found, last = [], None
        for time, before, kind, *which in zip(self.times, [0.0, *self.times], *(self.columns[name] for name in [KIND, *WHICH])):
            if which != last:
                found.append([kind, before, time])
            found[-1][2], last = time, which
        return found

    def marks(self):
        """Where a surface is full or empty for the first time: electrode, state, row; in the order of rows. Full is 1 and empty 0, where the model clamps."""
        found = []
        for electrode, column in SURFACES.items():
            for state, reached in (("empty", lambda theta: theta <= 0), ("full", lambda theta: theta >= 1)):
                row = next((k for k, theta in enumerate(self.columns[column]) if reached(theta)), None)
                if row is not None:
                    found.append((electrode, state, row))
        return sorted(found, key=lambda mark: mark[2])


def phases_in(remark):
    """The phases that a remark names, and how often they are repeated where it is not once, in words."""
    words = [f"{kind} {value}{unit}" for kind, value, unit in re.findall(rf"(?:^|\s)({'|'.join(KINDS)})=(\S+)( [As]\b)?", remark)]
    repeat = re.search(r"(?:^|\s)repeat=(\d+)", remark)
    return words + ([f"{repeat.group(1)} times"] if words and repeat and repeat.group(1) != "1" else [])


def number(word, where):
    try:
        value = float(word)
    except ValueError as error:
        raise BadInput(f"{where}: expected a number, found: {shown(word)}") from error
    if not abs(value) < LARGEST:
        raise BadInput(f"{where}: expected a number below {LARGEST:g}, found: {shown(word)}")
    return value


def shown(text):
    """A text as it may stand in a message of one line."""
    plain = ascii(text)[1:-1]
    return plain if len(plain) <= 100 else plain[:100] + ".."


def read_text(path):
    try:
        if path == "-":
            return sys.stdin.buffer.read().decode("utf-8")
        with open(path, "rb") as file:
            return file.read().decode("utf-8")
    except OSError as error:
        raise BadInput(f"{shown(path)}: {error.strerror}") from error
    except UnicodeDecodeError as error:
        raise BadInput(f"{shown(path)}: no text, so no CSV of discharge") from error


def read_run(path):
    """The run in a file, or in standard input for '-'."""
    name = "standard input" if path == "-" else shown(path)
    remarks, lines = [], []
    for place, line in enumerate(read_text(path).split("\n"), 1):
        line = line.strip()
        if line.startswith("#"):
            remarks.append(line[1:].strip())
        elif line:
            lines.append((place, line))
    said = f"; it says: {shown(remarks[-1])}" if remarks else ""
    if not lines:
        raise BadInput(f"{name}: no row to draw{said or ', the input is empty'}")
    names = lines[0][1].split(",")
    missing = [column for column in COLUMNS if column not in names]
    if missing:
        raise BadInput(f"{name}, line {lines[0][0]}: no CSV of discharge, the column {missing[0]} is missing in: {shown(lines[0][1])}")
    rows = [read_row(f"{name}, line {place}", line, names) for place, line in lines[1:]]
    if not rows:
        raise BadInput(f"{name}: no row to draw{said}")
    columns = dict(zip(names, map(list, zip(*rows))))
    for (place, _), time, before in zip(lines[1:], columns["time [s]"], [-math.inf, *columns["time [s]"]]):
        if time <= before:
            raise BadInput(f"{name}, line {place}: the time does not rise, {before:g} s and then {time:g} s")
    return Run(name, columns, remarks)


def read_row(where, line, names):
    """The numbers of a row, and the word of its phase."""
    words = line.split(",")
    if len(words) != len(names):
        raise BadInput(f"{where}: expected {len(names)} columns, found: {shown(line)}")
    return [kind(word, where) if name == KIND else number(word, where) for name, word in zip(names, words)]


def kind(word, where):
    if word not in KINDS:
        raise BadInput(f"{where}: expected charge, rest or discharge, found: {shown(word)}")
    return word
