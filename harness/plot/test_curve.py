#!/usr/bin/env python3
"""Holds curve.py to what it must draw: runs it on small runs and reads the SVG. Positions are held to the numbers on the axes.

    python3 harness/plot/test_curve.py

It takes a second, needs nothing but Python, and leaves nothing behind.
"""
import io
import itertools
import os
import re
import subprocess
import sys
import tempfile
import unittest
import xml.etree.ElementTree as ElementTree
from pathlib import Path
from unittest import mock

sys.dont_write_bytecode = True
import curve

HERE = Path(__file__).resolve().parent
CRATES = HERE.parent.parent / "crates"
HEADER = "time [s],voltage [V],current [A],theta_neg [1],theta_pos [1],theta_neg_avg [1],theta_pos_avg [1],cutoff [1]"
REMARK = "# nmc current=5 A temperature=298.15 K v_min=3 V v_max=4.2 V"
ENDING = "# ended by time after 6 rows"
LOAD = "# nmc load=logs/my drive.txt temperature=298.15 K v_min=3 V v_max=4.2 V"
CURRENTS = (5.0, 15.0, 0.0, -4.0, -4.0, 5.0)
CYCLE = "# lfp discharge=5 A rest=600 s charge=4 A repeat=2 dt=600 s budget=6 temperature=298.15 K v_min=3 V v_max=4.2 V"
PHASES = ["1,1,discharge", "1,1,discharge", "1,2,rest", "1,3,charge", "1,3,charge", "2,1,discharge"]


def csv(current=5.0, remark=REMARK, anode=(0.8, 0.7, 0.6, 0.5, 0.4, 0.3), cathode=(0.2, 0.3, 0.4, 0.5, 0.6, 0.7)):
    """A run of six rows, a row each 600 s, from 3.9 V to 3.4 V, at one current or at six."""
    currents = current if isinstance(current, tuple) else (current,) * 6
    rows = [f"{600 * (k + 1)},{3.9 - 0.1 * k},{currents[k]},{anode[k]},{cathode[k]},0.5,0.5,0" for k in range(6)]
    return "\n".join(filter(None, [HEADER, *rows, remark, ENDING])) + "\n"


def cycle_csv(phases=PHASES, currents=(5.0, 5.0, 0.0, -4.0, -4.0, 5.0), remark=CYCLE):
    """The same six rows as those of a cycle."""
    header, *rows = csv(currents, remark).splitlines(keepends=True)
    rows[:6] = [row.replace("\n", f",{phase}\n") for row, phase in zip(rows, phases)]
    return "".join([header.replace("\n", ",repeat [1],phase [1],kind\n"), *rows])


class Drawn:
    """What is in a picture, by the class of its elements."""

    def __init__(self, svg):
        self.elements = [(element.tag.split("}")[1], element.attrib, element.text) for element in ElementTree.fromstring(svg).iter()]

    def of(self, name):
        return [(tag, at, text) for tag, at, text in self.elements if name in at.get("class", "").split()]

    def texts(self, name):
        return [text for _, _, text in self.of(name)]

    def points(self, name):
        return [[tuple(map(float, point.split(","))) for point in at["points"].split()] for _, at, _ in self.of(name)]

    def scale(self, name, place, shift=0.0):
        """From the first and the last number that an axis shows: a value's place in the picture."""
        shown = [(float(text), float(at[place]) - shift) for _, at, text in self.of(name)]
        (a, at_a), (b, at_b) = shown[0], shown[-1]
        return lambda value: at_a + (at_b - at_a) * (value - a) / (b - a)

    def panels(self):
        """The scales of the time and of each panel from above to below: the numbers of a panel rise, and the next panel's begin lower."""
        numbers = self.of("tick-y")
        cuts = [k for k in range(1, len(numbers)) if float(numbers[k][2]) < float(numbers[k - 1][2])]
        parts = []
        for first, last in zip([0, *cuts], [*cuts, len(numbers)]):
            drawn = Drawn("<svg xmlns='x'/>")
            drawn.elements = numbers[first:last]
            parts.append(drawn.scale("tick-y", "y", 4.0))
        return self.scale("tick-x", "x"), *parts

    def bands(self):
        """Kind, left, right, top and bottom of each band."""
        found = []
        for _, at, _ in self.of("band"):
            x, y, width, height = (float(at[name]) for name in ("x", "y", "width", "height"))
            found.append((at["class"].split()[1], x, x + width, y, y + height))
        return found

    def frames(self):
        """Top and bottom of each panel's frame."""
        return [(float(at["y"]), float(at["y"]) + float(at["height"])) for tag, at, _ in self.elements if tag == "rect" and at.get("fill") == "none"]

    def marks(self):
        """Kind and middle of each mark."""
        found = []
        for tag, at, _ in self.of("mark"):
            middle = (float(at["cx"]), float(at["cy"])) if tag == "circle" else (float(at["x"]) + 4.5, float(at["y"]) + 4.5)
            found.append((at["class"].split()[1], *middle))
        return found


class CurveTest(unittest.TestCase):
    def setUp(self):
        folder = tempfile.TemporaryDirectory()
        self.addCleanup(folder.cleanup)
        self.folder = Path(folder.name)
        self.addCleanup(os.chdir, os.getcwd())
        os.chdir(self.folder)

    def file(self, name, text):
        (self.folder / name).write_text(text)
        return name

    def run_curve(self, *arguments, given=""):
        """Exit status, standard output and standard error, without a process of its own."""
        out, message = io.TextIOWrapper(io.BytesIO(), encoding="utf-8"), ""
        given = io.TextIOWrapper(io.BytesIO(given.encode()))
        with mock.patch.multiple(sys, argv=["curve.py", *arguments], stdin=given, stdout=out):
            try:
                curve.main()
            except SystemExit as end:
                message = str(end.code) + "\n"
        return int(message != ""), out.buffer.getvalue().decode(), message

    def draw(self, *arguments, given=""):
        status, svg, message = self.run_curve(*arguments, given=given)
        self.assertEqual((status, message), (0, ""))
        return Drawn(svg)

    def near(self, found, expected):
        self.assertEqual(len(found), len(expected))
        for a, b in zip(found, expected):
            self.assertAlmostEqual(a, b, delta=0.4)

    def test_one_run(self):
        drawn = self.draw(self.file("run.csv", csv()))
        x, voltage, _ = drawn.panels()
        self.assertEqual(drawn.texts("title"), ["nmc · 5 A · 298.15 K"])
        self.assertEqual(drawn.texts("x-label"), ["time [s]"])
        self.assertEqual(drawn.texts("upper-label"), ["capacity discharged [Ah]"])
        self.near(drawn.points("voltage")[0][5], (x(3600), voltage(3.4)))
        self.assertEqual([len(points) for points in drawn.points("voltage")], [6])
        self.assertEqual((len(drawn.of("surface")), len(drawn.of("average")), len(drawn.of("mark"))), (2, 2, 0))
        for name, value, words in (("v_min", 3.0, "v_min 3 V"), ("v_max", 4.2, "v_max 4.2 V")):
            (_, at, _), = drawn.of(name)
            self.near((float(at["y1"]), float(at["y2"])), (voltage(value), voltage(value)))
            self.assertEqual(drawn.texts(name + "-label"), [words])
        capacity = drawn.scale("tick-upper", "x")
        self.near((capacity(0.0), capacity(5.0)), (x(0), x(3600)))
        self.assertIn("5 Ah in 3600 s", drawn.texts("note"))
        self.assertIn("ended by time after 6 rows", drawn.texts("note"))

    def test_several_runs_and_standard_input(self):
        first, last = self.file("a.csv", csv(1)), self.file("c.csv", csv(10, REMARK.replace("v_min=3", "v_min=2.8")))
        drawn = self.draw(first, "-", last, given=csv(2.5))
        self.assertEqual(drawn.texts("title"), ["nmc · 1 A, 2.5 A, 10 A · 298.15 K"])
        self.assertEqual(drawn.texts("run"), ["1 A", "2.5 A", "10 A"])
        self.assertEqual([len(points) for points in drawn.points("voltage")], [6, 6, 6])
        self.assertEqual(len({at["stroke"] for _, at, _ in drawn.of("voltage")}), 3)
        self.assertEqual((len(drawn.of("surface")), len(drawn.of("average")), len(drawn.of("tick-upper"))), (6, 0, 0))
        self.assertEqual(drawn.texts("v_min-label"), ["v_min 3 V", "v_min 2.8 V"])
        self.assertEqual(drawn.texts("v_max-label"), ["v_max 4.2 V"])
        alike = self.draw(first, self.file("b.csv", csv(1)), last)
        self.assertEqual(alike.texts("run"), ["1 A, a.csv", "1 A, b.csv", "10 A"])

    def test_over_the_capacity(self):
        runs = [self.file(f"{current}.csv", csv(current)) for current in (1, 5)]
        drawn = self.draw("--x", "capacity", "--nominal-capacity", "2.5", *runs)
        x, voltage, _ = drawn.panels()
        self.assertEqual(drawn.texts("x-label"), ["capacity discharged [Ah]"])
        self.assertEqual(drawn.texts("run"), ["1 A (0.4C)", "5 A (2C)"])
        self.near(drawn.points("voltage")[0][5], (x(1.0), voltage(3.4)))
        self.near(drawn.points("voltage")[1][5], (x(5.0), voltage(3.4)))
        charge = self.draw("--x", "capacity", given=csv(-5, None))
        self.assertEqual((charge.texts("x-label"), charge.texts("upper-label")), (["capacity charged [Ah]"], ["time [s]"]))
        upper = charge.scale("tick-upper", "x")
        self.near((upper(3600), charge.points("voltage")[0][5][0]), (charge.panels()[0](5.0),) * 2)

    def test_marks(self):
        full, empty = (0.2, 0.6, 1, 1, 1, 1), (0.8, 0.5, 0.3, 0.1, 0, 0)
        drawn = self.draw(given=csv(anode=empty, cathode=full))
        x, voltage, theta = drawn.panels()
        expected = [("cathode-full", x(1800), voltage(3.7)), ("anode-empty", x(3000), voltage(3.5)),
                    ("cathode-full", x(1800), theta(1)), ("anode-empty", x(3000), theta(0))]
        self.assertEqual([mark[0] for mark in drawn.marks()], [mark[0] for mark in expected])
        self.assertEqual([at["fill"] == "white" for _, at, _ in drawn.of("mark")], [False, True] * 2)
        for mark, wanted in zip(drawn.marks(), expected):
            self.near(mark[1:], wanted[1:])
        self.assertEqual(drawn.texts("mark-label"), ["anode surface empty", "cathode surface full"])
        self.assertIn("cathode full from 1800 s, 2.5 Ah", drawn.texts("note"))
        self.assertEqual(([len(p) for p in drawn.points("voltage")], [len(p) for p in drawn.points("voltage-after")]), ([3], [4]))
        charge = self.draw(given=csv(-5, anode=full, cathode=empty))
        self.assertEqual([mark[0] for mark in charge.marks()], ["anode-full", "cathode-empty"] * 2)
        nearly = self.draw(given=csv(anode=(0.5,) * 5 + (1e-300,), cathode=(0.5,) * 5 + (0.9999999999999999,)))
        self.assertEqual((nearly.marks(), nearly.of("voltage-after")), ([], []))

    def test_without_remarks_and_with_options(self):
        runs = [self.file(name, csv(remark=None).replace(ENDING, "")) for name in ("a.csv", "b.csv")]
        bare = self.draw(*runs)
        self.assertEqual((bare.texts("title"), bare.texts("run")), (["5 A"], runs))
        self.assertEqual((bare.of("v_min-label"), bare.of("v_max-label")), ([], []))
        drawn = self.draw("--title", "A & <B>", "--label", "one", "--label", "two", "--v-min", "3.2", "--v-max", "4", *runs)
        self.assertEqual((drawn.texts("title"), drawn.texts("run")), (["A & <B>"], ["one", "two"]))
        self.assertEqual(drawn.texts("v_min-label") + drawn.texts("v_max-label"), ["v_min 3.2 V", "v_max 4 V"])
        self.near([float(drawn.of("v_min")[0][1]["y1"])], [drawn.panels()[1](3.2)])
        over = self.draw("--v-min", "2", given=csv())
        self.assertEqual(over.texts("v_min-label"), ["v_min 2 V"])
        far = self.draw("--v-max", "1000", given=csv())
        self.assertEqual((far.of("v_max"), far.texts("v_max-label")), ([], ["↑ v_max 1000 V"]))

    def test_varying_current(self):
        load = self.file("load.csv", csv(CURRENTS, LOAD))
        drawn = self.draw("--nominal-capacity", "2.5", load)
        x, voltage, current, theta = drawn.panels()
        self.assertEqual((drawn.texts("title"), drawn.texts("run")), (["nmc · my drive.txt · 298.15 K"], ["terminal voltage"]))
        self.assertEqual((drawn.of("tick-upper"), drawn.of("upper-label")), ([], []))
        steps, = drawn.points("current")
        expected = [(x(600 * (k + edge)), current(CURRENTS[k])) for k in range(6) for edge in (0, 1)]
        self.assertEqual(len(steps), len(expected))
        for found, wanted in zip(steps, expected):
            self.near(found, wanted)
        self.near(drawn.points("voltage")[0][5], (x(3600), voltage(3.4)))
        self.near(drawn.points("surface")[0][5], (x(3600), theta(0.3)))
        self.assertIn("2.833 Ah net in 3600 s", drawn.texts("note"))
        self.assertIn("current, discharge positive", drawn.texts("entry"))
        both = self.draw(load, self.file("constant.csv", csv()))
        self.assertEqual(both.texts("run"), ["my drive.txt", "5 A"])
        self.assertEqual([len(points) for points in both.points("current")], [12, 12])
        self.assertEqual(len({at["stroke"] for _, at, _ in both.of("current")}), 2)
        self.assertEqual(self.draw("constant.csv").of("current"), [])

    def test_phases(self):
        drawn = self.draw(self.file("cycle.csv", cycle_csv()))
        x, _, current, _ = drawn.panels()
        expected = [("discharge", 0, 1200), ("rest", 1200, 1800), ("charge", 1800, 3000), ("discharge", 3000, 3600)]
        frames = drawn.frames()
        self.assertEqual((len(frames), len(drawn.bands())), (3, 12))
        for k, (kind, left, right, top, bottom) in enumerate(drawn.bands()):
            self.assertEqual(kind, expected[k % 4][0])
            self.near((left, right, top, bottom), (x(expected[k % 4][1]), x(expected[k % 4][2]), *frames[k // 4]))
        colours = {kind: {at["fill"] for _, at, _ in drawn.of(kind)} for kind in ("charge", "rest", "discharge")}
        self.assertEqual((len(set.union(*colours.values())), [len(fills) for fills in colours.values()]), (3, [1, 1, 1]))
        keys = [at["fill"] for _, at, _ in drawn.of("band-key")]
        self.assertEqual([{key} for key in keys], [colours[kind] for kind in drawn.texts("band-label")])
        self.assertEqual(drawn.texts("band-label"), ["discharge", "rest", "charge"])
        names = [at.get("class", "").split(" ")[0] for _, at, _ in drawn.elements]
        order = [name for name, _ in itertools.groupby(name for name in names if name in ("band", "tick-x", "voltage", "current", "surface"))]
        self.assertEqual(order, ["band", "tick-x", "voltage", "band", "tick-x", "current", "band", "tick-x", "surface"])
        self.near(drawn.points("current")[0][6], (x(1800), current(-4)))
        self.assertEqual(drawn.texts("title"), ["lfp · discharge 5 A, rest 600 s, charge 4 A, 2 times · 298.15 K"])

    def test_phases_of_one_kind(self):
        charges = self.draw(given=cycle_csv([f"{k},1,charge" for k in (1, 1, 2, 3, 3, 3)], (-4.0,) * 6, CYCLE.replace("discharge=5 A rest=600 s ", "").replace("repeat=2", "repeat=3")))
        x, _, _ = charges.panels()
        self.assertEqual([band[0] for band in charges.bands()], ["charge"] * 6)
        for band, (first, last) in zip(charges.bands(), ((0, 1200), (1200, 1800), (1800, 3600))):
            self.near(band[1:3], (x(first), x(last)))
        self.assertEqual((charges.texts("title"), charges.texts("band-label")), (["lfp · charge 4 A, 3 times · 298.15 K"], ["charge"]))
        once = self.draw(given=cycle_csv(["1,1,rest"] * 6, (0.0,) * 6, CYCLE.replace("discharge=5 A rest=600 s charge=4 A repeat=2", "rest=3600 s repeat=1")))
        self.assertEqual((once.texts("title"), len(once.bands())), (["lfp · rest 3600 s · 298.15 K"], 2))

    def test_no_bands(self):
        cycle, run = self.file("cycle.csv", cycle_csv()), self.file("run.csv", csv())
        for arguments in ([run], [cycle, run], ["--x", "capacity", cycle]):
            drawn = self.draw(*arguments)
            self.assertEqual((drawn.of("band"), drawn.of("band-label")), ([], []))
        self.assertEqual(self.draw(cycle, run).texts("run"), ["…est 600 s, charge 4 A, 2 times", "nmc, 5 A"])

    def test_what_the_programs_write(self):
        for program, steps in (("discharge", []), ("replay", [622]), ("cycle", [412])):
            text = (CRATES / program / "stdout").read_text()
            drawn = self.draw(given=text)
            rows = [line for line in text.splitlines() if re.match(r"[0-9]", line)]
            self.assertEqual([len(points) for points in drawn.points("voltage")], [len(rows)])
            self.assertEqual([len(points) for points in drawn.points("current")], steps)
            for name in ("v_min", "v_max"):
                self.assertEqual(len(drawn.of(name + "-label")), int(f" {name}=" in text))

    def test_faults(self):
        good = self.file("good.csv", csv())
        self.file("header.csv", HEADER)
        self.file("refused.csv", "# not built: refusal 2 (sheet)\n")
        (self.folder / "bytes.csv").write_bytes(b"\xff\xfe\n\x80")
        for arguments, given, words in [
            (["missing.csv"], "", "missing.csv: No such file or directory"),
            ([good, "missing.csv"], "", "missing.csv: No such file or directory"),
            ([], "", "standard input: no row to draw, the input is empty"),
            (["header.csv"], "", "header.csv: no row to draw"),
            (["refused.csv"], "", "no row to draw; it says: not built: refusal 2 (sheet)"),
            (["bytes.csv"], "", "bytes.csv: no text"),
            ([], "a,b\n1,2\n", "line 1: no CSV of discharge, the column time [s] is missing"),
            ([], csv().replace("3.9,", "nan,"), "line 2: expected a number"),
            ([], csv().replace("600,3.9,", "600,"), "line 2: expected 8 columns"),
            ([], csv().replace("600,3.9,", "6000,3.9,"), "line 3: the time does not rise"),
            ([], cycle_csv().replace(",rest", ",pause"), "line 4: expected charge, rest or discharge, found: pause"),
            ([], cycle_csv().replace("1,2,rest", "1,second,rest"), "line 4: expected a number, found: second"),
            ([], cycle_csv().replace(",rest", ""), "line 4: expected 11 columns"),
            ([], csv().replace("v_min=3", "v_min=low"), "v_min in a remark: expected a number, found: low"),
            (["-", "-"], csv(), "standard input can be one run only"),
            (["--label", "a", good, good], "", "--label: 1 given for 2 runs"),
            (["--x", "capacity"], csv(remark=None).replace("current [A]", "load"), "no current, so no capacity"),
            (["--colour"], "", "unrecognized arguments: --colour"),
        ]:
            with self.subTest(words):
                status, svg, message = self.run_curve(*arguments, given=given)
                self.assertEqual((status, svg), (1, ""))
                self.assertEqual(len(message.splitlines()), 1, message)
                self.assertTrue(message.startswith("curve.py: "), message)
                self.assertIn(words, message)

    def test_pictures_of_the_page(self):
        for name, program in (("drive_cycle.svg", "replay"), ("cycle.svg", "cycle")):
            picture = (CRATES.parent / "docs" / name).read_text()
            _, svg, _ = self.run_curve(given=(CRATES / program / "stdout").read_text())
            self.assertTrue(svg == picture, f"docs/{name} is not the picture of crates/{program}/stdout: README.md has the command that makes it")

    def test_as_a_program(self):
        for given, status, message in ((csv(), 0, ""), ("", 1, "curve.py: standard input: no row to draw, the input is empty\n")):
            done = subprocess.run([sys.executable, HERE / "curve.py"], input=given, capture_output=True, text=True, check=False)
            self.assertEqual((done.returncode, done.stderr), (status, message))
            self.assertEqual(done.stdout, self.run_curve(given=given)[1])


if __name__ == "__main__":
    unittest.main()
