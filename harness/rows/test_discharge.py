#!/usr/bin/env python3
"""Holds the program discharge to its names and its cell files, with t_ref and without. `rt ci` makes the program, and so does `rt run` in crates/discharge.

    python3 harness/rows/test_discharge.py
"""
import subprocess
import sys
import tempfile
import unittest
from pathlib import Path

TOP = Path(__file__).resolve().parent.parent.parent
PROGRAM = TOP / "crates" / "discharge" / "out" / "discharge"
CELL = (TOP / "crates" / "discharge" / "data" / "cell.txt").read_text()
ROWS = (TOP / "crates" / "discharge" / "stdout").read_text().splitlines()[:-2]
SHEETS = [line.split()[0] for line in CELL.splitlines() if line.startswith(("anode.", "cathode."))]
NEXT = len(CELL.splitlines()) + 1  # the line after the cell's own
NOT_GIVEN = "not given, and a cell file gives each number of both sheets but t_ref"
REFERENCE_RANGE = "out of range, expected 200 to 400 K"


def stoichiometries(rows):
    """All columns but the voltage."""
    return [row.split(",")[:1] + row.split(",")[2:] for row in rows]


class DischargeTest(unittest.TestCase):
    def setUp(self):
        folder = tempfile.TemporaryDirectory()
        self.addCleanup(folder.cleanup)
        self.folder = Path(folder.name)

    def discharge(self, *arguments, cell=CELL):
        """Standard output and standard error, beside a file cell.txt."""
        (self.folder / "cell.txt").write_text(cell)
        done = subprocess.run([PROGRAM, *arguments], cwd=self.folder, capture_output=True, text=True, check=False)
        return done.stdout, done.stderr

    def rows(self, *arguments, more=""):
        """The rows of the cell file with more lines."""
        out, message = self.discharge("cell.txt", "dt=60", *arguments, cell=CELL + more)
        self.assertEqual(message, "")
        return out.splitlines()[:-2]

    def test_reference_temperature_left_out(self):
        self.assertNotIn("t_ref", CELL)
        self.assertEqual(self.rows(), ROWS)
        for more in ("anode.t_ref = 298.15\n", "cathode.t_ref=298.15\n", "anode.t_ref=298.15\ncathode.t_ref=298.15\n"):
            self.assertEqual(self.rows(more=more), ROWS)
        self.assertEqual(self.rows("anode.t_ref=298.15", more="anode.t_ref = 293.15\n"), ROWS)

    def test_reference_temperature_given(self):
        anode, cathode = self.rows(more="anode.t_ref = 293.15\n"), self.rows(more="cathode.t_ref = 293.15\n")
        self.assertEqual(len({tuple(rows) for rows in (ROWS, anode, cathode)}), 3)
        self.assertEqual(self.rows("anode.t_ref=293.15"), anode)
        # at its own reference temperature a cell diffuses as the other does at its own
        warm = self.rows("temperature=310", more="anode.t_ref = 310\ncathode.t_ref = 310\n")
        self.assertEqual(stoichiometries(warm)[:25], stoichiometries(ROWS)[:25])
        self.assertNotEqual(warm[:25], ROWS[:25])

    def test_reference_temperature_refused(self):
        for name in ("anode.t_ref", "cathode.t_ref"):
            for value in ("199.99", "400.01", "-300", "0"):
                self.assertEqual(self.discharge("cell.txt", cell=f"{CELL}{name} = {value}\n"), ("", f"cell.txt: line {NEXT}: {name}: {REFERENCE_RANGE}\n"))
                self.assertEqual(self.discharge(f"{name}={value}"), ("", f"'{name}={value}': {REFERENCE_RANGE}\n"))
            for value in ("200", "400"):
                self.assertEqual(self.discharge("time=0", f"{name}={value}")[1], "")
            twice = f"{CELL}{name} = 300\n{name} = 300\n"
            self.assertEqual(self.discharge("cell.txt", cell=twice), ("", f"cell.txt: line {NEXT + 1}: {name}: given twice, first in line {NEXT}\n"))

    def test_numbers_left_out(self):
        self.assertEqual(len(SHEETS), 20)
        for more in ("", "anode.t_ref = 300\ncathode.t_ref = 300\n"):
            for name in SHEETS:
                rest = "".join(line for line in CELL.splitlines(keepends=True) if not line.startswith(name + " "))
                self.assertEqual(self.discharge("cell.txt", cell=rest + more), ("", f"cell.txt: {name}: {NOT_GIVEN}\n"))
            self.assertEqual(self.discharge("cell.txt", cell=more), ("", f"cell.txt: {SHEETS[0]}: {NOT_GIVEN}\n"))

    def test_no_names(self):
        for name in ("", "anode.", "cathode.", "t_ref", "anode.current", "cathode.t_reff", "anode.t_re", "anode.cathode.t_ref", "reference"):
            self.assertEqual(self.discharge(f"{name}=5"), ("", f"'{name}=5': no such name: 'discharge help' lists them\n"))

    def test_help(self):
        out, message = self.discharge("help")
        names = [line.split()[0] for line in out.splitlines() if line.startswith("    ")]
        self.assertEqual((len(names), len(set(names)), message), (32, 32, ""))
        self.assertEqual([name for name in names if "." in name and not name.endswith(".t_ref")], SHEETS)
        for name in ("anode", "cathode"):
            self.assertIn(f"    {name}.t_ref = 298.15 K  (200 to 400 K)\n", out)


if __name__ == "__main__":
    if not PROGRAM.exists():
        sys.exit(f"test_discharge.py: no program {PROGRAM.relative_to(TOP)}; 'rt run' in crates/discharge makes it")
    unittest.main()
