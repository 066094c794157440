#!/usr/bin/env python3
"""Holds before_after.py to what it must draw, and docs/low_rates.svg, docs/charge.svg and docs/sub_steps.svg to the curves of harness/differences.

    python3 harness/plot/test_before_after.py
"""
import subprocess
import sys
import unittest
from pathlib import Path

sys.dont_write_bytecode = True
from test_curve import Drawn

HERE = Path(__file__).resolve().parent
ROOT = HERE.parent.parent
TITLES = {
    "low_rates": "Overpotential of both electrodes at tiny currents, before change request (ii) and now",
    "charge": "A charge of graphite_nmc at 5 A with 1e-3 Ω·m², before change request (v) and now",
    "sub_steps": "Centre of a cathode particle of graphite_lfp at rest, before change request (vii) and now",
}


def run(given, *arguments):
    done = subprocess.run([sys.executable, HERE / "before_after.py", *arguments], input=given, capture_output=True, text=True, check=False)
    return done.returncode, done.stdout, done.stderr


class BeforeAfterTest(unittest.TestCase):
    def test_each_column_is_a_line_at_its_numbers(self):
        status, svg, message = run("current [A],before [V],now [V]\n0,0,1e-17\n1e-15,3e-16,2e-16\n4e-15,3e-16,4e-16\n", "--title", "a < b")
        self.assertEqual((status, message), (0, ""))
        drawn = Drawn(svg)
        x, y = drawn.scale("tick-x", "x"), drawn.scale("tick-y", "y", 4.0)
        self.assertEqual(drawn.texts("title") + drawn.texts("entry") + drawn.texts("x-label"), ["a < b", "before", "now", "current [fA]"])
        for points, voltages in zip(drawn.points("curve"), ((0, 300, 300), (10, 200, 400)), strict=True):
            for (at_x, at_y), current, voltage in zip(points, (0, 1, 4), voltages, strict=True):
                self.assertAlmostEqual(at_x, x(current), delta=0.1)
                self.assertAlmostEqual(at_y, y(voltage), delta=0.1)

    def test_bad_input_is_one_line(self):
        for given, words in [
            ("", "expected a line of names and at least two rows"),
            ("a [A],b [V]\n1,2\n", "expected a line of names and at least two rows"),
            ("a,b\n1,2\n3,4\n", "line 1: expected names with their units"),
            ("a [A],b [V]\n1,2\n3\n", "line 3: expected 2 columns"),
            ("a [A],b [V]\n1,2\n3,x\n", "line 3: expected a number, found: x"),
        ]:
            with self.subTest(words):
                status, svg, message = run(given)
                self.assertEqual((status, svg, len(message.splitlines())), (1, "", 1))
                self.assertIn(words, message)

    def test_pictures_of_the_differences(self):
        for name, title in TITLES.items():
            with self.subTest(name):
                _, svg, _ = run((ROOT / "harness" / "differences" / f"{name}.csv").read_text(), "--title", title)
                picture = (ROOT / "docs" / f"{name}.svg").read_text()
                self.assertTrue(svg == picture, f"docs/{name}.svg is not the picture of harness/differences/{name}.csv")


if __name__ == "__main__":
    unittest.main()
