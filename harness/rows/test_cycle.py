#!/usr/bin/env python3
"""Holds the program cycle to its arguments, its columns and its endings. `rt ci` makes the program, and so does `rt run` in crates/cycle.

    python3 harness/rows/test_cycle.py
"""
import resource
import subprocess
import sys
import tempfile
import unittest
from pathlib import Path

TOP = Path(__file__).resolve().parent.parent.parent
PROGRAM = TOP / "crates" / "cycle" / "out" / "cycle"
ROWS = (TOP / "crates" / "discharge" / "stdout").read_text().splitlines()[:-2]
CELL = (TOP / "crates" / "discharge" / "data" / "cell.txt").read_text()
LIMITS = "temperature=298.15 K v_min=3 V v_max=4.2 V"
CURRENT_RANGE = "out of range, expected above 0 to 1000000 A"
REST_RANGE = "out of range, expected 0 to 1000000000 s"
NOT_DECIMAL = "expected a decimal number, such as 298.15 or 2e-4"
NO_PHASE = "no phase: expected charge=AMPERES, rest=SECONDS or discharge=AMPERES"
IN_PHASES = "a cycle has current and time from its phases"
STACK = 6500 << 10  # README.md says what it needs


def positions(rows, phases, repeats, dt):
    """Repeat, phase and kind of each row, from the phases and the rows' cutoffs, and of the row that would follow."""
    written_out = [(repeat, place, kind, time) for repeat in range(1, repeats + 1) for place, (kind, time) in enumerate(phases, 1)]
    at, clock = 0, 0.0
    for row in rows:
        repeat, place, kind, time = written_out[at]
        yield f"{repeat},{place},{kind}"
        clock += dt
        if clock >= time if kind == "rest" else row.split(",")[7] == "1":
            at, clock = at + 1, 0.0
    yield written_out[at][:2] if at < len(written_out) else None


class CycleTest(unittest.TestCase):
    def setUp(self):
        folder = tempfile.TemporaryDirectory()
        self.addCleanup(folder.cleanup)
        self.folder = Path(folder.name)

    def cycle(self, *arguments):
        """Standard output and standard error."""
        hard = resource.getrlimit(resource.RLIMIT_STACK)[1]
        done = subprocess.run([PROGRAM, *arguments], cwd=self.folder, capture_output=True, text=True, check=True,
                              preexec_fn=lambda: resource.setrlimit(resource.RLIMIT_STACK, (STACK, hard)))
        return done.stdout, done.stderr

    def rows(self, *arguments):
        """The rows and the ending."""
        out, message = self.cycle(*arguments)
        self.assertEqual(message, "")
        header, *rows, _, ending = out.splitlines()
        self.assertEqual(header, ROWS[0] + ",repeat [1],phase [1],kind")
        self.assertTrue(ending.startswith("# ended by "), ending)
        return rows, ending.removeprefix("# ended by ")

    def ends(self, ending, count, *arguments):
        rows, found = self.rows(*arguments)
        self.assertEqual((len(rows), found), (count, f"{ending} after {count} row{'' if count == 1 else 's'}"))
        return rows

    def test_one_discharge(self):
        rows = self.ends("done", 26, "discharge=5", "dt=60")
        self.assertEqual(rows, [row + ",1,1,discharge" for row in ROWS[1:]])
        (self.folder / "cell.txt").write_text(CELL + "time = 5\n")
        self.assertEqual(self.ends("done", 26, "cell.txt", "discharge=5", "dt=60"), rows)

    def test_phases_and_repeats(self):
        arguments = ["nmc", "discharge=5", "rest=700", "charge=2.5", "rest=65", "dt=60", "repeat=3"]
        phases = [("discharge", None), ("rest", 700.0), ("charge", None), ("rest", 65.0)]
        currents = {"discharge": "5", "rest": "0", "charge": "-2.5"}
        rows, ending = self.rows(*arguments)
        self.assertEqual(ending, f"done after {len(rows)} rows")
        *found, after = positions(rows, phases, 3, 60.0)
        self.assertEqual((after, {row.split(",")[9] for row in rows}, {row.split(",")[8] for row in rows}), (None, set("1234"), set("123")))
        for row, columns in zip(rows, found, strict=True):
            self.assertEqual((",".join(row.split(",")[8:]), row.split(",")[2]), (columns, currents[columns.split(",")[2]]))
        self.assertEqual(sum(row.endswith(",1,2,rest") for row in rows), 12)
        self.assertEqual(sum(row.endswith(",3,4,rest") for row in rows), 2)
        self.assertEqual(self.ends("done", len(rows), *arguments, f"budget={len(rows)}"), rows)
        for budget in (1, 26, 27, 38, 39, len(rows) - 1):
            *_, (repeat, place) = positions(rows[:budget], phases, 3, 60.0)
            self.assertEqual(self.ends(f"a spent budget at phase {place} of repeat {repeat}", budget, *arguments, f"budget={budget}"), rows[:budget])

    def test_rests(self):
        rows = self.ends("done", 11, "rest=1", "dt=0.1")  # ten tenths are less than one
        self.assertEqual([row.split(",", 1)[0] for row in rows[9:]], ["0.9999999999999999", "1.0999999999999999"])
        for time in ("0", "-0", "1e-22", "10"):
            self.ends("done", 1, f"rest={time}")
        self.ends("done", 2, "rest=10.0000000001")
        self.ends("done", 6, "rest=60", "v_max=3.5")  # beyond the window from the first row on
        self.ends("a spent budget at phase 1 of repeat 1", 3, "rest=1e9", "budget=3")
        self.ends("done", 8000, *["rest=0"] * 8, "repeat=1000", "budget=8000")
        self.ends("a spent budget at phase 8 of repeat 1000", 7999, *["rest=0"] * 8, "repeat=1000", "budget=7999")

    def test_counts_left_out(self):
        self.ends("done", 1, "rest=0")
        self.ends("a spent budget at phase 1 of repeat 1", 10000, "rest=1e9")
        self.assertIn("\n# nmc rest=0 s repeat=1 dt=10 s budget=10000 " + LIMITS + "\n", self.cycle("rest=0")[0])

    def test_largest_budget(self):
        self.ends("a spent budget at phase 1 of repeat 1", 100000, "rest=1e9", "budget=100000")
        self.ends("done", 100000, "rest=999995", "budget=100000")

    def test_limits(self):
        for word in ("charge=1000000", "discharge=1000000", "charge=1e-22", "rest=1000000000", "rest=1e9"):
            self.assertEqual(self.cycle(word, "budget=1")[1], "")
        self.ends("refusal 7 (sub-steps)", 0, "charge=1", "dt=86400", "repeat=2")

    def test_what_was_run(self):
        out, _ = self.cycle("lfp", "discharge=3", " rest = 600 ", "charge=1.5", "charge=2e-5", "budget=2", "repeat=7", "dt=0.5", "v_max=4", "temperature=310")
        self.assertIn("\n# lfp discharge=3 A rest=600 s charge=1.5 A charge=2e-5 A repeat=7 dt=0.5 s budget=2 temperature=310 K v_min=3 V v_max=4 V\n", out)

    def test_help(self):
        for word in ("help", "--help", "-h"):
            out, message = self.cycle(word)
            self.assertEqual((out.splitlines()[0], message), ("cycle [lfp | nmc | CELL FILE] PHASE=NUMBER .. [repeat=N] [budget=N] [NAME=VALUE ..]", ""))
            names = [line.split()[0].split("=")[0] for line in out.splitlines() if line.startswith("    ")]
            self.assertEqual((len(names), {"current", "time"} & set(names)), (35, set()))
            self.assertTrue({"charge", "rest", "discharge", "repeat", "budget", "dt", "temperature"} <= set(names))

    def test_faults(self):
        for arguments, words in [
            ([], NO_PHASE),
            (["lfp", "repeat=2", "dt=5"], NO_PHASE),
            (["charge="], f"'charge=': {NOT_DECIMAL}"),
            (["rest=long"], f"'rest=long': {NOT_DECIMAL}"),
            (["discharge=nan"], f"'discharge=nan': {NOT_DECIMAL}"),
            (["discharge=1.234567890123456789"], "'discharge=1.234567890123456789': expected at most 15 digits, and at most 22 places"),
            *(([f"{name}={value}"], f"'{name}={value}': {CURRENT_RANGE}") for name in ("charge", "discharge") for value in ("0", "-0", "-5", "1000000.001", "1e7")),
            *(([f"rest={value}"], f"'rest={value}': {REST_RANGE}") for value in ("-1", "-1e-22", "1000000001", "1e10")),
            (["rest=1"] * 8 + ["charge=5"], "'charge=5': a cycle has at most 8 phases"),
            *(([f"rest=1", f"repeat={value}"], f"'repeat={value}': out of range, expected 1 to 1000") for value in ("0", "-1", "0.5", "1001", "1e15")),
            *(([f"rest=1", f"budget={value}"], f"'budget={value}': out of range, expected 1 to 100000") for value in ("0", "-1", "0.5", "100001", "1e15")),
            (["rest=1", "repeat=1.5"], "'repeat=1.5': expected a whole number"),
            (["rest=1", "budget=99.5"], "'budget=99.5': expected a whole number"),
            (["rest=1", "repeat=often"], f"'repeat=often': {NOT_DECIMAL}"),
            (["repeat=2", "rest=1", "repeat=2"], "'repeat=2': given twice"),
            (["budget=2", "rest=1", "budget=3"], "'budget=3': given twice"),
            (["rest=1", "current=5"], f"'current=5': {IN_PHASES}"),
            (["time=soon", "rest=1"], f"'time=soon': {IN_PHASES}"),
            (["rest=1", "rest"], "'rest': expected NAME=VALUE"),
            (["rest=1", "dt=0"], "'dt=0': out of range, expected above 0 to 86400 s"),
            (["rest=1", "dt=1", "dt=1"], "'dt=1': given twice"),
            (["rest=1", "restt=1"], "'restt=1': no such name: 'cycle help' lists them"),
            (["rest=1", "temperature=500", "charge=0"], "'temperature=500': out of range, expected 200 to 400 K"),
            (["rest=1", ""], "an argument is empty or longer than 4,096 bytes"),
            (["none.txt", "rest=1"], "none.txt: No such file or directory"),
        ]:
            with self.subTest(arguments):
                self.assertEqual(self.cycle(*arguments), ("", words + "\n"))


if __name__ == "__main__":
    if not PROGRAM.exists():
        sys.exit(f"test_cycle.py: no program {PROGRAM.relative_to(TOP)}; 'rt run' in crates/cycle makes it")
    unittest.main()
