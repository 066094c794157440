#!/usr/bin/env python3
"""Holds the program replay to its arguments and endings, on the drive cycle and on loads that are wrong. `rt ci` makes the program, and so does `rt run` in crates/replay.

    python3 harness/rows/test_replay.py
"""
import subprocess
import sys
import tempfile
import unittest
from pathlib import Path

TOP = Path(__file__).resolve().parent.parent.parent
PROGRAM = TOP / "crates" / "replay" / "out" / "replay"
DRIVE = (TOP / "crates" / "replay" / "data" / "drive.txt").read_bytes()
CELL = (TOP / "crates" / "discharge" / "data" / "cell.txt").read_text()
ROWS = (TOP / "crates" / "replay" / "stdout").read_text().splitlines(keepends=True)[:-2]
SIX = DRIVE[:6 * 34]
REST = b"3FF0000000000000\t0000000000000000\n"  # 1 s at 0 A
NAN, INFINITE = b"7FF8000000000000", b"7FF0000000000000"
IN_LOAD = "a replay has current, dt and time from its load file"


class ReplayTest(unittest.TestCase):
    def setUp(self):
        folder = tempfile.TemporaryDirectory()
        self.addCleanup(folder.cleanup)
        self.folder = Path(folder.name)

    def replay(self, *arguments, load=DRIVE):
        """Standard output and standard error, beside a file load.txt."""
        (self.folder / "load.txt").write_bytes(load)
        done = subprocess.run([PROGRAM, *arguments], cwd=self.folder, capture_output=True, text=True, check=False)
        return done.stdout, done.stderr

    def ends(self, load, ending, count, *arguments):
        """The first rows of the drive cycle, and the ending."""
        out, message = self.replay("load=load.txt", *arguments, load=load)
        self.assertEqual(message, "")
        lines = out.splitlines(keepends=True)
        self.assertEqual(lines[:-2], ROWS[:1 + count])
        self.assertEqual(lines[-1], f"# ended by {ending} after {count} row{'' if count == 1 else 's'}\n")

    def test_endings(self):
        self.ends(DRIVE, "done", 311)
        self.ends(SIX, "done", 6)
        self.ends(SIX[:34], "done", 1)
        self.ends(b"", "done", 0)
        out, _ = self.replay("load=load.txt", "v_min=3.6", load=DRIVE)
        rows = out.splitlines()[1:-2]
        self.assertEqual([row[-1] for row in rows], ["0"] * (len(rows) - 1) + ["1"])
        self.assertIn(f"# ended by voltage after {len(rows)} rows\n", out)

    def test_refused_lines(self):
        for line in (b"\n", REST[:-1], REST[:-2], REST.lower(), REST[:-1] + b"\r\n", b" " + REST, REST.replace(b"\t", b" "), REST.replace(b"3", b"G"), b"\xff" * 34):
            with self.subTest(line):
                self.ends(SIX + line, "refusal 11 (line) at line 7", 6)
                self.ends(line + SIX, "refusal 11 (line) at line 1", 0)
        for interval, current, words in [
            (REST[:16], NAN, "refusal 3 (load)"),
            (NAN, INFINITE, "refusal 3 (load)"),
            (NAN, REST[:16], "refusal 4 (interval)"),
            (b"0000000000000000", REST[:16], "refusal 4 (interval)"),
        ]:
            self.ends(SIX + interval + b"\t" + current + b"\n" + b"no line", words + " at line 7", 6)

    def test_length(self):
        out, _ = self.replay("load=load.txt", load=1927 * REST)
        self.assertEqual((len(out.splitlines()), out.splitlines()[-1]), (1930, "# ended by done after 1927 rows"))
        out, _ = self.replay("load=load.txt", load=1927 * REST + REST[:18])
        self.assertEqual((len(out.splitlines()), out.splitlines()[-1]), (1930, "# ended by refusal 11 (line) at line 1928 after 1927 rows"))
        for load in (1927 * REST + REST[:19], 1928 * REST, b"\n" * 65537, b"\n" * 200000):
            self.ends(load, "refusal 12 (file)", 0)

    def test_cells(self):
        for named, text in (("cell.txt", CELL), ("own.txt", CELL + "dt = 3\ntime = 5\n")):
            (self.folder / named).write_text(text)
            out, message = self.replay(named, "load=load.txt")
            self.assertEqual(("".join(out.splitlines(keepends=True)[:-2]), message), ("".join(ROWS), ""))
            self.assertIn(f"\n# {named} load=load.txt temperature=298.15 K v_min=3 V v_max=4.2 V\n", out)
        warm, _ = self.replay("lfp", "temperature=310", "load=load.txt", "v_max=4")
        self.assertIn("\n# lfp load=load.txt temperature=310 K v_min=3 V v_max=4 V\n", warm)

    def test_help(self):
        for word in ("help", "--help", "-h"):
            out, message = self.replay(word)
            self.assertEqual((out.splitlines()[0], message), ("replay [lfp | nmc | CELL FILE] load=FILE [NAME=VALUE ..]", ""))
            names = [line.split()[0] for line in out.splitlines() if line.startswith("    ")]
            self.assertEqual((len(names), {"current", "dt", "time"} & set(names)), (29, set()))

    def test_faults(self):
        for arguments, words in [
            ([], "no load: expected load=FILE"),
            (["nmc"], "no load: expected load=FILE"),
            (["load="], "'load=': expected load=FILE"),
            (["load=load.txt", "load=load.txt"], "'load=load.txt': given twice"),
            (["load=load.txt", "current=5"], f"'current=5': {IN_LOAD}"),
            (["dt=1", "load=load.txt"], f"'dt=1': {IN_LOAD}"),
            (["nmc", "load=load.txt", "time=soon"], f"'time=soon': {IN_LOAD}"),
            (["load=none.txt"], "none.txt: No such file or directory"),
            (["load=."], ".: Is a directory"),
            (["none.txt", "load=load.txt"], "none.txt: No such file or directory"),
            (["load=load.txt", "colour=5"], "'colour=5': no such name: 'replay help' lists them"),
            (["load=load.txt", "temperature=500"], "'temperature=500': out of range, expected 200 to 400 K"),
            (["load=load.txt", "v_min=3", "v_min=3"], "'v_min=3': given twice"),
            (["load=load.txt", ""], "an argument is empty or longer than 4,096 bytes"),
        ]:
            with self.subTest(arguments):
                self.assertEqual(self.replay(*arguments), ("", words + "\n"))


if __name__ == "__main__":
    if not PROGRAM.exists():
        sys.exit(f"test_replay.py: no program {PROGRAM.relative_to(TOP)}; 'rt run' in crates/replay makes it")
    unittest.main()
