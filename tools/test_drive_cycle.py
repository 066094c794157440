#!/usr/bin/env python3
"""Holds drive_cycle.py to what it must write: both ways, what is wrong with the input, and the example of crates/replay/data.

    python3 tools/test_drive_cycle.py
"""
import random
import struct
import subprocess
import sys
import unittest
from pathlib import Path

TOP = Path(__file__).resolve().parent.parent
SCRIPT = TOP / "tools" / "drive_cycle.py"
DATA = TOP / "crates" / "replay" / "data"
HEADER = b"interval_s,current_a\n"
FORM = "expected 16 digits 0-9 and A-F, a tab, 16 such digits and a line feed"
LINE = b"404E000000000000\t4000000000000000\n"


def run(way, given):
    """Exit status, standard output and standard error."""
    done = subprocess.run([sys.executable, SCRIPT, way], input=given, capture_output=True, check=False)
    return done.returncode, done.stdout, done.stderr.decode()


def bits(value):
    return struct.pack(">d", value).hex().upper().encode()


class DriveCycleTest(unittest.TestCase):
    def test_one_line(self):
        self.assertEqual(run("to-text", HEADER + b"60,2\n"), (0, LINE, ""))
        self.assertEqual(run("to-csv", LINE), (0, HEADER + b"60,2\n", ""))
        self.assertEqual(run("to-text", HEADER), (0, b"", ""))
        self.assertEqual(run("to-csv", b""), (0, HEADER, ""))

    def test_what_spreadsheets_write(self):
        for csv in (b"\xef\xbb\xbfinterval_s,current_a\r\n60,2\r\n\r\n", b"interval_s, current_a\n 60 , +2.0 ", HEADER + b"6e1,.2E+1"):
            self.assertEqual(run("to-text", csv), (0, LINE, ""))

    def test_numbers(self):
        for decimal, value in [("-0", -0.0), ("0.1", 0.1), ("-0.0025", -0.0025), ("5e-324", 5e-324), ("1.7976931348623157e+308", sys.float_info.max), ("1e+22", 1e22)]:
            text = bits(1.0) + b"\t" + bits(value) + b"\n"
            csv = HEADER + b"1," + decimal.encode() + b"\n"
            self.assertEqual(run("to-text", csv), (0, text, ""))
            self.assertEqual(run("to-csv", text), (0, csv, ""))

    def test_there_and_back(self):
        draw, text = random.Random(1), b""
        for _ in range(500):
            pair = [draw.getrandbits(64) & ~(1 << 52) for _ in range(2)]
            text += b"%016X\t%016X\n" % tuple(pair)
        status, csv, message = run("to-csv", text)
        self.assertEqual((status, message), (0, ""))
        self.assertEqual(run("to-text", csv), (0, text, ""))

    def test_example(self):
        csv, text = (DATA / "drive.csv").read_bytes(), (DATA / "drive.txt").read_bytes()
        self.assertEqual(run("to-text", csv), (0, text, ""))
        self.assertEqual(run("to-csv", text), (0, csv, ""))

    def test_length(self):
        self.assertEqual(run("to-csv", 1927 * LINE)[2], "")
        for way, given in (("to-csv", 1928 * LINE), ("to-text", HEADER + 1928 * b"60,2\n")):
            status, out, message = run(way, given)
            self.assertEqual((status, out.count(b"\n")), (0, 1928 + (way == "to-csv")))
            self.assertEqual(message, "drive_cycle.py: warning: 1,928 lines are 65,552 bytes of text; replay refuses more than 65,536, so take at most 1,927 lines\n")

    def test_faults(self):
        for way, given, words in [
            ("to-text", b"", "line 1: expected the header interval_s,current_a, found: "),
            ("to-text", b"60,2\n", "line 1: expected the header interval_s,current_a, found: 60,2"),
            ("to-text", HEADER + b"60;2\n", "line 2: expected an interval and a current with a comma between them, found: 60;2"),
            ("to-text", HEADER + b"60,2\n60,2,3\n", "line 3: expected an interval and a current with a comma between them"),
            ("to-text", HEADER + b"60,two\n", "line 2: expected a decimal number, such as 0.5 or -2e-3, found: two"),
            ("to-text", HEADER + b"60,\n", "line 2: expected a decimal number"),
            ("to-text", HEADER + b"\n\n60,nan\n", "line 4: expected a decimal number, such as 0.5 or -2e-3, found: nan"),
            ("to-text", HEADER + b"1_0,2\n", "line 2: expected a decimal number"),
            ("to-text", HEADER + b"60,-1e999\n", "line 2: too large for a binary64: -1e999"),
            ("to-text", HEADER + b"60,2\n\xff", "line 3: no text"),
            ("to-csv", LINE + LINE.lower(), f"line 2: {FORM}, found: 404e000000000000\\t4000000000000000\\n"),
            ("to-csv", LINE[:-1], f"line 1: {FORM}"),
            ("to-csv", LINE.replace(b"\n", b"\r\n"), f"line 1: {FORM}"),
            ("to-csv", LINE.replace(b"\t", b" "), f"line 1: {FORM}"),
            ("to-csv", LINE + b"\n" + LINE, f"line 2: {FORM}"),
            ("to-csv", 2 * LINE + bits(1.0) + b"\t7FF8000000000000\n", "line 3: 7FF8000000000000 is no finite number"),
            ("to-csv", b"FFF0000000000000\t" + LINE[17:], "line 1: FFF0000000000000 is no finite number"),
            ("to-svg", b"", "expected to-text or to-csv; --help says more"),
        ]:
            with self.subTest(words):
                status, out, message = run(way, given)
                self.assertEqual((status, out), (1, b""))
                self.assertEqual(len(message.splitlines()), 1, message)
                self.assertTrue(message.startswith("drive_cycle.py: " + words), message)


if __name__ == "__main__":
    unittest.main()
