#!/usr/bin/env python3
"""Turns a recorded load from CSV into the text that the program `replay` takes, and back.

    tools/drive_cycle.py to-text < drive.csv > drive.txt
    tools/drive_cycle.py to-csv < drive.txt > drive.csv

The CSV has the header `interval_s,current_a` and then a line for each step: the interval in s and the current in A, a charge negative, as decimals.
A line of the text has the same two numbers as binary64: 16 hexadecimal digits in upper case, a tab, 16 digits, a line feed. Each decimal is read as the binary64
nearest to it, and written as the shortest that reads back. What is wrong goes to standard error in one line, with the line's number, and then nothing goes to
standard output. Whether an interval or a current is in its range, `replay` says.
"""
import re
import struct
import sys

HEADER = "interval_s,current_a"
DECIMAL = re.compile(r"[+-]?([0-9]+\.?[0-9]*|\.[0-9]+)([eE][+-]?[0-9]+)?")
LINE = re.compile(rb"([0-9A-F]{16})\t([0-9A-F]{16})\n")
LINE_BYTES = 34
MOST_BYTES = 65536
MOST_LINES = MOST_BYTES // LINE_BYTES


class BadInput(Exception):
    """What is wrong with the input, in one line for the reader."""


def shown(text):
    """A text as it may stand in a message of one line."""
    plain = ascii(text)[1:-1]
    return plain if len(plain) <= 60 else plain[:60] + ".."


def digits_of(word, where):
    """A decimal as the 16 digits of its binary64."""
    word = word.strip()
    if not DECIMAL.fullmatch(word):
        raise BadInput(f"{where}: expected a decimal number, such as 0.5 or -2e-3, found: {shown(word)}")
    value = float(word)
    if abs(value) == float("inf"):
        raise BadInput(f"{where}: too large for a binary64: {shown(word)}")
    return struct.pack(">d", value).hex().upper()


def decimal_of(digits, where):
    """The shortest decimal that reads back as the binary64 with these digits."""
    value, = struct.unpack(">d", bytes.fromhex(digits.decode("ascii")))
    if value - value != 0:
        raise BadInput(f"{where}: {digits.decode('ascii')} is no finite number, so it has no decimal")
    return repr(value).removesuffix(".0")


def to_text(data):
    """The text of a CSV. Blanks around a number, blank lines, CR LF and a byte order mark are taken."""
    try:
        lines = data.decode("utf-8-sig").split("\n")
    except UnicodeDecodeError as error:
        raise BadInput(f"line {data[:error.start].count(10) + 1}: no text") from error
    if re.sub(r"\s", "", lines[0]) != HEADER:
        raise BadInput(f"line 1: expected the header {HEADER}, found: {shown(lines[0].strip())}")
    out = []
    for place, line in enumerate(lines[1:], 2):
        if not line.strip():
            continue
        words = line.split(",")
        if len(words) != 2:
            raise BadInput(f"line {place}: expected an interval and a current with a comma between them, found: {shown(line.strip())}")
        out.append("\t".join(digits_of(word, f"line {place}") for word in words) + "\n")
    warn(len(out), LINE_BYTES * len(out))
    return "".join(out).encode("ascii")


def to_csv(data):
    """The CSV of a text."""
    out = [HEADER + "\n"]
    for at in range(0, len(data), LINE_BYTES):
        where, line = f"line {at // LINE_BYTES + 1}", data[at:at + LINE_BYTES]
        found = LINE.fullmatch(line)
        if not found:
            piece = shown(line.decode("latin-1"))
            raise BadInput(f"{where}: expected 16 digits 0-9 and A-F, a tab, 16 such digits and a line feed, found: {piece}")
        out.append(",".join(decimal_of(digits, where) for digits in found.groups()) + "\n")
    warn(len(out) - 1, len(data))
    return "".join(out).encode("ascii")


def warn(lines, size):
    """A text that replay refuses is written all the same: it can be cut."""
    if size > MOST_BYTES:
        print(f"drive_cycle.py: warning: {lines:,} lines are {size:,} bytes of text; replay refuses more than {MOST_BYTES:,}, so take at most {MOST_LINES:,} lines",
              file=sys.stderr)


def main():
    ways = {"to-text": to_text, "to-csv": to_csv}
    if sys.argv[1:] in (["-h"], ["--help"]):
        print(__doc__.strip())
        return
    if len(sys.argv) != 2 or sys.argv[1] not in ways:
        sys.exit("drive_cycle.py: expected to-text or to-csv; --help says more")
    try:
        sys.stdout.buffer.write(ways[sys.argv[1]](sys.stdin.buffer.read()))
        sys.stdout.buffer.flush()
    except BadInput as error:
        sys.exit(f"drive_cycle.py: {error}")


if __name__ == "__main__":
    main()
