#!/usr/bin/env python3
"""Puts a table between the markers of a page.

    put_table.py TABLE PAGE
"""
import os
import sys

BEGIN, END = "<!-- table -->", "<!-- end of table -->"


def main():
    if len(sys.argv) != 3:
        sys.exit("put_table: say which table and which page")
    table, page = sys.argv[1:]
    try:
        with open(table, encoding="utf-8") as file:
            lines = file.read().strip()
        with open(page, encoding="utf-8") as file:
            text = file.read()
    except OSError as error:
        sys.exit(f"put_table: {error.filename}: {error.strerror}")
    if text.count(BEGIN) != 1 or text.count(END) != 1:
        sys.exit(f"put_table: {page} has not one pair of markers")
    before, rest = text.split(BEGIN)
    fresh = page + ".fresh"
    with open(fresh, "w", encoding="utf-8") as file:
        file.write(f"{before}{BEGIN}\n\n{lines}\n\n{END}{rest.split(END)[1]}")
    os.replace(fresh, page)


if __name__ == "__main__":
    main()
