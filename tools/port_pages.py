#!/usr/bin/env python3
"""Spells definitions and lemmas in pages as tools/port_names.py spelled them in the crates: between backquotes alone, so that prose stays.

    tools/port_pages.py FILE..      at the top of the repository, once
"""

import re
import sys

sys.dont_write_bytecode = True
from port_names import LIST, read, turned, write


def main(paths):
    new = dict(line.split("\t") for line in read(LIST).splitlines())
    for path in paths:
        write(path, re.sub(r"`[^`]*`", lambda it: turned(it[0], new), read(path)))


if __name__ == "__main__":
    main(sys.argv[1:])
