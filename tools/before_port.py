#!/usr/bin/env python3
"""Quotes two record fields of crates/boundary_laws/specs/StepLists.antt, so that the kit's port.py sees an older form.

    tools/before_port.py        at the top of the repository, once, before port.py

port.py takes a bare `j_pos` in a .antt file for a sign that the files were turned already, and then leaves out most of its
steps. Quoted, as every other field with an underscore is there, it means the same.
"""

import re

PATH = "crates/boundary_laws/specs/StepLists.antt"

with open(PATH, encoding="utf-8") as f:
    text = f.read()
turned = re.sub(r"(?<![\w«])(j_neg|j_pos)(?![\w»])", r"«\1»", text)
if turned == text:
    raise SystemExit(f"before_port: {PATH} has no bare j_neg or j_pos")
with open(PATH, "w", encoding="utf-8") as f:
    f.write(turned)
