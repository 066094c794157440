#!/usr/bin/env python3
"""Works out the stack that each call of the archive needs at most, for any input, from the archive's machine code: the frame of each
function, and the deepest chain of calls below it. Fails where a call needs more than persimmonjib.h says (PJ_STACK_.._BYTES).

    harness/c/stack.py ARCHIVE HEADER

memcpy and memset are not in the archive and count with their return address alone.
"""
import re
import subprocess
import sys

OUTSIDE = {"memcpy", "memset"}


def fail(message):
    sys.exit(f"stack: {message}")


def functions(archive):
    """Each function's instructions, as text, and the functions that it calls or jumps to."""
    listing = subprocess.run(["objdump", "-dr", "--no-show-raw-insn", archive], check=True, capture_output=True, text=True).stdout
    found, name, entered = {}, None, False
    for line in listing.splitlines():
        head = re.match(r"[0-9a-f]+ <(.+)>:$", line)
        if head:
            name = head.group(1)
            found[name] = ([], set())
            continue
        target = re.match(r"\s+[0-9a-f]+: R_X86_64_\w+\s+(\S+?)(?:[+-]0x[0-9a-f]+)?$", line)
        if target and name and entered:
            found[name][1].add(re.sub(r"^\.text\.", "", target.group(1)))
            continue
        instruction = re.match(r"\s+[0-9a-f]+:\t(.*)$", line)
        if instruction and name:
            text = re.sub(r"\s+", " ", instruction.group(1).split("#")[0]).strip()
            found[name][0].append(text)
            entered = re.match(r"(call|jmp|j[a-z]+)\b", text) is not None
            if text.startswith("call") and "*" in text:
                fail(f"{name} calls through a pointer")
    return found


def frame(name, instructions):
    """Bytes that a function takes of the stack: what it pushes and what it takes off %rsp, on whatever path."""
    total, loop = 0, 0
    for text in instructions:
        taken = re.match(r"sub \$0x([0-9a-f]+),%(rsp|r11)$", text)
        if text.startswith("push"):
            total += 8
        elif text == "mov %rsp,%r11":
            loop = 1
        elif taken and taken.group(2) == "r11" and loop == 1:
            # a loop takes a page at a time off %rsp until it is as low as %r11
            total, loop = total + int(taken.group(1), 16), 2
        elif taken and taken.group(2) == "rsp":
            total, loop = (total, 0) if loop == 2 else (total + int(taken.group(1), 16), loop)
        elif re.match(r"(mov|lea|and|or|sub|add|xchg)\b.*,%rsp$", text) and not re.match(r"(add|sub) \$0x[0-9a-f]+,%rsp$", text):
            fail(f"{name} sets %rsp in a way that is not known here: {text}")
    return total


def deepest(name, found, below, path):
    if name in OUTSIDE:
        return 8
    if name not in found:
        fail(f"{name} is not in the archive")
    if name in path:
        fail(f"{name} calls itself")
    if name not in below:
        instructions, callees = found[name]
        calls = [deepest(callee, found, below, path | {name}) for callee in callees if callee != name]
        below[name] = 8 + frame(name, instructions) + max(calls, default=0)
    return below[name]


def main():
    if len(sys.argv) != 3:
        fail("ARCHIVE HEADER")
    found, below = functions(sys.argv[1]), {}
    header = open(sys.argv[2], encoding="utf-8").read()
    calls = re.findall(r"^uint64_t (pj_\w+)\(", header, re.M)
    if len(calls) != 12:
        fail(f"{len(calls)} prototypes in the header, not 12")
    worst = []
    for call in calls:
        name = f"PJ_STACK_{call[3:].upper()}_BYTES"
        stated = re.search(rf"\b{name} = (\d+)", header)
        if not stated:
            fail(f"the header has no {name}")
        needed = deepest(call, found, below, frozenset())
        print(f"{call:24} {needed:7} bytes of stack; the header says {stated.group(1)}")
        if needed > int(stated.group(1)):
            worst.append(call)
    if worst:
        fail(f"{', '.join(worst)}: more than the header says")


main()
