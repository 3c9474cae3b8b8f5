#!/usr/bin/env python3
"""Sizes of the static library: text and data, what it needs from outside, the saved states, and the deepest stack of each exported function from the
disassembly. A missed goal ends the script with status 1.

The goal of the text binds what a controller links: the functions that the five of a gateway call, directly or not, and all constants of the archive. Their
sizes are those of the symbol table. A C program that calls these five and is linked with `-Wl,--gc-sections` was compared by its map: it has the same
functions and no other, 28,252 bytes; and 319 bytes of constants, where the archive has 335, since the linker keeps one of two equal ones. Between the
functions it leaves some bytes empty, which are not counted here.

A function's frame is what its prologue pushes and takes from rsp; a path adds 8 bytes for each return address. A frame of many pages is taken page by
page, in a loop down to r11, which is set to their end before: there all pages are counted, and not the one in the loop. The code has no recursion
and takes no other stack (the script stops if it finds a call through a pointer, a cycle, an aligned rsp or another loop over rsp). `bench/run stack`
measures the same by painting.
"""

import re
import subprocess
import sys
from pathlib import Path

ROOT = Path(__file__).resolve().parent.parent
LIBRARY = ROOT / "target/staticlib/libgateway.a"
HEADER = ROOT / "include/opacity.h"

# The goals: each is below so many bytes. That of the text binds the functions that run in a gateway, that of the stack all but one.
TEXT, STACK, SAVED = 32 * 1024, 8 * 1024, 256
GATEWAY = "opacity_decode", "opacity_fresh", "opacity_accept", "opacity_start", "opacity_offer"
BEFORE_DELIVERY = "opacity_explore"


def output(*command):
    return subprocess.run(command, check=True, capture_output=True, text=True).stdout


def functions():
    """For each function its frame in bytes and whom it calls."""
    frames, calls, name, called, paged, before = {}, {}, None, False, False, None
    for line in output("objdump", "-dr", "-M", "intel", "--no-show-raw-insn", str(LIBRARY)).splitlines():
        if start := re.match(r"[0-9a-f]+ <(.+)>:", line):
            name = start[1]
            frames[name], calls[name] = 0, set()
        elif target := re.search(r"R_X86_64_(?:PLT32|PC32)\s+(\S+?)-0x4$", line):
            if called:
                calls[name].add(target[1].removeprefix(".text."))
            called = False
        elif code := re.match(r"\s*[0-9a-f]+:\s+(\S+)\s*(.*)", line):
            operation, operands = code[1], code[2]
            called = operation == "call" or operation.startswith("j")
            if operation == "push":
                frames[name] += 8
            elif operation == "sub" and before == ("mov", "r11,rsp") and (pages := re.match(r"r11,(0x[0-9a-f]+)", operands)):
                frames[name] += int(pages[1], 16)
                paged = True
            elif operation == "sub" and (taken := re.match(r"rsp,(0x[0-9a-f]+)", operands)):
                frames[name] += 0 if paged else int(taken[1], 16)
                paged = False
            elif operation == "and" and operands.startswith("rsp") or operation == "call" and not re.match(r"[0-9a-f]+ ", operands):
                sys.exit(f"{name}: not understood: {line.strip()}")
            elif operation == "cmp" and operands.startswith("rsp") and operands != "rsp,r11":
                sys.exit(f"{name}: not understood: {line.strip()}")
            before = operation, operands
    return frames, calls


def deepest(name, frames, calls, above=()):
    """The deepest path from a function: its bytes and the functions on it. What the C library takes beyond its return address is not known here."""
    if name in above:
        sys.exit(f"{name} calls itself")
    if name not in frames:
        return 0, (name,)
    below = [deepest(callee, frames, calls, above + (name,)) for callee in sorted(calls[name])]
    depth, path = max(((8 + depth, path) for depth, path in below), default=(0, ()))
    return frames[name] + depth, (name,) + path


def reached(names, calls):
    """The functions of the archive that these call, directly or not, and they themselves."""
    found, left = set(), list(names)
    while left:
        name = left.pop()
        if name in calls and name not in found:
            found.add(name)
            left += calls[name]
    return found


def text_size(calls):
    """Text, data and bss of the archive, and what it needs from outside; gives the bytes of text that the functions of a gateway need, constants
    included."""
    _, *members = output("size", str(LIBRARY)).splitlines()
    sums = [sum(int(line.split()[column]) for line in members) for column in range(3)]
    print("text {}, data {}, bss {}".format(*sums))
    symbols = [line.split() for line in output("nm", "-S", str(LIBRARY)).splitlines()]
    sizes = {symbol[3]: int(symbol[1], 16) for symbol in symbols if len(symbol) == 4 and symbol[2] in "tT"}
    if sizes.keys() != calls.keys():
        sys.exit(f"not the same functions: {sorted(sizes.keys() ^ calls.keys())}")
    constants = sums[0] - sum(sizes.values())
    needed = reached(GATEWAY, calls)
    text = sum(sizes[name] for name in needed) + constants
    print(f"text of the {len(GATEWAY)} functions that run in a gateway: {text}, constants {constants}; without", ", ".join(sorted(calls.keys() - needed)))
    undefined = sorted({line.split()[-1] for line in output("nm", "-u", str(LIBRARY)).splitlines() if " U " in line})
    print("from outside:", ", ".join(undefined))
    return text


def stack_depths(frames, calls):
    """The deepest path of each exported function, in bytes."""
    depths = {}
    for name in sorted(name for name in frames if name.startswith("opacity_")):
        depths[name], path = deepest(name, frames, calls)
        print(f"stack of {name}: {depths[name]} bytes, {' > '.join(f'{step} {frames[step]}' if step in frames else step for step in path)}")
    return depths


def saved_sizes():
    """The bytes of the saved states."""
    header = HEADER.read_text()
    sizes = {name: int(re.search(rf"#define OPACITY_{name.upper()}_BYTES (\d+)", header)[1]) for name in ("estimator", "enforcer")}
    print("saved:", ", ".join(f"{name} {size} bytes" for name, size in sizes.items()))
    return sizes


def main():
    frames, calls = functions()
    sizes = [("text of the functions that run in a gateway", text_size(calls), TEXT)]
    sizes += [(f"stack of {name}", depth, STACK) for name, depth in stack_depths(frames, calls).items() if name != BEFORE_DELIVERY]
    sizes += [(f"saved {name}", size, SAVED) for name, size in saved_sizes().items()]
    missed = [(name, size) for name, size, goal in sizes if goal <= size]
    print(f"Goals: text of those in a gateway below {TEXT} bytes, stack below {STACK} but of {BEFORE_DELIVERY}, saved states below {SAVED}.")
    for name, size in missed:
        print(f"  missed: {name} has {size} bytes")
    if missed:
        sys.exit(1)
    print("  met")


main()
