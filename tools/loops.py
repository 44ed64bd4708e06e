#!/usr/bin/env python3
"""Counts the `while` and `loop` of src/: those that step a counter of their condition by one, and the others.

usage: python3 tools/loops.py [list]     at the top of a checkout; list: each loop with its function
"""
import glob
import re
import sys

by_hand, others = [], []
for path in sorted(glob.glob("crates/*/src/*.rt")):
    lines = open(path).read().split("\n")
    function = ""
    for n, line in enumerate(lines):
        named = re.match(r'\s*(?:pub(?:\(crate\))? )?(?:extern "C" )?fn (\w+)', line)
        if named:
            function = named[1]
        loop = re.match(r"(\s*)(?:'\w+: )?(while .*|loop) \{", line)
        if not loop:
            continue
        end = next(k for k in range(n + 1, len(lines)) if re.match(loop[1] + r"\}", lines[k]))
        used = set(re.findall(r"\b[a-z_]\w*\b", loop[2]))
        steps = [re.match(r"\s*(\w+) (?:[+-]= 1|= \1 [+-] 1);", body) for body in lines[n + 1:end]]
        counted = any(step and (loop[2] == "loop" or step[1] in used) for step in steps)
        (by_hand if counted else others).append((path.split("/")[1], function, loop[2]))
print(f"{len(by_hand)} count by hand, {len(others)} others")
if sys.argv[1:] == ["list"]:
    for kind, loops in (("by hand", by_hand), ("other", others)):
        for crate, function, head in loops:
            print(f"{kind}: {crate}::{function}: {head}")
