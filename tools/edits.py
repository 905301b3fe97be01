#!/usr/bin/env python3
"""Lists the must-fail edits whose text does not stand exactly once in its file. usage: python3 tools/edits.py [CRATE..]"""
import glob
import os
import sys

top = os.path.join(os.path.dirname(os.path.abspath(__file__)), "..", "crates")
bad = 0
for c in sys.argv[1:] or sorted(os.listdir(top)):
    for e in sorted(glob.glob(os.path.join(top, c, "must-fail", "*.edit"))):
        with open(e, encoding="utf-8") as f:
            lines = f.read().split("\n")
        text, path = None, None
        for line in lines:
            if line.startswith("file:"):
                path = os.path.join(top, c, line[5:].strip())
                with open(path, encoding="utf-8") as f:
                    text = f.read()
            elif line.startswith("old:"):
                old = line[5:]
            elif line.startswith("new:"):
                n = text.count(old)
                if n != 1:
                    bad += 1
                    print(f"{c}/{os.path.basename(e)}: {n} times: {old}")
                text = text.replace(old, line[5:], 1)
print(bad, "bad")
