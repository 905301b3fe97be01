#!/usr/bin/env python3
"""Moves modules of theorems from a crate's specs/ to its proofs/, and turns every path to them.

usage: python3 tools/move_laws.py CRATE MODULE..     in the repository

A must-fail edit of a definition is tried only where no file of specs/ fails to be read; so theorems that rest on an edited definition stand in proofs/.
"""
import os
import re
import subprocess
import sys

crate, modules = sys.argv[1], sys.argv[2:]
top = os.path.join(os.path.dirname(os.path.abspath(__file__)), "..")
specs, proofs = (os.path.join(top, "crates", crate, d) for d in ("specs", "proofs"))
os.makedirs(proofs, exist_ok=True)


def text_of(p):
    if not os.path.exists(p):
        return ""
    with open(p, encoding="utf-8") as f:
        return f.read()


def write(p, t):
    with open(p, "w", encoding="utf-8") as f:
        f.write(t)


lib, own = text_of(specs + "/Lib.antt").splitlines(), text_of(proofs + "/Lib.antt").splitlines()
for m in modules:
    subprocess.run(["git", "mv", f"{specs}/{m}.antt", f"{proofs}/{m}.antt"], check=True)
wanted = [l for l in lib if l.replace("pub mod ", "") in modules]
write(specs + "/Lib.antt", "\n".join(l for l in lib if l not in wanted) + "\n")
write(proofs + "/Lib.antt", "\n".join(own + wanted) + "\n")
path = re.compile(rf"Rattle\.{crate}\.specs\.({'|'.join(modules)})\b")
for folder, dirs, files in os.walk(os.path.join(top, "crates")):
    dirs[:] = [d for d in dirs if d != "out"]
    for f in files:
        if f.endswith((".rt", ".antt", ".edit")):
            p = os.path.join(folder, f)
            t = text_of(p)
            n = path.sub(rf"Rattle.{crate}.proofs.\1", t)
            if n != t:
                write(p, n)
pages = [os.path.join(top, "README.md")] + [os.path.join(top, "docs", f) for f in os.listdir(os.path.join(top, "docs")) if f.endswith(".md")]
for p in pages:
    t = text_of(p)
    n = re.sub(rf"crates/{crate}/specs/({'|'.join(modules)})\b", rf"crates/{crate}/proofs/\1", t)
    if n != t:
        write(p, n)
