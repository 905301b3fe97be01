#!/usr/bin/env python3
"""Spells this repository's own definitions and lemmas as today's Rattle spells names: words in snake case, types in camel case.

usage: python3 tools/respell.py [FOLDER]      run once, right after port.py, in a repository with crates/

Names of the kit's libraries stay: a dash there joins two names. A name with a dash that a file of specs/ or proofs/ declares gets underscores, or, if it
begins with a capital, one word in camel case. In comments and pages only what stands in backticks is turned. Must-fail edits are turned as the text is.
"""
import os
import re
import sys

top = os.path.abspath(sys.argv[1] if len(sys.argv) > 1 else ".")
crates = os.path.join(top, "crates")
WORD = r"[^\s(){}.;,@\"«»◌`λ↦|\[\]:]+"
USE = re.compile(r"use ([^\s;{]+)(\{[^}]*\})?(?: as ([^\s;]+))?", re.S)
# Bound by a pattern or an import, which the declarations do not show.
ALSO = set(
    "q-is p-is same-r p'-is positive-as code-subtree code-zone code-fault code-formulas code-own code-short tree-fits right-y right-z right-w shape-type "
    "behind-zones run-how nodes-pass measured-as behind-argument behind-linear behind-tag formula-bytes question-bytes both-accept both-reject formula-laws "
    "failure-laws short-subtree located-type added-type name-size plan-type exponential-type f-reads zone-reads ss-are ps-are short-words noted-type held-answers "
    "not-nil".split()
)


def texts(*endings):
    for folder, dirs, files in os.walk(crates):
        dirs[:] = sorted(d for d in dirs if d != "out")
        for f in sorted(files):
            if f.endswith(endings):
                yield os.path.join(folder, f)


def read(p):
    with open(p, encoding="utf-8") as f:
        return f.read()


def quiet(text, p):
    """The text without comments and strings, of the same length."""
    blank = lambda m: re.sub(r"\S", " ", m[0])
    if p.endswith(".rt"):
        return re.sub(r"//[^\n]*|\"(?:\\.|[^\"\\\n])*\"", blank, text)
    return re.sub(r"(?<!\S)--(?!\S)[^\n]*", blank, text)


def own(path):
    steps = path.strip(".").split(".")
    return steps[0] == "Rattle" and len(steps) > 1 and steps[1] in names_of_crates


names_of_crates = set(os.listdir(crates))


def theirs(code):
    """What a file brings in from the kit's libraries, and the modules of theirs that it names."""
    names, modules = set(), set()
    for path, items, alias in USE.findall(code):
        if own(path):
            continue
        found = re.findall(r"[^\s(){}.;,@\"«»]+", items)
        names.update(found or path.split(".")[-1:])
        modules.add(alias or path.rstrip(".").split(".")[-1])
    return names, modules


def declared():
    names = set(ALSO)
    for p in texts(".antt"):
        if p.endswith("/Proof.antt"):
            continue
        code = quiet(read(p), p)
        found = re.findall(r"(?m)^ *(?:[a-z]+ )*?([^\s(){}]+)(?: \{[^{}\n]*\})* :", code)
        for names_ in re.findall(r"[({]((?:[^\s(){}:.]+ )+): ", code):
            found += names_.split()
        found += re.findall(r"(?:record|data) ([^\s(){}]+)", code)
        found += re.findall(r" as «?([^\s(){}.;,»]+)", code)
        for n in found:
            names.update(part for part in n.split("◌") if "-" in part)
    return {n for n in names if re.fullmatch(r"[A-Za-z][A-Za-z0-9_'₁₂⊥*]*(?:-[A-Za-z0-9_'₁₂⊥*]+)+", n)}


def spelled(name):
    if name[0].isupper() and name != "All-everywhere":
        return "".join(w[:1].upper() + w[1:] for w in name.split("-"))
    return name.replace("-", "_")


def turned(text, code, kit, modules, table):
    """`text` with the names of `table` respelled where `code`, which is as long, has them."""
    out, last = [], 0
    for m in re.finditer(r"(?<![^\s(){}.;,@«»◌`λ↦|\[\]:])[A-Za-z][A-Za-z0-9_'₁₂⊥*]*(?:-[A-Za-z0-9_'₁₂⊥*]+)+(?![^\s(){}.;,@«»◌`↦|\[\]:])", code):
        name = m[0]
        if name not in table:
            continue
        before = code[: m.start()]
        head = re.search(r"([^\s(){};,]+)\.$", before)
        line = before[before.rfind("\n") + 1 :]
        if name in kit and not head:
            # a kit's name that this file brings in
            if not in_own_use(code, m.start()):
                continue
        if head and (head[1].split(".")[-1] in modules or head[1].split(".")[0] in ("goal", "tie")) and not own(head[1]):
            continue
        out += [text[last : m.start()], table[name]]
        last = m.end()
    return "".join(out) + text[last:]


def in_own_use(code, at):
    """Whether the place stands in the braces of an import from this repository."""
    for m in USE.finditer(code):
        if m.start() <= at < m.end():
            return own(m[1])
    return False


def in_backticks(text, table):
    def one(m):
        return re.sub(r"[A-Za-z][A-Za-z0-9_'₁₂⊥*]*(?:-[A-Za-z0-9_'₁₂⊥*]+)+", lambda w: table.get(w[0], w[0]), m[0])

    return re.sub(r"`[^`\n]+`", one, text)


def comments(text, p, table):
    mark = r"//[^\n]*" if p.endswith(".rt") else r"(?<!\S)--(?!\S)[^\n]*"
    return re.sub(mark, lambda m: in_backticks(m[0], table), text)


def write(p, old, new):
    if new != old:
        with open(p, "w", encoding="utf-8") as f:
            f.write(new)


def when(code):
    """Today's library has an operator of its own called `if◌then◌else◌`: the search's choice is called `when◌then◌else◌`."""
    return re.sub(r"(?<![\w'◌.-])if(?= )", "when", code.replace("if◌then◌else◌", "when◌then◌else◌"))


def in_code(f, text):
    """`text` with f applied to each line before its comment."""
    cut = lambda line: re.search(r"(?<!\S)--(?!\S)", line)
    return "\n".join(f(l[: m.start()]) + l[m.start() :] if (m := cut(l)) else f(l) for l in text.split("\n"))


def main():
    table = {n: spelled(n) for n in declared()}
    table = {a: b for a, b in table.items() if a != b}
    for p in texts(".antt", ".rt"):
        text = re.sub(r"\bIff·(\w+)", r"Iff.\1", read(p))
        text = re.sub(r"use Rattle\.std\.proofs\.Math\.Logic\.\{(?:Iff\.\w+(?:, )?)+\}", "use mathlib.Core.Logic.Iff", text)
        if p.endswith(".antt"):
            text = in_code(when, text)
        code = quiet(text, p)
        kit, modules = theirs(code)
        new = turned(text, code, kit, modules, table)
        write(p, read(p), comments(new, p, table))
    for p in texts(".edit"):
        text = read(p)
        lines = []
        for line in text.split("\n"):
            if re.match(r"old:|new:", line):
                line = turned(line, line, set(), set(), table)
                line = line if "file: src" in text else when(line)
                # what port.py turned in the text: a tight projection, a plain prime, names that the kit has too
                line = re.sub(r" \.(?=[a-z«])", ".", line.replace("′", "'"))
                line = re.sub(r"\(([a-z_]+(?:\.[a-z_]+)+)\)", r"\1", line)
                line = re.sub(r"(?<=[a-z])-(?=[a-z])", "_", line) if not re.search(r"\bloop-|//", line) else line
            lines.append(line)
        write(p, text, "\n".join(lines))
    pages = [os.path.join(top, "README.md")]
    docs = os.path.join(top, "docs")
    if os.path.isdir(docs):
        pages += [os.path.join(docs, f) for f in sorted(os.listdir(docs)) if f.endswith(".md") and f != "PORT.md"]
    for p in pages:
        if os.path.isfile(p):
            text = read(p)
            write(p, text, in_backticks(text, table))
    print(len(table), "names")


main()
