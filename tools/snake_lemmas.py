#!/usr/bin/env python3
"""Writes the repository's own lemmas and fields in snake case, where the kit's port.py did so with some of them only.

usage: python3 tools/snake_lemmas.py [FOLDER]

    refusals-stay, loop-promises  ->  refusals_stay, loop_promises

Run once at the top of the repository, after tools/snake_names.py. It renames, in crates/, every name with a dash that an .antt file
declares and that begins with a small letter: a definition, a lemma, a field, a local one. The answers' goals, which the check names, keep
their dashes, and so do the library's names, in each file that takes them from it. A lemma whose name a definition or a function has by
this gets `_lem` behind it, and two messages of samples `_bytes`. The sources, the edits and the pages follow. A second run changes nothing.
"""

import os
import re
import sys

DECLARED = re.compile(r"\s*(?:abbrev |unfoldable |pub |infix\w* \d+ )*([^\s(){}.;,:]+) :(?= |$)(.*)")
TAKEN = re.compile(r"use ((?:lib|mathlib|Prim|borrow|native|denote|Rattle\.(?:std|core))[\w.']*)\.\{(.*)\}")
# A goal and a need of the code, and a statement of a function: the check's own names.
OF_THE_CHECK = re.compile(r" *(?:goal|tie)\.|.*\bstatement\b")
WORD = re.compile(r"(?<![\w'-])(?<!\bc\.)(?<!\bgoal\.)(?<!\btie\.)[a-z][\w']*(?:-[\w']+)+")


def files(root, *endings):
    for folder, dirs, names in os.walk(root):
        dirs[:] = sorted(d for d in dirs if d not in ("out", "target", ".git"))
        for name in sorted(names):
            if name.endswith(endings):
                yield os.path.join(folder, name)


def read(path):
    with open(path, encoding="utf-8") as f:
        return f.read()


def write(path, text):
    if text != read(path):
        with open(path, "w", encoding="utf-8") as f:
            f.write(text)


def of_a_function(path):
    return re.search(r"proofs/.+/(Proof|Answers|Invariants)\.antt$", path)


def main(root):
    crates = os.path.join(root, "crates")
    dashed, plain = set(), set()
    for path in files(crates, ".antt"):
        for line in read(path).split("\n"):
            m = DECLARED.match(line)
            if m and not (of_a_function(path) and OF_THE_CHECK.match(m.group(2))):
                name = m.group(1)
                (dashed if "-" in name and re.match("[a-z]", name) else plain).add(name)
            m = TAKEN.match(line)
            plain |= {w.strip() for w in m.group(2).split(",")} if m else set()
    for path in files(crates, ".rt"):
        plain |= set(re.findall(r"\bfn (\w+)", read(path)))
    table = {}
    for name in dashed:
        new = name.replace("-", "_")
        table[name] = new + "_lem" if new in plain else new
    for path in files(crates, ".antt", ".rt", ".edit"):
        text = read(path)
        library = {w.strip() for m in map(TAKEN.match, text.split("\n")) if m for w in m.group(2).split(",")}
        write(path, WORD.sub(lambda m: m.group(0) if m.group(0) in library else table.get(m.group(0), m.group(0)), text))
    for path in [os.path.join(root, "README.md"), *files(os.path.join(root, "docs"), ".md"), *files(os.path.join(root, "second"), ".md")]:
        write(path, re.sub(r"`[^`\n]+`", lambda m: WORD.sub(lambda w: table.get(w.group(0), w.group(0)), m.group(0)), read(path)))
    # Two that are no lemmas but messages as bytes.
    for crate in ("samples", "promises"):
        for path in files(os.path.join(crates, crate), ".antt", ".edit"):
            write(path, re.sub(r"\b(empty_book|all_empty)_lem\b", r"\1_bytes", read(path)))


main(sys.argv[1] if len(sys.argv) > 1 else ".")
