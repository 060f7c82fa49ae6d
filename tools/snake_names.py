#!/usr/bin/env python3
"""Writes the repository's own definitions, lemmas and locals in snake case, as the library writes its words.

usage: python3 tools/snake_names.py [FOLDER]

    boardAt, marked-withoutMark  ->  board_at, marked-without_mark

Run once at the top of the repository, right after the kit's port.py. It renames, in crates/, every name of an .antt file that begins with
a small letter and has a capital inside: a definition, a lemma, a field, a local. A dash still joins the parts of a name, and types and
modules keep their capitals. The sources, the edits and the pages follow where they cite such a name. A lemma whose name a definition
takes by this gets `_lem` behind it. Functions of src/ are in snake case already. A second run changes nothing.
"""

import os
import re
import sys

TOKEN = re.compile(r"[^\s(){}.;,@\"«»\[\]\\`]+")
WORD = re.compile(r"(?<![\w'-])[a-z][\w']*(?:-[\w']+)*")
CAMEL = re.compile(r"[a-z][a-z0-9_]*[A-Z]\w*'*$")
# A lemma's name that is a definition's too once that is in snake case.
TAKEN = "too_wide is_digit all_digits front_of joined_at left_by count_at passed_over was_read no_room all_fair goes_on".split()


def snake(word):
    return re.sub(r"(?<=[a-z0-9_])([A-Z])", r"_\1", word).replace("__", "_").lower()


def new_name(word):
    return "-".join(snake(part) if CAMEL.match(part) else part for part in word.split("-"))


def files(root, *endings):
    for folder, dirs, names in os.walk(root):
        dirs[:] = sorted(d for d in dirs if d not in ("out", "target", ".git"))
        for name in sorted(names):
            if name.endswith(endings):
                yield os.path.join(folder, name)


def read(path):
    with open(path, encoding="utf-8") as f:
        return f.read()


def write(path, text):
    if text != read(path):
        with open(path, "w", encoding="utf-8") as f:
            f.write(text)


def without_comments(text):
    return re.sub(r"--[^\n]*", "", text)


def main(root):
    crates = os.path.join(root, "crates")
    names = set()
    for path in files(crates, ".antt"):
        for token in TOKEN.findall(without_comments(read(path))):
            if re.match(r"[a-z]", token) and new_name(token) != token:
                names.add(token)
    if not names:
        return
    table = {name: new_name(name) for name in names}
    lemmas = re.compile(r"(?<![\w'-])(" + "|".join(TAKEN) + r")(?![\w'-])")
    for path in files(crates, ".antt", ".rt", ".edit"):
        text = read(path)
        if path.endswith(".antt"):
            text = lemmas.sub(r"\1_lem", text)
        write(path, WORD.sub(lambda m: table.get(m.group(0), m.group(0)), text))
    for path in [os.path.join(root, "README.md"), *files(os.path.join(root, "docs"), ".md"), *files(os.path.join(root, "second"), ".md")]:
        write(path, re.sub(r"`[^`\n]+`", lambda m: WORD.sub(lambda w: table.get(w.group(0), w.group(0)), m.group(0)), read(path)))


main(sys.argv[1] if len(sys.argv) > 1 else ".")
