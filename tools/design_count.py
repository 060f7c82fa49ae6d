#!/usr/bin/env python3
"""Counts the places in crates/*/src that docs/DESIGN-PASS.md speaks of.

    python3 tools/design_count.py [FOLDER] [--list]

FOLDER is a checkout, this one if none is given. Each line is a point of that page, what is counted, and how many there are; with
--list the places follow. The count is by text: it finds candidates, and the page says of each what became of it.
"""
import pathlib
import re
import sys


def strip(text):
    """The text without its comments, line by line."""
    return re.sub(r"//[^\n]*", "", text)


def items(text, word):
    """The items that begin with the word: name, line, body."""
    for m in re.finditer(r"^[ ]*(?:pub(?:\(crate\))? )?" + word + r" (\w+)[^\n{;]*\{", text, re.M):
        depth, at = 1, m.end()
        while depth and at < len(text):
            depth += {"{": 1, "}": -1}.get(text[at], 0)
            at += 1
        yield m.group(1), text.count("\n", 0, m.start()) + 1, text[m.end():at - 1]


def functions(text):
    """The functions: name, line, body."""
    for m in re.finditer(r"^[ ]*(?:pub(?:\(crate\))? )?(?:extern \"C\" )?fn (\w+)", text, re.M):
        at = re.compile(r"^[ ]*\{$|[^\n]\{$", re.M).search(text, m.end())
        if not at:
            continue
        body_at = at.end()
        # a contract stands between the head and the body: the body is the brace that stands alone, or ends the head
        alone = re.compile(r"^[ ]*\{$", re.M).search(text, m.end())
        head = text[m.end():at.end()]
        if ("requires" in head or "ensures" in head) and alone:
            body_at = alone.end()
        depth, end = 1, body_at
        while depth and end < len(text):
            depth += {"{": 1, "}": -1}.get(text[end], 0)
            end += 1
        yield m.group(1), text.count("\n", 0, m.start()) + 1, text[body_at:end - 1]


def mixed(body):
    """Whether an enum has a variant that holds a value beside one that holds none."""
    flat = re.sub(r"\{[^{}]*\}", "{}", re.sub(r"\([^()]*\)", "()", body))
    variants = [v.strip() for v in flat.split(",") if v.strip()]
    held = [("(" in v or "{" in v) for v in variants]
    return any(held) and not all(held)


FLAG = r"^[ ]+(?:pub )?(?:ok|over|mixed|reason|answer|verdict|kind|next): (?:bool|u64|usize|u8|Verdict),"
CODE = r"^[ ]*(?:pub )?const (?!MOST_|SOH|EQUALS|ZERO)\w+: (?:u64|u8) = \d{1,2};"
KIND = r"\b(?:what|action|depth|sort|side|kind|reason|answer): (?:u64|u8)\b"
LOOP = r"^[ ]*(?:'\w+: )?(?:while|loop)\b[^\n]*\{$"
ELSE = r"let [^;=]*=[^;]*?\belse\b\s*\{\s*return (?:\w+::)?(?:No|None|Bad|Out|Over|Above|Passed)\b"
BY_HAND = r"fn (?:least|lower_of|wide|place|one_if|same|magnitude|bits|digit|ascii|zero_run|answer_of|low_byte|byte|start)\("
PAIR = r"\(\s*(?:store|out|s|run): &(?:mut )?\[\w+\],\s*(?:h: Heading|at: usize|m: Marks)|run: &(?:mut )?\[u64\],\s*count: usize|most: u64,\s*full: u64|sender: &\[u8\],\s*target: &\[u8\]"
ARRAYS = r"^[ ]+(?:pub )?\w+: \[[\w<>]+; \w+\],"


def main():
    args = [a for a in sys.argv[1:] if a != "--list"]
    folder = pathlib.Path(args[0] if args else ".")
    places = {}

    def add(point, path, line, what):
        places.setdefault(point, []).append(f"{path.parent.parent.name}/{path.name}:{line} {what}")

    bodies = {}
    for path in sorted(folder.glob("crates/*/src/*.rt")):
        text = strip(path.read_text())
        for name, line, body in items(text, "enum"):
            if mixed(body):
                add("1 enums with a variant that holds a value beside one that holds none", path, line, name)
        for point, pattern in (
            ("1 fields that say by a number or a flag how the others are to be read", FLAG),
            ("1 constants of one or two digits that stand for a kind, a refusal or an answer", CODE),
            ("1 parameters and fields that give a kind, a reason or an answer as a number", KIND),
            ("1 let .. else that returns the same as `?` would", ELSE),
            ("3 while and loop", LOOP),
            ("4 functions that do what a derive, From or a method of std does", BY_HAND),
            ("5 parameters that travel together", PAIR),
            ("6 arrays in a struct, with a length or another array beside", ARRAYS),
        ):
            for m in re.finditer(pattern, text, re.M | re.S if pattern in (ELSE, PAIR) else re.M):
                add(point, path, text.count("\n", 0, m.start()) + 1, " ".join(m.group(0).split())[:80])
        for name, line, body in functions(text):
            shape = re.sub(r"\s+", " ", re.sub(r"\b\w+\b", "w", body)).strip()
            if body.count(";") + body.count("=>") >= 2 or len(shape) > 40:
                bodies.setdefault(shape, []).append((path, line, name))
    for shape, found in bodies.items():
        if len(found) > 1:
            for path, line, name in found:
                add("2 functions whose bodies differ in names, numbers and types alone", path, line, name)
    for point in sorted(places):
        print(f"{len(places[point]):4}  {point}")
        if "--list" in sys.argv:
            for place in places[point]:
                print("        " + place)


main()
