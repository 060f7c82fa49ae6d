"""documents.py: whether the documents name only files that are there, and the pictures show what the sources say.

Prints a line for each fault, and ends with 1 if there is one.
"""
import pathlib
import re
import subprocess
import sys

ROOT = pathlib.Path(__file__).resolve().parent.parent
PAGES = [ROOT / "README.md", *sorted((ROOT / "docs").glob("*.md"))]
FOLDERS = ("bench", "crates", "docs", "examples", "gateway", "include", "samples", "scripts", "second", "tests")


def named(page):
    """The paths that a page names: targets of links, seen from the page; words in backquotes, seen from the root or from crates/."""
    text = page.read_text()
    for target in re.findall(r"\]\(([^)#:]+)[^):]*\)", text):
        yield page.parent / target, target
    for word in re.findall(r"`([\w./{},-]+/[\w.{},-]+)`", text):
        if word.startswith(tuple(folder + "/" for folder in FOLDERS)):
            yield ROOT / word, word
        elif re.match(r"[\w{},]+/(specs|proofs|src|must-fail)\b", word):
            for one in spread(word):
                yield ROOT / "crates" / one, one


def spread(word):
    """The words that braces stand for: a{b,c}d is abd and acd."""
    found = re.match(r"(.*?)\{(.*?)\}(.*)", word)
    return [found[1] + part + rest for part in found[2].split(",") for rest in spread(found[3])] if found else [word]


def lost():
    """What pages name and is not there."""
    for page in PAGES:
        for path, word in named(page):
            if not path.exists():
                yield f"{page.relative_to(ROOT)} names {word}, which is not there"


def stale():
    """Pictures that do not show their sources. How dot draws differs by its version, so names alone are compared there."""
    sources = ["crates/cells/src/lib.rt", "crates/store/src/lib.rt"]
    drawn = subprocess.run([sys.executable, "docs/pictures/store.py", *sources], cwd=ROOT, capture_output=True, text=True, check=True)
    if drawn.stdout != (ROOT / "docs/pictures/store.svg").read_text():
        yield "docs/pictures/store.svg is not what its sources say: make pictures"
    listed = set(re.findall(r"^(\w+)(?: staticlib)?:", (ROOT / "crates.txt").read_text(), re.M))
    shown = set(re.findall(r"<title>(\w+)</title>", (ROOT / "docs/pictures/crates.svg").read_text())) - {"crates"}
    if listed != shown:
        yield f"docs/pictures/crates.svg lacks or adds {' '.join(sorted(listed ^ shown))}: make pictures"


def main():
    faults = [*lost(), *stale()]
    for fault in faults:
        print(fault)
    sys.exit(1 if faults else 0)


main()
