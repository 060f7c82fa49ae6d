#!/usr/bin/env python3
"""chart.py VERSION RUN.json..: draws the times of the runs of this version, the proved code beside its peers, a column for each
machine, as docs/bench.svg has it."""
import sys
from xml.sax.saxutils import escape

from results import ENTRIES, MACHINES, Case, load, median

MARGIN, LABELS = 24, 250  # where bars start
BAR, GAP, PANEL_GAP = 20, 6, 36
TOP, BOTTOM = 150, 20
INK, SOFT = "#1c2428", "#5a666c"
SCAN, FEED, PLAIN, PEER = "#0b4f55", "#2a9d8f", "#d9a441", "#b9c0c4"
BARS = (("feed", "Selkavorn", FEED), ("plain", "plain C, no scan", PLAIN), ("parse", "QuickFIX: parse", PEER),
        ("validate", "QuickFIX: parse, validate", PEER), ("book", "QuickFIX: parse, validate, book", PEER))


def text(x, y, words, size=13, fill=INK, more=""):
    return f'<text x="{x:.0f}" y="{y:.0f}" font-size="{size}" fill="{fill}"{more}>{escape(words)}</text>'


def box(x, y, width, fill):
    return f'<rect x="{x:.1f}" y="{y:.0f}" width="{width:.1f}" height="{BAR}" fill="{fill}"/>'


def bars(run, case, x, y, longest):
    """The bars of one kind of message on one machine, on a scale of their own; a line spans the lowest and the highest."""
    scale = longest / max(max(run.ns(case, what)) for what, *_ in BARS)
    for i, (what, _, fill) in enumerate(BARS):
        ns, top = run.ns(case, what), y + 10 + i * (BAR + GAP)
        yield box(x, top, median(ns) * scale, fill)
        if what == "feed":
            yield box(x, top, median(run.ns(case, "scan")) * scale, SCAN)
        middle = top + BAR / 2
        yield (f'<line x1="{x + min(ns) * scale:.1f}" y1="{middle:.0f}" x2="{x + max(ns) * scale:.1f}" y2="{middle:.0f}" '
               f'stroke="{INK}" stroke-width="2"/>')
        yield text(x + max(ns) * scale + 6, top + 15, f"{median(ns):,.0f} ns")


def panel(runs, case, y, column, longest):
    entries = "1 entry" if case.entries == 1 else f"{case.entries} entries"
    yield text(MARGIN, y, f"{entries}, {runs[0].bytes[case, 'feed']:,} bytes", 14, INK, ' font-weight="bold"')
    for i, (_, name, _) in enumerate(BARS):
        yield text(LABELS - 8, y + 25 + i * (BAR + GAP), name, 13, INK, ' text-anchor="end"')
    for k, run in enumerate(runs):
        yield from bars(run, case, LABELS + k * column, y, longest)


def key(y):
    """What the colours say."""
    x = MARGIN
    for fill, words in ((SCAN, "the scan of the store"), (FEED, "read, check, keep the book"), (PLAIN, "plain C"), (PEER, "QuickFIX")):
        yield f'<rect x="{x}" y="{y - 11}" width="13" height="13" fill="{fill}"/>'
        yield text(x + 19, y, words)
        x += 19 + 7 * len(words) + 28


def drawing(runs):
    column, longest = (600, 500) if len(runs) == 1 else (420, 310)
    width = LABELS + max(len(runs), 1) * column + 10
    step = 10 + len(BARS) * (BAR + GAP) + PANEL_GAP
    height = TOP + len(ENTRIES) * step - PANEL_GAP + BOTTOM if runs else TOP
    title = "Time of one message, in nanoseconds: shorter is better"
    yield (f'<svg xmlns="http://www.w3.org/2000/svg" viewBox="0 0 {width} {height}" width="{width}" height="{height}" role="img" '
           'font-family="Helvetica, Arial, sans-serif">')
    yield f"<title>{escape(title)}</title>"
    yield f'<rect width="{width}" height="{height}" fill="#ffffff"/>'
    yield text(MARGIN, 32, title, 18, INK, ' font-weight="bold"')
    yield text(MARGIN, 54, "Order depth, 16 full books, none waiting. Thread CPU time; a line spans the repetitions. Each group has a "
               "scale of its own.", 12, SOFT)
    without = [machine for machine in MACHINES if machine not in [run.machine for run in runs]]
    if without:
        yield text(MARGIN, 72, "No run of this version is kept for " + " and ".join(without) + ".", 12, SOFT)
    yield from key(98)
    for k, run in enumerate(runs):
        facts = run.facts
        name = f"{facts['machine']}: {facts['processor']}, {facts['date']}"
        yield text(LABELS + k * column, 130, name, 14, INK, ' font-weight="bold"')
    if runs:
        for i, entries in enumerate(ENTRIES):
            yield from panel(runs, Case("order", entries, 0), TOP + 12 + i * step, column, longest)
    yield "</svg>"


def main():
    if len(sys.argv) < 2:
        sys.exit(__doc__)
    runs = [run for run in map(load, sys.argv[2:]) if run.facts["version"] == sys.argv[1]]
    print("\n".join(drawing(sorted(runs, key=lambda run: MACHINES.index(run.machine)))))


if __name__ == "__main__":
    main()
