"""store.py FILE.rt..: the store's layout to scale, as SVG, from the offsets that the code uses.

The upper bar is the whole store. Below it stand the first 160 numbers, one side and one entry of the queue, each to a scale of
its own that is said beside it.
"""
import re
import sys

WIDTH, LEFT, TEXT = 1120, 30, "#222"
COLOURS = {"heading": "#d7e3f4", "records": "#f6e3c5", "sides": "#d5ead2", "queue": "#f3d3d3", "spare": "#f2f2f2"}


def constants(paths):
    """The numbers that the files name; a crate's own name comes before a name that it has from another."""
    found = {}
    for path in paths:
        crate = path.split("/")[-3]
        for name, value in re.findall(r"const (\w+): u(?:size|64) = ([\w:]+);", open(path).read()):
            found[f"{crate}::{name}"] = found[value] if value in found else int(value)
    return found


class Drawing:
    def __init__(self):
        self.parts, self.y = [], 20

    def text(self, x, y, words, size=13, anchor="start", weight="normal", halo="none"):
        self.parts.append(f'<text x="{x:.1f}" y="{y:.1f}" font-size="{size}" text-anchor="{anchor}" font-weight="{weight}" '
                          f'fill="{TEXT}" stroke="{halo}" stroke-width="6" paint-order="stroke">{words}</text>')

    def box(self, x, width, y, height, kind):
        self.parts.append(f'<rect x="{x:.2f}" y="{y:.1f}" width="{width:.2f}" height="{height}" fill="{COLOURS[kind]}" '
                          f'stroke="#555" stroke-width="0.7"/>')

    def bar(self, title, start, pieces, height=46):
        """A row of pieces (numbers, kind, label, cuts): a piece is as wide as its numbers, and cut into equal parts.

        A label that does not fit in its piece stands below, on lines of its own from left to right."""
        self.text(LEFT, self.y + 12, title, 14, weight="bold")
        top, at = self.y + 22, start
        scale = (WIDTH - 2 * LEFT) / sum(numbers for numbers, _, _, _ in pieces)
        under = []
        for numbers, kind, label, cuts in pieces:
            x, width = LEFT + (at - start) * scale, numbers * scale
            self.box(x, width, top, height, kind)
            for cut in range(1, cuts):
                line = x + width * cut / cuts
                self.parts.append(f'<line x1="{line:.2f}" y1="{top}" x2="{line:.2f}" y2="{top + height}" stroke="#555" '
                                  f'stroke-width="0.3"/>')
            said = f"{label} ({numbers})" if numbers > 1 else label
            if width > 7.0 * len(said):
                self.text(x + width / 2, top + height / 2 + 4, said, 12, "middle", halo=COLOURS[kind])
                self.text(x + 1, top + height + 13, str(at), 10)
            else:
                under.append((x + width / 2, f"{at}: {said}"))
            at += numbers
        bottom = top + height
        for row, (x, said) in enumerate(reversed(under)):
            y = bottom + 28 + 15 * row
            way, anchor = (1, "start") if x < WIDTH / 2 else (-1, "end")
            self.parts.append(f'<path d="M{x:.1f},{bottom} V{y - 4:.1f} h{6 * way}" fill="none" stroke="#888" stroke-width="0.7"/>')
            self.text(x + 9 * way, y, said, 12, anchor)
        self.y = bottom + 48 + 15 * len(under)

    def svg(self):
        return "\n".join([f'<svg xmlns="http://www.w3.org/2000/svg" width="{WIDTH}" height="{self.y}" '
                          f'viewBox="0 0 {WIDTH} {self.y}" font-family="Helvetica, Arial, sans-serif">',
                          f'<rect width="{WIDTH}" height="{self.y}" fill="white"/>', *self.parts, "</svg>"])


def main():
    at = constants(sys.argv[1:])
    store = {name.split("::")[1]: value for name, value in at.items() if name.startswith("store::")}
    entry = at["cells::ENTRY"]
    sides, places = store["BOOKS_SIZE"] // store["SIDE"], store["PLACES_SIZE"] // entry
    end = store["STORE"] - store["QUEUE"] - store["QUEUE_SIZE"]
    drawing = Drawing()
    drawing.bar(f"The store: {store['STORE']:,} numbers of 64 bits", 0, [
        (store["IDS"], "heading", "heading and spare", 1),
        (store["RECORDS_SIZE"], "records", "instruments", 1),
        (store["BOOKS_SIZE"], "sides", f"{sides} sides: bids and offers of {store['MOST_INSTS']} instruments", sides),
        (store["QUEUE_SIZE"], "queue", f"queue: {store['MOST_QUEUED']} entries", 1),
        (end, "spare", "spare", 1)])
    heading = {store["AT_LAYOUT"]: f"layout, {store['LAYOUT']}", store["DEPTH"]: "depth kind",
               store["FOLLOWED"]: "instruments followed", store["NUMBER"]: "H", store["BASE"]: "B",
               store["HEARD"]: "heard moment", store["MARKS"]: "Waiting marks", store["QUEUED"]: "queue length",
               store["LOOPS"]: "loop: its 911", store["COME"]: "loop: how many have come", store["LOW"]: "loop: the lowest 369",
               store["NAMED"]: "loop: who was named"}
    drawing.bar(f"The heading: its first {store['IDS']} numbers", 0,
                [(1, "heading", heading[place], 1) for place in sorted(heading)]
                + [(store["HEADING_SPARE_SIZE"], "spare", "spare", store["HEADING_SPARE_SIZE"])])
    spare = store["RECORD"] - 2
    drawing.bar(f"An instrument's record, the first of {store['MOST_INSTS']}", store["IDS"],
                [(1, "records", "SecurityID", 1), (1, "records", "reason", 1), (spare, "spare", "spare", spare)])
    drawing.bar(f"A side, the first of {sides}", store["BIDS"], [
        (1, "sides", "places held", 1),
        (store["PLACES_SIZE"], "sides", f"{places} places of {entry}: price, size, by, more, moment", places),
        (store["SIDE_SPARE_SIZE"], "spare", "spare", 1)])
    what = ["number", "instrument", "bid, offer or J", "action", "place"]
    drawing.bar(f"An entry of the queue, the first of {store['MOST_QUEUED']}", store["QUEUE"],
                [(1, "queue", word, 1) for word in what] + [(entry, "queue", "price, size, by, more, moment", entry),
                                                            (store["SLOT"] - len(what) - entry, "spare", "spare", 1)])
    print(drawing.svg())


main()
