#!/usr/bin/env python3
"""collect.py FOLDER: prints the run whose tables stand in the folder, as bench/results/MACHINE.json keeps it."""
import csv
import glob
import json
import os
import sys


def rows(path):
    with open(path, newline="", encoding="ascii") as file:
        return list(csv.reader(file, delimiter="\t", quoting=csv.QUOTE_NONE))


def named(key):
    """What a row is of: a recording, values of digits, or a call on a board."""
    if key[0] == "recording":
        _, recording, what = key
        return {"recording": recording, "what": what}
    if key[0] == "values":
        _, digits, sort, mean, what = key
        return {"digits": digits, "sort": sort, "bytes": float(mean), "what": what}
    depth, entries, waiting, size, what = key
    return {"depth": depth, "entries": int(entries), "waiting": int(waiting), "bytes": int(size), "what": what}


def measured(folder):
    """The rows of all repetitions, each with what callgrind counted of it, where it did."""
    found = {}
    for path in sorted(glob.glob(os.path.join(folder, "times.*.tsv"))):
        for *key, ns in rows(path):
            found.setdefault(tuple(key), []).append(float(ns))
    counts = {tuple(key): round(int(count) / int(calls), 1) for *key, calls, count in rows(os.path.join(folder, "instructions.tsv"))}
    for key, ns in found.items():
        yield {**named(key), "ns": ns, "instructions": counts.get(key)}


def recordings(table):
    """What each recording holds, as it is walked."""
    for recording, what, *numbers in table:
        yield {"recording": recording, "what": what, **dict(zip(("bytes", "messages", "found", "runs", "passed"), map(int, numbers)))}


def by_machine(table, join):
    """For each machine a dictionary; numbers of one name are joined."""
    found = {}
    for machine, name, number in table:
        found.setdefault(machine, {}).setdefault(name, []).append(int(number))
    return {machine: {name: join(numbers) for name, numbers in of.items()} for machine, of in found.items()}


def main():
    if len(sys.argv) != 2:
        sys.exit(__doc__)
    folder = sys.argv[1]
    parts = {name: rows(os.path.join(folder, name + ".tsv")) for name in ("facts", "recordings", "stacks", "sizes")}
    lines = ",\n".join("  " + json.dumps(row) for row in measured(folder))
    held = ",\n".join("  " + json.dumps(row) for row in recordings(parts["recordings"]))
    print('{"facts": ' + json.dumps(dict(parts["facts"]), indent=1) + ",")
    print('"rows": [\n' + lines + "\n],")
    print('"recordings": [\n' + held + "\n],")
    stacks = by_machine(((machine, name, depth) for machine, name, *_, depth in parts["stacks"]), max)
    sizes = by_machine(((machine, name, size) for machine, size, name in parts["sizes"]), sum)
    print('"stacks": ' + json.dumps(stacks, indent=1) + ",")
    print('"sizes": ' + json.dumps(sizes, indent=1) + "}")


if __name__ == "__main__":
    main()
