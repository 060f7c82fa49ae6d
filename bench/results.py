"""Runs of scripts/bench, as bench/results/MACHINE.json keeps them: a time is a list, one for each repetition."""
import json
import statistics
from collections import namedtuple

MACHINES = ("x86_64", "aarch64")
ENTRIES = (1, 4, 10, 64)
DEPTHS = ("order", "price")
STATES = ("none waiting", "one waiting")
MOST_SPREAD = 0.10

# A depth kind, how many entries a message has (0 for the calls that take no X), how many instruments wait.
Case = namedtuple("Case", "depth entries waiting")
SCANS = Case("order", 0, 0)

# A recording by its name. Its times are of one message that was recorded, found or not.
Recording = namedtuple("Recording", "name")
EVEN, MIXED, STARTS = Recording("even"), Recording("mixed"), Recording("false starts")

# Values for a reader of digits, by how many digits they have, as words, and whether they are good or bad.
Values = namedtuple("Values", "digits sort")
VALUES = [Values(digits, sort) for digits in ("1", "2", "3", "4", "5", "8", "12", "18", "1 to 4", "1 to 18") for sort in ("good", "bad")]


def cases(waiting):
    return [Case(depth, entries, waiting) for depth in DEPTHS for entries in ENTRIES]


def case_of(row):
    """What a row that is kept is of."""
    if "recording" in row:
        return Recording(row["recording"])
    if "digits" in row:
        return Values(row["digits"], row["sort"])
    return Case(row["depth"], row["entries"], row["waiting"])


def median(values):
    return statistics.median(values)


def spread(values):
    """How far the lowest and the highest lie apart, over the median."""
    return (max(values) - min(values)) / median(values)


class Run:
    def __init__(self, kept):
        self.facts = kept["facts"]
        self.stacks, self.sizes = kept["stacks"], kept["sizes"]
        self.bytes, self.times, self.instructions = {}, {}, {}
        for row in kept["rows"]:
            key = case_of(row), row["what"]
            self.bytes[key] = row.get("bytes")
            self.times[key] = row["ns"]
            self.instructions[key] = row["instructions"]
        # A run of a version that walked no recordings has none.
        self.recordings = {(Recording(row["recording"]), row["what"]): row for row in kept.get("recordings", [])}

    @property
    def machine(self):
        return self.facts["machine"]

    def ns(self, case, what):
        """The times of a row. What a feed takes beyond the scan is the difference of two rows, in each repetition."""
        if what == "beyond":
            return [feed - scan for feed, scan in zip(self.times[case, "feed"], self.times[case, "scan"])]
        return self.times[case, what]

    def ratios(self, case, what, other):
        return [ours / theirs for ours, theirs in zip(self.ns(case, what), self.ns(case, other))]

    def speeds(self, recording, what):
        """Megabytes of a recording a second, in each repetition."""
        held = self.recordings[recording, "salvage"]
        return [1000 * held["bytes"] / (ns * held["messages"]) for ns in self.times[recording, what]]

    def noisy(self):
        """The rows whose spread is above what a run may have to be kept."""
        return [(case, what, ns) for (case, what), ns in self.times.items() if spread(ns) > MOST_SPREAD]


def load(path):
    with open(path, encoding="ascii") as file:
        return Run(json.load(file))


def message_name(case):
    return f"{case.depth} depth, {case.entries} {'entry' if case.entries == 1 else 'entries'}"


def values_name(values):
    return f"{values.digits} {'digit' if values.digits == '1' else 'digits'}, {values.sort}"


def row_name(case, what):
    """A row in words; the calls that take no X have no entries."""
    if isinstance(case, Recording):
        return f"recording, {case.name}: {what}"
    if isinstance(case, Values):
        return f"values of {values_name(case)}: {what}"
    where = f"{message_name(case)}, {STATES[case.waiting]}" if case.entries else f"{case.depth} depth"
    return f"{where}: {what}"
