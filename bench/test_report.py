#!/usr/bin/env python3
"""Tests of what the page says of runs: verdicts, spreads, calls, and machines without a run of this version."""
import pathlib
import re
import unittest

from chart import drawing
from report import CALLS, RECORDINGS, judged, page, verdict
from results import EVEN, MIXED, SCANS, STARTS, STATES, VALUES, Case, Recording, Run, Values, cases, row_name, spread

WHATS = ("feed", "scan", "loop", "plain", "parse", "validate", "book")
OTHERS = ("open", "snapshot", "plain snapshot", "QuickFIX snapshot", "long prices", "plain long prices", "loop end", "plain loop end",
          "loop goes on", "empty all", "plain empty all", "quote", "sell", "sell, 20 places", "write", "state")
SCAN_WHATS = ("scan", "mixed scan", "far scan", "loop", "plain loop", "scalar loop")
BYTES = {"loop end": 172, "long prices": 173, "empty all": 174}  # of a message; all others have 171
LENGTHS = {"1 to 4": 2.5, "1 to 18": 9.5}  # digits of a value, where they are drawn
HEADERS = pathlib.Path(__file__).resolve().parent.parent / "include"


def named(of, what):
    if isinstance(of, Recording):
        return {"recording": of.name}
    length = LENGTHS.get(of.digits) or int(of.digits) if isinstance(of, Values) else BYTES.get(what, 171)
    return {**of._asdict(), "bytes": length}


def row(of, what, ns, instructions=None):
    return {**named(of, what), "what": what, "ns": ns, "instructions": instructions}


def held(recording, what):
    """What a recording holds: 1,000 bytes, 10 messages, of which half are found."""
    return {"recording": recording.name, "what": what, "bytes": 1000, "messages": 10, "found": 5, "runs": 1, "passed": 500}


def made(machine="aarch64", version="v1", changed=None):
    """A run in which every time is 100 ns, but for a feed, which is 200, a walk, which is 20, and those that are changed. Instructions are
    counted of the readers of digits alone: 19 of a call that reads nothing, 29 of the reader, 39 of the others."""
    keys = [(case, what) for waiting in range(len(STATES)) for case in cases(waiting) for what in WHATS]
    keys += [(Case(depth, 0, 0), what) for depth in ("order", "price") for what in OTHERS]
    keys += [(SCANS, what) for what in SCAN_WHATS if (SCANS, what) not in keys]
    keys += [(VALUES[0], "nothing")] + [(values, what) for values in VALUES for what in ("digits", "by one", "plain digits")]
    keys += [(recording, what) for recording, _, whats in RECORDINGS for what, _ in whats]
    facts = {"machine": machine, "processor": "P", "date": "2026-11-15", "version": version, "repetitions": "3", "rounds": "1",
             "compiler": "C", "kit": "K", "quickfix": "Q", "valgrind": "V"}
    usual = {what: [{"feed": 200.0, "salvage": 20.0}.get(what, 100.0)] * 3 for _, what in keys}
    counted = {"nothing": 19, "digits": 29}
    rows = [row(of, what, (changed or {}).get((of, what), usual[what]), counted.get(what, 39) if isinstance(of, Values) else None)
            for of, what in keys]
    recordings = [held(of, what) for of, what in keys if isinstance(of, Recording) and what != "parse"]
    return Run({"facts": facts, "rows": rows, "recordings": recordings, "stacks": {machine: {"feed": 9, "sell": 8, "buy": 7}},
                "sizes": {machine: {"selkavorn_feed": 7}}})


def made_before():
    """A run of a version that walked no recordings."""
    facts = {"machine": "aarch64", "date": "2026-11-15", "version": "v0"}
    return Run({"facts": facts, "rows": [row(SCANS, "scan", [100.0])], "stacks": {}, "sizes": {}})


class Report(unittest.TestCase):
    def test_a_verdict_counts_every_repetition(self):
        self.assertEqual(verdict([True, True]), "met")
        self.assertEqual(verdict([True, False, True]), "met in 2 of 3")
        self.assertEqual(verdict([False, False]), "MISSED")

    def test_one_slow_repetition_of_one_row_shows(self):
        slow = made(changed={(Case("price", 64, 0), "scan"): [100.0, 116.0, 100.0]})
        says, (worst, _), met = next(judged(slow))
        self.assertIn("the scan takes at most 1.15", says)
        self.assertEqual((worst, met), ("1.16", "met in 23 of 24"))

    def test_a_feed_slower_than_its_peers_misses(self):
        self.assertEqual([met for *_, met in judged(made())], ["met", "met", "MISSED", "MISSED", "met", "met", "met", "met"])

    def test_the_walk_is_held_to_the_parse_of_both_recordings(self):
        slow = made(changed={(MIXED, "salvage"): [20.0, 20.0, 21.0]})
        says, worst, met = next(aim for aim in judged(slow) if "recording" in aim[0])
        self.assertIn("at most 0.2 of QuickFIX's parse", says)
        self.assertEqual((worst, met), (["0.21", "-"], "met in 5 of 6"))

    def test_false_starts_have_no_aim(self):
        slow = made(changed={(STARTS, "salvage"): [9e9] * 3})
        self.assertEqual([met for *_, met in judged(slow)], [met for *_, met in judged(made())])

    def test_a_speed_is_of_the_bytes_of_the_whole_recording(self):
        run = made(changed={(EVEN, "salvage"): [20.0, 25.0, 50.0]})
        self.assertEqual(run.speeds(EVEN, "salvage"), [5000.0, 4000.0, 2000.0])
        self.assertEqual(run.speeds(EVEN, "parse"), [1000.0] * 3)

    def test_walks_have_rows_with_the_messages_that_were_found(self):
        text = "\n".join(page("v1", [made()]))
        walk = next(line for line in text.splitlines() if line.startswith("| X of 1 entry, 1,000 bytes, 10 messages"))
        self.assertEqual([cell.strip() for cell in walk.split("|")[2:-1]],
                         ["walk", "5", "5,000", "20", "20 to 20 (0.0%)", "-", "0.20 (0.20 to 0.20)"])
        starts = next(line for line in text.splitlines() if line.startswith("| false starts, 1,000 bytes, 10 starts"))
        self.assertEqual(starts.split("|")[-2].strip(), "-")

    def test_the_end_of_a_loop_has_rows_behind_the_snapshot(self):
        loop = {"loop end": 130.0, "plain loop end": 120.0, "loop goes on": 110.0}
        text = "\n".join(page("v1", [made(changed={(Case("price", 0, 0), what): [ns] * 3 for what, ns in loop.items()})]))
        rows = [[cell.strip() for cell in line.split("|")[1:3]] for line in text.splitlines()]
        at = rows.index(["price depth: the same, QuickFIX with its book", "100"])
        self.assertEqual(rows[at - 2], ["price depth: feed, a snapshot of 40 entries, 171 bytes", "100"])
        self.assertEqual(rows[at + 3:at + 6],
                         [["price depth: feed, a snapshot of 40 entries that ends a loop, 15 others go Live, 172 bytes", "130"],
                          ["price depth: the same, plain C reader", "120"],
                          ["price depth: feed, the same where the loop goes on", "110"]])

    def test_empty_books_have_rows_behind_the_loop(self):
        empties = {"empty all": 130.0, "plain empty all": 120.0}
        text = "\n".join(page("v1", [made(changed={(Case("price", 0, 0), what): [ns] * 3 for what, ns in empties.items()})]))
        rows = [[cell.strip() for cell in line.split("|")[1:3]] for line in text.splitlines()]
        at = rows.index(["price depth: feed, the same where the loop goes on", "100"])
        self.assertEqual(rows[at + 1:at + 3],
                         [["price depth: feed, an empty book of all 16 instruments, 640 places, 174 bytes", "130"],
                          ["price depth: the same, plain C reader", "120"]])

    def test_long_prices_have_rows_behind_the_snapshot(self):
        prices = {"long prices": 130.0, "plain long prices": 120.0}
        text = "\n".join(page("v1", [made(changed={(Case("price", 0, 0), what): [ns] * 3 for what, ns in prices.items()})]))
        rows = [[cell.strip() for cell in line.split("|")[1:3]] for line in text.splitlines()]
        at = rows.index(["price depth: the same, QuickFIX with its book", "100"])
        self.assertEqual(rows[at + 1:at + 3],
                         [["price depth: feed, 10 entries with prices of 9 digits and 8 decimals, 173 bytes", "130"],
                          ["price depth: the same, plain C reader", "120"]])

    def test_the_scan_of_far_prices_has_a_row_and_no_aim(self):
        slow = made(changed={(SCANS, "far scan"): [900.0] * 3})
        self.assertRegex("\n".join(page("v1", [slow])), r"\| order depth: scan, prices of 900,000,000 and more +\| +900 \|")
        self.assertEqual([met for *_, met in judged(slow)], [met for *_, met in judged(made())])

    def test_readers_of_digits_have_rows_with_figures_of_a_digit(self):
        times = {(Values("1 to 18", "bad"), "digits"): [9.5, 9.6, 8.6], (Values("1 to 18", "bad"), "by one"): [19.0] * 3}
        rows = [[cell.strip() for cell in line.split("|")[1:-1]] for line in "\n".join(page("v1", [made(changed=times)])).splitlines()]
        at = rows.index(["1 digit, good", "a call that reads nothing", "100.0", "100.0 to 100.0 (0.0%)", "19.0", "-", "-", "-", "-"])
        self.assertEqual(rows[at + 1][:2] + rows[at + 1][4:], ["", "proved reader", "29.0", "100.0", "10.0", "1.00 (1.00 to 1.00)", "0.50"])
        self.assertEqual([row[1] for row in rows[at + 2:at + 4]], ["proved, one digit a turn", "plain loop in C, one digit a turn"])
        at = rows.index(["1 to 18 digits, bad", "proved reader", "9.5", "8.6 to 9.6 (10.5%)", "29.0", "1.0", "1.1",
                         "0.50 (0.45 to 0.51)", "0.50"])
        self.assertEqual(rows[at + 1][2:], ["19.0", "19.0 to 19.0 (0.0%)", "39.0", "2.0", "2.1", "-", "-"])

    def test_a_reader_of_digits_that_does_more_misses(self):
        more = made()
        more.instructions[Values("5", "good"), "digits"] = 33
        more.instructions[Values("3", "bad"), "digits"] = 40
        more.instructions[Values("1 to 18", "good"), "digits"] = 41
        self.assertEqual([(worst[0], met) for _, worst, met in judged(more)][5:7], [("0.70", "met in 3 of 4"), ("1.10", "met in 14 of 16")])

    def test_the_spread_of_a_reader_of_digits_counts(self):
        noisy = made(changed={(Values("1", "good"), "digits"): [1.0, 1.2, 1.1]}).noisy()
        self.assertEqual([row_name(of, what) for of, what, _ in noisy], ["values of 1 digit, good: digits"])

    def test_lots_have_rows_behind_the_quote(self):
        lots = {(Case("price", 0, 0), "sell"): [110.0] * 3, (Case("price", 0, 0), "sell, 20 places"): [120.0] * 3}
        text = "\n".join(page("v1", [made(changed=lots)]))
        rows = [[cell.strip() for cell in line.split("|")[1:3]] for line in text.splitlines()]
        at = rows.index(["price depth: quote", "100"])
        self.assertEqual(rows[at + 1:at + 3], [["price depth: sell, 1 unit", "110"], ["price depth: sell, 20 places", "120"]])
        self.assertIn(["order depth: sell, 20 places", "100"], rows)

    def test_lots_have_a_stack(self):
        text = "\n".join(page("v1", [made()]))
        self.assertRegex(text, r"\| sell +\| +8 \|\n\| buy +\| +7 \|")

    def test_every_call_of_the_headers_has_a_name(self):
        text = "".join(header.read_text(encoding="ascii") for header in HEADERS.glob("*.h"))
        self.assertEqual(set(re.findall(r"^uint64_t selkavorn_(\w+)\(", text, re.M)), set(CALLS))

    def test_the_spread_of_a_walk_counts(self):
        noisy = made(changed={(STARTS, "salvage"): [95.0, 100.0, 106.0]}).noisy()
        self.assertEqual([row_name(of, what) for of, what, _ in noisy], ["recording, false starts: salvage"])

    def test_the_spread_is_over_all_repetitions(self):
        self.assertAlmostEqual(spread([95.0, 100.0, 106.0]), 0.11)
        noisy = made(changed={(SCANS, "loop"): [95.0, 100.0, 106.0], (SCANS, "scan"): [95.0, 100.0, 104.0]}).noisy()
        self.assertEqual([(case, what) for case, what, _ in noisy], [(SCANS, "loop")])

    def test_many_rows_that_are_not_steady_are_counted(self):
        few = {(SCANS, what): [80.0, 100.0, 120.0] for what in ("loop", "scan")}
        text = "\n".join(page("v1", [made(changed=few)]))
        self.assertIn("is above 10% in: ", text)
        many = {(of, what): [80.0, 100.0, 120.0] for of, what in made().times if what == "parse"}
        text = "\n".join(page("v1", [made(changed=many)]))
        self.assertIn(f"is above 10% in {len(many)} of {len(made().times)} rows", text)

    def test_each_machine_has_its_columns(self):
        text = "\n".join(page("v1", [made("x86_64"), made("aarch64")]))
        self.assertIn("x86_64: ns", text)
        self.assertIn("aarch64: ns", text)
        self.assertNotIn("no run of this version", text)

    def test_a_machine_without_a_run_is_named(self):
        text = "\n".join(page("v1", [made("aarch64")]))
        self.assertIn("**x86_64: no run of this version is kept.**", text)
        self.assertNotIn("x86_64: ns", text)
        self.assertIn("No run of this version is kept for x86_64.", "\n".join(drawing([made("aarch64")])))

    def test_a_run_of_another_version_gives_no_figures(self):
        text = "\n".join(page("v2", [made("x86_64", "v1"), made("aarch64", "v2")]))
        self.assertIn("**x86_64: no run of this version is kept; the one of 2026-11-15 is of another version.**", text)
        self.assertNotIn("x86_64: ns", text)
        none = "\n".join(page("v3", [made("x86_64", "v1"), made("aarch64", "v2")]))
        self.assertNotIn(": ns", none)

    def test_a_run_from_before_the_walks_is_of_another_version(self):
        text = "\n".join(page("v1", [made("x86_64"), made_before()]))
        self.assertIn("**aarch64: no run of this version is kept; the one of 2026-11-15 is of another version.**", text)


if __name__ == "__main__":
    unittest.main()
