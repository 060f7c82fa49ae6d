#!/usr/bin/env python3
"""report.py VERSION RUN.json..: prints docs/BENCH.md from the runs of this version: a column for each machine, and whether each
aim is met."""
import sys

from results import (DEPTHS, EVEN, MACHINES, MIXED, MOST_SPREAD, SCANS, STARTS, STATES, VALUES, Case, Values, cases, load, median,
                     message_name, row_name, spread, values_name)

CALLS = ("open", "feed", "quote", "sell", "buy", "write", "state", "board", "salvage")
MOST_STACK = 24576  # bytes
MOST_NAMED = 12  # rows that were not steady and are named one by one

# Aims on times, where none waits: what each says, of which cases, what is compared, and whether a ratio is good.
AIMS = (
    ("the scan takes at most 1.15 of a bare loop over the 7,168 numbers", cases, "scan", "loop", lambda ratio: ratio <= 1.15),
    ("the scan of mixed order ids takes at most 1.25 of the uniform one",
     lambda waiting: [SCANS] if waiting == 0 else [], "mixed scan", "scan", lambda ratio: ratio <= 1.25),
    ("feeding 1 entry takes less than QuickFIX's parse",
     lambda waiting: [case for case in cases(waiting) if case.entries == 1], "feed", "parse", lambda ratio: ratio < 1.0),
    ("feeding 10 entries takes under 0.4 of QuickFIX with its book",
     lambda waiting: [case for case in cases(waiting) if case.entries == 10], "feed", "book", lambda ratio: ratio < 0.4),
    ("the walk of a whole recording takes at most 0.2 of QuickFIX's parse",
     lambda waiting: [EVEN, MIXED] if waiting == 0 else [], "salvage", "parse", lambda ratio: ratio <= 0.2),
)
# Aims on the instructions of the reader of digits, counted once, less those of a call that reads nothing: what each says, of which values,
# and the most that it may take of what one digit a turn takes.
LONG_VALUES = [Values(digits, "good") for digits in ("5", "8", "12", "18")]
DIGIT_AIMS = (
    ("reading good values of one length, 5 digits and more, takes at most 2/3 of the instructions of one a turn", LONG_VALUES, 2 / 3),
    ("reading all others, bad ones and mixed lengths too, takes no more instructions than one a turn",
     [values for values in VALUES if values not in LONG_VALUES], 1),
)
STACK_AIM = f"the deepest stack is under {MOST_STACK:,} bytes"

PEER_ROWS = (("plain", "plain C reader"), ("parse", "QuickFIX: parse"), ("validate", "QuickFIX: parse, validate"),
             ("book", "QuickFIX: parse, validate, book"))
# By the state. Where one waits the queue is fuller in the scan than in the feed, so their difference says nothing.
MESSAGE_ROWS = ((("feed", "feed"), ("scan", "of that the scan"), ("beyond", "of that beyond the scan")) + PEER_ROWS,
                (("feed", "feed"), ("scan", "the scan where the queue is full")) + PEER_ROWS)
RATIOS = ((("feed", "parse"), ("feed", "book"), ("beyond", "plain"), ("scan", "loop")),
          (("feed", "parse"), ("feed", "book"), ("scan", "loop")))
OTHER_ROWS = (("open", "open, 16 instruments"), ("snapshot", "feed, a snapshot of 40 entries, {bytes:,} bytes"),
              ("plain snapshot", "the same, plain C reader"), ("QuickFIX snapshot", "the same, QuickFIX with its book"),
              ("long prices", "feed, 10 entries with prices of 9 digits and 8 decimals, {bytes:,} bytes"),
              ("plain long prices", "the same, plain C reader"),
              ("loop end", "feed, a snapshot of 40 entries that ends a loop, 15 others go Live, {bytes:,} bytes"),
              ("plain loop end", "the same, plain C reader"), ("loop goes on", "feed, the same where the loop goes on"),
              ("empty all", "feed, an empty book of all 16 instruments, 640 places, {bytes:,} bytes"),
              ("plain empty all", "the same, plain C reader"),
              ("quote", "quote"), ("sell", "sell, 1 unit"), ("sell, 20 places", "sell, 20 places"), ("write", "write, 40 places"),
              ("state", "state"), ("board", "board"))
SCAN_ROWS = (("scan", "scan, order ids of 10 bytes"), ("mixed scan", "scan, order ids of 5 and of 10 bytes"),
             ("far scan", "scan, prices of 900,000,000 and more"),
             ("loop", "bare loop, sixteen numbers at a time: the floor"), ("plain loop", "bare loop, one number after the other"),
             ("scalar loop", "bare loop, one number to an instruction"))
DIGIT_ROWS = (("nothing", "a call that reads nothing"), ("digits", "proved reader"), ("by one", "proved, one digit a turn"),
              ("plain digits", "plain loop in C, one digit a turn"))
WALK_ROWS = (("salvage", "walk"), ("salvage, 1 byte in 1000 damaged", "walk, 1 byte in 1,000 damaged"),
             ("salvage, 1 byte in 10 damaged", "walk, 1 byte in 10 damaged"), ("parse", "QuickFIX: parse of each message"))
# What a recording holds, and what its rows are.
RECORDINGS = ((EVEN, "X of 1 entry, {bytes:,} bytes, {messages:,} messages", WALK_ROWS),
              (MIXED, "mixed, {bytes:,} bytes, {messages:,} messages", WALK_ROWS),
              (STARTS, "false starts, {bytes:,} bytes, {messages:,} starts", WALK_ROWS[:1]))

NOTES = """\
- The messages are made by `bench/streams.cpp`, the same in every run: 16 instruments, all followed; entries of type X that
  change, delete and add at places drawn evenly, so that each side holds 19 or 20 of 20 places. Where one waits, its entries
  and all others join the queue, which a round fills to at most 256.
- `feed` is `selkavorn_feed`: it scans the store, reads and checks the message, counts it, and changes the books. `scan` is
  `selkavorn_state` that is given no room, so the scan with the shortest refusal, of a store that holds all 640 places; where one
  waits it holds 600, and the queue is full in it, and half full in `feed` on average. Order ids have 10 bytes; where they are
  mixed, each has 10 or 5, drawn evenly, and both stores are scanned at the same address.
- The floor of the scan is a loop in C that joins the 7,168 numbers by `|`, sixteen at a time, so that none waits for the one
  before it (`bench/loop.c`). It is the quickest of three; the aim is held to it, not to the simpler ones that the compiler makes
  slower.
- The plain reader (`bench/plain.c`) keeps the same rules, books and queue in C without a proof, and does not scan what it holds:
  it is the peer of what a feed takes beyond the scan. That is the difference of `feed` and `scan`, in each repetition; where one
  waits it is not given, since the queue is fuller in that scan than in the feed.
- `parse` is QuickFIX's `Message` made from the same bytes with a dictionary of the same tags (`bench/dictionary.xml`), which
  checks length and checksum; `validate` adds its validation by that dictionary; `book` adds the number, its time, and plain
  vectors of places that take the entries, without a queue (`bench/peer.cpp`).
- All sides end with the same books: after each case all 16 instruments are quoted and written as snapshots, and each number
  of the quotes and each byte of the snapshots is what the peers hold. One that waited takes its snapshot first, so that the
  queue is compared too. Before anything is timed, the plain reader is asked 20,000 messages, many lost, repeated or harmed: it
  must give the same answer to each, every answer of a feed must come, and the books must stay the same. Whole loops must come too,
  whose ends make instruments Live with an empty book, make them Live with places, and break them; and empty books of all
  instruments, which empty Live books, join the queue, and are in it when snapshots are taken. The run fails where anything differs.
- A snapshot of 40 entries is one of a loop of 16 that names all 16 instruments, so that the end of the loop brings nothing: all 16 wait
  before the first, nothing is heard, and none waits after the last. Where 15 others go Live, the loop has two snapshots: the first is of
  an instrument that is not followed, the second is timed. Before it all 16 wait, and the queue holds 256 entries, drawn evenly over
  all, that add to books which were empty and change them. It is taken, the 15 others take an empty one each and have their entries
  replayed, and the queue is let go. The four calls of a round have a store each, which is put back before the round; that is not timed.
  Where the loop goes on, the same snapshot is the second of three, and the 15 still wait: the difference is what the end takes.
  QuickFIX's board has neither loops nor a queue, so it has no row; with the plain board all books are compared.
- An empty book of all 16 instruments is an X with one J without 48. Each of them is Live with 20 bids and 20 offers, so that one entry
  empties 32 sides, which is the most that an entry does. The four calls of a round have a store each, as at the end of a loop. The
  proved code sets the numbers of the places to 0; the plain reader sets 32 counts to 0 and leaves the places. QuickFIX's board has no
  such entry, so it has no row; with the plain board all books are compared, and must be empty.
- Prices have 3 digits and 2 decimals. Where they have 9 digits and 8 decimals, half are below 0, and all else of the stream is drawn
  alike: beside the feed of 10 entries it shows what longer prices take. They are less than 700,000,000 from 0. Where a store holds
  prices that are farther from 0 than 720,575,940, the scan may have to test place by place. The scan of prices of 900,000,000 and more
  shows what that takes, and has no aim; half of them are below 0, and order ids have 10 bytes. QuickFIX's board holds a price as a
  double, which has too few digits for long ones, so it has no row; with the plain board all books are compared.
- `sell` is `selkavorn_sell` of the store and the instrument that are quoted, which has 20 bids: a lot of 1 unit, which takes place 1
  alone, and one of as many units as all bids have, which takes the 20 places whole. It scans the store and makes the quote first, as
  `quote` does. Before it is timed, the books are compared, and all numbers of both lots with what the plain reader's places bring;
  the run fails where there are not 20 bids, or where a lot that is timed is not answered 0. `selkavorn_buy` does the same with the
  offers: its stack is measured, and it is not timed.
- The reader of digits is `digits::digits` with a width of 18, exported by itself (`crates/gauge_c`). In the archive that users link, a
  value whose field may have more than 3 digits is read by a call of one function, `digits::read`, which is here taken whole into the
  exported one; where a field has at most 3, the value is read by a loop that is taken into each caller, and that is not measured. So the
  rows of 1 to 3 digits are of values in a field that may have more. Beside it stands the proved reader that it took the place of, which
  reads one digit a turn and has the same contract, and such a loop in C (`bench/digits.c`). Of each sort there are 16,384 values
  (`bench/values.cpp`), the same in every run, end to end with a SOH behind each. Digits are drawn, the first from 1 to 9, and so are
  lengths where they differ, evenly. A bad value has one byte that is no digit, at a drawn place: `/`, `:`, or a drawn one. There are too
  many for the processor to learn which are bad, or how long each is where lengths differ, so a reader's wrong guesses are in its time. A
  round reads all of a sort, a call each, and fails where the sum of the answers is not that of what was written. The time of a digit is
  that of a value over how many bytes it has, also where it is bad and not read to its end; its instructions are so too, without those of
  a call that reads nothing. Before anything is timed, all three must answer the same to all these values, and to texts of 0 to 20 bytes
  with every byte at every place.
- A recording (`bench/recordings.cpp`) is messages of such streams end to end, at order depth, the same in every run: X of 1 entry
  alone; or mixed, with, of 16 messages on average, ten X of 1 entry, three of 4, one of 10, a heartbeat and a snapshot of 40 entries.
  Both are longer than a usual second-level cache. A damaged byte is replaced by a drawn one. Where that is one in 10, next to no
  message stays whole; one in 1,000 leaves most. `walk` is `selkavorn_salvage` from the first byte to the last, with room for 1,024
  pieces that is lent again and again. Beside it QuickFIX parses each message of the whole recording, which it is handed one by one:
  it has none to find. False starts are made to be costly, and have no aim: they stand as dense as they can, at most 22 bytes apart,
  and each names a stretch up to the next of the trailers, which stand as far apart as the longest message is long and have a wrong
  sum, so that each stretch is read to its end before it is refused.
- Before a walk is timed, its pieces are compared one by one, in kind, place and length, with those of a walk that asks the plain
  reader at each byte, and must cover the recording; when it is timed, their number is compared.
- The store starts at an address that 64 divides, as a line of the cache does (`bench/store.hpp`). A time depends on where in
  memory it lies, so each round takes another of 31 copies; a scan and its loop have the same one. The proved code as a whole starts at
  such an address too (`bench/align.c`), and so does each of the three readers of digits (`bench/Makefile`), so that builds of the bench
  compare. In another program the proved code may lie less well: in a build without that the scan where the queue is full took a fifth
  more on a Neoverse-N1.
- A time is the processor's time of the thread, by round, divided by the calls of the round; the rounds of the rows take turns, and
  each is done once before it is timed, so that what it needs is in the caches, as far as they hold it. Recordings have a third of the
  rounds. A repetition is a run of the program, with addresses of its own, and its time is the mean of the middle half of its rounds. A
  table has the median of the repetitions, the lowest and the highest of them, and how far those lie apart. A run in which that is
  above {most} in any row that is timed is not kept, unless it is asked for; what lies beyond the scan is a difference of two such
  rows.
- Instructions are those that callgrind counts in one round, on the same machine; for a recording, in a shorter one of the same
  kind, of some 262,000 bytes.
- A call's stack is the deepest byte that it wrote below its caller's frame, in the calls of `bench/stack.c`. It is measured, not a
  bound.
- The proved code is compiled by the Rattle kit at -O3, without options for one processor. On x86-64 it is the archive that users
  link; on another processor the kit's module is compiled for that (docs/NATIVE.md). What stands around it, the plain reader and
  the loops are compiled at -O3 too.
"""


def number(value, decimals=0):
    return "-" if value is None else f"{value:,.{decimals}f}"


def span(values, decimals=0):
    return f"{number(min(values), decimals)} to {number(max(values), decimals)} ({spread(values):.1%})"


def ratio(values):
    return f"{median(values):.2f} ({min(values):.2f} to {max(values):.2f})"


def table(head, rows, left=1):
    """A table of markdown that is aligned as text: the first columns to the left, the others to the right."""
    rows = [[str(cell) for cell in row] for row in rows]
    widths = [max(len(row[i]) for row in [head] + rows) for i in range(len(head))]

    def line(row):
        cells = [c.ljust(w) if i < left else c.rjust(w) for i, (c, w) in enumerate(zip(row, widths))]
        return "| " + " | ".join(cells) + " |"

    rule = "|" + "|".join("-" * (w + 2) if i < left else "-" * (w + 1) + ":" for i, w in enumerate(widths)) + "|"
    return "\n".join([line(head), rule] + [line(row) for row in rows]) + "\n"


def of_machines(runs, *names):
    return [f"{run.machine}: {name}" for run in runs for name in names]


def figures(run, case, what, decimals=0):
    """The cells of a row on one machine: median, span, instructions."""
    if (case, what) not in run.times and what != "beyond":
        return ["-", "-", "-"]
    ns = run.ns(case, what)
    return [number(median(ns), decimals), span(ns, decimals), number(run.instructions.get((case, what)), decimals)]


def times(runs, waiting):
    rows = []
    for case in cases(waiting):
        name = f"{message_name(case)}, {runs[0].bytes[case, 'feed']:,} bytes"
        for what, meaning in MESSAGE_ROWS[waiting]:
            rows.append([name, meaning] + [cell for run in runs for cell in figures(run, case, what)])
            name = ""
    return table(["message", ""] + of_machines(runs, "ns", "lowest to highest", "instructions"), rows, 2)


def ratios(runs, waiting):
    names = {"beyond": "beyond the scan", "plain": "plain C reader"}
    pairs = RATIOS[waiting]
    heads = [f"{names.get(what, what)} / {names.get(other, other)}" for what, other in pairs]
    rows = [[message_name(case)] + [ratio(run.ratios(case, *pair)) for run in runs for pair in pairs] for case in cases(waiting)]
    return table(["message"] + of_machines(runs, *heads), rows)


def others(runs):
    rows = []
    for depth in DEPTHS:
        case = Case(depth, 0, 0)
        for what, meaning in OTHER_ROWS:
            lengths = [run.bytes[case, what] for run in runs if (case, what) in run.bytes]
            if lengths:
                name = f"{depth} depth: " + meaning.format(bytes=lengths[0])
                rows.append([name] + [cell for run in runs for cell in figures(run, case, what)])
    for what, meaning in SCAN_ROWS:
        rows.append([f"order depth: {meaning}"] + [cell for run in runs for cell in figures(run, SCANS, what)])
    return table(["call"] + of_machines(runs, "ns", "lowest to highest", "instructions"), rows)


def beyond_call(run, values, what):
    """The instructions of a reader of digits beyond those of a call that reads nothing."""
    return run.instructions[values, what] - run.instructions[VALUES[0], "nothing"]


def digit_share(run, values):
    return beyond_call(run, values, "digits") / beyond_call(run, values, "by one")


def digit_figures(run, values, what):
    """The cells of a reader of digits on one machine: of a value time, span and instructions, of a digit both, and its shares of the time
    and the instructions of one digit a turn. The instructions of a digit, and the share of instructions, are beyond the call."""
    cells = figures(run, values, what, 1)
    if what == "nothing":
        return cells + ["-"] * 4
    length = run.bytes[values, what]
    cells += [number(median(run.ns(values, what)) / length, 1), number(beyond_call(run, values, what) / length, 1)]
    if what != "digits":
        return cells + ["-"] * 2
    return cells + [ratio(run.ratios(values, what, "by one")), f"{digit_share(run, values):.2f}"]


def digits(runs):
    rows = []
    for values in VALUES:
        name = values_name(values)
        for what, meaning in DIGIT_ROWS:
            if (values, what) in runs[0].times:
                rows.append([name, meaning] + [cell for run in runs for cell in digit_figures(run, values, what)])
                name = ""
    heads = of_machines(runs, "ns a value", "lowest to highest", "instructions", "ns a digit", "instructions a digit, call left out",
                        "time / one a turn", "instructions / one a turn, call left out")
    return table(["values", ""] + heads, rows, 2)


def walk_figures(run, recording, what):
    """The cells of a walk, or of its peer, on one machine: speed, time, span, instructions, and its share of the parse."""
    shares = ratio(run.ratios(recording, what, "parse")) if (recording, "parse") in run.times and what != "parse" else "-"
    return [number(median(run.speeds(recording, what)))] + figures(run, recording, what) + [shares]


def walks(runs):
    rows = []
    for recording, meaning, whats in RECORDINGS:
        name = meaning.format(**runs[0].recordings[recording, "salvage"])
        for what, words in whats:
            held = runs[0].recordings.get((recording, what))
            found = number(held["found"] if held else None)
            rows.append([name, words, found] + [cell for run in runs for cell in walk_figures(run, recording, what)])
            name = ""
    heads = of_machines(runs, "MB/s", "ns a message", "lowest to highest", "instructions", "walk / parse")
    return table(["recording", "", "messages found"] + heads, rows, 2)


def of_machine(runs, machine, what):
    """The stacks or the sizes of a machine: from its own run, or from another's, which had its archive under an emulator."""
    own = [run for run in runs if run.machine == machine]
    return next((getattr(run, what)[machine] for run in own + list(runs) if machine in getattr(run, what)), {})


def known(runs, what):
    return {machine: of_machine(runs, machine, what) for machine in MACHINES if of_machine(runs, machine, what)}


def stacks(runs):
    found = known(runs, "stacks")
    calls = [call for call in CALLS if any(call in of for of in found.values())]
    return table(["call"] + list(found), [[call] + [number(of.get(call)) for of in found.values()] for call in calls])


def sizes(runs):
    found = known(runs, "sizes")
    names = sorted({name for of in found.values() for name in of}, key=lambda name: (not name.startswith("selkavorn_"), name))
    rows = [[name] + [number(of.get(name)) for of in found.values()] for name in names]
    return table(["function"] + list(found), rows + [["all"] + [number(sum(of.values())) for of in found.values()]])


def verdict(good):
    if all(good):
        return "met"
    return f"met in {sum(good)} of {len(good)}" if any(good) else "MISSED"


def judged(run):
    """For each aim: what it says, the worst of each state, and whether it is met: one on times in every row and repetition where none
    waits; one on digits, whose instructions are counted once, in every row; the one on the stack by the deepest call."""
    for says, of, what, other, is_good in AIMS:
        found = [[r for case in of(waiting) for r in run.ratios(case, what, other)] for waiting in range(len(STATES))]
        yield says, [f"{max(values):.2f}" if values else "-" for values in found], verdict([is_good(r) for r in found[0]])
    for says, of, most in DIGIT_AIMS:
        shares = [digit_share(run, values) for values in of]
        yield says, [f"{max(shares):.2f}", "-"], verdict([share <= most for share in shares])
    deepest = max(depth for of in run.stacks.values() for depth in of.values())
    yield STACK_AIM, [number(deepest)] * len(STATES), verdict([deepest < MOST_STACK])


def aims(runs):
    by_run = [list(judged(run)) for run in runs]
    rows = [[of[0][0]] + [cell for _, worst, met in of for cell in [met] + worst] for of in zip(*by_run)]
    counts = [f"{run.machine} {sum(met == 'met' for *_, met in of)} of {len(of)}" for run, of in zip(runs, by_run)]
    return "Aims met: " + ", ".join(counts) + ".\n\n" + table(["aim"] + of_machines(runs, "verdict", *STATES), rows)


def machines(runs, stale):
    """What each run was made on, and which machine has none."""
    rows = []
    for run in runs:
        f, widest = run.facts, max(spread(ns) for ns in run.times.values())
        rows.append([run.machine, f["processor"], f["date"], f"{f['repetitions']} of {f['rounds']}", f"{widest:.1%}", f["compiler"],
                     f["kit"], f["quickfix"], f["valgrind"]])
    text = table(["machine", "processor", "measured on", "repetitions of rounds", "widest spread", "C and C++ compiler", "kit",
                  "QuickFIX", "callgrind"], rows, 9) if rows else ""
    for machine in MACHINES:
        if machine not in [run.machine for run in runs]:
            other = f"; the one of {stale[machine]} is of another version" if machine in stale else ""
            text += f"\n**{machine}: no run of this version is kept{other}.** `make bench` on such a machine adds its columns.\n"
    return text


def noise(runs):
    """The rows that were not steady, by name where they are few."""
    for run in runs:
        names = [f"{row_name(case, what)} ({spread(ns):.1%})" for case, what, ns in run.noisy()]
        if len(names) > MOST_NAMED:
            yield (f"**On {run.machine} the spread is above {MOST_SPREAD:.0%} in {len(names)} of {len(run.times)} rows: the machine was "
                   "not quiet.** Its times are rough, each with its lowest and highest beside it; the counts of instructions are not "
                   "touched by that.\n")
        elif names:
            yield f"On {run.machine} the spread is above {MOST_SPREAD:.0%} in: " + "; ".join(names) + ".\n"


def measured(runs):
    yield "![Time of one message, the proved code beside its peers](bench.svg)\n"
    yield "## Aims\n"
    yield aims(runs)
    yield ("The aims are for boards on which none waits; where one waits, the same is measured without an aim. A ratio is of times, and "
           "its aim is judged in every row and every repetition that it speaks of, order and price depth both; the figure is the worst of "
           "them. But the two aims on digits have no board: their ratios are of instructions, counted once, less those of a call that "
           "reads nothing, and are judged in every row that they speak of. The stack is the deepest of all calls measured, of the archive "
           "for x86-64 too.\n")
    for waiting, state in enumerate(STATES):
        yield f"## Ratios, {state}\n"
        yield ratios(runs, waiting)
    for waiting, state in enumerate(STATES):
        yield f"## Time of one message, {state}, ns\n"
        yield times(runs, waiting)
    yield "## The other calls\n"
    yield ("On full books, none waiting, but for the loop: there all 16 wait, and the queue is full. Each call on a store scans it, but "
           "open.\n")
    yield others(runs)
    yield "## Reading digits\n"
    yield ("The reader of digits by itself, with a width of 18. All times, their ratio, and the instructions of a value are with the call "
           "and the loop around it. What these take where nothing is read stands first; the two columns whose heads say so are without "
           "the instructions of that.\n")
    yield digits(runs)
    yield "## The walk of a recording\n"
    yield ("A time is of one message that was recorded, or of one false start: that of the whole walk divided by how many there are. "
           "MB/s are millions of bytes of the recording a second.\n")
    yield walks(runs)
    yield "## Stack of a call, bytes\n"
    yield stacks(runs)
    yield "## Code of the archive, bytes\n"
    yield "What is not named was taken into its caller.\n"
    yield sizes(runs)
    if "x86_64" not in [run.machine for run in runs]:
        yield "Stack and code of x86_64 are of the archive for x86-64, whose stack was measured under an emulator.\n"


def page(version, all_runs):
    runs = [run for run in all_runs if run.facts["version"] == version]
    stale = {run.machine: run.facts["date"] for run in all_runs if run not in runs}
    yield "# Speed, stack and size\n"
    yield ("Written by `make bench` from the runs that are kept in `bench/results/`, one for each machine. A run is of one version of "
           f"the code and of the bench: this page is of version {version}.\n")
    yield machines(runs, stale)
    yield from noise(runs)
    if runs:
        yield from measured(runs)
    yield "## How it is measured\n"
    yield NOTES.format(most=f"{MOST_SPREAD:.0%}")


def main():
    if len(sys.argv) < 2:
        sys.exit(__doc__)
    runs = sorted((load(path) for path in sys.argv[2:]), key=lambda run: MACHINES.index(run.machine))
    sys.stdout.write("\n".join(page(sys.argv[1], runs)))


if __name__ == "__main__":
    main()
