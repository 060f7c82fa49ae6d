# shellcheck shell=sh disable=SC2154
# lots.sh: the tests of selkavorn sell and buy. scripts/test-c reads it, and has check, ends, prints, fills_up, $work and the names of
# recordings and instruments.
lots=target/c/lots.fix
spread=3809701 bounds=3810999 currency=3811205 widest=999999999999999999
no_sum="no lot: a sum does not fit 64 bits"

# lot STATUS TEXT COMMAND ARGUMENTS..: whether sell or buy ends with this status and prints the text samples/TEXT, and nothing on
# standard error.
lot() {
    wanted_status=$1 text=$2
    shift 2
    ends "$wanted_status" "$@" && diff "samples/$text" "$work/out" && diff /dev/null "$work/err"
}

# of_lots STATUS TEXT COMMAND QUANTITY ID ARGUMENTS..: whether a lot of the sample lots ends with this status and prints a line with
# this text.
of_lots() {
    wanted_status=$1 text=$2 command=$3 quantity=$4 id=$5
    shift 5
    prints "$wanted_status" "$text" "$command" --depth price --quantity "$quantity" --instrument "$id" "$@" "$lots"
}

# ---- exactness ----

# adds_up: whether every lot of the samples adds up: units times price are amounts, amounts the sum, and the average is what the sum
# comes to, cut and not rounded.
adds_up() {
    python3 - samples/*-sell.json samples/*-buy.json <<'P'
import fractions, json, sys
exact = fractions.Fraction
for path in sys.argv[1:]:
    lot = json.load(open(path))["lot"]
    places = lot["places"]
    assert [place["place"] for place in places] == list(range(1, len(places) + 1)), path
    assert all(exact(place["price"]) * place["units"] == exact(place["amount"]) for place in places), path
    units, total = sum(place["units"] for place in places), sum(exact(place["amount"]) for place in places)
    assert total == exact(lot["sum"]) and units + lot["left"] == lot["quantity"], path
    if not places:
        assert lot["average"] is None and lot["average_exact"] is None, path
        continue
    rest = abs(total / units) - abs(exact(lot["average"]))
    assert 0 <= rest < exact(1, 10**12) and (rest == 0) == lot["average_exact"], path
P
}

# is_reckoned RECORDING DEPTH ID: whether lots of both sides, at and around the units of each place, are what Python reckons from the
# book that `selkavorn snapshot` writes.
is_reckoned() {
    python3 - "$@" <<'P'
import fractions, json, re, subprocess, sys
recording, depth, instrument = sys.argv[1:]
exact = fractions.Fraction
unit = int(re.search(r"SELKAVORN_PRICE_UNIT (\d+)", open("include/selkavorn.h").read())[1])

def run(command, *words):
    words = ["scripts/run-program", "target/c/selkavorn", command, "--depth", depth, "--instrument", instrument, *words, recording]
    return subprocess.run(words, capture_output=True, text=True)

fields = [field.split("=", 1) for field in run("snapshot", "--sender", "HUT", "--target", "YARD").stdout.split("\1") if field]
books = {"sell": [], "buy": []}
for tag, value in fields:
    if tag == "269":
        side = books["sell" if value == "0" else "buy"]
    if tag == "270":
        price = exact(value)
    if tag == "271":
        side.append((price, int(value)))

def reckon(side, quantity):
    """Places as (units, price), what is left, and whether all sums fit."""
    places, left, total, fits = [], quantity, 0, True
    for price, size in side:
        units = min(size, left)
        if units > 0:
            places.append((units, price))
        left, total = left - units, total + price * units * unit
        fits = fits and -2**63 <= total < 2**63
    return places, left, fits

tried = 0
for command, side in books.items():
    ends = [sum(size for _, size in side[:k]) for k in range(len(side) + 1)]
    asked = {end + more for end in [*ends, 10**9 - 1] for more in (-1, 0, 1)}
    for quantity in sorted(number for number in asked if 1 <= number < 10**9):
        places, left, fits = reckon(side, quantity)
        ran = run(command, "--json", "--quantity", str(quantity))
        lot = json.loads(ran.stdout)["lot"]
        tried += 1
        if not fits:
            assert ran.returncode == 4 and lot["answer"] == 35 and "sum" not in lot, (command, quantity, lot)
            continue
        told = [(place["units"], exact(place["price"])) for place in lot["places"]]
        assert ran.returncode == 0 and told == places and lot["left"] == left, (command, quantity, lot)
        assert exact(lot["sum"]) == sum(units * price for units, price in places), (command, quantity, lot)
print(f"{recording}, {instrument}: {tried} lots")
P
}

# ---- a library that disagrees with itself ----

# disagrees WRONG RECORDING: whether no lot is given where the library is wrong in this.
disagrees() {
    got=0
    WRONG=$1 scripts/run-program "$work/wrong" sell --quantity 15 --instrument "$coffee" "$2" >"$work/out" 2>"$work/err" || got=$?
    [ "$got" -eq 4 ] && grep -q "no lot: the library's sums and its snapshot disagree" "$work/out" || { echo "status $got"; cat "$work/out"; return 1; }
    ! grep '^place' "$work/out"
}

# agrees: whether the lot is given where that library is not wrong.
agrees() { WRONG='' scripts/run-program "$work/wrong" sell --quantity 15 --instrument "$coffee" "$morning" | diff samples/morning-sell.expected -; }

# builds_wrong: builds the gateway with tests/wrong.c between it and the library.
builds_wrong() {
    # The compiler's words are split.
    # shellcheck disable=SC2046
    $(scripts/c-compiler) -std=c11 -O2 -Wall -Wextra -Werror -pedantic -Iinclude -Wl,--wrap=selkavorn_sell,--wrap=selkavorn_write \
        -o "$work/wrong" gateway/*.c tests/wrong.c target/staticlib/libselkavorn.a
}

# ---- recordings ----

# has_no_time: whether a recording without a time is told as such, and the instrument waits.
has_no_time() {
    echo 'send 35=h|34=1|340=2|' >"$work/timeless.txt"
    samples/make-recording "$work/timeless.txt" >"$work/timeless.fix"
    prints 4 "Lot: there is no time in the recording, and --now was not given." sell --quantity 1 --instrument 7 "$work/timeless.fix" &&
        grep -q "no lot: Waiting, no snapshot since opening" "$work/out"
}

# a_unit_is_the_quote: whether a lot of one unit costs what the quote says.
a_unit_is_the_quote() {
    ends 0 replay --csv --instruments "$coffee" "$morning" && awk -F, 'NR > 1 { print $6 }' "$work/out" >"$work/quotes"
    for command in sell buy; do
        ends 0 "$command" --csv --quantity 1 --instrument "$coffee" "$morning" && awk -F, 'NR > 1 { print $13 }' "$work/out"
    done | diff "$work/quotes" -
}

# reads_columns: whether a reader of CSV takes the rows, in which every column is there.
reads_columns() {
    python3 -c '
import csv
for name in ("morning-sell", "lots-widest-sell", "lots-empty-buy"):
    for row in csv.DictReader(open(f"samples/{name}.csv")):
        assert None not in row and None not in row.values()
        print(name, row["place"], row["amount"], row["sum"], row["left"], row["average"], row["average_exact"], row["heard"])' >"$work/rows"
    diff "$work/rows" - <<'R'
morning-sell 1 2549.2 4777.7 0 318.513333333333 no 20250103-12:15:17.045
morning-sell 2 1274.2 4777.7 0 318.513333333333 no 20250103-12:15:17.045
morning-sell 3 954.3 4777.7 0 318.513333333333 no 20250103-12:15:17.045
lots-widest-sell 1 91999999999.99999908 -91999999999.99999908 0 -333333333.33333333 yes 20250103-12:00:10.000
lots-widest-sell 2 -183999999999.99999816 -91999999999.99999908 0 -333333333.33333333 yes 20250103-12:00:10.000
lots-empty-buy   0 12   20250103-12:00:10.000
R
}

# Samples.
for command in sell buy; do
    check "$command: morning" lot 0 "morning-$command.expected" "$command" --quantity 15 --instrument "$coffee" "$morning"
    check "$command: morning, --csv" lot 0 "morning-$command.csv" "$command" --csv --quantity 15 --instrument "$coffee" "$morning"
    check "$command: morning, --json" lot 0 "morning-$command.json" "$command" --json --quantity 15 --instrument "$coffee" "$morning"
done
check "sell: lots, 20 places" lot 0 lots-sell.expected sell --depth price --quantity 2000 --instrument "$coffee" --now 20250103-12:00:12 "$lots"
check "sell: lots, prices below zero" lot 0 lots-spread-sell.expected sell --depth price --quantity 7 --instrument "$spread" "$lots"
check "buy: lots, the largest lot" lot 0 lots-spread-buy.expected buy --depth price --quantity 999999999 --instrument "$spread" "$lots"
check "sell: lots, the widest amounts" lot 0 lots-widest-sell.expected sell --depth price --quantity 276 --instrument "$widest" "$lots"
check "buy: lots, an empty side" lot 0 lots-empty-buy.expected buy --depth price --quantity 12 --instrument "$coffee" "$lots"
for form in csv json; do
    check "sell: lots, 20 places, --$form" lot 0 "lots-sell.$form" \
        sell "--$form" --depth price --quantity 2000 --instrument "$coffee" --now 20250103-12:00:12 "$lots"
    check "sell: lots, prices below zero, --$form" lot 0 "lots-spread-sell.$form" \
        sell "--$form" --depth price --quantity 7 --instrument "$spread" "$lots"
    check "sell: lots, the widest amounts, --$form" lot 0 "lots-widest-sell.$form" \
        sell "--$form" --depth price --quantity 276 --instrument "$widest" "$lots"
    check "buy: lots, an empty side, --$form" lot 0 "lots-empty-buy.$form" buy "--$form" --depth price --quantity 12 --instrument "$coffee" "$lots"
done
check "sell: standard input, a file" lot 0 morning-sell.expected sell --quantity 15 --instrument "$coffee" - <"$morning"
cat "$morning" >"$work/pipe" &
check "sell: standard input, a pipe" lot 0 morning-sell.expected sell --quantity 15 --instrument "$coffee" - <"$work/pipe"
check "sell and buy: one unit is the quote" a_unit_is_the_quote
check "sell: a currency contract" prints 0 "    1       500          1.23456789             617.283945 20250103-12:00:00.000" \
    sell --quantity 500 --instrument "$currency" target/c/wide.fix
check "buy: a currency contract" prints 0 "    1         1           1.2345679              1.2345679 20250103-12:00:00.000" \
    buy --quantity 1 --instrument "$currency" target/c/wide.fix
check "sell: the lowest price" prints 0 "    1         1 -999999999.99999999    -999999999.99999999 20250103-12:00:00.000" \
    sell --quantity 1 --instrument "$widest" target/c/wide.fix

# The bounds of a sum.
check "sell: the largest sum" of_lots 0 " 92233720368.54775807 20250103-12:00:10.000" sell 1001 "$bounds"
check "sell: one unit more does not fit" of_lots 4 "$bounds            $no_sum" sell 1002 "$bounds"
check "buy: the lowest sum" of_lots 0 " -92233720368.54775808 20250103-12:00:10.000" buy 1001 "$bounds"
check "buy: one unit more does not fit" of_lots 4 "$bounds            $no_sum" buy 1002 "$bounds"
check "buy: a place that does not fit" of_lots 4 "$widest $no_sum" buy 93 "$widest"
check "buy: a sum between that does not fit" of_lots 4 "$widest $no_sum" buy 186 "$widest"
check "sell: the largest lot at the widest prices" of_lots 4 "$widest $no_sum" sell 999999999 "$widest"
check "buy: what to do then" of_lots 4 "Ask for a smaller lot." buy 186 "$widest"
check "buy: a sum that does not fit, --csv" of_lots 4 ',35,"a sum does not fit 64 bits",buy,186,,,,,,,,,20250103-12:00:10.000,3,0,' buy 186 "$widest" --csv
check "buy: a sum that does not fit, --json" of_lots 4 '"answer": 35, "why": "a sum does not fit 64 bits"' buy 186 "$widest" --json

# Refusals.
check "sell: Waiting" prints 4 "$cattle            no lot: Waiting, no snapshot since opening or the last gap" \
    sell --quantity 5 --instrument "$cattle" "$morning"
check "buy: Waiting, broken" prints 4 "no lot: Waiting, an entry found its side full" \
    buy --depth price --quantity 5 --instrument "$cattle" target/c/prices.fix
check "sell: an instrument that is not in the recording" prints 4 "no lot: Waiting" sell --quantity 5 --instrument 7 "$morning"
check "sell: Waiting, --csv" prints 4 '3810077,"BGIF25",21,"Waiting, no snapshot since opening or the last gap",sell,5,,,,,,,,,20250103-12:15:17.045,28,0,20250103-12:15:17.045,recording,30' \
    sell --csv --quantity 5 --instrument "$cattle" "$morning"
check "sell: Waiting, --json" prints 4 '"answer": 21, "why": "Waiting, no snapshot since opening or the last gap",' \
    sell --json --quantity 5 --instrument "$cattle" "$morning"
check "sell: nothing heard" prints 4 "no lot: nothing heard yet" sell --quantity 5 --instrument "$coffee" target/c/unheard.fix
check "sell: nothing heard, --csv" prints 4 '3809512,"",22,"nothing heard yet",sell,5,,,,,,,,,,,,20250103-11:59:20.000,recording,30' \
    sell --csv --quantity 5 --instrument "$coffee" target/c/unheard.fix
check "sell: no time in the recording" has_no_time
check "sell: at its limit" prints 0 "Age at that moment: 30.000 s. Limit: 30 s." \
    sell --quantity 5 --instrument "$coffee" --now 20250103-12:15:47.045 "$morning"
check "sell: past its limit" prints 4 "no lot: too old" sell --quantity 5 --instrument "$coffee" --now 20250103-12:15:47.046 "$morning"
check "buy: a limit of 0" prints 0 "Age at the recording's last moment: 0.000 s. Limit: 0 s." \
    buy --quantity 5 --instrument "$coffee" --limit 0 "$morning"
check "buy: a longer limit" prints 0 "Age at that moment: 86399.999 s. Limit: 86400 s." \
    buy --quantity 5 --instrument "$coffee" --now 20250104-12:15:17.044 --limit 86400 "$morning"
check "buy: now before the heard time" prints 4 "no lot: now is before the heard time" \
    buy --quantity 5 --instrument "$coffee" --now 20250103-12:15:17.044 "$morning"
check "sell: silent" prints 4 "no lot: too old" sell --quantity 5 --instrument "$coffee" target/c/silent.fix
check "sell: a refusal comes before a sum" of_lots 4 "no lot: too old" sell 1002 "$bounds" --now 20250103-12:01:00
check "sell: no --now is said" prints 0 "How old it is at present is not known." sell --quantity 5 --instrument "$coffee" "$morning"
check "sell: --now is said" prints 0 "Lot at 20250103-12:15:18 UTC, the moment of --now." \
    sell --quantity 5 --instrument "$coffee" --now 20250103-12:15:18 "$morning"
check "sell: what dates it is said" prints 0 "Last counted: number 28, sent 20250103-12:15:17.045 UTC." \
    sell --quantity 5 --instrument "$coffee" "$morning"

# Lost resets.
for command in sell buy; do
    check "$command: a lost reset" prints 5 "no lot: a sequence reset was lost" \
        "$command" --quantity 1 --instrument "$coffee" --resets pass target/c/reset-lost.fix
done
check "sell: a lost reset, --csv" prints 5 '3809512,"",,"a sequence reset was lost",sell,1,,,,,,,,,' \
    sell --csv --quantity 1 --instrument "$coffee" --resets pass target/c/reset-lost.fix
check "sell: a lost reset, --json" prints 5 '"answer": null, "why": "a sequence reset was lost"' \
    sell --json --quantity 1 --instrument "$coffee" --resets pass target/c/reset-lost.fix
check "sell: a lost reset that is acted on" prints 0 "Sequence resets lost: 1." sell --quantity 1 --instrument "$coffee" target/c/reset-lost.fix
check "sell: a lost reset is told beside --csv" prints 0 "Sequence resets lost: 1." \
    sell --csv --quantity 1 --instrument "$coffee" target/c/reset-lost.fix
check "sell: --silence" prints 0 "301.15" sell --quantity 1 --instrument "$coffee" --silence 30 target/c/reset-unseen.fix
check "sell: a silence that is not acted on" prints 5 "no lot: a sequence reset was lost" \
    sell --quantity 1 --instrument "$coffee" --silence 1799 --resets pass target/c/reset-unseen.fix

# A library that disagrees with itself.
check "a library in between" builds_wrong
check "sell: the library agrees" agrees
for wrong in part-sum part-refused part-left part-number part-date part-time whole-sum whole-left whole-number whole-date whole-time \
    writing-refused writing-price writing-size writing-place writing-number writing-side; do
    check "sell: the library disagrees, $wrong" disagrees "$wrong" "$morning"
done
for wrong in whole-sum whole-left whole-number whole-date whole-time; do
    check "sell: the library disagrees at an empty side, $wrong" disagrees "$wrong" target/c/two-days.fix
done

# Options, and bad use.
for quantity in 0 00 01 1000000000 99999999999999999999 -1 +1 1.5 1e3 ' 1' '1 ' ''; do
    check "sell: a bad quantity, '$quantity'" prints 2 "not a quantity of 1 to 999999999" \
        sell --quantity "$quantity" --instrument "$coffee" "$morning"
done
check "sell: the smallest quantity" prints 0 "Left to sell: 0 of 1." sell --quantity 1 --instrument "$coffee" "$morning"
check "sell: the largest quantity" prints 0 "Left to sell: 999999977 of 999999999. The bids hold no more." \
    sell --quantity=999999999 --instrument="$coffee" "$morning"
check "sell: the last --quantity counts" prints 0 "Left to sell: 0 of 2." sell --quantity 1 --quantity 2 --instrument "$coffee" "$morning"
check "sell: --snapshots" prints 0 "Left to sell: 2 of 7. The bids hold no more." \
    sell --quantity 7 --instrument "$coffee" --snapshots "$apart_snapshots" "$apart"
check "sell: --snapshots from standard input" prints 0 "Left to sell: 2 of 7." \
    sell --quantity 7 --instrument "$coffee" --snapshots - "$apart" <"$apart_snapshots"
check "sell: standard input twice" prints 2 "both recordings cannot be standard input" \
    sell --quantity 1 --instrument "$coffee" --snapshots - - <"$morning"
check "sell: the wrong depth" prints 4 "is --depth right?" sell --quantity 1 --instrument "$coffee" --depth price "$morning"
for command in sell buy; do
    check "$command: no quantity" prints 2 "$command: it needs --quantity and --instrument" "$command" --instrument "$coffee" "$morning"
    check "$command: no instrument" prints 2 "$command: it needs --quantity and --instrument" "$command" --quantity 5 "$morning"
    check "$command: no file named" prints 2 "$command: no file is named" "$command" --quantity 5 --instrument "$coffee"
done
check "sell: a value is missing" prints 2 "its value is missing" sell "$morning" --instrument "$coffee" --quantity
check "sell: a second file" prints 2 "a second file" sell --quantity 5 --instrument "$coffee" "$morning" "$apart"
check "sell: a bad SecurityID" prints 2 "not a SecurityID" sell --quantity 5 --instrument "$coffee=coffee" "$morning"
check "sell: a bad moment" prints 2 "not a moment" sell --quantity 5 --instrument "$coffee" --now 20250229-13:00:00 "$morning"
check "sell: an empty moment" prints 2 "not a moment" sell --quantity 5 --instrument "$coffee" --now= "$morning"
check "buy: a bad limit" prints 2 "not a limit" buy --quantity 5 --instrument "$coffee" --limit 86401 "$morning"
check "buy: --csv takes no value" prints 2 "it takes no value" buy --quantity 5 --instrument "$coffee" --csv=yes "$morning"
for option in --instruments=7 --quote --sender=HUT --target=YARD --number=1 --of=1 --time=20250103-12:00:00 --keep=out --totals; do
    check "sell: no such option, $option" prints 2 "no such option" sell --quantity 5 --instrument "$coffee" "$option" "$morning"
done
for command in replay snapshot salvage; do
    check "$command: no such option, --quantity" prints 2 "no such option" "$command" --quantity 5 "$morning"
done
check "replay: no such option, --instrument" prints 2 "no such option" replay --instrument "$coffee" "$morning"
check "sell: a missing file" prints 3 "cannot be read" sell --quantity 5 --instrument "$coffee" target/c/no-such-file
check "buy: no message" prints 3 "holds no message" buy --quantity 5 --instrument "$coffee" samples/morning.txt
for form in --depth=order --csv --json; do
    check "output that cannot be written: sell $form" fills_up sell --quantity 5 --instrument "$coffee" "$form" "$morning"
done

if ! command -v python3 >/dev/null; then
    echo "not tried, python3 is not here: lots reckoned anew, readers of JSON and CSV for lots"
else
    check "sell and buy: the samples add up" adds_up
    check "sell and buy: a reader of CSV takes them" reads_columns
    check "sell and buy: lots reckoned anew, morning" is_reckoned "$morning" order "$coffee"
    check "sell and buy: lots reckoned anew, a currency contract" is_reckoned target/c/wide.fix order "$currency"
    for id in "$coffee" "$spread" "$bounds" "$widest"; do check "sell and buy: lots reckoned anew, $id" is_reckoned "$lots" price "$id"; done
fi
