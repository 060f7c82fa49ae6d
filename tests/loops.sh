# shellcheck shell=sh disable=SC2154
# loops.sh: the tests of whole loops of snapshots. scripts/test-c reads it, and has check, ends, prints, replays, writes, $work and the
# names of recordings and instruments.
options=target/c/options.fix
empty_call=3811350
followed=3810077,3811310,3811320,3811330,$empty_call

# tells NUMBER: whether so many lines of what was printed tell of a whole loop.
tells() { [ "$(grep -c '^            loop whole: ' "$work/out")" -eq "$1" ] || { cat "$work/out"; return 1; }; }

# recorded NAME: makes the recording NAME.fix of the text NAME.txt, both in $work.
recorded() { samples/make-recording "$work/$1.txt" >"$work/$1.fix"; }

# ---- the sample ----

# loops_apart: whether the same is told, and the same quotes are given, where the snapshots are in a file of their own.
loops_apart() {
    awk -v room="$work" '/^[a-z]/ { name = /^[a-z]+ 35=W/ ? "snapshots" : "others" } name { print >(room "/" name ".txt") }' samples/options.txt
    recorded snapshots && recorded others || return 1
    ends 0 replay --instruments "$followed" --snapshots "$work/snapshots.fix" "$work/others.fix" || return 1
    for text in samples/options.expected "$work/out"; do
        grep '^            loop whole: ' "$text" >"$work/told"
        sed -n '/^Quotes/,$p' "$text" >>"$work/told"
        cp "$work/told" "$work/told-$(basename "$text")"
    done
    diff "$work/told-options.expected" "$work/told-out"
}

# each_twice: whether no loop of more than two is whole where each snapshot comes twice, so that the put and the last call stay Waiting.
each_twice() {
    awk 'function put() { printf "%s", text; if (text ~ /^send 35=W/) printf "%s", text; text = "" }
        /^ / { text = text $0 "\n"; next } { put(); text = $0 "\n" } END { put() }' samples/options.txt >"$work/twice.txt"
    recorded twice && prints 0 "$empty_call            no quote: Waiting, no snapshot since opening or the last gap" \
        replay --instruments "$followed" "$work/twice.fix" && tells 4 && grep -q '^3811310            no quote: Waiting' "$work/out"
}

check "replay: options" replays 0 options.expected --instruments "$followed" "$options"
check "--csv: options" replays 0 options.csv --csv --instruments "$followed" "$options"
check "--json: options" replays 0 options.json --json --instruments "$followed" "$options"
check "loops: the snapshots in a file of their own" loops_apart
check "loops: each snapshot twice" each_twice
check "loops: counted without lines" prints 0 "Empty books taken at the end of whole loops of snapshots: 6." \
    replay --quote --instruments "$followed" "$options"
check "sell: an empty book of a whole loop" prints 0 "Left to sell: 3 of 3. The bids are empty." \
    sell --quantity 3 --instrument "$empty_call" "$options"
check "sell: how often that came" prints 0 "Empty books taken at the end of whole loops of snapshots: 2." \
    sell --quantity 3 --instrument "$empty_call" "$options"
check "snapshot: an empty book of a whole loop" prints 0 "369=12" snapshot --instrument "$empty_call" --sender HUT --target YARD "$options"
check "loops: an instrument that the channel does not have" prints 0 "7                  bid                 empty            - 20250103-12:02:30.750" \
    replay --instruments 7 "$options"

# ---- single loops ----

# line_of PIECE TIME: the line of a text that a piece stands for.
line_of() {
    of=${1#*/} first=${1%/*}
    case $1 in
    n*) echo "send 35=0|34=${1#n}|52=$2|" ;;
    x*) echo "send 35=X|34=${1#x}|52=$2|268=1|279=2|269=0|48=7|22=8|290=1|" ;;
    w*) echo "send 35=W|34=${first#w}|52=$2|48=9|22=8|369=${of#*@}|911=${of%@*}|268=0|" ;;
    reset) echo "send 35=4|34=1|52=$2|36=1|" ;;
    esac
}

# loops NUMBER STATUS PIECE..: whether a replay for instruments 7 and 8 tells of a whole loop in so many lines and ends with this
# status. n5 is a heartbeat with number 5, x5 an X that deletes a bid of 7; w2/3@1 is a snapshot with 34 = 2, 911 = 3 and 369 = 1, of an
# instrument that is not followed.
loops() {
    number=$1 status=$2 second=10
    shift 2
    for piece in "$@"; do
        line_of "$piece" "20250103-12:00:$second"
        second=$((second + 1))
    done >"$work/loops.txt"
    recorded loops && ends "$status" replay --instruments 7,8 "$work/loops.fix" && tells "$number"
}

check "loops: two of two" loops 2 0 n1 w1/2@1 w2/2@1
check "loops: one of one" loops 2 0 n1 w1/1@1
check "loops: another message between" loops 2 0 n1 w1/2@1 n2 w2/2@2
check "loops: the lowest number of it" grep -q 'loop whole: 8 Live with an empty book at 1$' "$work/out"
check "loops: a later one is the lowest" loops 2 0 n1 n2 w1/2@2 w2/2@1
check "loops: that is told" grep -q 'loop whole: 7 Live with an empty book at 1$' "$work/out"
check "loops: a gap between" loops 2 0 n1 w1/2@5 n5 w2/2@4
check "loops: older than the queue" loops 0 4 n1 w1/2@3 n5 w2/2@5
check "loops: newer than heard" loops 0 4 n1 w1/2@2 w2/2@3
check "loops: the last is missing" loops 0 4 n1 w1/3@1 w2/3@1 w1/3@1 w2/3@1
check "loops: one between is missing" loops 0 4 n1 w1/3@1 w3/3@1
check "loops: one comes again" loops 0 4 n1 w1/3@1 w2/3@1 w2/3@1 w3/3@1
check "loops: the first comes again" loops 2 0 n1 w1/3@1 w1/3@1 w2/3@1 w3/3@1
check "loops: another 911" loops 0 4 n1 w1/3@1 w2/2@1 w3/3@1
check "loops: one that is refused for its fields is not of the row" loops 2 0 n1 n2 w1/2@2 w1/1@01 w2/2@2
check "loops: nor is its number the lowest" grep -q 'Live with an empty book at 2$' "$work/out"
check "loops: a reset drops it" loops 0 4 n1 w1/2@1 reset n1 w2/2@1
check "loops: what is queued does not fit" loops 2 0 n1 x2 w1/1@1
check "loops: the reason is told" \
    grep -q "loop whole: 7 still Waiting: an empty book at 1 and the queue do not fit, an entry's place was not there$" "$work/out"
check "loops: it does not fit again, and there is no line" loops 2 0 n1 x2 w1/1@1 w1/1@1
check "loops: from a later number on it fits" loops 3 0 n1 x2 w1/1@1 w1/1@1 w1/1@2

# ---- snapshots that are written ----

# by_itself NUMBER ARGUMENTS..: whether so many lines tell of a whole loop where a snapshot that was written is all that another board
# takes.
by_itself() {
    number=$1
    shift
    writes alone --instrument "$coffee" --sender HUT --target YARD "$@" "$morning" || return 1
    cat target/c/other-board.fix "$work/alone" >"$work/alone.fix"
    prints 0 " 4 snapshot taken" replay --instruments "$coffee,$maize,$cattle" "$work/alone.fix" && tells "$number"
}

check "snapshot: no loop by itself" by_itself 0
check "snapshot: no loop by itself, --of" by_itself 0 --of 3
check "snapshot: the last of them unless --number is given" prints 0 "34=3" snapshot --instrument "$coffee" --sender HUT --target YARD --of 3 "$morning"
check "snapshot: the first of two" by_itself 0 --number 1 --of 2
check "snapshot: a whole loop by itself" by_itself 2 --number 1 --of 1
