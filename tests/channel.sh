# shellcheck shell=sh disable=SC2154
# channel.sh: the tests of empty books (J) of the whole channel. scripts/test-c reads it behind loops.sh, which has recorded, and has check,
# ends, prints, replays, $work and the instruments.
emptied=target/c/channel-reset.fix

# ---- the sample ----

check "replay: channel-reset" replays 0 channel-reset.expected "$emptied"
check "--csv: channel-reset" replays 0 channel-reset.csv --csv "$emptied"
check "--json: channel-reset" replays 0 channel-reset.json --json "$emptied"
check "channel: counted without lines" prints 0 "Messages that emptied the books of the whole channel: 1." replay --quote "$emptied"
check "buy: a side that was emptied" prints 0 "Left to buy: 3 of 3. The offers are empty." \
    buy --quantity 3 --instrument "$coffee" "$emptied"
check "buy: how often that came" prints 0 "Messages that emptied the books of the whole channel: 1." \
    buy --quantity 3 --instrument "$coffee" "$emptied"
check "sell: what came behind it" prints 0 "Left to sell: 1 of 9. The bids hold no more." \
    sell --quantity 9 --instrument "$coffee" "$emptied"
check "snapshot: a snapshot from before it, replayed" prints 0 "268=1" snapshot --instrument "$cattle" --sender HUT --target YARD "$emptied"

# ---- single messages ----

bid='279=0|269=0|48=7|22=8|270=24.01|271=5|37=A|272=20250103|273=11:59:00|290=1|'
no_place='279=2|269=0|48=7|22=8|290=9|'

# entries_of LETTER: how many entries the X of this letter has, and these.
entries_of() {
    case $1 in
    e) echo '1|279=0|269=J|' ;;
    i) echo '1|279=0|269=J|48=7|22=8|' ;;
    f) echo "64|$(yes '279=0|269=J|48=8|22=8|' | head -n 64 | tr -d '\n')" ;;
    r) echo '1|279=0|269=J|22=8|' ;;
    s) echo '1|279=0|269=J|207=BVMF|' ;;
    m) echo "3|${bid}279=4|269=J|$bid" ;;
    l) echo "2|${bid}279=0|58=48=7|269=J|" ;;
    t) echo "3|279=0|269=2|279=0|269=JJ|279=0|269=J|48=7|22=8|" ;;
    b) echo "2|${no_place}279=0|269=J|" ;;
    c) echo "2|279=0|269=J|$no_place" ;;
    2) echo '2|279=0|269=J|279=0|269=J|' ;;
    esac
}

# message_of PIECE TIME: the line of a text that a piece stands for.
message_of() {
    number=${1#?} of=${1#*@}
    case $1 in
    n*) echo "send 35=0|34=$number|52=$2|" ;;
    y*) echo "send 35=y|34=$number|52=$2|268=1|279=0|269=J|" ;;
    w*) id=${number%@*} && echo "send 35=W|34=1|52=$2|48=$id|22=8|369=$of|911=9|268=2|269=J|269=0|${bid#*22=8|}" ;;
    !*) echo "spoil 35=X|34=$number|52=$2|268=$(entries_of e)" ;;
    *) echo "send 35=X|34=$number|52=$2|268=$(entries_of "${1%"$number"}")" ;;
    esac
}

# channel TOLD STATUS PIECE..: whether a replay for instruments 7 and 8 tells of so many Live books that were emptied, in this order, 0
# where all are Waiting, and ends with this status. n5 is a heartbeat with number 5, y5 a list with a J; w7@4 is a snapshot of 7 with
# 369 = 4; e5 is an X with a J of all, !5 the same with a wrong sum, and entries_of has the others; +60 is a minute without messages, +-3
# sets the times back; what begins with -- is an option.
channel() {
    told=$1 status=$2 seconds=0 given=
    shift 2
    for piece in "$@"; do
        case $piece in
        --*) given="$given $piece" ;;
        +*) seconds=$((seconds + ${piece#+})) ;;
        *) message_of "$piece" "20250103-12:0$((seconds / 60)):$(printf %02d $((seconds % 60)))" ;;
        esac
        seconds=$((seconds + 1))
    done >"$work/channel.txt"
    # The options that are given are split.
    # shellcheck disable=SC2086
    recorded channel && ends "$status" replay --instruments 7,8 $given "$work/channel.fix" || return 1
    sed -n 's/^            empty book for the whole channel: \([0-9]*\) Live books* emptied$/\1/p
        s/^            empty book for the whole channel, and all are Waiting$/0/p' "$work/out" | xargs >"$work/told"
    if echo "$told" | xargs | diff - "$work/told" && [ "$(grep -c 'empty book' "$work/out")" -eq "$(wc -w <"$work/told")" ]; then
        ! grep 'empty book' "$work/out" | grep '.\{81\}'
    else
        cat "$work/out"
        return 1
    fi
}

check "channel: two Live books" channel 2 0 n1 w7@1 w8@1 e2
check "channel: the sides are empty" grep -q '^8                  bid                 empty            - 20250103-12:00:03.000$' "$work/out"
check "channel: one Live book" channel 1 0 n1 w7@1 e2
check "channel: in the singular" grep -q '^            empty book for the whole channel: 1 Live book emptied$' "$work/out"
check "channel: all are Waiting" channel 0 4 n1 e2
check "channel: nothing was heard before" channel 2 0 w7@0 w8@0 e1
check "channel: a gap" channel 0 4 n1 w7@1 w8@1 e3
check "channel: between bids of one" channel 2 0 n1 w7@1 w8@1 m2
check "channel: what came behind it" grep -q '^7                  bid                 24.01            5 20250103-12:00:03.000$' "$work/out"
check "channel: the last entry, with another tag before it" channel 2 0 n1 w7@1 w8@1 l2
check "channel: twice in a message, one line" channel 2 0 n1 w7@1 w8@1 22
check "channel: twice, two lines" channel '2 2' 0 n1 w7@1 w8@1 e2 e3
check "channel: they are counted" grep -q '^Messages that emptied the books of the whole channel: 2.$' "$work/out"
check "channel: a break before it" channel 1 0 n1 w7@1 w8@1 b2
check "channel: a break behind it" channel 1 0 n1 w7@1 w8@1 c2
check "channel: one that waits and goes Live later" channel 1 0 n1 w7@1 e2 w8@1
check "channel: its snapshot is emptied" grep -q '^8                  bid                 empty ' "$work/out"
check "channel: a snapshot that has it already" channel 1 0 n1 w7@1 e2 w8@2
check "channel: its bid stays" grep -q '^8                  bid                 24.01 ' "$work/out"
check "channel: with it the queue is let go" channel 1 0 n1 w7@1 f2 f3 f4 f5 e6
check "channel: it is answered 3" grep -q ' X     34=6                            1   3 counted, queue let go$' "$work/out"
check "channel: the Live book is emptied all the same" grep -q '^7                  bid                 empty ' "$work/out"
check "channel: with it the queue is let go, and all are Waiting" channel 0 4 n1 f2 f3 f4 f5 e6
check "channel: not of one instrument" channel '' 0 n1 w7@1 w8@1 i2
check "channel: that one is empty, the other not" grep -q '^7                  bid                 empty ' "$work/out"
check "channel: the other keeps its bid" grep -q '^8                  bid                 24.01 ' "$work/out"
check "channel: not of other sorts" channel '' 0 n1 w7@1 w8@1 t2
check "channel: not of an old message" channel 2 0 n1 w7@1 w8@1 n2 +-3 e2 +3 e3
check "channel: not of a message that is refused, 22" channel '' 0 n1 w7@1 w8@1 r2
check "channel: it is refused for its fields" grep -q '14 refused: fields$' "$work/out"
check "channel: not of a message that is refused, 207" channel '' 0 n1 w7@1 w8@1 s2
check "channel: the gap that follows" channel 0 4 n1 w7@1 w8@1 r2 e3
check "channel: the missed number is told" grep -q '1 gap, counted: 2 missed$' "$work/out"
check "channel: not of a message with a wrong sum" channel '' 0 n1 w7@1 w8@1 !2
check "channel: not of a snapshot or of another type" channel '' 0 n1 w7@1 w8@1 y2
check "channel: on a board that a lost reset opens afresh, once" channel 0 4 n1 w7@1 w8@1 n2 +9 e1
check "channel: the board was opened afresh" grep -q 'the board is opened afresh, and all are Waiting$' "$work/out"
check "channel: a lost reset that is not acted on" channel '' 5 n1 w7@1 w8@1 n2 +9 e1 --resets=pass
check "channel: a silence that opens the board afresh, once" channel 0 4 n1 w7@1 w8@1 +60 e2 --silence=30
check "channel: a silence that is not acted on" channel 2 5 n1 w7@1 w8@1 +60 e2 --silence=30 --resets=pass
