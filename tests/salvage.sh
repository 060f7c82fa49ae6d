# shellcheck shell=sh disable=SC2154
# salvage.sh: the tests of selkavorn salvage, and of recordings that come slowly. scripts/test-c reads it, and has check, ends, prints,
# fills_up and $work.
night=target/c/night.fix
keeps="$work/keeps"
mkdir "$keeps"

# salvages STATUS TEXT ARGUMENTS..: whether salvage ends with this status and prints the text samples/TEXT, and nothing on standard error.
salvages() {
    wanted_status=$1 text=$2
    shift 2
    ends "$wanted_status" salvage "$@" && diff "samples/$text" "$work/out" && diff /dev/null "$work/err"
}

# ---- the pieces ----

# adds_up: whether the rows of --csv cover the recording once, in order, and no two passed runs touch.
adds_up() {
    ends 6 salvage --csv "$night" && tail -n +2 "$work/out" | awk -F, -v size="$(wc -c <"$night")" '
        $2 != at || $3 < 1 || ($1 == "passed" && before == "passed") { bad = 1 }
        { at += $3; before = $1 }
        END { exit bad || at != size }'
}

# totals_alone: whether --totals prints the last two lines of the table and no other.
totals_alone() { ends 6 salvage --totals "$night" && tail -n 2 samples/night.expected | diff - "$work/out"; }

# reads_rows: whether a reader of CSV takes the rows.
reads_rows() {
    python3 -c '
import csv
rows = list(csv.DictReader(open("samples/night.csv")))
print(len(rows), sum(int(row["length"]) for row in rows), rows[6]["kind"], rows[12]["type"], rows[12]["number"])' >"$work/rows" &&
        echo "20 $(wc -c <"$night") passed h 13" | diff - "$work/rows"
}

# quotes_odd_values: whether values that CSV must quote, or that cannot be printed, are a row all the same.
quotes_odd_values() {
    # shellcheck disable=SC1003
    printf 'send 35="a,b"|34=\tx\200|\nsend 35=0|58=no number|\n' >"$work/odd.txt"
    samples/make-recording "$work/odd.txt" >"$work/odd.fix" && ends 0 salvage --csv "$work/odd.fix" || return 1
    printf 'kind,byte,length,type,number\nmessage,0,38,"""a,b""","?x?"\nmessage,38,40,"0",\n' | diff - "$work/out"
}

# ---- pipes ----

# in_chunks BYTES FILE COMMAND..: runs the command with the file as its standard input, by a pipe that gets so many bytes at a time.
in_chunks() {
    bytes=$1 file=$2
    shift 2
    dd if="$file" of="$work/pipe" bs="$bytes" 2>/dev/null &
    "$@" <"$work/pipe"
}

# waits_for TEXT FILE: whether a line with the text comes into the file within some ten seconds.
waits_for() {
    for _ in $(seq 100); do
        ! grep -qF -- "$1" "$2" 2>/dev/null || return 0
        sleep 0.1
    done
    return 1
}

# starts ARGUMENTS..: starts salvage on standard input, a pipe that stays open until closes; its process is $salvager.
starts() {
    scripts/run-program target/c/selkavorn salvage "$@" - <"$work/pipe" >"$work/out" 2>"$work/err" &
    salvager=$!
    exec 9>"$work/pipe"
}

# closes STATUS: ends what comes by the pipe; whether salvage ends with this status.
closes() {
    got=0
    exec 9>&-
    wait "$salvager" 2>/dev/null || got=$?
    [ "$got" -eq "$1" ] || { echo "status $got, not $1"; cat "$work/err"; return 1; }
}

# tells_at_once: whether a message is told when its last byte comes, and the run before it, while the pipe stays open.
tells_at_once() {
    starts
    head -c 368 "$night" >&9
    told=0
    waits_for "34=2" "$work/out" || told=1
    closes 6 && head -n 5 samples/night.expected >"$work/five" && head -n 5 "$work/out" | diff "$work/five" - && return "$told"
}

# ---- keeping ----

# leaves NAME..: whether these files are in the folder of kept files, and no others.
leaves() {
    for name in "$@"; do echo "$name"; done | sort >"$work/names"
    find "$keeps" -mindepth 1 -maxdepth 1 -exec basename {} \; | sort | diff "$work/names" -
}

# keeps_messages: whether the kept file has the messages and nothing else, and the mode of a new file.
keeps_messages() {
    (umask 027 && salvages 6 night.expected --keep "$keeps/out" "$night") && leaves out || return 1
    awk -F, '$1 == "message" { print $2, $3 }' samples/night.csv | while read -r at length; do
        tail -c +$((at + 1)) "$night" | head -c "$length"
    done | cmp - "$keeps/out" && [ "$(stat -c %a "$keeps/out")" = 640 ]
}

# keeps_quotes: whether the kept messages give the quotes that the damaged recording gives.
keeps_quotes() {
    ends 0 replay --json "$night" && cp "$work/out" "$work/quotes" &&
        ends 0 replay --json "$keeps/out" && diff "$work/quotes" "$work/out" && prints 0 "Bytes passed over: 0, in runs: 0." salvage "$keeps/out"
}

# keeps_from_itself: whether the messages of a recording without holes are kept as they stand in it.
keeps_from_itself() { ends 0 salvage --keep "$keeps/whole" target/c/prices.fix && cmp target/c/prices.fix "$keeps/whole" && rm "$keeps/whole" && leaves out; }

# stays STATUS TEXT ARGUMENTS..: whether keeping is refused in these words, and the file that is there stays as it was.
stays() {
    cp "$keeps/out" "$work/before"
    prints "$@" && cmp "$work/before" "$keeps/out" && leaves out
}

# replaces: whether --overwrite replaces a file by the kept one.
replaces() {
    echo "of before" >"$keeps/out"
    ends 6 salvage --overwrite --keep "$keeps/out" "$night" && leaves out && [ "$(wc -c <"$keeps/out")" -eq 1148 ]
}

# refuses_itself: whether the file that is read is never replaced, by whatever name, or as standard input.
refuses_itself() {
    mv "$keeps/out" "$work/kept" && cp "$night" "$keeps/out" && ln -s out "$keeps/link" && ln "$keeps/out" "$keeps/second"
    for name in out link second; do
        prints 2 "it is the file that is read" salvage --overwrite --keep "$keeps/$name" "$keeps/out" || return 1
    done
    prints 2 "it is the file that is read" salvage --keep "$keeps/out" - <"$keeps/out" || return 1
    cmp "$night" "$keeps/out" && leaves out link second && rm "$keeps/link" "$keeps/second" && mv "$work/kept" "$keeps/out"
}

# finds_name_taken: whether a file that gets the name while the recording is read stays as it is.
finds_name_taken() {
    starts --keep "$keeps/late"
    cat "$night" >&9
    waits_for "34=2" "$work/out" && echo "of another" >"$keeps/late"
    closes 1 && grep -q "late could not be written: File exists" "$work/err" && echo "of another" | diff - "$keeps/late" && rm "$keeps/late" && leaves out
}

# is_ended: whether nothing is left of keeping where a signal ends the program.
is_ended() {
    starts --keep "$keeps/ended"
    cat "$night" >&9
    waits_for "34=2" "$work/out" && [ "$(find "$keeps" -name 'ended.*' | wc -l)" -eq 1 ] && kill -TERM "$salvager"
    closes $((128 + 15)) && leaves out
}

# grows_too_large: whether nothing is left where the kept file cannot be written.
grows_too_large() {
    # A block is 512 bytes; the kept file would have more than one.
    (ulimit -f 1 && prints 1 "large could not be written: File too large" salvage --totals --keep "$keeps/large" "$night") && leaves out
}

# prints_nothing: whether nothing is kept where the lines cannot be printed.
prints_nothing() { fills_up salvage --keep "$keeps/unsaid" "$night" && leaves out; }

# has_no_output: the same where there is no standard output.
has_no_output() {
    got=0
    scripts/run-program target/c/selkavorn salvage --keep "$keeps/unsaid" - <"$night" >&- 2>"$work/err" || got=$?
    [ "$got" -eq 1 ] && leaves out
}

# does_without_links: whether a file system without second names does, and no file is replaced there either.
does_without_links() {
    printf '#include <errno.h>\nint link(const char *from, const char *to) { (void)from, (void)to; errno = EPERM; return -1; }\n' >"$work/link.c"
    # The compiler's words are split.
    # shellcheck disable=SC2046
    $(scripts/c-compiler) -shared -fPIC -o "$work/link.so" "$work/link.c" || return 1
    (export LD_PRELOAD="$work/link.so" && ends 6 salvage --keep "$keeps/plain" "$night") && cmp "$keeps/out" "$keeps/plain" && rm "$keeps/plain" || return 1
    (export LD_PRELOAD="$work/link.so" && finds_name_taken)
}

# ---- long recordings ----

# shows_progress: whether a terminal sees how far the reading of a long run is.
shows_progress() {
    head -c 3500000 /dev/zero >"$work/long" && cat "$night" >>"$work/long"
    python3 - "$work/long" >"$work/seen" <<'P'
import os, pty, subprocess, sys
terminal, side = pty.openpty()
with open(os.devnull, "w") as lines:
    child = subprocess.Popen(["scripts/run-program", "target/c/selkavorn", "salvage", sys.argv[1]], stdout=lines, stderr=side)
os.close(side)
seen = b""
try:
    while chunk := os.read(terminal, 4096):
        seen += chunk
except OSError:
    pass  # the terminal's other side is closed
print(child.wait(), seen.count(b"read 1 MiB of 3"), seen.count(b"read 3 MiB of 3"), seen.endswith(b" \r"))
P
    echo "6 1 1 True" | diff - "$work/seen"
}

# has_room: whether the folder for this test has 3 GB free.
has_room() { [ "$(df -Pk "$work" | awk 'NR == 2 { print $4 }')" -gt 3000000 ]; }

# program NAME: how a program of the C side is run: the one for this machine where NATIVE names a folder that has it, as scripts/test
# does; else the one for x86-64.
program() { if [ -n "${NATIVE:-}" ]; then echo "$NATIVE/$1"; else echo "scripts/run-program target/c/$1"; fi; }

# walks_gigabyte: whether a recording of a gigabyte is walked in bounded memory, and every byte of it is told. The bound is in KB. The
# program alone is measured, and what started it; or the emulator with it.
walks_gigabyte() {
    if [ "$(uname -m)" = x86_64 ] || [ -n "${NATIVE:-}" ]; then bound=32768; else bound=262144; fi
    cat "$night" target/c/morning.fix >"$work/one"
    messages=$(scripts/run-program target/c/selkavorn salvage --csv "$work/one" | grep -c ^message)
    for _ in $(seq 17); do cat "$work/one" "$work/one" >"$work/two" && mv "$work/two" "$work/one"; done
    # The words are split.
    # shellcheck disable=SC2046
    python3 - "$work/one" "$bound" $((messages << 17)) $(program selkavorn) <<'P'
import os, re, resource, subprocess, sys
path, bound, messages = sys.argv[1], int(sys.argv[2]), int(sys.argv[3])
walk = subprocess.run([*sys.argv[4:], "salvage", "--totals", path], capture_output=True, text=True)
peak = resource.getrusage(resource.RUSAGE_CHILDREN).ru_maxrss
told = [int(number) for number in re.findall(r"\d+", walk.stdout)]
size = os.path.getsize(path)
print(f"{size} bytes, {peak} KB of memory at most")
sys.exit(not (walk.returncode == 6 and size >= 10**9 and told[0] == messages and told[1] + told[2] == size and peak <= bound))
P
    walked=$?
    rm "$work/one"
    return "$walked"
}

# The words are split.
# shellcheck disable=SC2046
check "windows" $(program windows)
check "salvage: night" salvages 6 night.expected "$night"
check "salvage: --csv" salvages 6 night.csv --csv "$night"
check "salvage: the rows add up" adds_up
check "salvage: --totals" totals_alone
check "salvage: odd values in CSV" quotes_odd_values
check "salvage: a recording without holes" prints 0 "Bytes passed over: 0, in runs: 0." salvage target/c/prices.fix
check "salvage: standard input, a file" salvages 6 night.expected - <"$night"
for bytes in 1 7 100; do
    check "salvage: a pipe, $bytes bytes at a time" in_chunks "$bytes" "$night" salvages 6 night.expected -
    check "replay: a pipe, $bytes bytes at a time" in_chunks "$bytes" target/c/damaged.fix replays 0 damaged.expected --instruments "$coffee" -
done
check "salvage: a pipe that stays open" tells_at_once

check "salvage: --keep" keeps_messages
check "salvage: what is kept gives the same quotes" keeps_quotes
check "salvage: what has no holes is kept as it is" keeps_from_itself
check "salvage: a file is not replaced" stays 1 "it is there; --overwrite replaces it" salvage --keep "$keeps/out" "$night"
check "salvage: --overwrite" replaces
check "salvage: not onto the file that is read" refuses_itself
check "salvage: the name is taken meanwhile" finds_name_taken
check "salvage: not onto a folder" stays 1 "no regular file" salvage --overwrite --keep "$keeps" "$night"
ln -s no-such-file "$work/link"
check "salvage: not onto a link" stays 1 "no regular file" salvage --overwrite --keep "$work/link" "$night"
check "salvage: not onto a device" stays 1 "no regular file" salvage --overwrite --keep /dev/null "$night"
check "salvage: no such folder" stays 1 "could not be written: No such file" salvage --keep "$keeps/none/out" "$night"
check "salvage: a file that grows too large" grows_too_large
check "salvage: lines that cannot be printed" prints_nothing
check "salvage: no standard output" has_no_output
check "salvage: ended by a signal" is_ended
check "salvage: a reading that fails keeps nothing" stays 3 "target/c cannot be read" salvage --overwrite --keep "$keeps/out" target/c
check "salvage: no message keeps nothing" stays 3 "holds no message" salvage --keep "$keeps/none" samples/morning.txt
if [ "$(uname -m)" = x86_64 ]; then check "salvage: no second names" does_without_links; else echo "not tried, the program is static here: no second names"; fi

check "salvage: an empty file" prints 3 "holds no message" salvage /dev/null
check "salvage: a missing file" prints 3 "cannot be read" salvage target/c/no-such-file
check "salvage: a folder" prints 3 "target/c cannot be read" salvage target/c
check "salvage: no file named" prints 2 "salvage: no file is named" salvage
check "salvage: --overwrite alone" prints 2 "--overwrite: it needs --keep" salvage --overwrite "$night"
check "salvage: --keep without a name" prints 2 "it needs the name of a file" salvage --keep= "$night"
check "salvage: --keep to standard output" prints 2 "it needs the name of a file" salvage --keep - "$night"
check "salvage: --csv has no totals" prints 2 "--csv: it prints no totals" salvage --csv --totals "$night"
check "salvage: an option of replay" prints 2 "no such option" salvage --now 20250103-12:15:20 "$night"
check "replay: an option of salvage" prints 2 "no such option" replay --keep "$keeps/out" "$night"
check "output that cannot be written: salvage" fills_up salvage "$night"
if ! command -v python3 >/dev/null; then
    echo "not tried, python3 is not here: a reader of CSV for salvage, the line of progress, a recording of a gigabyte"
else
    check "salvage: a reader of CSV takes it" reads_rows
    check "salvage: the line of progress" shows_progress
    if has_room; then check "salvage: a recording of a gigabyte" walks_gigabyte; else echo "not tried, 3 GB are not free: a recording of a gigabyte"; fi
fi
