#!/usr/bin/env bash
# Runs the programs as a user does, and compares status, output and error of each run with what docs/DECISIONS.md says. By hand: it is no part
# of the gate. Ends in 'N right, M wrong', with status 1 if one is wrong.
#
#   tools/try-programs.sh [NAME..]
#
# CAPGAUZE_PROGRAMS=DIR names programs that are proved already; without it the first run proves them.
# STREAM_MB (default 32): how many megabytes the long stream has; 1024 is a real one, and takes minutes under an emulator; 0 leaves it out.
set -u
root=$(cd "$(dirname "$0")/.." && pwd)
cd "$root" || exit 1
room=$(mktemp -d)
trap 'rm -rf "$room"' EXIT
. tools/try.sh

# a run: its status, what it printed (up to a final mark, so that no LF is lost) and what it said
run() { # ARGUMENT..
    timeout 60 "./$name" "$@" >"$room/out" 2>"$room/err"
    status=$?
    out=$(cat "$room/out"; echo .) err=$(cat "$room/err")
}

# a run and all that is wanted of it
try() { # WHAT STATUS OUTPUT ERROR
    is "$1: status" "$2" "$status"
    is "$1: output" "$3." "$out"
    is "$1: error" "$4" "$err"
}

refused_run() { # WHAT ERROR
    try "$1" 1 "" "$2"
}

printf '0401\n' >"$room/a"
printf '0402' >"$room/b"
printf '04' >"$room/c"
printf '' >"$room/none"
printf '0401\n' >"$room/shut"
printf '0401\n' >"$room/-dashed"
mkdir "$room/folder"
lf=$'\n'

# what a program prints before the first frame, and of the frames that the tests use
head_of() { case $name in dump) ;; soundings) sed -n 1p crates/soundings/stdout ;; esac; }
alone() { printf '%s\n' "$1" | "./$name"; }        # one line by itself, as frame 1
numbered() { # FRAME LINE: a line's text with another number
    alone "$2" | tail -n +"$((1 + skip))" | sed "s/^1\([ ,]\)/$1\1/"
}

try_files() {
    one=$(numbered 1 0401) two=$(numbered 2 0402) three=$(numbered 3 04)
    all=$begin$one$lf$two$lf$three$lf
    run "$room/a" "$room/b" "$room/c"
    try 'three files, two without LF at their end' 0 "$all" ''
    run "$room/a" "$room/b" - <"$room/c"
    try 'the standard input behind files' 0 "$all" ''
    run "$room/none" "$room/a" "$room/none" "$room/b" "$room/c"
    try 'empty files among others' 0 "$all" ''
    run <"$room/a"
    try 'no file' 0 "$begin$one$lf" ''
    run - <"$room/a"
    try 'a dash' 0 "$begin$one$lf" ''
    run <"$room/none"
    try 'an empty input' 0 "$begin" ''
    (cd "$room" && "$root/$name" -- -dashed >out 2>err; echo $? >status)
    status=$(cat "$room/status") out=$(cat "$room/out"; echo .) err=$(cat "$room/err")
    try 'a name with a dash, behind --' 0 "$begin$one$lf" ''
    cp "$room/a" "$room/"$'name\xe9'
    run "$room/"$'name\xe9' "$room/b" "$room/c"
    try 'a name that is not UTF-8' 0 "$all" ''
    rm -f "$room/"$'fifo\xe9'
    mkfifo "$room/"$'fifo\xe9'
    cat "$room/a" >"$room/"$'fifo\xe9' &
    run "$room/"$'fifo\xe9' "$room/b" "$room/c"
    try 'a named pipe whose name is not UTF-8' 0 "$all" ''
}

try_failures() {
    refused=""
    run "$room/a" "$room/missing"
    refused_run 'a file that is missing, behind one that is not' "$name: $room/missing: No such file or directory"
    run "$room/a" ''
    refused_run 'an empty name' "$name: : No such file or directory"
    run "$room/a" "$room/"$'none\xe9'
    refused_run 'a missing file whose name is not UTF-8' "$name: $room/"$'none\xe9: No such file or directory'
    run - - <"$room/a"
    try 'the standard input twice' 1 "$begin$one$lf" "$name: standard input: Bad file descriptor"
    run "$(head -c 5000 /dev/zero | tr '\0' a)"
    refused_run 'a name that is too long' "$name: an argument: File name too long"
    chmod 0 "$room/shut"
    if [ "$(id -u)" != 0 ]; then
        run "$room/shut"
        refused_run 'a file that may not be read' "$name: $room/shut: Permission denied"
    elif command -v setpriv >/dev/null && setpriv --reuid=65534 --regid=65534 --clear-groups test -x "$root/tools/program.sh" 2>/dev/null; then
        chmod 755 "$room"
        setpriv --reuid=65534 --regid=65534 --clear-groups "./$name" "$room/shut" >"$room/out" 2>"$room/err"
        status=$? out=$(cat "$room/out"; echo .) err=$(cat "$room/err")
        refused_run 'a file that may not be read' "$name: $room/shut: Permission denied"
    else
        echo "$name: not tried: a file that may not be read (root may read all)"
    fi
    run "$room/folder"
    try 'a directory' 1 "$begin" "$name: $room/folder: Is a directory"
    run <"$room/folder"
    try 'a directory as the standard input' 1 "$begin" "$name: standard input: Is a directory"
    run <&-
    try 'no standard input' 1 "$begin" "$name: standard input: Bad file descriptor"
    printf kept >"$room/three"
    "./$name" --status "$room/a" 3<>"$room/three" >"$room/out" 2>"$room/err"
    is "a caller's descriptor 3: status" 0 $?
    is "a caller's descriptor 3: its file" kept "$(cat "$room/three")"
    run --wrong "$room/missing"
    try 'an unknown option' 2 "" "$name: there is no option --wrong$lf$usage"
    run -x
    is 'an unknown letter: status' 2 "$status"
    err=$("./$name" "$room/a" 2>&1 >/dev/full)
    is 'a full disk: status' 1 $?
    is 'a full disk: error' "$name: standard output: No space left on device" "$err"
    err=$("./$name" "$room/a" 2>&1 >&-)
    is 'no standard output: status' 1 $?
    is 'no standard output: error' "$name: standard output: Bad file descriptor" "$err"
    err=$("./$name" "$room/none" 2>&1 >/dev/full)
    is 'a full disk, and nothing to write but the first row: status' "$skip" $?
}

# Many frames, so that the pipe's buffer is full before the reader goes.
try_closed_pipe() {
    yes 0401 | head -n 200000 >"$room/many"
    { "./$name" "$room/many" 2>"$room/err"; echo $? >"$room/status"; } | head -n 1 >/dev/null
    is 'a closed pipe: status' 141 "$(cat "$room/status")"
    is 'a closed pipe: error' '' "$(cat "$room/err")"
    { (trap '' PIPE; exec "./$name" "$room/many" 2>"$room/err"); echo $? >"$room/status"; } | head -n 1 >/dev/null
    is 'a closed pipe, SIGPIPE ignored: status' 1 "$(cat "$room/status")"
    is 'a closed pipe, SIGPIPE ignored: error' '' "$(cat "$room/err")"
    { sleep 0.3; "./$name" --wrong 2>&1 >/dev/null; echo $? >"$room/status"; } | true
    is 'a message that nobody reads: status' 141 "$(cat "$room/status")"
    { sleep 0.3; (trap '' PIPE; exec "./$name" --wrong 2>&1 >/dev/null); echo $? >"$room/status"; } | true
    is 'a message that nobody reads, SIGPIPE ignored: status' 2 "$(cat "$room/status")"
    { sleep 0.3; "./$name" --count "$room/a" 2>&1 >/dev/null; echo $? >"$room/status"; } | true
    is 'counts that nobody reads: status' 141 "$(cat "$room/status")"
    is 'a message to a full disk: status' 2 "$("./$name" --wrong 2>/dev/full; echo $?)"
    (ulimit -f 8; exec "./$name" "$room/many" >"$room/out" 2>"$room/err")
    is 'ended by a signal (SIGXFSZ): status' 153 $?
    is 'ended by a signal (SIGXFSZ): error' '' "$(cat "$room/err")"
}

# The same bytes however they are cut: written one at a time, and from a file at once.
try_short_reads() {
    head -c 3000 "crates/$name/stdin" >"$room/some"
    "./$name" "$room/some" >"$room/whole"
    dd if="$room/some" bs=1 2>"$room/err" | "./$name" >"$room/out"
    is 'bytes one by one' "$(cksum <"$room/whole")" "$(cksum <"$room/out")"
}

# A reader that takes a little at a time, from a pipe with little room, while the program is stopped and goes on: its writes are cut short.
try_short_writes() {
    head -c 400000 "$room/many" >"$room/some"
    is 'short writes' 'status 0 0, the same bytes, more writes' "$(python3 tools/try-programs.py short "$name" "$room/some" "$room/out" 2>"$room/err")"
    is 'short writes: output' "$("./$name" "$room/some" | cksum)" "$(cksum <"$room/out")"
}

# Every second call is interrupted, and then one read fails, where strace can do that.
try_interrupted() {
    yes 0401 | head -n 50000 >"$room/many"
    strace -qq -f -o "$room/calls" -e trace=none true 2>/dev/null || { echo "$name: not tried: interrupted calls (no strace)"; return; }
    "./$name" "$room/many" >"$room/whole"
    strace -qq -f -o "$room/calls" -P "$room/many" -e trace=read -e inject=read:error=EINTR:when=1+2 "./$name" "$room/many" >"$room/out" 2>"$room/err"
    is 'interrupted reads: status' 0 $?
    is 'interrupted reads: output' "$(cksum <"$room/whole")" "$(cksum <"$room/out")"
    strace -qq -f -o "$room/calls" -P "$room/out" -e trace=write -e inject=write:error=EINTR:when=1+2 "./$name" "$room/many" >"$room/out" 2>"$room/err"
    is 'interrupted writes: status' 0 $?
    is 'interrupted writes: output' "$(cksum <"$room/whole")" "$(cksum <"$room/out")"
    strace -qq -f -o "$room/calls" -P "$room/many" -e trace=read -e inject=read:error=EIO:when=2 "./$name" "$room/many" >"$room/out" 2>"$room/err"
    is 'a read that fails: status' 1 $?
    is 'a read that fails: error' "$name: $room/many: Input/output error" "$(cat "$room/err")"
}

try_words() {
    run --help
    is 'help: status' 0 "$status"
    is 'help: one screen' yes "$(awk 'length($0) > 80 { bad = 1 } END { print NR <= 24 && !bad ? "yes" : "no" }' "$room/out")"
    while read -r number refusal; do
        for text in "$room/out" "man/$name.1"; do
            tr '\n' ' ' <"$text" | grep -q "[ ,]$number $refusal\b" || is "$text names refusal $number" "$refusal" ''
        done
    done < <(root=$root; . tools/program-text.sh; refusals)
    for text in "$room/out" "man/$name.1" README.md; do
        is "the examples of $text" right "$(python3 tools/try-programs.py examples "$name" "$text")"
    done
    run --version
    is 'version: status' 0 "$status"
    is 'version: toolchain' "toolchain: $(rt version)" "$(sed -n 2p "$room/out")"
    is 'man page' '' "$(groff -man -Tutf8 -ww "man/$name.1" 2>&1 >/dev/null)"
}

# Lines of every kind: the crate's own input, with its counts.
try_lines() {
    run "crates/$name/stdin"
    is 'lines of every kind: status' 0 "$status"
    is 'lines of every kind: output' "$(cksum <"crates/$name/stdout")" "$(cksum <"$room/out")"
    is 'lines of every kind: error' '' "$err"
    run --count "crates/$name/stdin"
    is 'counted: status' 0 "$status"
    is 'counted: output' "$(cksum <"crates/$name/stdout")" "$(cksum <"$room/out")"
    is 'counted: frames' "$(awk 'END { print NR }' "crates/$name/stdin") frames" "$(sed -n 1p "$room/err")"
    is 'counted: all of them' "$(sed -n '1s/ .*//p' "$room/err")" "$(sed 1d "$room/err" | awk '{ n += $1 } END { print n }')"
    [ "$name" != dump ] || is 'counted: by number' "$(awk '$2 != "F" { k = $2 == "NO" ? $2 " " $3 : $2; n[k]++ } END { for (k in n) print n[k], k }' \
        "crates/$name/stdout" | sort)" "$(sed 1d "$room/err" | sort)"
}

# The table through a reader of CSV: rows of every kind, each with the cells of the first row; no frame is missing; and the counts are the same.
try_rows() {
    [ "$name" = soundings ] || return
    for frames in crates/soundings/stdin examples/rows.hex examples/iced.hex examples/winds.hex; do
        case $frames in
        */stdin) kinds='HEX, LONG, levels, no level, refused' ;;
        */rows.hex) kinds='HEX, levels, no level, refused' ;;
        *) kinds=levels ;;
        esac
        for edition in 1 2; do
            run --count --edition "$edition" "$frames"
            is "$frames as CSV, edition $edition" "$kinds" \
                "$( (. tools/program-text.sh; refusals) | python3 tools/try-programs.py rows "$room/out" "$room/err" "$frames" "$edition" 2>&1)"
        done
    done
}

# The second edition: its table, the least grade, the counts, and what is refused before anything is read.
refused_words() { # WHAT ERROR ARGUMENT..
    what=$1 said=$2
    shift 2
    run "$@"
    try "$what" 2 "" "$name: $said$lf$usage"
}

try_editions() {
    if [ "$name" != soundings ]; then
        refused_words 'no editions' 'there is no option --edition' --edition 2 "$room/a"
        refused_words 'no grades' 'there is no option --least' --least any "$room/a"
        return
    fi
    second=${begin%refusal*}wind_speed_ms,wind_direction_deg,grade,refusal$lf
    good='1,10410,1700000060,1,92500,8.4,2.1,6.2,240,Canonical,
1,10410,1700000060,2,70000,-2.7,4.8,14.9,255,Canonical,
1,10410,1700000060,3,50000,-17.3,12.0,27.0,270,Canonical,
'
    iced='2,10410,1700043260,1,92500,6.1,1.2,5.5,225,NotCanonical,
2,10410,1700043260,2,70000,-4.4,0.9,13.1,,NotCanonical,
'
    other='3,10410,1700086460,1,92500,5.5,3.0,4.8,210,HasExtensions,
3,10410,1700086460,2,70000,-5.1,6.2,9.7,228,HasExtensions,
'
    run --edition 2 examples/winds.hex
    try 'the second edition' 0 "$second$good$iced$other" ''
    run --least any --edition 1 --edition 2 --count examples/winds.hex
    try 'any grade, the last edition of two' 0 "$second$good$iced$other" "3 frames${lf}3 OK"
    run --edition 2 --least extensions --count examples/winds.hex
    try 'a least grade' 0 "$second${good}2,,,,,,,,,,NotCanonical$lf$other" "3 frames${lf}2 OK${lf}1 NO 14"
    run --least canonical --edition 2 --count - <examples/winds.hex
    try 'the highest least grade' 0 "$second${good}2,,,,,,,,,,NotCanonical${lf}3,,,,,,,,,,UnknownField$lf" "3 frames${lf}1 OK${lf}1 NO 14${lf}1 NO 15"
    { head -c 4098 /dev/zero | tr '\0' 0; printf '\n0g\n04\n000904010400\n04010400050504640CD10E\n'; } >"$room/kinds"
    run --edition 2 --count "$room/kinds"
    try 'rows of every kind' 0 "${second}1,,,,,,,,,,LONG${lf}2,,,,,,,,,,HEX${lf}3,,,,,,,,,,Truncated${lf}4,1,0,,,,,,,HasExtensions,${lf}5,,,,,,,,,,OutOfRange$lf" \
        "5 frames${lf}1 OK${lf}1 NO 1${lf}1 NO 10${lf}1 LONG${lf}1 HEX"
    for words in '' '--edition 1'; do
        run $words "$room/kinds" examples/winds.hex
        is "the first edition ($words): rows" 12 "$(sed 1d "$room/out" | wc -l)"
        is "the first edition ($words): cells" 8 "$(awk -F, '{ print NF }' "$room/out" | sort -u)"
    done
    { printf 0401040005020464; for ((i = 1; i < 511; i++)); do printf 01020464; done; echo; } >"$room/levels"
    yes "$(cat "$room/levels")" | head -n 20 >"$room/longest"
    for edition in 1 2; do
        run --edition "$edition" "$room/longest"
        is "the longest frames, edition $edition: rows" $((1 + 20 * 511)) "$(wc -l <"$room/out")"
    done
    run --edition 2 <"$room/none"
    try 'the second edition of nothing' 0 "$second" ''
    refused_words 'an unknown edition' 'there is no edition 3' --edition 3 "$room/missing"
    refused_words 'a dash for an edition' 'there is no edition -' --edition -
    refused_words 'an unknown grade' 'there is no grade Canonical' --edition 2 --least Canonical
    refused_words 'no edition' 'behind --edition there has to be 1 or 2' "$room/a" --edition
    refused_words 'no grade' 'behind --least there has to be canonical, extensions or any' --edition 2 --least
    refused_words 'a grade without an edition' '--least is for --edition 2' --least any "$room/a"
    refused_words 'a grade for the first edition' '--least is for --edition 2' --least canonical --edition 2 --edition 1
}

# The first run on a terminal says what it does, crate by crate. A run after it says nothing.
try_first_run() {
    command -v script >/dev/null || { echo "$name: not tried: the first run on a terminal (no script)"; return; }
    [ -z "${CAPGAUZE_PROGRAMS:-}" ] || { echo "$name: not tried: the first run, which proves (CAPGAUZE_PROGRAMS)"; return; }
    rm -f "target/bin/.$name.built"
    script -qc "./$name $room/a >$room/out" "$room/said" </dev/null >/dev/null
    is 'the first run: begins' "$name: proving and building it; this takes minutes the first time, and later runs start at once" \
        "$(tr -d '\r' <"$room/said" | grep -a -v '^Script' | sed -n 1p)"
    is 'the first run: a line for each crate' "$(sed -n "s/^$name: *//p" crates.txt | tr ' ' '\n' | sort)" \
        "$(for c in $(sed -n "s/^$name: *//p" crates.txt); do grep -aq "^rt: $c proved\|^rt: $c " "$room/said" && echo "$c"; done | sort)"
    is 'the first run: output' "$begin$one$lf." "$(cat "$room/out"; echo .)"
    script -qc "./$name $room/a >$room/out" "$room/said" </dev/null >/dev/null
    is 'the second run: says nothing' '' "$(tr -d '\r' <"$room/said" | grep -a -v '^Script\|^$')"
}

# A long stream: the most memory that the program held must not grow with it, and no line is lost. The stream stays open for a second behind its last
# line, so that the program is seen however fast it is.
memory_of() { # MEGABYTES
    line=$(sed -n 1p "examples/soundings.hex")
    frames=$(($1 * 1000000 / (${#line} + 1)))
    { yes "$line" | head -n "$frames"; sleep 1; } | { "./$name" 2>"$room/err"; echo $? >"$room/status"; } | wc -l >"$room/lines" &
    most=0
    while kill -0 $! 2>/dev/null; do
        now=$(ps -eo rss=,args= | awk -v p="${CAPGAUZE_PROGRAMS:-$root/target/bin}/$name" '$2 == p && NF == 2 { if ($1 > m) m = $1 } END { print m + 0 }')
        [ "$now" -le "$most" ] || most=$now
        sleep 0.2
    done
    wait $!
    status=$(cat "$room/status")
}

try_stream() {
    [ "${STREAM_MB:-32}" -gt 0 ] || { echo "$name: not tried: a long stream (STREAM_MB=0)"; return; }
    memory_of 4
    few=$most
    memory_of "${STREAM_MB:-32}"
    is "a stream of ${STREAM_MB:-32} MB: status" 0 "$status"
    is "a stream of ${STREAM_MB:-32} MB: lines" $((skip + frames * ($(alone "$line" | wc -l) - skip))) "$(cat "$room/lines")"
    echo "$name: $few kB held for 4 MB, $most kB for ${STREAM_MB:-32} MB"
    is "a stream of ${STREAM_MB:-32} MB: memory was looked at" yes "$([ "$few" -gt 0 ] && echo yes)"
    is "a stream of ${STREAM_MB:-32} MB: memory" yes "$([ "$most" -le $((few + few / 10 + 1024)) ] && echo yes)"
}

for name in ${*:-dump soundings}; do
    begin=$(head_of; echo .)
    begin=${begin%.}
    skip=$(printf '%s' "$begin" | wc -l)
    case $name in
    dump) usage="usage: dump [--count] [FILE..]" ;;
    soundings) usage="usage: soundings [--count] [--edition 1|2] [--least canonical|extensions|any] [FILE..]" ;;
    esac
    try_lines
    try_rows
    try_editions
    try_files
    try_failures
    try_closed_pipe
    try_short_reads
    try_short_writes
    try_interrupted
    try_words
    try_first_run
    try_stream
done
closing
