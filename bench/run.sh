#!/bin/sh
# Ours and its peers in one run and one table: nanoseconds and instructions, a message, a field and a byte.
#
#   run.sh [LOAD..]     default: all loads (README.md)
#   ROUNDS=25   samples of a job in each of four layouts; 0: no times        COUNTS=0   no instructions
#   PROTOBUF=0  without protobuf; else the flags that find it (default: -lprotobuf)
#
# Needs cargo, gcc, g++, clang (where there is one), python3, valgrind and the Debian packages librust-bytes-dev,
# libprotobuf-dev, protobuf-compiler. Works offline. All that is made lies in target/. Where x86-64 code runs under an
# emulator there are no times, and the emulator counts the instructions. With RUN= and an object for the machine's own
# processor as CAPGAUZE_ARCHIVE all is built for that one, and timed.
set -eu
here=$(cd "$(dirname "$0")" && pwd)
root=$here/..
. "$root/tools/x86-64.sh"
archive
"$here/folded.sh" "$CAPGAUZE_ARCHIVE"
t=$here/target
rm -rf "$t/obj" "$t/counts"
mkdir -p "$t/obj" "$t/counts"
cd "$here"

# ---- Objects ----
case $($CC -dumpmachine) in x86_64*) march=-march=x86-64 clang="clang --target=x86_64-linux-gnu" ;; *) march='' clang=clang ;; esac
flags="-O3 $march -Wall -Wextra"
for file in driver/main.c driver/loads.c peers/rust.c peers/ours.c; do
    $CC $flags -c "$file" -o "$t/obj/$(basename "$file" .c).o"
done
$CC $flags '-DBY=":gcc"' -c peers/c.c -o "$t/obj/c_gcc.o"
if command -v clang >/dev/null; then $clang $flags '-DBY=":clang"' -c peers/c.c -o "$t/obj/c_clang.o"; fi
link=
if [ "${PROTOBUF:=-lprotobuf}" != 0 ]; then
    link=$PROTOBUF
    protoc --proto_path=peers/protobuf --cpp_out="$t/obj" peers/protobuf/empty.proto
    for file in peers/protobuf/protobuf.cc "$t/obj/empty.pb.cc"; do
        $CXX -std=c++20 -O3 $march -I"$t/obj" $PROTOBUF -c "$file" -o "$t/obj/$(basename "$file" .cc).o"
    done
fi
(cd peers/rust && cargo build --quiet --offline --release --target-dir "$t/cargo")
rust=$t/cargo/${CARGO_BUILD_TARGET:-.}/release/libbilrost.a

# The same objects at four places mod 64: where code lies moves a time by up to a fifth.
for pad in 16 32 48 64; do
    printf '.text\n.p2align 6\n.skip %s\n.section .note.GNU-stack,"",%%progbits\n' $pad >"$t/pad$pad.s"
    $CXX -o "$t/bench$pad" "$t/pad$pad.s" "$t"/obj/*.o "$CAPGAUZE_ARCHIVE" "$rust" $link -lpthread -ldl -lm
done

# ---- Answers, counts, times ----
$RUN "$t/bench16" check
$RUN "$t/bench16" loads >"$t/loads.txt"
: >"$t/times.txt"
: >"$t/counts.txt"
if [ "${COUNTS:-1}" = 1 ]; then
    if [ -z "$RUN" ]; then
        valgrind -q --tool=callgrind --zero-before=count_begin --dump-before=count_end \
            --callgrind-out-file="$t/counts/out" "$t/bench16" count "$@" >"$t/counts/jobs"
        ls -v "$t"/counts/out.* | xargs sed -n "s/^summary: //p" >"$t/counts/totals"
    else
        gcc -O2 -shared -fPIC count.c -o "$t/count.so"
        $RUN -plugin "$t/count.so,out=$t/counts/totals" "$t/bench16" count "$@" >"$t/counts/jobs"
    fi
    paste -d ' ' "$t/counts/jobs" "$t/counts/totals" | awk '{ print $1, $3, $2 }' >"$t/counts.txt"
fi
if [ -z "$RUN" ] && [ "${ROUNDS:=25}" != 0 ]; then
    export ROUNDS
    for pad in 16 32 48 64; do "$t/bench$pad" time "$@" >>"$t/times.txt"; done
fi
python3 table.py "$t/loads.txt" "$t/times.txt" "$t/counts.txt" | tee "$t/table.txt"
