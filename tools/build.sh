#!/usr/bin/env bash
# Proves and builds with the toolchain's commands, and copies the results to where all else looks for them. What is up to date stays.
#
#   tools/build.sh WHAT..               WHAT is library (target/staticlib/libcapgauze_c.a), programs, dump or soundings (target/bin/NAME)
#   tools/build.sh --is-built WHAT..    builds nothing; status 0 if all of it is there and up to date
#
# What the toolchain says goes to the standard output, crate by crate. A line 'rt: NAME proved (N s)' or 'rt: NAME failed' ends each. Status 0 if all is built.
set -uo pipefail
root=$(cd "$(dirname "${BASH_SOURCE[0]}")/.." && pwd)
cd "$root" || exit 1
rt=$(command -v rt) || { echo 'build.sh: the Rattle toolchain (rt) is not there' >&2; exit 2; }
kit=$(dirname "$(dirname "$(readlink -f "$rt")")")/KIT-ID

# the crates that one is made of, a lower one before a higher one, and that crate last
crates_of() { # CRATE
    awk -v want="$1" '
        { sub(/#.*/, ""); i = index($0, ":"); if (i) { split($0, name, /[ :]/); deps[name[1]] = substr($0, i + 1) } }
        function visit(n, a, k, m) { if (seen[n]++ || !(n in deps)) return; m = split(deps[n], a, " "); for (k = 1; k <= m; k++) visit(a[k]); print n }
        END { visit(want) }' crates.txt
}

# what a crate is built from: the toolchain, crates.txt, and the sources, definitions and proofs of all crates that it is made of
sum_of() { # CRATE
    if [ -f "$kit" ]; then cat "$kit"; else rt version; fi || return 1
    { echo crates.txt; crates_of "$1" | sed 's|.*|crates/&|' | xargs -d '\n' sh -c 'find "$@" -type f -path "crates/*/[sp]*/*" ! -path "crates/*/out/*"' sh; } |
        LC_ALL=C sort | xargs -d '\n' sha256sum | sha256sum
}

is_built() { # CRATE FILE STAMP
    [ -f "$2" ] && [ -f "$3" ] && sum_of "$1" | cmp -s "$3" -
}

# One command proves, compiles and runs a program. Here it gets no input, and each of the two then ends with status 0. What is linked is for every x86-64.
prove_crate() { # CRATE
    local start=$SECONDS how=lib said status end=failed
    ! grep -q "^$1 staticlib:" crates.txt || how='lib --cpu=x86-64'
    [ ! -f "crates/$1/src/main.rt" ] || how='run --cpu=x86-64'
    # shellcheck disable=SC2086
    said=$(cd "crates/$1" && exec rt $how </dev/null 2>&1)
    status=$?
    [ $status -ne 0 ] || end="proved ($((SECONDS - start)) s)"
    { flock 9 && printf '%s\n' "$said" "rt: $1 $end"; } 9>target/.said # one at a time
    [ $status -eq 0 ] || exit 255 # and no other is begun
}
export -f prove_crate

# Two are proved at a time. One that needs another, which is being proved, waits for it. The result is copied whole or not at all, and one that is there stays, with
# its stamp, if another cannot be built.
build() { # CRATE FILE STAMP MADE
    local sum
    sum=$(sum_of "$1") || { echo 'build.sh: the toolchain or the sources cannot be read' >&2; return 1; }
    crates_of "$1" | xargs -r -n 1 -P 2 bash -c 'prove_crate "$0"' &&
        cp "$4" "$2.new" && rm -f "$3" && mv -f "$2.new" "$2" && printf '%s\n' "$sum" >"$3"
}

build_one() { # WHAT
    local crate file made stamp
    case $1 in
    library)
        crate=$(sed -n 's/^\([a-z0-9_]*\) staticlib:.*/\1/p' crates.txt)
        file=target/staticlib/libcapgauze_c.a made=crates/$crate/out/lib$crate.a
        ;;
    dump | soundings) crate=$1 file=target/bin/$1 made=crates/$1/out/$1 ;;
    *) echo "build.sh: there is no program $1" >&2; exit 2 ;;
    esac
    stamp=${file%/*}/.${file##*/}.built
    is_built "$crate" "$file" "$stamp" && return
    [ -z "$only_look" ] || exit 1
    mkdir -p "${file%/*}" || exit 1
    # One run builds it; another waits, and finds it built.
    (
        flock 8
        is_built "$crate" "$file" "$stamp" || build "$crate" "$file" "$stamp" "$made" 8>&-
    ) 8>"${file%/*}/.${file##*/}.lock" || exit 1
}

only_look=
[ "${1:-}" != --is-built ] || { only_look=yes; shift; }
[ $# -gt 0 ] || { echo 'build.sh: name what is to be built: library, programs, or a program' >&2; exit 2; }
for what in "$@"; do
    if [ "$what" = programs ]; then
        build_one dump
        build_one soundings
    else
        build_one "$what"
    fi
done
