#!/usr/bin/env bash
# Everything that a user has, from nothing: proves and builds, then runs the tests of C, Rust and Python, of the programs, of ./install and of the READMEs. By
# hand: it is no part of the gate. A line for each, and 'N passed, M failed' at the end, with status 1 if one failed.
#
#   tools/try-all.sh [PART..]            in this folder; the parts are c, rust, python, programs, install and readme, and all of them without a name
#   tools/try-all.sh --clone [PART..]    in a fresh clone of its last commit, which is taken away again
#
# Needs the Rattle toolchain and the packages that README.md names; tools/try-debian.sh tries whether they are enough. CAPGAUZE_ARCHIVE and CAPGAUZE_PROGRAMS
# name what is proved already. What each said is in target/try-all.
set -u
root=$(cd "$(dirname "${BASH_SOURCE[0]}")/.." && pwd)
clone=
[ "${1:-}" != --clone ] || { clone=yes; shift; }
for part; do
    case $part in
    c | rust | python | programs | install | readme) ;;
    -*) echo "try-all.sh: there is no option $part" >&2; exit 2 ;;
    *) echo "try-all.sh: there is no part $part" >&2; exit 2 ;;
    esac
done
if [ -n "$clone" ]; then
    room=$(mktemp -d)
    chmod 755 "$room"
    trap 'rm -rf "$room"' EXIT
    git clone --quiet "$root" "$room/clone" && "$room/clone/tools/try-all.sh" "$@"
    exit
fi
parts=" ${*:-c rust python programs install readme} "
. "$root/tools/prove.sh"
cd "$root" || exit 1
said=$root/target/try-all
mkdir -p "$said"
passed=0 failed=0

# a line for one of them; of one that failed the end of what it said, too
tell() { # STATUS NAME SECONDS
    if [ "$1" -eq 0 ]; then
        passed=$((passed + 1))
        printf 'passed  %-10s %4d s  %s\n' "$2" "$3" "$(grep . "$said/$2" | tail -n 1)"
    else
        failed=$((failed + 1))
        printf 'FAILED  %-10s %4d s  %s has all that was said; its end:\n' "$2" "$3" "$said/$2"
        tail -n 12 "$said/$2" | sed 's/^/    /'
    fi
}
run() { # NAME COMMAND.., if the part was named
    local name=$1 start=$SECONDS
    case $parts in *" $name "*) ;; *) return ;; esac
    shift
    "$@" >"$said/$name" 2>&1 </dev/null
    tell $? "$name" $((SECONDS - start))
}
proved() { # NAME WHAT, for tools/build.sh
    local start=$SECONDS
    prove "$said/$1" "$2"
    tell $? "$1" $((SECONDS - start))
}

[ -n "${CAPGAUZE_ARCHIVE:-}" ] || proved library library
[ -n "${CAPGAUZE_PROGRAMS:-}" ] || proved built programs
named=${CAPGAUZE_PROGRAMS:-}
if [ "$failed" -eq 0 ]; then
    export CAPGAUZE_ARCHIVE=${CAPGAUZE_ARCHIVE:-$root/target/staticlib/libcapgauze_c.a} CAPGAUZE_PROGRAMS=${CAPGAUZE_PROGRAMS:-$root/target/bin}
    run c bindings/c/run.sh
    run rust bindings/rust/run.sh
    run python bindings/python/run.sh
    run programs env CAPGAUZE_PROGRAMS="$named" tools/try-programs.sh # those of this folder it finds by itself
    run install tools/try-install.sh
    run readme tools/try-readme.py
fi
echo "$passed passed, $failed failed"
[ "$failed" -eq 0 ]
