#!/usr/bin/env bash
# Runs one of the programs; proves and builds it first where it is not there yet or its sources have changed since.
#
#   tools/program.sh NAME [ARGUMENT..]
#
# CAPGAUZE_PROGRAMS=DIR: the programs are there already, and nothing is proved.
set -u
root=$(cd "$(dirname "${BASH_SOURCE[0]}")/.." && pwd)
name=$1
shift
. "$root/tools/program-text.sh"
. "$root/tools/program-run.sh"
. "$root/tools/prove.sh"

answer "$@"

program=${CAPGAUZE_PROGRAMS:-$root/target/bin}/$name

# What the toolchain says is shown crate by crate on a terminal, and else only if it fails.
build() {
    mkdir -p "$root/target"
    (
        if [ -t 2 ]; then
            printf '%s: proving and building it; this takes minutes the first time, and later runs start at once\n' "$name" >&2
        else
            exec 2>/dev/null
        fi
        prove "$root/target/$name.said" "$name"
    ) || {
        cat "$root/target/$name.said" >&2
        fail 'it was not built, and nothing was read'
    }
}

if [ -z "${CAPGAUZE_PROGRAMS:-}" ]; then
    command -v rt >/dev/null || fail 'the Rattle toolchain (rt) is not there'
    "$root/tools/build.sh" --is-built "$name" || build
else
    [ -x "$program" ] || fail "there is no program $program"
fi
run "$program" "$@"
