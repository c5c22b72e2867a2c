#!/usr/bin/env bash
# One of the programs of Capgauze, as ./install puts it in place: its own name says which. It needs nothing but what stands in libexec/capgauze.
set -u
self=$(readlink -f "${BASH_SOURCE[0]}")
name=${self##*/}
here=${self%/*/*}/libexec/capgauze
help() { cat "$here/$name.help"; }
version() { cat "$here/$name.version"; }
. "$here/program-run.sh"
answer "$@"
run "$here/$name" "$@"
