#!/bin/sh
# Says whether the toolchain at hand is the one that this tree was last proved with, which the file TOOLCHAIN names.
# Another one may serve as well: its own check decides. Status 0: the same; 1: another; 2: none found.
root=$(cd "$(dirname "$0")/.." && pwd)
want=$(cat "$root/TOOLCHAIN")
have=$(rt version 2>/dev/null) || { echo "toolchain: no 'rt' is found; this tree was proved with $want" >&2; exit 2; }
[ "$have" = "$want" ] && exit 0
echo "toolchain: this tree was proved with '$want'; here is '$have'" >&2
exit 1
