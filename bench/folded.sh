#!/bin/sh
# The functions that must be folded into their one caller are no symbols of the archive:  folded.sh ARCHIVE
# A second caller makes a call of each, and its answer then comes back through memory once a field. A name that is no
# function of crates/ is an error too, so that a new name has to be written here.
set -eu
FOLDED='
field::decode_field field::value_behind field::step_from field::next_field
message::decide
write_record::weigh_record write_record::weigh_mixed
write_message::put_record write_message::put_mixed_value write_message::prepend_record write_message::prepend_mixed_value
sounding::next_level sounding::level_of
'
crates=$(dirname "$0")/../crates
symbols=$(nm "$1" | awk 'NF == 3 { print $3 }')
[ -n "$symbols" ] || { echo "folded.sh: $1 has no symbols" >&2; exit 1; }
bad=0
for name in $FOLDED; do
    if ! grep -qsE "^(pub )?fn ${name#*::}[(<]" "$crates/${name%%::*}"/src/*.rt; then
        echo "folded.sh: crates/${name%%::*} has no function ${name#*::}: write its new name here" >&2
        bad=1
    elif printf '%s\n' "$symbols" | grep -qE "^$name([.]|\$)"; then
        echo "folded.sh: $name is a symbol of the archive, so it is called where it should be folded" >&2
        bad=1
    fi
done
exit $bad
