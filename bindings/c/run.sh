#!/bin/sh
# Compiles the header as C and as C++, and example.c and test.c with the proved archive, and runs them.
set -eu
here=$(cd "$(dirname "$0")" && pwd)
root=$here/../..
. "$root/tools/x86-64.sh"
archive
mkdir -p "$here/target"
$CC -std=c99 -pedantic -Wall -Wextra -Werror -fsyntax-only -x c "$here/capgauze.h"
$CXX -std=c++98 -pedantic -Wall -Wextra -Werror -fsyntax-only -x c++ "$here/capgauze.h"
$CC -std=c99 -pedantic -O1 -Wall -Wextra -Werror -I"$here" "$here/example.c" "$CAPGAUZE_ARCHIVE" -o "$here/target/example"
$RUN "$here/target/example" "$root/examples/iced.hex" "$root/examples/rows.hex" >"$here/target/example.txt"
diff "$here/example.txt" "$here/target/example.txt"
$CC -std=c11 -D_GNU_SOURCE -O1 -Wall -Wextra -Werror -I"$here" "$here/test.c" "$CAPGAUZE_ARCHIVE" -lpthread -o "$here/target/test"
$RUN "$here/target/test"
