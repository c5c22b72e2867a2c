#!/bin/sh
# Builds the oracle's three programs into target/bin and holds them to edges.txt. First it checks that list is the one that replay
# runs. Offline; needs cargo and Debian's librust-bytes-dev.
#   oracle          unrolled varint writers, self-copy in ReverseBuffer
#   oracle-looped   neither: the looped twins
#   oracle-checked  the `forbid-unsafe` twins, with overflow checks and debug assertions
set -eu
cd "$(dirname "$0")"
(cd bilrost && sha256sum --quiet --check ../held.sha256)
cmp list ../crates/replay/data/list
mkdir -p target/bin
build() {
    name=$1 profile=$2
    shift 2
    cargo build --quiet --offline --profile "$profile" --target-dir target "$@"
    cp "target/$profile/oracle" "target/bin/$name"
    sed '/^#/d; s/ => .*//' edges.txt | "target/bin/$name" >target/answers
    sed '/^#/d; s/.* => //' edges.txt | diff - target/answers >&2
}
build oracle release
build oracle-looped release --no-default-features
build oracle-checked checked --features checked
echo "built target/bin/oracle, oracle-looped, oracle-checked; each answers edges.txt as it says"
