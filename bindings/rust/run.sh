#!/bin/sh
# Looks at the crate's layout, lints and documentation, and runs its tests over the proved archive: its examples, its edges, the header, ten million
# answers against the oracle.
#   run.sh               all of it; CAPGAUZE_SEED=N: the inputs of a seed
#   run.sh on_and_on     against the oracle until it is stopped
# Offline; needs cargo and Debian's librust-bytes-dev. What is not there of rustfmt and clippy is said, and left out.
set -eu
here=$(cd "$(dirname "$0")" && pwd)
root=$here/../..
. "$root/tools/x86-64.sh"
archive
cd "$here"
if [ "${1:-}" = on_and_on ]; then
    exec cargo test --quiet --offline --test oracle -- --ignored --nocapture on_and_on
fi
if cargo fmt --version >/dev/null 2>&1; then
    cargo fmt --check
else
    echo 'not tried: cargo fmt (no rustfmt)'
fi
if cargo clippy --version >/dev/null 2>&1; then
    cargo clippy --quiet --offline --all-targets -- -D warnings
    cargo clippy --quiet --offline --no-default-features -- -D warnings
else
    echo 'not tried: cargo clippy (no rust-clippy)'
    cargo check --quiet --offline --no-default-features
fi
RUSTDOCFLAGS='-D warnings' cargo doc --quiet --offline --no-deps
exec cargo test --quiet --offline -- --nocapture
