#!/bin/sh
# The Rust crate: its tests, with the example of its README, and examples/receive.rs, which must print what tetra_rx prints.
set -eu
cd "$(dirname "$0")/.."

if ! command -v cargo >/dev/null; then
    echo "rust: LEFT OUT, cargo is not here"
    exit
fi
work=$(mktemp -d)
trap 'rm -rf "$work"' EXIT
scripts/prove libmodem.a tetra_tx tetra_rx >"$work/log" 2>&1 || { cat "$work/log" >&2; exit 1; }
export RUSTFLAGS='-D warnings'
crate=bindings/rust/Cargo.toml
cargo test --quiet --offline --manifest-path $crate >"$work/log" 2>&1 || { cat "$work/log" >&2; exit 1; }
echo "rust: the tests of bindings/rust pass"

target/bin/tetra_tx <examples/bursts.txt >"$work/sent"
target/bin/tetra_rx --quiet --no-bits <"$work/sent" >"$work/want"
cargo run --quiet --offline --manifest-path $crate --example receive <"$work/sent" | cmp - "$work/want"
echo "rust: examples/receive.rs is right"
