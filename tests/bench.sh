#!/usr/bin/env bash
# ./zorambi bench: the library's times beside the other implementation's, as markdown.
set -u
cd "$(dirname "$0")/.." || exit 2
cargo build --release --offline --quiet --target-dir build -p zorambi-compare || exit 2
exec build/release/bench records
