#!/usr/bin/env bash
# ./zorambi fuzz SECONDS: the library beside the other implementation on new inputs, until one differs or the time is over.
set -u
cd "$(dirname "$0")/.." || exit 2
[[ $# -eq 1 && $1 =~ ^[0-9]+$ ]] || { echo "zorambi fuzz: SECONDS is no number: ${1-}" >&2; exit 2; }
cargo build --release --offline --quiet --target-dir build -p zorambi-compare || exit 2
end=$((SECONDS + 10#$1))
while [ "$SECONDS" -lt "$end" ]; do
  seed=$(od -An -N4 -tu4 /dev/urandom | tr -d ' ')
  build/release/zorambi-compare "$seed" 20000 records || exit 1
done
