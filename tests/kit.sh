#!/usr/bin/env bash
# The kit that the proofs were last seen with, by its one-line identity (`rt version`), stands in kit.txt. Another kit may prove other
# things, or the same in another time: it is told, and is no failure. Whoever has seen the whole gate pass with it writes it there:
# `rt version >kit.txt`, and into README.md, which has the same line.
set -u
cd "$(dirname "$0")/.." || exit 2

if [ "$(wc -l <kit.txt)" -ne 1 ] || ! grep -qE '^[[:print:]]+$' kit.txt; then
  echo "kit.txt is not one line, what 'rt version' prints"
  echo "0 passed, 1 failed"
  exit 1
fi
if ! grep -qF "\`$(cat kit.txt)\`" README.md; then
  echo "README.md does not name the kit of kit.txt"
  echo "0 passed, 1 failed"
  exit 1
fi
if ! kit=$(rt version 2>/dev/null); then
  echo "NOT RUN: the kit's identity: there is no kit"
elif [ "$kit" != "$(cat kit.txt)" ]; then
  echo "ANOTHER KIT: the proofs were last seen with '$(cat kit.txt)', this is '$kit'"
fi
echo "1 passed, 0 failed"
