#!/usr/bin/env bash
# Within the stack that the header says: every entry of the library, on a stack that is looked at, and the proved programs, which get no
# more.
set -u
root=$(CDPATH='' cd -- "$(dirname -- "$0")/.." && pwd)
scratch=$(mktemp -d) || exit 2
trap 'rm -rf "$scratch"' EXIT

out=$(make --silent -C "$root/tests/c" stack)
grep -v ' passed, ' <<<"$out"
read -r passed _ failed _ < <(grep -E '^[0-9]+ passed, [0-9]+ failed$' <<<"$out")
[ -n "${passed-}" ] || passed=0 failed=1

bytes=$(awk '$2 == "ZORAMBI_STACK_PROGRAM" { print $3 }' "$root/include/zorambi.h")
# Runs a program in a folder, in that stack and in one of the usual size: what it prints is the same, and it ends well.
same() { # PROGRAM FOLDER
  local small large
  small=$(cd "$2" && ulimit -s "$((bytes / 1024))" && exec "$root/target/bin/$1" 2>/dev/null) || return
  large=$(cd "$2" && exec "$root/target/bin/$1" 2>/dev/null) || return
  [ -n "$small" ] && [ "$small" = "$large" ]
}
for k in 0 1 2 3; do
  mkdir "$scratch/$k"
  (cd "$scratch/$k" && "$root/target/tests/stack" --deep "$k") || failed=$((failed + 1))
done
for folder in "$root"/records/*/*/ "$scratch"/?/; do
  for name in check_proof check_older check_model; do
    if same "$name" "$folder"; then
      passed=$((passed + 1))
    else
      failed=$((failed + 1))
      echo "failed: $name in $folder with $bytes bytes of stack"
    fi
  done
done
echo "$passed passed, $failed failed"
[ "$failed" -eq 0 ]
