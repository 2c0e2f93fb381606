#!/usr/bin/env bash
# The comparison notices: against a library whose answers are altered on purpose, every group of it fails. The library is
# the proved one, with a shim before each entry (tests/altered/shim.py).
set -u
cd "$(dirname "$0")/.." || exit 2
made=target/altered
program=$PWD/$made/cargo/release/zorambi-compare
passed=0 failed=0

no() {
  echo "FAILED $*"
  failed=$((failed + 1))
}

build() {
  mkdir -p "$made" &&
    tests/altered/shim.py include/zorambi.h "$made/shim.c" "$made/symbols" &&
    objcopy --redefine-syms="$made/symbols" target/staticlib/libzorambi.a "$made/libzorambi.a" &&
    cc -std=c11 -O1 -Wall -Wextra -Werror -c -o "$made/shim.o" "$made/shim.c" &&
    ar rs "$made/libzorambi.a" "$made/shim.o" 2>/dev/null &&
    ZORAMBI_LIBRARY_FOLDER=$PWD/$made cargo build --release --offline --quiet \
      --manifest-path tests/compare/Cargo.toml --bin zorambi-compare --target-dir "$made/cargo"
}

# What the groups of a run come to with an alteration, a line 'FAILURES NAME' each.
groups() { # ALTERATION ARGUMENT...
  ALTER=$1 "$program" "${@:2}" 2>&1 | sed -nE 's/^group (.*): [0-9]+ passed, ([0-9]+) failed$/\2 \1/p'
}

# Every group of a run fails, but those that show nothing of this alteration, which are named.
all_fail() { # ALTERATION EXCEPT ARGUMENT...
  local alteration=$1 except=$2 seen=0 failures name
  while read -r failures name; do
    seen=$((seen + 1))
    if [ "$failures" -gt 0 ]; then
      passed=$((passed + 1))
    elif [[ ! $name =~ ^($except)$ ]]; then
      no "with '$alteration' altered the group '$name' of '${*:3}' passes"
    fi
  done < <(groups "$alteration" "${@:3}")
  [ "$seen" -ge 7 ] || no "with '$alteration' altered '${*:3}' ran $seen groups"
}

# Some group of a run fails: the alteration is of what only some of them look at.
some_fail() { # ALTERATION ARGUMENT...
  if groups "$1" "${@:2}" | grep -qv '^0 '; then
    passed=$((passed + 1))
  else
    no "with '$1' altered '${*:2}' passes"
  fi
}

# Unaltered, nothing fails: the shim itself is no alteration.
none_fail() { # ARGUMENT...
  if [ "$("$program" "$@" | tail -n 1 | cut -d ' ' -f 3)" = 0 ]; then
    passed=$((passed + 1))
  else
    no "with nothing altered '$*' fails"
  fi
}

echo "the comparison against altered libraries"
if build; then
  some=(some 2 300 records)
  none_fail "${some[@]}"
  all_fail answer "" "${some[@]}"
  all_fail place "" "${some[@]}"
  all_fail count "" "${some[@]}"
  # the line at fault, which the checks of texts give
  some_fail line "${some[@]}"
  # the check lends nothing for results
  all_fail lent "shipped records, sides swapped" "${some[@]}"
  # these make fewer than a thousand calls
  all_fail rare "the paper's cases|shipped records, sides swapped|a model at n" some 2 2000 records
  # the largest inputs are all accepted, so that no refusal can be altered
  all_fail count "" heavy
  all_fail lent "largest records" heavy
else
  no "the altered library or the comparison with it does not build"
fi
echo "$passed passed, $failed failed"
[ "$failed" -eq 0 ]
