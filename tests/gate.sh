#!/usr/bin/env bash
# ./zorambi test: every crate proved and the must-fail edits tried, by a plain `rt ci`, then all tests. What an earlier `rt ci` on this machine
# passed and has not changed since it does not prove again. Each group ends with a line 'N passed, M failed'; the last line adds them up.
set -u
cd "$(dirname "$0")/.." || exit 2
scratch=$(mktemp -d) || exit 2
trap 'rm -rf "$scratch"' EXIT
compare=build/release/zorambi-compare
least=tests/compare/least
passed=0
failed=0

# ---- what is run; a script or a package that is added goes into one of these lists

# What needs no library: it runs while the library is made.
early_scripts=(tests/gate-counts.sh tests/contracts.py tests/quotations.py tests/names.py tests/entries.py tests/imports.py tests/leftovers.py tests/kit.sh tests/made.py tests/columns.py tests/zorambi.sh)
early_packages=(zorambi-reference zorambi-commands)
# What needs the library, the programs and the program zorambi.
packages=(zorambi zorambi-catalogue zorambi-widths zorambi-cli zorambi-notation zorambi-show zorambi-explain zorambi-pages zorambi-compile)
scripts=(tests/programs.sh tests/readme.sh tests/manual.py tests/style.sh tests/catalogue.sh tests/install.sh tests/stack.sh tests/solver.sh tests/explain.sh tests/pages.py tests/editor.py tests/python.sh)

# ---- how a group is counted

# Runs a command, shows what it prints, and adds its closing 'N passed, M failed' to the totals.
tally() { # COMMAND..
  local log line status
  log=$(mktemp -p "$scratch") || exit 2
  "$@" 2>&1 | tee "$log"
  status=${PIPESTATUS[0]}
  line=$(grep -E '^[0-9]+ passed, [0-9]+ failed$' "$log" | tail -n 1)
  rm -f "$log"
  if [ -z "$line" ]; then
    echo "no line 'N passed, M failed' from: $*"
    failed=$((failed + 1))
    return
  fi
  passed=$((passed + $(cut -d ' ' -f 1 <<<"$line")))
  failed=$((failed + $(cut -d ' ' -f 3 <<<"$line")))
  if [ "$status" -ne 0 ] && [ "$(cut -d ' ' -f 3 <<<"$line")" -eq 0 ]; then
    echo "exit status $status from: $*"
    failed=$((failed + 1))
  fi
}

# The tests of a package, closed with 'N passed, M failed'.
package_tests() { # PACKAGE
  local log status
  log=$(mktemp -p "$scratch") || return 2
  echo "tests of $1"
  cargo test --offline --quiet --no-fail-fast --target-dir build -p "$1" 2>&1 | tee "$log"
  status=${PIPESTATUS[0]}
  awk '/^test result:/ { for (i = 2; i <= NF; i++) { if ($i ~ /^passed/) p += $(i - 1); if ($i ~ /^failed/) f += $(i - 1) } }
       END { print p + 0 " passed, " f + 0 " failed" }' "$log"
  rm -f "$log"
  return "$status"
}

# Builds a package's programs.
build() { # PACKAGE
  cargo build --release --offline --quiet --target-dir build -p "$1" && return
  echo "$1 does not build"
  failed=$((failed + 1))
}

# Runs two lists of tests at once, one for each of two cores. What the second prints is shown after the first.
# shellcheck disable=SC2030,SC2031
side_by_side() { # TESTS TESTS
  local out=$scratch/beside sums=$scratch/sums p=0 f=1
  rm -f "$sums"
  (
    passed=0 failed=0
    "$2"
    echo "$passed $failed" >"$sums"
  ) >"$out" 2>&1 &
  "$1"
  wait
  cat "$out"
  read -r p f <"$sums"
  passed=$((passed + p))
  failed=$((failed + f))
  rm -f "$out" "$sums"
}

# ---- the groups

# `rt ci`, which fails no run for an edit that cannot be tried: here such an edit fails, and so does a run that does not say how many there are.
judged() {
  local log status ok
  log=$(mktemp -p "$scratch") || return 2
  rt ci | tee "$log"
  status=${PIPESTATUS[0]}
  ok=$(grep '^rt: ok' "$log" | tail -n 1)
  if [ "$status" -eq 0 ] && [ -z "$ok" ]; then
    echo "no line 'rt: ok' from: rt ci"
    status=1
  elif [[ $ok =~ ,\ ([0-9]+)\ bad ]] && [ "${BASH_REMATCH[1]}" -gt 0 ]; then
    echo "must-fail edits that are bad: ${BASH_REMATCH[1]}"
    status=1
  fi
  grep -E '^[0-9]+ passed, [0-9]+ failed$' "$log" | tail -n 1
  rm -f "$log"
  return "$status"
}

# The programs with no proof, with what the compiler assumes checked as they run, on the files that `rt ci` runs them on: each ends well and
# prints what its file stdout has.
tried() {
  local p done=0 wrong=0
  for p in check_proof check_older check_model cases; do
    if (
      cd "crates/$p" || exit
      files=()
      while IFS= read -r file; do files+=(--data "${file#data/}=$file"); done < <(find data -type f | LC_ALL=C sort)
      rt try "${files[@]}" >"$scratch/tried" && cmp "$scratch/tried" stdout
    ); then
      done=$((done + 1))
    else
      echo "not as its file stdout has it, with no proof: $p"
      wrong=$((wrong + 1))
    fi
  done
  echo "$done passed, $wrong failed"
  [ "$wrong" -eq 0 ]
}

c_example() {
  echo "the C examples"
  if make --silent -C examples/c test; then
    echo "1 passed, 0 failed"
  else
    echo "0 passed, 1 failed"
    return 1
  fi
}

# The header: what it hands on, and empty slices from C and C++.
header() { # handed | c | cpp
  echo "the header: $1"
  make --silent -C tests/c "$1"
}

under_valgrind() {
  echo "the comparison under valgrind"
  valgrind --quiet --error-exitcode=9 "$compare" --least "$least/brief.txt" some 2 300 records
}

# The program's main thread does all the calls.
in_a_small_stack() {
  echo "the comparison in a stack of 256 KiB: $*"
  (ulimit -s 256 && exec "$compare" "$@")
}

# The library and the programs, and what calls them. All that runs rt is on this side.
make_library() {
  if ! ./zorambi build; then
    echo "the library or a program is not made"
    failed=$((failed + 1))
  fi
  build zorambi-compare
  tally tried
}

test_early() {
  local each
  for each in "${early_scripts[@]}"; do tally "$each"; done
  for each in "${early_packages[@]}"; do tally package_tests "$each"; done
  build zorambi-generate
  tally build/release/selftest 5000 1 records
}

test_comparison() {
  tally "$compare" --least "$least/whole.txt" 1 20000 records
  tally in_a_small_stack --least "$least/some.txt" some 3 2000 records
  tally in_a_small_stack --least "$least/heavy.txt" heavy
  tally tests/altered.sh
  tally c_example
  tally header handed
  tally header c
  tally header cpp
}

test_programs() {
  local each
  tally under_valgrind
  for each in "${packages[@]}"; do tally package_tests "$each"; done
  for each in "${scripts[@]}"; do tally "$each"; done
}

tally judged
side_by_side make_library test_early
side_by_side test_comparison test_programs
# It takes all cores, and begins with what making the library left.
tally tests/edit-reasons.sh
echo "$passed passed, $failed failed"
[ "$failed" -eq 0 ]
