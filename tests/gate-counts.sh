#!/usr/bin/env bash
# The gate counts: tests/gate.sh and fuzz.sh in a folder of stand-ins for all that they run, each of which goes wrong in turn. What goes
# wrong has to be in the last line and the exit status; and every group has to be run at all.
# What a stand-in is called by is worked out where it is called:
# shellcheck disable=SC2016
set -u
root=$(CDPATH='' cd -- "$(dirname -- "$0")/.." && pwd)
repo=$(mktemp -d) || exit 2
trap 'rm -rf "$repo"' EXIT
mkdir -p "$repo/bin" "$repo/build/release" "$repo/tests"
for program in check_proof check_older check_model cases; do
  mkdir -p "$repo/crates/$program/data/in"
  echo "data of $program" >"$repo/crates/$program/data/in/file"
  echo "stdout of $program" >"$repo/crates/$program/stdout"
done
cp "$root/tests/gate.sh" "$root/tests/fuzz.sh" "$repo/tests/"
passed=0 failed=0

# A stand-in notes that it was called, and does as the file `wrong` says of its name: without its closing line, with failures, with an
# exit status alone. Else it closes with one test passed.
stand_in() { # FILE NAME
  cat >"$repo/$1" <<S
#!/usr/bin/env bash
name="$2"
S
  cat >>"$repo/$1" <<'S'
echo "$name" >>"$REPO/called"
read -r wrong how 2>/dev/null <"$REPO/wrong" && [ "$wrong" = "${name// /_}" ] || how=right
case $how in
  silent) exit 0 ;;
  failing) echo "0 passed, 1 failed"; exit 1 ;;
  ending) echo "1 passed, 0 failed"; exit 9 ;;
esac
echo "1 passed, 0 failed"
S
  chmod +x "$repo/$1"
}
for script in edit-reasons.sh contracts.py quotations.py names.py manual.py entries.py style.sh imports.py leftovers.py kit.sh made.py columns.py zorambi.sh programs.sh readme.sh catalogue.sh install.sh stack.sh solver.sh explain.sh pages.py editor.py python.sh altered.sh gate-counts.sh; do
  stand_in "tests/$script" "$script"
done
stand_in zorambi 'zorambi $1'
# rt: `ci` at the top with a line on the edits; `try` in a program's folder, on its data, printing what is to be printed.
cat >"$repo/bin/rt" <<'S'
#!/usr/bin/env bash
name="rt $*"
[ "$1" = ci ] && [ "$PWD" != "$REPO" ] && exit 9
[ "$1" = try ] && [ "$*" = "try --data in/file=data/in/file" ] && name="rt try ${PWD##*/}"
echo "$name" >>"$REPO/called"
read -r wrong how 2>/dev/null <"$REPO/wrong" && [ "$wrong" = "${name// /_}" ] || how=right
case "$1 $how" in
  *\ silent) exit 0 ;;
  ci\ failing) echo "0 passed, 1 failed"; exit 1 ;;
  ci\ unsaid) echo "1 passed, 0 failed"; exit 0 ;;
  ci\ bad) echo "rt: ok; handles allowed: none; must-fail edits: 3 refused, 1 of them only by a limit, 2 bad; every proof was done" ;;
  ci\ *) echo "rt: ok; handles allowed: none; must-fail edits: 5 refused; every proof was done" ;;
  try\ failing) echo "another stdout" ;;
  try\ *) echo "stdout of ${PWD##*/}" ;;
esac
[ "$1" = ci ] && echo "1 passed, 0 failed"
[ "$how" != ending ] || exit 9
S
chmod +x "$repo/bin/rt"
stand_in bin/make 'make ${*: -1} ${3-}'
stand_in build/release/selftest selftest
stand_in build/release/zorambi-compare 'compare ${1/--least/least} ${3-} ${4-}'
# cargo: what a test prints, and the package.
stand_in bin/cargo 'cargo $1 ${*: -1}'
sed -i 's/^echo "1 passed, 0 failed"$/[ "$1" = build ] || echo "test result: ok. 1 passed; 0 failed; 0 ignored"/; s/silent) exit 0/silent) exit 101/' "$repo/bin/cargo"
# valgrind: the command that it is given, and its own exit status.
cat >"$repo/bin/valgrind" <<'S'
#!/usr/bin/env bash
while [[ $1 = -* ]]; do shift; done
echo valgrind >>"$REPO/called"
"$@"
status=$?
read -r wrong how 2>/dev/null <"$REPO/wrong" && [ "$wrong" = valgrind ] && exit 9
exit "$status"
S
chmod +x "$repo/bin/valgrind"

run() { # SCRIPT WORD..
  rm -f "$repo/called"
  last=$(REPO=$repo PATH=$repo/bin:$PATH bash "$repo/tests/$1" "${@:2}" 2>&1 | tail -n 1; exit "${PIPESTATUS[0]}")
  status=$?
}
expect() { # WHAT TEST..
  if "${@:2}"; then
    passed=$((passed + 1))
  else
    failed=$((failed + 1))
    echo "FAILED $1: status $status, last line '$last'"
  fi
}
all_right() { [ "$status" -eq 0 ] && [[ $last =~ ^[0-9]+\ passed,\ 0\ failed$ ]]; }
one_wrong() { [ "$status" -ne 0 ] && [[ $last =~ ^[0-9]+\ passed,\ [1-9][0-9]*\ failed$ ]]; }
called() { grep -qxF -- "$1" "$repo/called"; }

# Everything right: every group is run.
: >"$repo/wrong"
run gate.sh
expect "all right" all_right
cp "$repo/called" "$repo/groups"
groups=("rt ci" "rt try check_proof" "rt try check_older" "rt try check_model" "rt try cases" "zorambi build"
  edit-reasons.sh contracts.py quotations.py names.py manual.py entries.py style.sh imports.py leftovers.py kit.sh made.py columns.py zorambi.sh programs.sh readme.sh catalogue.sh install.sh stack.sh solver.sh python.sh altered.sh gate-counts.sh explain.sh pages.py editor.py
  selftest "cargo test zorambi" "cargo test zorambi-reference" "cargo test zorambi-commands"
  "cargo test zorambi-catalogue" "cargo test zorambi-widths" "cargo test zorambi-cli" "compare least 1 20000" "compare least some 3" "compare least heavy " "compare least some 2" "cargo test zorambi-notation" "cargo test zorambi-show" "cargo test zorambi-explain" "cargo test zorambi-pages" "cargo test zorambi-compile"
  valgrind "make test examples/c" "make handed tests/c" "make c tests/c" "make cpp tests/c")
for group in "${groups[@]}"; do expect "'$group' is run" called "$group"; done

# Each of them wrong in each way.
while IFS= read -r name; do
  for how in silent failing ending; do
    case "$name $how" in
      # what builds or tries prints no closing line of its own, and what is said by its status alone is not told by silence
      "cargo build"*silent | "cargo build"*failing | "zorambi build silent" | "make test examples/c silent" | "valgrind silent" | "valgrind failing") continue ;;
    esac
    echo "${name// /_} $how" >"$repo/wrong"
    run gate.sh
    expect "$name, $how" one_wrong
  done
done < <(sort -u "$repo/groups")

# What `rt ci` itself does not fail.
for how in bad unsaid; do
  echo "rt_ci $how" >"$repo/wrong"
  run gate.sh
  expect "rt ci, $how" one_wrong
done
echo "rt_ci right" >"$repo/wrong"
run gate.sh
expect "rt ci, right" all_right

# Comparing on new inputs ends at the first difference.
sed -i 's/^name=.*/name=compare/' "$repo/build/release/zorambi-compare"
echo "compare failing" >"$repo/wrong"
run fuzz.sh 5
expect "fuzz ends" [ "$status" -eq 1 ]
expect "fuzz ends at once" [ "$(grep -cx compare "$repo/called")" -eq 1 ]
echo "cargo_build_zorambi-compare ending" >"$repo/wrong"
run fuzz.sh 1
expect "fuzz without its program" [ "$status" -eq 2 ]
run fuzz.sh x
expect "fuzz of no number" [ "$status" -eq 2 ]

echo "$passed passed, $failed failed"
[ "$failed" -eq 0 ]
