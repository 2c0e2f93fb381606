#!/usr/bin/env bash
# Every command shown in README.md, docs/ and the READMEs beside the examples, run as it stands there: a line '    $ COMMAND' in a block of code, with
# what it prints and says in the lines after it. Commands of one file share a folder that has the project's files in it; OUT, which the
# examples write, is new for each block. And the Cargo.toml line of the manual builds a program, and its lines for Python are one. README.md
# is short: at most 100 lines of 120 columns.
set -u
cd "$(dirname "$0")/.." || exit 2
root=$PWD
manual=docs/MANUAL.md
work=$(mktemp -d) || exit 2
trap 'rm -rf "$work"' EXIT
passed=0
failed=0
export NO_COLOR=1

{ ./zorambi build; } || { echo "0 passed, 1 failed"; exit 1; }

# The commands of a page, with what is expected of each: a line 'block' for each block of code, then '$COMMAND' and '>LINE' lines.
commands_of() { # FILE
  awk '
    /^    / {
      if (!inside) { print "block"; inside = 1; shown = 0 }
      line = substr($0, 5)
      if (substr(line, 1, 2) == "$ ") { shown = 1; print "$" substr(line, 3) } else if (shown) print ">" line
      next
    }
    /^$/ { next }
    { inside = 0 }' "$1"
}
# Empty lines in what a command prints are left out on both sides, so that a page can show them as it likes.
check_command() { # FILE COMMAND EXPECTED
  local printed
  printed=$(cd "$work/at" && eval "$2" 2>&1 </dev/null | grep -v '^$')
  if [ "$printed" = "$(grep -v '^$' <<<"$3")" ]; then
    passed=$((passed + 1))
  else
    failed=$((failed + 1))
    echo "$1: $2"
    diff <(echo "$3") <(echo "$printed") | head -n 20
  fi
}
run_page() { # FILE
  local line command='' expected=''
  mkdir -p "$work/at"
  for each in README.md zorambi records examples include target bindings docs; do ln -sfn "$root/$each" "$work/at/$each"; done
  while IFS= read -r line; do
    case $line in
      '$'* | block)
        [ -z "$command" ] || check_command "$1" "$command" "$expected"
        command='' expected=''
        if [ "$line" = block ]; then rm -rf "$work/at/OUT" "$work/at/OUT.txt"; else command=${line#\$}; fi
        ;;
      '>'*) expected+=${line#>}$'\n' ;;
    esac
  done < <(commands_of "$1"; echo block)
}
pages=(README.md docs/*.md docs/changes/*.md records/README.md examples/*/README.md)
for page in "${pages[@]}"; do
  rm -rf "$work/at"
  run_page "$page"
  # A block that shows a command of ./zorambi shows it as one that is run.
  if bare=$(grep -nE '^    \./zorambi ' "$page"); then
    failed=$((failed + 1))
    echo "$page shows a command that is not run: $bare"
  fi
done
if [ "$passed" -lt 80 ]; then
  failed=$((failed + 1))
  echo "only $passed commands were found"
fi

# The README is read in a minute.
if lines=$(python3 - <<'P'
from pathlib import Path
lines = Path("README.md").read_text().splitlines()
wide = [number for number, line in enumerate(lines, 1) if len(line) > 120]
print(f"{len(lines)} lines, over 120 columns: {wide}")
raise SystemExit(len(lines) > 100 or bool(wide))
P
); then
  passed=$((passed + 1))
else
  failed=$((failed + 1))
  echo "README.md has more than 100 lines of 120 columns: $lines"
fi

# The line of a Cargo.toml, and the code that stands below it, as a program.
line=$(sed -n 's/^    \(zorambi = { path = .*\)/\1/p' "$manual")
mkdir -p "$work/crate/src" "$work/crate/record"
ln -s "$root" "$work/crate/zorambi"
printf '[package]\nname = "example"\nversion = "0.1.0"\nedition = "2021"\n\n[workspace]\n\n[dependencies]\n%s\n' "$line" >"$work/crate/Cargo.toml"
{
  echo 'fn main() -> Result<(), Box<dyn std::error::Error>> {'
  awk '/^## From Rust/ { on = 1 } on && /^    use zorambi/ { code = 1 } code && !/^    / && !/^$/ { exit } code { print }' "$manual"
  echo '    Ok(())'
  echo '}'
} >"$work/crate/src/main.rs"
cp records/paper/some_and_none/*.txt "$work/crate/record"
printed=$(cd "$work/crate/record" && cargo run --offline --quiet --manifest-path ../Cargo.toml --target-dir "$work/built" 2>&1)
if [ "$printed" = "7 nodes, 1 links" ]; then
  passed=$((passed + 1))
else
  failed=$((failed + 1))
  echo "the program of $manual's lines for Rust: $printed"
fi

# The code for Python, as a program.
awk '/^## From Python/ { on = 1 } on && /^    (from|import) / { code = 1 } code && !/^    / && !/^$/ { exit } code { print substr($0, 5) }' \
  "$manual" >"$work/example.py"
printed=$(cd records/refused/void_above_least && PYTHONPATH=$root/bindings/python python3 "$work/example.py" 2>&1)
if [ "$printed" = "refused: a void's bound (14) at node 3"$'\n'"14 3 proof.txt:8: 2 7 1 -1 -1 -1 0 1"$'\n'"Model(n=5, pairs=[(0, 5)])" ]; then
  passed=$((passed + 1))
else
  failed=$((failed + 1))
  echo "the program of $manual's lines for Python: $printed"
fi

echo "$passed passed, $failed failed"
[ "$failed" -eq 0 ]
