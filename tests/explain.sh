#!/usr/bin/env bash
# ./zorambi explain: the explanation of every refused record that is shipped, of every number that can be met at the command line. Each
# file of tests/explain is a transcript: a line '$ zorambi ..' and all that the command prints and says, with its exit status.
set -u
cd "$(dirname "$0")/.." || exit 2
zorambi=$PWD/build/release/zorambi
work=$(mktemp -d) || exit 2
trap 'rm -rf "$work"' EXIT
passed=0 failed=0

expect() { # NAME TEST..
  if "${@:2}"; then
    passed=$((passed + 1))
  else
    failed=$((failed + 1))
    echo "FAILED $1"
  fi
}

# Runs the commands of a transcript; OUT is a folder that is not there.
transcript() { # FILE
  local line status
  while IFS= read -r line; do
    [[ $line == '$ '* ]] || continue
    echo "$line"
    rm -rf "$work/out"
    line=${line#\$ zorambi}
    bash -c "\"$zorambi\" ${line//OUT/$work/out}" 2>&1 | sed "s|$work/out|OUT|g"
    status=${PIPESTATUS[0]}
    echo "exit status $status"
  done <"$1"
}

# With --write the transcripts are written anew: read each before it is kept.
for file in tests/explain/*.txt; do
  transcript "$file" >"$work/told"
  if [ "${1-}" = --write ]; then
    cp "$work/told" "$file"
  elif ! diff "$file" "$work/told" >"$work/diff"; then
    cat "$work/diff"
  fi
  expect "$file is what is told" cmp -s "$file" "$work/told"
done

# Every shipped refused record, model, wide schema and pair has its transcript, and no explanation is missing.
for folder in records/refused/* records/by_number/*; do
  expect "$folder has a transcript" grep -qrF -- "$folder" tests/explain
  expect "$folder says what it shows" test -s "$folder/why"
done
expect "each has a reason" test "$(grep -rc 'no reason was found' tests/explain | awk -F: '{ n += $2 } END { print n }')" -eq 0
# Every number but 2 and 21, which cannot be met at the command line.
for number in {1..31}; do
  case $number in 2 | 21) continue ;; esac
  expect "refusal $number is explained" grep -qrE "^$number: |\($number\)" tests/explain
  expect "refusal $number has a record in records/README.md" grep -qE "^\| $number \|" records/README.md
done

# The first line is the one that check, the catalogue and both tables have.
"$zorambi" catalogue records/refused --csv "$work/t.csv" --json "$work/t.json" >"$work/lines" 2>&1
for folder in records/refused/*; do
  why=$("$zorambi" explain "$folder" | head -n 1)
  expect "check says it of $folder" grep -qxF -- "$why" <("$zorambi" check "$folder" 2>&1)
  why=${why#*: }
  expect "the catalogue says it of $folder" grep -qF -- "; $why" "$work/lines"
  expect "the CSV table says it of $folder" grep -qF -- "${why//\"/\"\"}" "$work/t.csv"
  expect "the JSON table says it of $folder" grep -qF -- "\"why\":\"$why\"" "$work/t.json"
  expect "the object says it of $folder" grep -qF -- "\"why\":\"$why\"" <("$zorambi" check --json "$folder")
done

# Names of symbols, and what is wrong with them; nothing of a record or of its names becomes an escape code.
cp -r records/refused/open_clash "$work/named"
printf '0 carry\n1 \033[31m\n' >"$work/named/names.txt"
"$zorambi" explain "$work/named" >"$work/out.txt" 2>"$work/err.txt"
expect "a symbol's name" grep -qF 'row 0 (carry[n+2]) and row 1 (not carry[5])' "$work/out.txt"
expect "a bad line of names.txt is told" grep -qF 'names.txt:2: 1 \x1b[31m' "$work/err.txt"
printf 'root least\n\033]0;x\007 1\n' >"$work/named/schema.txt"
"$zorambi" explain "$work/named" >"$work/out.txt" 2>&1
expect "no escape codes" test "$(tr -d '[:print:]\n' <"$work/out.txt" | wc -c)" -eq 0

# Wrong use.
for words in "explain" "explain $work/none" "explain --older --model records/paper/some_and_none"; do
  # shellcheck disable=SC2086
  "$zorambi" $words >"$work/out.txt" 2>&1
  expect "zorambi $words is wrong use" test $? -eq 2
done
"$zorambi" explain records/paper/some_and_none >"$work/out.txt" 2>&1
expect "an accepted record" test $? -eq 0
expect "an accepted record, in words" grep -qxF 'accepted: 7 nodes, 1 link; there is nothing to explain' "$work/out.txt"

echo "$passed passed, $failed failed"
[ "$failed" -eq 0 ]
