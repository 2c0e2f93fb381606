#!/usr/bin/env bash
# The program zorambi: check, check --older and model on every record against its
# `expected` file and the other implementation, and on files that are no texts at all against the other implementation.
# And that the copies of the records are the records. The commands that make texts are in tests/programs, a file each.
set -u
cd "$(dirname "$0")/.." || exit 2
here=$PWD
other=$here/build/release/reference-check
zorambi=$here/build/release/zorambi
work=$(mktemp -d) || exit 2
trap 'rm -rf "$work"' EXIT
passed=0
failed=0

# The programs are made first, so that nothing is said of that later. After that ./zorambi only hands over.
{ ./zorambi build && cargo build --release --offline --quiet --target-dir build -p zorambi-reference; } || { echo "0 passed, 1 failed"; exit 1; }

# One run: what is printed, what is expected, and the exit status that goes with it.
same() { # NAME EXPECTED PRINTED STATUS
  local wanted=1
  [ "$(tail -n 1 <<<"$2" | cut -d ' ' -f 1)" = 0 ] && wanted=0
  if [ "$2" = "$3" ] && [ "$4" -eq "$wanted" ]; then
    passed=$((passed + 1))
  else
    failed=$((failed + 1))
    echo "$1: expected '${2//$'\n'/ / }', exit $wanted; got '${3//$'\n'/ / }', exit $4"
  fi
}

# The check, and the older one, which answers and says the same where the check does not answer 27.
check_record() { # FOLDER NAME
  local out status expected
  expected=$(cd "$1" && "$other")
  out=$("$zorambi" check "$1" 2>"$work/err")
  status=$?
  same "check $2" "$expected" "$out" "$status"
  [[ $expected == *$'\n27 '* ]] && return
  out=$("$zorambi" check --older "$1" 2>"$work/older")
  status=$?
  same "check --older $2" "$expected" "$out" "$status"
  if cmp -s "$work/err" "$work/older"; then
    passed=$((passed + 1))
  else
    failed=$((failed + 1))
    echo "$2: said by check: $(tr '\n' '|' <"$work/err"); by check --older: $(tr '\n' '|' <"$work/older")"
  fi
}

check_model_record() { # FOLDER NAME
  local out status
  out=$("$zorambi" model "$1" 2>"$work/err")
  status=$?
  same "model $2" "$(cd "$1" && "$other" schema.txt --model model.txt)" "$out" "$status"
}

# What is said on standard error after the last run.
said() { # NAME TEXT
  if [[ $(cat "$work/err") == *"$2"* ]]; then
    passed=$((passed + 1))
  else
    failed=$((failed + 1))
    echo "$1: '$2' is not said; what is: $(tr '\n' '|' <"$work/err")"
  fi
}

# What is said without the sentence that explains a refusal, '14: node 3 knows ..'; tests/explain.sh has these.
unexplained() { sed -E '/^[0-9]+: /d'; }
# What a growing tableau answers without that sentence, which stands at the end of its line.
short_answers() { sed -E 's/^(.* refused: .* \([0-9]+\)( at [a-z]+ [0-9]+)?): .*$/\1/'; }
# What is said after the last run is this; the sentence that explains is looked at where it is given.
is_said() { # TEXT, with its last line's end
  if grep -qE '^[0-9]+: ' <<<"$1"; then
    cmp -s "$work/err" <(printf '%s' "$1")
  else
    cmp -s <(unexplained <"$work/err") <(printf '%s' "$1")
  fi
}

# All that is said on standard error after the last run.
said_exactly() { # NAME TEXT
  if is_said "${2:+$2$'\n'}"; then
    passed=$((passed + 1))
  else
    failed=$((failed + 1))
    echo "$1: what is said is not '${2//$'\n'/|}' but: $(tr '\n' '|' <"$work/err")"
  fi
}

# One run of a command that makes a text: its exit status, all that it prints and all that it says.
gives() { # NAME STATUS PRINTED SAID WORD...
  local name=$1 wanted=$2 printed=$3 told=$4 status
  shift 4
  "$zorambi" "$@" >"$work/out" 2>"$work/err"
  status=$?
  if [ "$status" -eq "$wanted" ] && cmp -s <(short_answers <"$work/out") <(printf '%s' "$printed") && is_said "$told"; then
    passed=$((passed + 1))
  else
    failed=$((failed + 1))
    echo "$name: exit $status; printed: $(tr '\n' '|' <"$work/out"); said: $(tr '\n' '|' <"$work/err")"
  fi
}
# The same where it is refused: the numbers, and what is said.
turns_away() { # NAME NUMBERS SAID WORD...
  gives "$1" 1 $'answer place nodes links\n'"$2"$'\n' "$3"$'\n' "${@:4}"
}

record() { # FOLDER: 01's record
  mkdir -p "$1"
  printf 'root least\n4 1\nkind a b c\n2 0 2 0\n3 0 2 0\n7 0 2 0\n6 1 2 0\n4 2 3 0\n' >"$1/schema.txt"
  printf 'kind a b c\n7 0 2 1\n2 0 1 0\n6 1 2 1\n3 0 1 0\nup rule on with other to by set\n-1 0 4 -1 -1 -1 0 4\n0 2 -1 -1 -1 -1 0 2 3\n1 7 2 -1 -1 -1 0 2 3\n1 3 3 7 8 -1 0 2 3\n3 4 2 5 6 -1 0 2 7 8\n4 8 -1 -1 -1 1 1 5 7\n4 6 6 8 -1 -1 0 6 8\n' >"$1/proof.txt"
}

# ---- the records, by their own word and by the other implementation's

# A record that holds a file `older` is checked as an older one.
for r in records/accepted/* records/refused/*; do
  older=()
  [ -f "$r/older" ] && older=(--older)
  out=$("$zorambi" check "${older[@]}" "$r" 2>"$work/err")
  status=$?
  same "check $r" "answer place nodes links
$(cat "$r/expected")" "$out" "$status"
  check_record "$r" "$r"
  if [ -f "$r/model.txt" ]; then
    out=$("$zorambi" model "$r" 2>"$work/err")
    same "model $r" "answer place nodes links
0 0 0 0" "$out" $?
  fi
done

# What is said of a refused record.
told() { # RECORD WORDS...
  local record=$1 words
  shift
  "$zorambi" check "records/refused/$record" >/dev/null 2>"$work/err"
  for words in "$@"; do said "check $record" "$words"; done
}
told split_at_upper_bound "refused: a split's K (14) at node 9" "proof.txt:16: 7 2 -1 -1 -1 -1 8 1 2 3"
told split_negative_by "refused: the fields of rule 2, split (12) at node 7" "proof.txt:14: 6 2 -1 -1 -1 -1 -8 1 2 3 7 9"
told link_to_later_node "refused: a link whose to is not the number of a node before it (13) at node 7" \
  "proof.txt:13: 5 8 -1 -1 -1 8 1 0 6 11"
link_bounds="refused: a link's bounds: n - by may lie outside its target's (14) at node"
told link_below_other_branch "$link_bounds 11" "proof.txt:17: 10 8 -1 -1 -1 4 1 0 6 11"
told link_above_upper_bound "$link_bounds 12" "proof.txt:16: 9 8 -1 -1 -1 5 2 0 1 4"
told link_open_to_bounded "$link_bounds 9" "proof.txt:12: 5 8 -1 -1 -1 4 2 0 1 4"
told link_lost_row_other_branch "refused: a link's row without its lowered partner (16) at node 12" \
  "proof.txt:18: 10 8 -1 -1 -1 4 1 0 6"
told void_above_least "refused: a void's bound (14) at node 3" "proof.txt:8: 2 7 1 -1 -1 -1 0 1"
told row_written_twice "refused: a proof row written twice (27) at row 130" "27: row 130 is row 129 (proof.txt:83) again" "proof.txt:84: 6 5 1 2"

# ---- 01's record and its neighbours

# 01's record, changed in one point by sed: the numbers that 01, or 02 for a split's K and for a link's target, gives
# for it, and what is said of it.
neighbour() { # NAME FILE SED NUMBERS [WORDS ...]
  local name=$1 out words
  record "$work/r"
  sed -i "$3" "$work/r/$2"
  out=$("$zorambi" check "$work/r" 2>"$work/err")
  same "$name" "answer place nodes links
$4" "$out" $?
  shift 4
  for words in "$@"; do said "$name" "$words"; done
}
neighbour "the record of 01" proof.txt '' "0 0 7 1"
neighbour "node 5 by 2" proof.txt 's/^4 8 -1 -1 -1 1 1 5 7$/4 8 -1 -1 -1 1 2 5 7/' "14 5 0 0" \
  "$link_bounds 5" "proof.txt:12: 4 8 -1 -1 -1 1 2 5 7"
# Node 0 has another set, node 2 knows n = 1; 5 is the link itself, 6 comes after it, 7 is no node.
neighbour "node 5 to 0" proof.txt 's/^4 8 -1 -1 -1 1 1 5 7$/4 8 -1 -1 -1 0 1 5 7/' "16 5 0 0" \
  "refused: a link's row without its lowered partner (16) at node 5" "proof.txt:12: 4 8 -1 -1 -1 0 1 5 7"
neighbour "node 5 to 2" proof.txt 's/^4 8 -1 -1 -1 1 1 5 7$/4 8 -1 -1 -1 2 1 5 7/' "14 5 0 0" \
  "$link_bounds 5" "proof.txt:12: 4 8 -1 -1 -1 2 1 5 7"
for to in 5 6 7 -1; do
  neighbour "node 5 to $to" proof.txt "s/^4 8 -1 -1 -1 1 1 5 7\$/4 8 -1 -1 -1 $to 1 5 7/" "13 5 0 0" \
    "refused: a link whose to is not the number of a node before it (13) at node 5" "proof.txt:12: 4 8 -1 -1 -1 $to 1 5 7"
done
neighbour "least 0" schema.txt 's/^4 1$/4 0/' "14 3 0 0" "refused: an unfolding's bound (14) at node 3"
neighbour "least 2" schema.txt 's/^4 1$/4 2/' "14 2 0 0" "refused: a void's bound (14) at node 2"
neighbour "node 1 by 1" proof.txt 's/^0 2 -1 -1 -1 -1 0 2 3$/0 2 -1 -1 -1 -1 1 2 3/' "0 0 7 1"
neighbour "node 1 by 2" proof.txt 's/^0 2 -1 -1 -1 -1 0 2 3$/0 2 -1 -1 -1 -1 2 2 3/' "14 2 0 0" "refused: a void's bound (14) at node 2"
neighbour "node 1 by 9999" proof.txt 's/^0 2 -1 -1 -1 -1 0 2 3$/0 2 -1 -1 -1 -1 9999 2 3/' "14 1 0 0" \
  "refused: a split's K (14) at node 1" "proof.txt:8: 0 2 -1 -1 -1 -1 9999 2 3"
neighbour "node 1 by -1" proof.txt 's/^0 2 -1 -1 -1 -1 0 2 3$/0 2 -1 -1 -1 -1 -1 2 3/' "12 1 0 0" \
  "refused: the fields of rule 2, split (12) at node 1" "proof.txt:8: 0 2 -1 -1 -1 -1 -1 2 3"
neighbour "node 6 on 8 with 6" proof.txt 's/^4 6 6 8 -1/4 6 8 6 -1/' "12 6 0 0" "refused: the fields of rule 6, clash (12) at node 6"
# shellcheck disable=SC2016
neighbour "last row gone" proof.txt '$d' "17 4 0 0" "refused: the number of children of rule 4, unfold or (17) at node 4"

# ---- proof rows written twice

# 01's record with rows written after its last proof row, which is row 8 in line 5: the numbers of the check and what is
# said, then the numbers of the older check and what is said.
again() { # NAME ROWS NUMBERS WORDS OLDER-NUMBERS OLDER-WORDS
  local out
  record "$work/r"
  sed -i "5s/\$/\\n$2/" "$work/r/proof.txt"
  out=$("$zorambi" check "$work/r" 2>"$work/err")
  same "$1" "answer place nodes links
$3" "$out" $?
  said_exactly "$1" "$4"
  out=$("$zorambi" check --older "$work/r" 2>"$work/err")
  same "$1, older" "answer place nodes links
$5" "$out" $?
  said_exactly "$1, older" "$6"
}
twice() { # ROW-REPEATED ROW [PLACE LINE]
  local at=proof.txt:$(($1 - 3))
  [ "$1" -gt 4 ] || at=schema.txt:$(($1 + 4))
  echo "refused: a proof row written twice (27) at row ${3-9}
27: row ${3-9} is row $1 ($at) again
proof.txt:${4-6}: $2
rows may repeat in an older record: 'zorambi check --older' checks it as one, and 'zorambi tidy' writes its proof without repeated rows"
}
ill_formed="refused: an ill-formed formula"
again "the last proof row twice" '3 0 1 0' "27 9 0 0" "$(twice 8 "3 0 1 0")" "0 0 7 1" ""
again "the first proof row twice" '7 0 2 1' "27 9 0 0" "$(twice 5 "7 0 2 1")" "0 0 7 1" ""
again "the first schema row again" '2 0 2 0' "27 9 0 0" "$(twice 0 "2 0 2 0")" "0 0 7 1" ""
again "the last schema row again" '4 2 3 0' "27 9 0 0" "$(twice 4 "4 2 3 0")" "0 0 7 1" ""
again "a row like none" '3 0 1 1' "0 0 7 1" "" "0 0 7 1" ""
again "a new row, then twice" '3 0 1 1\n3 0 1 1' "27 10 0 0" "$(twice 9 "3 0 1 1" 10 7)" "0 0 7 1" ""
again "a row twice, then an ill-formed one" '3 0 1 0\n9 0 0 0' "27 9 0 0" "$(twice 8 "3 0 1 0")" \
  "7 10 0 0" "$ill_formed (7) at row 10
proof.txt:7: 9 0 0 0"
again "an ill-formed row, then one twice" '9 0 0 0\n3 0 1 0' "7 9 0 0" "$ill_formed (7) at row 9
proof.txt:6: 9 0 0 0" "7 9 0 0" "$ill_formed (7) at row 9
proof.txt:6: 9 0 0 0"

# The shipped one is accepted by the older check, with the counts of the record that it was made of.
out=$("$zorambi" check --older records/refused/row_written_twice 2>"$work/err")
same "check --older records/refused/row_written_twice" "answer place nodes links
$(cat records/accepted/rca_zero/expected)" "$out" $?
said_exactly "check --older records/refused/row_written_twice" ""

# ---- neighbours whose numbers the other implementation gives

other_neighbour() { # NAME FILE SED WORDS
  record "$work/r"
  sed -i "$3" "$work/r/$2"
  check_record "$work/r" "$1"
  said "$1" "$4"
}
# shellcheck disable=SC2016
other_neighbour "no node" proof.txt '7,$d' "refused: no node (10)"
other_neighbour "an ill-formed schema row" schema.txt 's/^7 0 2 0$/7 9 2 0/' "schema.txt:6: 7 9 2 0"
other_neighbour "an ill-formed proof row" proof.txt 's/^6 1 2 1$/6 1 2 99999/' "proof.txt:4: 6 1 2 99999"
other_neighbour "a heading" schema.txt 's/^root/Root/' "schema.txt:1: Root least"
other_neighbour "bytes that are not printable" proof.txt 's/^6 1 2 1$/6 1\x1b[2J\x00\xff\\ 1/' 'proof.txt:4: 6 1\x1b[2J\x00\xff\\ 1'

# ---- models of 01: root 3

record "$work/m"
sed -i 's/^4 1$/3 1/' "$work/m/schema.txt"
model() { printf '%b' "$1" >"$work/m/model.txt"; }
expect_model() { # NAME NUMBERS
  out=$("$zorambi" model "$work/m" 2>"$work/err")
  same "$1" "answer place nodes links
$2" "$out" $?
}
model 'n\n1\nsymbol index\n'
expect_model "root 3, n = 1" "0 0 0 0"
model 'n\n0\nsymbol index\n'
expect_model "root 3, n = 0" "19 -1 0 0"
model 'n\n3\nsymbol index\n0 1\n'
expect_model "root 3, n = 3, pair 0 1" "0 0 0 0"
model 'n\n3\nsymbol index\n0 3\n'
expect_model "root 3, n = 3, pair 0 3" "20 -1 0 0"
model 'n\n3\nsymbol index\n0 3\n0 3\n'
check_model_record "$work/m" "a pair twice"
said "a pair twice" "model.txt:5: 0 3"

# ---- files that are no texts

spoil() { # NAME FILE: standard input in place of a file of 01's record
  rm -rf "$work/b"
  record "$work/b"
  printf 'n\n3\nsymbol index\n0 1\n' >"$work/b/model.txt"
  rm "$work/b/$2"
  cat >"$work/b/$2"
  if [ "$2" = model.txt ]; then
    check_model_record "$work/b" "$1"
  else
    check_record "$work/b" "$1"
  fi
}
for f in schema.txt proof.txt model.txt; do
  spoil "empty $f" $f </dev/null
  spoil "binary $f" $f < <(head -c 5000 target/bin/check_proof)
  spoil "65,536 bytes in $f" $f < <(head -c 65536 /dev/zero | tr '\0' '7')
  long=$(head -c 65535 /dev/zero | tr '\0' '7')
  spoil "one line of 65,536 bytes in $f" $f <<<"$long"
  said "one line of 65,536 bytes in $f" "$f:1: $long"
  spoil "65,537 bytes in $f" $f < <(head -c 65537 /dev/zero | tr '\0' '7')
  said "65,537 bytes in $f" "refused: $f has over 65,536 bytes (1)"
  spoil "3,000,000 bytes in $f" $f < <(head -c 3000000 /dev/zero | tr '\0' '7')
  spoil "NUL bytes in $f" $f < <(head -c 300 /dev/zero)
done
record "$work/b"
for f in schema.txt proof.txt; do head -c 65537 /dev/zero >"$work/b/$f"; done
check_record "$work/b" "both texts too long"
said_exactly "both texts too long" "refused: schema.txt has over 65,536 bytes (1)"
spoil "65,000 digits" schema.txt < <((printf 'root least\n'; head -c 65000 /dev/zero | tr '\0' '1'))
spoil "CR LF in schema.txt" schema.txt < <(printf 'root least\r\n4 1\r\nkind a b c\r\n')
spoil "no last byte 10" schema.txt < <(printf 'root least\n4 1\nkind a b c\n2 0 2 0')
spoil "-0" schema.txt < <(printf 'root least\n4 -0\nkind a b c\n2 0 2 0\n')
spoil "007" schema.txt < <(printf 'root least\n4 007\nkind a b c\n2 0 2 0\n')

# ---- files that cannot be read, or that are none: the number stays 3, and why is told

missing() { # PROGRAM FILE
  local judge=check_record other_text
  [ "$1" = model ] && judge=check_model_record
  away_from() { # NAME WORDS: the file is as it is; both implementations refuse it with 3
    "$judge" "$work/g" "$1"
    said_exactly "$1" "refused: $file $2 (3)"
  }
  local file=$2
  rm -rf "$work/g" "$work/away"
  record "$work/g"
  printf 'n\n3\nsymbol index\n0 1\n' >"$work/g/model.txt"
  other_text=$(cat "$work/g/$file")
  rm "$work/g/$file"
  away_from "no $file" "is missing"
  mkdir "$work/g/$file"
  away_from "a folder for $file" "is a folder, not a regular file"
  rmdir "$work/g/$file"
  # The other implementation would wait for the pipe's other end for ever.
  mkfifo "$work/g/$file"
  gives_in_time "a pipe for $file" 1 "3 1 0 0" "refused: $file is a pipe, not a regular file (3)" "$1" "$work/g"
  rm "$work/g/$file"
  ln -s /dev/zero "$work/g/$file"
  gives_in_time "a device for $file" 1 "3 1 0 0" \
    "refused: $file is a link out of its folder, to /dev/zero, which is followed only with --follow (3)" "$1" "$work/g"
  gives_in_time "a device for $file, followed" 1 "3 1 0 0" "refused: $file is a device, not a regular file (3)" "$1" --follow "$work/g"
  rm "$work/g/$file"
  python3 -c 'import socket, sys; socket.socket(socket.AF_UNIX).bind(sys.argv[1])' "$work/g/$file"
  away_from "a socket for $file" "is a socket, not a regular file"
  rm "$work/g/$file"
  ln -s none "$work/g/$file"
  away_from "a link to nothing for $file" "is missing"
  rm "$work/g/$file"
  # A regular file that gives an error when it is read.
  ln -s /proc/self/mem "$work/g/$file"
  out=$("$zorambi" "$1" --follow "$work/g" 2>"$work/err")
  same "$file that cannot be read" $'answer place nodes links\n3 1 0 0' "$out" $?
  said_exactly "$file that cannot be read" "refused: $file cannot be read: Input/output error (os error 5) (3)"
  rm "$work/g/$file"
  # A link within the folder is followed; one out of it only where that is asked for, and nothing of its target is shown.
  mkdir "$work/g/kept"
  printf '%s\n' "$other_text" >"$work/g/kept/text"
  ln -s kept/text "$work/g/$file"
  "$judge" "$work/g" "a link within the folder for $file"
  rm "$work/g/$file"
  mkdir "$work/away"
  printf 'a secret\n' >"$work/away/text"
  ln -s ../away/text "$work/g/$file"
  gives_in_time "a link out of the folder for $file" 1 "3 1 0 0" \
    "refused: $file is a link out of its folder, to $work/away/text, which is followed only with --follow (3)" "$1" "$work/g"
  gives_in_time "a link out of the folder for $file, followed" 1 "3 1 0 0" "refused: a heading (3) at line 1
$file:1: a secret" "$1" --follow "$work/g"
  rm -r "$work/g"
}
# A refusal that is given at once: its numbers, and all that is said.
gives_in_time() { # NAME STATUS NUMBERS SAID WORD...
  local status
  timeout 20 "$zorambi" "${@:5}" >"$work/out" 2>"$work/err"
  status=$?
  if [ "$status" -eq "$2" ] && printf 'answer place nodes links\n%s\n' "$3" | cmp -s - "$work/out" && is_said "${4:+$4$'\n'}"; then
    passed=$((passed + 1))
  else
    failed=$((failed + 1))
    echo "$1: exit $status; printed: $(tr '\n' '|' <"$work/out"); said: $(tr '\n' '|' <"$work/err")"
  fi
}
# The commands that make texts do not wait for a pipe or read a device either.
record "$work/waits"
rm "$work/waits/schema.txt"
mkfifo "$work/waits/schema.txt" "$work/waits/wide.txt"
for file in schema.txt wide.txt; do
  for words in "find $work/waits 3" "tidy $work/waits $work/no" "tidy $work/waits" "convert $work/waits $work/no" "join $work/waits $work/waits $work/no" "grow $work/waits"; do
    [ "$file" = wide.txt ] || [[ $words != convert* ]] || continue
    [ "$file" = schema.txt ] || [[ $words == convert* ]] || continue
    # shellcheck disable=SC2086
    timeout 20 "$zorambi" $words >"$work/out" 2>"$work/err" </dev/null
    same "$words with a pipe" 1 $? 1
    said "$words with a pipe" "refused: $file is a pipe, not a regular file (3)"
  done
done
rm -r "$work/waits"
missing check schema.txt
missing check proof.txt
missing model schema.txt
missing model model.txt

# ---- folders

# One whose name ends with a newline is judged, and not its neighbour without it.
record "$work/near"
mkdir "$work/near"$'\n'
gives "a folder's name that ends with a newline" 1 $'answer place nodes links\n3 1 0 0\n' $'refused: schema.txt is missing (3)\n' check "$work/near"$'\n'
gives "no folder of a name that ends with newlines" 2 "" "zorambi check: no such folder: $work/near\x0a\x0a"$'\n' check "$work/near"$'\n\n'
# shellcheck disable=SC1003
gives "a name with bytes that are not printable" 2 "" 'zorambi check: no such folder: a\xffb\x1b[31m\\'$'\n' check $'a\xffb\e[31m\\'
gives "a file as a folder" 2 "" "zorambi check: $work/near/schema.txt is no folder"$'\n' check "$work/near/schema.txt"
out=$(cd "$work" && "$zorambi" check near 2>&1)
same "a folder meant from where the caller stands" $'answer place nodes links\n0 0 7 1' "$out" $?
mv "$work/near" "$work/-n"
out=$(cd "$work" && "$zorambi" check -- -n 2>&1)
same "a folder whose name begins with a dash" $'answer place nodes links\n0 0 7 1' "$out" $?
if [ "$(id -u)" -eq 0 ]; then
  mkdir "$work/shut"
  chmod 755 "$work"
  chmod 000 "$work/shut"
  setpriv --reuid=65534 --regid=65534 --clear-groups "$zorambi" check "$work/shut" >"$work/out" 2>"$work/err"
  same "a folder that cannot be entered" 2 $? 1
  said_exactly "a folder that cannot be entered" "zorambi check: $work/shut cannot be entered: Permission denied (os error 13)"
  record "$work/dim"
  chmod 000 "$work/dim/proof.txt"
  out=$(setpriv --reuid=65534 --regid=65534 --clear-groups "$zorambi" check "$work/dim" 2>"$work/err")
  same "a file that may not be read" $'answer place nodes links\n3 1 0 0' "$out" $?
  said_exactly "a file that may not be read" "refused: proof.txt cannot be read: Permission denied (os error 13) (3)"
  rm -r "$work/shut" "$work/dim"
fi

# ---- the records as the program `cases` has them

# The texts are the same but for those of commands that make texts, which it has not, and what the program is held to is what
# the records themselves expect.
if diff -r --exclude=README.md --exclude=expected --exclude=why --exclude=older --exclude=wide --exclude=tidy --exclude=paper --exclude=by_number records crates/cases/data; then
  passed=$((passed + 1))
else
  failed=$((failed + 1))
  echo "crates/cases/data is not what records is"
fi
listed() { # LINE
  if grep -qxF -- "$1" crates/cases/stdout; then
    passed=$((passed + 1))
  else
    failed=$((failed + 1))
    echo "crates/cases/stdout has no line '$1'"
  fi
}
for r in records/accepted/* records/refused/*; do
  listed "${r#records/}: $(cat "$r/expected")"
  if [ -f "$r/model.txt" ]; then listed "${r#records/}, its model: 0 0 0 0"; fi
done

# ---- wrong use, and the commands that make texts

# What is said: one line that begins with the command's name and, where words are missing, too many or no options, its use as its help has it.
wrong_use_is_said() { # COMMAND
  local first use
  { IFS= read -r first; use=$(cat); } <"$work/err"
  case $first in
    "zorambi $1: "*" is missing" | "zorambi $1: one word too many: "* | "zorambi $1: no option "* | "zorambi $1: an empty word where a name is wanted" | \
      "zorambi $1: "*" is given twice") [ "$use" = "$("$zorambi" help "$1" | head -n 1)" ] ;;
    "zorambi $1: no such folder: "?* | "zorambi $1: no number of up to 5 digits: "?* | "zorambi $1: rows below 0" | \
      "zorambi $1: "*": the folder is not empty" | "zorambi: no command '$1'; did you mean '"*"'? 'zorambi help' lists them" | \
      "zorambi: $1 is a command of ./zorambi in the project's folder") [ -z "$use" ] ;;
    "use: zorambi COMMAND ..") [ -z "$1" ] && [ "$first"$'\n'"$use" = "$("$zorambi" help)" ] ;;
    *) false ;;
  esac
}
# Nothing is printed, and what is wrong is said: with the use of the command, or with the nearest command.
wrong_use() { # WORD...
  local status
  "$zorambi" "$@" >"$work/out" 2>"$work/err"
  status=$?
  if [ "$status" -eq 2 ] && [ ! -s "$work/out" ] && wrong_use_is_said "${1-}"; then
    passed=$((passed + 1))
  else
    failed=$((failed + 1))
    echo "zorambi $*: wrong use is not told apart: exit $status; printed: $(tr '\n' '|' <"$work/out"); said: $(tr '\n' '|' <"$work/err")"
  fi
}
wrong_use
wrong_use check
said "check alone" "zorambi check: DIR is missing
use: zorambi check [--older] [--follow] [--json] [--quiet] DIR"
wrong_use check "$work/none"
wrong_use check ""
wrong_use model
wrong_use check records records
wrong_use check --older
wrong_use check --older "$work/none"
wrong_use check --oldest records/accepted/rca_zero
said "check --oldest" "did you mean '--older'?"
wrong_use chekc records/accepted/rca_zero
said "chekc" "no command 'chekc'; did you mean 'check'?"
wrong_use model --older records/accepted/rca_zero
wrong_use test
said "test" "zorambi: test is a command of ./zorambi in the project's folder"

for commands in tests/programs/*.sh; do
  [ -f "$commands" ] || continue
  # shellcheck source=/dev/null
  . "$commands"
done

echo "$passed passed, $failed failed"
[ "$failed" -eq 0 ]
