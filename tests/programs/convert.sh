# shellcheck shell=bash
# ./zorambi convert, from tests/programs.sh: the shipped wide schemata, each kind of row by 02, and refusals.

# The plain schema of a shipped one is the one beside it, and the tableau there is accepted.
for r in records/wide/*; do
  gives "convert $r" 0 "$(cat "$r/schema.txt")"$'\n' "" convert "$r"
  check_record "$r" "$r"
  same "check $r" "answer place nodes links
$(cat "$r/expected")" "$("$zorambi" check "$r" 2>&1)" $?
done

# A wide text of rows with root and least, in $work/w.
wide() { # ROOT-LEAST ROW...
  mkdir -p "$work/w"
  { printf 'root least\n%s\nkind a b c\n' "$1"; printf '%s\n' "${@:2}"; } >"$work/w/wide.txt"
}
# What it comes to.
plain() { # NAME ROOT-LEAST ROW...
  gives "$1" 0 "$(printf 'root least\n%s\nkind a b c\n' "$2"; printf '%s\n' "${@:3}")"$'\n' "" convert "$work/w"
}
wide "1 0" "0 0 0 0" "1 0 0 0"
plain "true and false" "2 0" "0 0 0 0" "1 0 0 0" "1 0 0 0" "0 0 0 0"
wide "2 9999" "2 5 1 -3" "3 255 0 9999" "4 0 1 0"
plain "an and" "4 9999" "2 5 1 -3" "3 5 1 -3" "3 255 0 9999" "2 255 0 9999" "4 0 2 0" "5 1 3 0"
wide "2 0" "2 0 1 0" "2 1 1 0" "5 1 0 0"
plain "an or" "4 0" "2 0 1 0" "3 0 1 0" "2 1 1 0" "3 1 1 0" "5 2 0 0" "4 3 1 0"
wide "1 7" "3 0 2 0" "6 0 -2 3" "7 0 -2 3"
plain "iterations" "2 7" "3 0 2 0" "2 0 2 0" "6 0 -2 3" "7 1 -2 3" "7 0 -2 3" "6 1 -2 3"
wide "1 0" "2 0 1 0" "8 0 0 0"
plain "a not" "1 0" "2 0 1 0" "3 0 1 0"
wide "3 0" "2 0 1 0" "8 0 0 0" "8 1 0 0" "8 2 0 0" "4 1 2 0"
plain "nots of nots" "1 0" "2 0 1 0" "3 0 1 0" "4 1 0 0" "5 0 1 0"
wide "2 0" "2 0 1 0" "2 1 1 0" "9 0 1 0"
plain "implies" "4 0" "2 0 1 0" "3 0 1 0" "2 1 1 0" "3 1 1 0" "5 1 2 0" "4 0 3 0"
wide "2 0" "2 0 1 0" "2 1 1 0" "10 0 1 0"
plain "equivalent" "6 0" "2 0 1 0" "3 0 1 0" "2 1 1 0" "3 1 1 0" \
  "4 0 2 0" "4 1 3 0" "5 4 5 0" "4 0 3 0" "4 1 2 0" "5 7 8 0"
wide "2 0" "2 0 1 0" "2 1 1 0" "11 0 1 0"
plain "exclusive or" "6 0" "2 0 1 0" "3 0 1 0" "2 1 1 0" "3 1 1 0" \
  "4 0 3 0" "4 1 2 0" "5 4 5 0" "4 0 2 0" "4 1 3 0" "5 7 8 0"
wide "3 0" "2 0 1 0" "2 1 1 0" "11 0 1 0" "8 2 0 0"
plain "not an exclusive or" "9 0" "2 0 1 0" "3 0 1 0" "2 1 1 0" "3 1 1 0" \
  "4 0 3 0" "4 1 2 0" "5 4 5 0" "4 0 2 0" "4 1 3 0" "5 7 8 0"

# 6, 7 and 8 speak of the wide rows and show their lines; 23 of the whole.
root="refused: the root or the least value (6)"
ill_formed="refused: an ill-formed formula (7) at row"
too_large="refused: a formula too large or too deep (8) at row"
plain_rows="refused: plain rows too many, too large or too deep"
# Without OUT nothing is printed: the two lines are said. With OUT they are printed, and there is no OUT.
away() { # NAME NUMBERS SAID
  gives "$1" 1 "" $'answer place nodes links\n'"$2"$'\n'"$3"$'\n' convert "$work/w"
  turns_away "$1, with OUT" "$2" "$3" convert "$work/w" "$work/wout"
  [ ! -e "$work/wout" ] && passed=$((passed + 1)) && return
  failed=$((failed + 1))
  echo "$1: there is an OUT"
}
wide "2 0" "2 0 1 0" "8 0 0 0"
away "a wide root that is no row" "6 -1 0 0" "$root"
wide "1 0" "2 0 2 0" "8 0 0 0"
away "a wide root that is not outer" "6 -1 0 0" "$root"
wide "1 10000" "2 0 1 0" "8 0 0 0"
away "a least value over 9999" "6 -1 0 0" "$root"
for row in "12 0 0 0" "8 0 1 0" "8 0 0 1" "8 1 0 0" "9 0 1 0" "10 0 0 1" "11 -1 0 0"; do
  wide "0 0" "2 0 1 0" "$row"
  away "ill-formed: $row" "7 1 0 0" "$ill_formed 1
wide.txt:5: $row"
done
wide "0 0" "2 0 1 0" "2 0 2 0" "8 1 0 0" "10 0 2 0"
away "mixing" "7 3 0 0" "$ill_formed 3
wide.txt:7: 10 0 2 0"
# Row k of kind 9 over row k - 1 twice has size 2^(k + 1) - 1; a not adds 1.
rows=("2 0 1 0")
given=("2 0 1 0" "3 0 1 0")
for k in 0 1 2 3 4 5 6 7 8 9 10; do
  rows+=("9 $k $k 0")
  given+=("5 $((2 * k + 1)) $((2 * k)) 0" "4 $((2 * k)) $((2 * k + 1)) 0")
done
wide "12 0" "${rows[@]}" "8 11 0 0"
plain "size 4,096" "23 0" "${given[@]}"
wide "0 0" "${rows[@]}" "8 11 0 0" "8 12 0 0"
away "size 4,097" "8 13 0 0" "$too_large 13
wide.txt:17: 8 12 0 0"
rows=("2 0 1 0")
for k in $(seq 0 63); do rows+=("8 $k 0 0"); done
wide "64 0" "${rows[@]}"
away "64 nots" "8 64 0 0" "$too_large 64
wide.txt:68: 8 63 0 0"
wide "63 0" "${rows[@]:0:64}"
plain "63 nots" "1 0" "2 0 1 0" "3 0 1 0"
# Six equivalences in one another have a plain size of 8,191, five of 2,047.
wide "6 0" "2 0 1 0" "10 0 0 0" "10 1 1 0" "10 2 2 0" "10 3 3 0" "10 4 4 0" "10 5 5 0"
away "a plain row too large" "23 -1 0 0" "$plain_rows (23)
23: wide row 6 comes to a plain row of size 8,191, 4,096 allowed"
rows=("2 0 1 0")
for k in $(seq 171); do rows+=("11 0 0 0"); done
wide "0 0" "${rows[@]}"
away "1,028 plain rows" "23 -1 0 0" "$plain_rows (23)
23: its 172 wide rows come to 1,028 plain rows, 1,024 allowed"

# Texts that are none.
printf 'root least\n0 0\nkind a b c\n2 0 1 0\n8 0 0\n' >"$work/w/wide.txt"
away "a wide line that is no row" "4 5 0 0" "refused: a line's form (4) at line 5
wide.txt:5: 8 0 0"
head -c 70000 /dev/zero >"$work/w/wide.txt"
away "a long wide text" "1 0 0 0" "refused: wide.txt has over 65,536 bytes (1)"
rm "$work/w/wide.txt"
away "no wide text" "3 1 0 0" "refused: wide.txt is missing (3)"

# Into a folder that is made, or is there and empty.
rm -rf "$work/wout"
gives "convert into a new folder" 0 "" "" convert records/wide/adder_zero "$work/wout"
same "convert into a new folder, what is there" "schema.txt" "$(ls -A "$work/wout")" 1
cmp -s "$work/wout/schema.txt" records/wide/adder_zero/schema.txt
same "convert into a new folder, the schema" 0 $? 0
gives "convert into a folder that is not empty" 2 "" "zorambi convert: $work/wout: the folder is not empty"$'\n' convert records/wide/adder_zero "$work/wout"

for words in "convert" "convert $work/none" "convert records/wide/adder_zero $work/a $work/b"; do
  # shellcheck disable=SC2086
  wrong_use $words
done
wrong_use convert ""
