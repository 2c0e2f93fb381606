# shellcheck shell=bash
# ./zorambi tidy, from tests/programs.sh: the shipped older records and their twins, 01's record, and refusals.

tidies() { # OLDER TIDIED: folders of records
  gives "tidy $1" 0 "$(cat "$2/proof.txt")"$'\n' "" tidy "$1"
  gives "tidy $2" 0 "$(cat "$2/proof.txt")"$'\n' "" tidy "$2"
}
tidies records/tidy/rows_twice records/tidy/rows_once
tidies records/refused/row_written_twice records/accepted/rca_zero
# The twin is what the older record is, and is so by the other implementation too.
numbers="answer place nodes links
$(cat records/tidy/rows_twice/expected)"
same "check --older records/tidy/rows_twice" "$numbers" "$("$zorambi" check --older records/tidy/rows_twice 2>&1)" $?
turns_away "check records/tidy/rows_twice" "27 5 0 0" "$(twice 0 "2 0 2 0" 5 2)" check records/tidy/rows_twice
same "check records/tidy/rows_once" "$numbers" "$("$zorambi" check records/tidy/rows_once 2>&1)" $?
check_record records/tidy/rows_once records/tidy/rows_once

# 01's record with rows after its last proof row, which is row 8: those that repeat a row go, others stay.
after_rows() { # NAME ROWS LEFT
  record "$work/t"
  local left
  left=$(sed "5s/\$/${3:+\\n}$3/" "$work/t/proof.txt")
  sed -i "5s/\$/\\n$2/" "$work/t/proof.txt"
  gives "$1" 0 "$left"$'\n' "" tidy "$work/t"
  printf '%s\n' "$left" >"$work/t/proof.txt"
  check_record "$work/t" "$1, tidied"
}
after_rows "the last proof row twice" '3 0 1 0' ''
after_rows "a schema row and a proof row twice" '4 2 3 0\n7 0 2 1' ''
after_rows "a new row" '3 0 1 1' '3 0 1 1'
after_rows "equal after renumbering" '2 0 2 0\n3 0 2 0\n7 9 2 3\n6 10 2 3\n7 0 2 3' '7 0 2 3\n6 1 2 3'
after_rows "a row on rows that are folded" '2 0 1 0\n3 0 1 0\n4 9 10 0\n5 11 9 0' '4 6 8 0\n5 9 6 0'

# Every shipped record that the check accepts stays as it is; one that the older check refuses is refused alike.
for r in records/accepted/*; do
  gives "tidy $r" 0 "$(cat "$r/proof.txt")"$'\n' "" tidy "$r"
done
for r in records/refused/*; do
  [ "$r" = records/refused/row_written_twice ] && continue
  "$zorambi" check --older "$r" >"$work/older" 2>"$work/said"
  gives "tidy $r" 1 "" "$(cat "$work/older" "$work/said")"$'\n' tidy "$r"
  gives "tidy $r, with OUT" 1 "$(cat "$work/older")"$'\n' "$(cat "$work/said")"$'\n' tidy "$r" "$work/tout"
  same "tidy $r, with OUT, nothing is there" "no" "$([ -e "$work/tout" ] && echo yes || echo no)" 1
done
record "$work/t"
sed -i 's/^4 8 -1 -1 -1 1 1 5 7$/4 8 -1 -1 -1 1 1 5 x/' "$work/t/proof.txt"
not_tidied() { # NAME NUMBERS SAID
  gives "$1" 1 "" $'answer place nodes links\n'"$2"$'\n'"$3"$'\n' tidy "$work/t"
}
not_tidied "tidy a proof that is none" "4 12 0 0" "refused: a line's form (4) at line 12
proof.txt:12: 4 8 -1 -1 -1 1 1 5 x"
# A row that repeats an earlier one is no fault here: the line is that of what the older check refuses.
record "$work/t"
sed -i '5s/$/\n3 0 1 0/; s/^4 8 -1 -1 -1 1 1 5 7$/4 8 -1 -1 -1 1 2 5 7/' "$work/t/proof.txt"
not_tidied "tidy a repeated row and a fault" "14 5 0 0" "refused: a link's bounds: n - by may lie outside its target's (14) at node 5
proof.txt:13: 4 8 -1 -1 -1 1 2 5 7"
head -c 65537 /dev/zero >"$work/t/proof.txt"
not_tidied "tidy a long proof" "1 0 0 0" "refused: proof.txt has over 65,536 bytes (1)"
sed -i 's/^root/Root/' "$work/t/schema.txt"
not_tidied "tidy a schema that is none" "3 1 0 0" "refused: a heading (3) at line 1
schema.txt:1: Root least"

# Into a folder that is made, or is there and empty; never over what is there, its own record least of all.
rm -rf "$work/t" "$work/tout"
gives "tidy into a new folder" 0 "" "" tidy records/tidy/rows_twice "$work/tout"
same "tidy into a new folder, what is there" "proof.txt schema.txt " "$(cd "$work/tout" && printf '%s ' *)" 1
cmp -s "$work/tout/proof.txt" records/tidy/rows_once/proof.txt && cmp -s "$work/tout/schema.txt" records/tidy/rows_twice/schema.txt
same "tidy into a new folder, the texts" 0 $? 0
same "tidy into a new folder, checked" "$numbers" "$("$zorambi" check "$work/tout" 2>&1)" $?
before=$(cat "$work/tout"/*)
gives "tidy into its own folder" 2 "" "zorambi tidy: $work/tout: the folder is not empty"$'\n' tidy "$work/tout" "$work/tout"
same "tidy into its own folder, as it was" "$before" "$(cat "$work/tout"/*)" 1

for words in "tidy" "tidy $work/none" "tidy --older records/tidy/rows_twice" "tidy records/tidy/rows_twice records/tidy/rows_once"; do
  # shellcheck disable=SC2086
  wrong_use $words
done
wrong_use tidy ""
