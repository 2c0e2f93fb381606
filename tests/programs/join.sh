# shellcheck shell=bash
# ./zorambi join, from tests/programs.sh: joins of 01's record and of the shipped ones, refusals, and what is written and what is not.

# What stands in a folder: each name with its bytes' number.
standing() { # FOLDER
  if [ -d "$1" ]; then (cd "$1" && find . -mindepth 1 -printf '%p ' -exec cksum {} \; | LC_ALL=C sort); else ls -d "$1" 2>&1; fi
}
# A join that is not made, with exit status and words, and OUT as it was.
leaves() { # NAME STATUS PRINTED SAID DIR1 DIR2 OUT
  local before
  before=$(standing "$7")
  gives "$1" "$2" "$3" "$4" join "$5" "$6" "$7"
  if [ "$before" = "$(standing "$7")" ]; then
    passed=$((passed + 1))
  else
    failed=$((failed + 1))
    echo "$1: $7 is not as it was: $(standing "$7")"
  fi
}
out=$work/join
not_joined() { # NAME NUMBERS SAID DIR1 DIR2: there is no OUT before, and none after
  rm -rf "$out"
  leaves "$1" 1 $'answer place nodes links\n'"$2"$'\n' "$3"$'\n' "$4" "$5" "$out"
}
joins() { # NAME DIR1 DIR2
  rm -rf "$out"
  gives "$1" 0 "" "" join "$2" "$3" "$out"
  same "$1, what is there" "proof.txt schema.txt " "$(cd "$out" && find . -mindepth 1 -printf '%f\n' | LC_ALL=C sort | tr '\n' ' ')" 1
}
counts() { # FOLDER: nodes and links of an accepted record
  "$zorambi" check "$1" 2>/dev/null | sed -n '2s/^0 0 //p'
}

# 01's record with itself, written out by hand.
record "$work/j1"
joins "01's record or itself" "$work/j1" "$work/j1"
printf 'root least\n10 1\nkind a b c\n2 0 2 0\n3 0 2 0\n7 0 2 0\n6 1 2 0\n4 2 3 0\n2 0 2 0\n3 0 2 0\n7 5 2 0\n6 6 2 0\n4 7 8 0\n5 4 9 0\n' |
  cmp -s - "$out/schema.txt"
same "01's record or itself, schema" "0" $? 0
printf '%s\n' "kind a b c" "7 0 2 1" "2 0 1 0" "6 1 2 1" "3 0 1 0" "7 5 2 1" "6 6 2 1" "up rule on with other to by set" \
  "-1 1 10 -1 -1 -1 0 10" "0 0 4 -1 -1 -1 0 4" "1 2 -1 -1 -1 -1 0 2 3" "2 7 2 -1 -1 -1 0 2 3" "2 3 3 13 14 -1 0 2 3" \
  "4 4 2 11 12 -1 0 2 13 14" "5 8 -1 -1 -1 2 1 11 13" "5 6 12 14 -1 -1 0 12 14" "0 0 9 -1 -1 -1 0 9" \
  "8 2 -1 -1 -1 -1 0 7 8" "9 7 7 -1 -1 -1 0 7 8" "9 3 8 16 14 -1 0 7 8" "11 4 7 15 12 -1 0 7 14 16" \
  "12 8 -1 -1 -1 9 1 15 16" "12 6 12 14 -1 -1 0 12 14" | cmp -s - "$out/proof.txt"
same "01's record or itself, proof" "0" $? 0
check_record "$out" "01's record or itself"
same "01's record or itself, counts" "15 2" "$(counts "$out")" 1
# False, closed at once, or 01's record.
mkdir "$work/j2"
printf 'root least\n0 1\nkind a b c\n1 0 0 0\n' >"$work/j2/schema.txt"
printf 'kind a b c\nup rule on with other to by set\n-1 5 0 -1 -1 -1 0 0\n' >"$work/j2/proof.txt"
joins "false or 01's record" "$work/j2" "$work/j1"
printf 'root least\n6 1\nkind a b c\n1 0 0 0\n2 0 2 0\n3 0 2 0\n7 1 2 0\n6 2 2 0\n4 3 4 0\n5 0 5 0\n' | cmp -s - "$out/schema.txt"
same "false or 01's record, schema" "0" $? 0
printf '%s\n' "kind a b c" "7 1 2 1" "2 0 1 0" "6 2 2 1" "3 0 1 0" "up rule on with other to by set" \
  "-1 1 6 -1 -1 -1 0 6" "0 5 0 -1 -1 -1 0 0" "0 0 5 -1 -1 -1 0 5" "2 2 -1 -1 -1 -1 0 3 4" "3 7 3 -1 -1 -1 0 3 4" \
  "3 3 4 9 10 -1 0 3 4" "5 4 3 7 8 -1 0 3 9 10" "6 8 -1 -1 -1 3 1 7 9" "6 6 8 10 -1 -1 0 8 10" | cmp -s - "$out/proof.txt"
same "false or 01's record, proof" "0" $? 0

# Shipped records, each with the next of its least value: the join has a node more than both, and their links.
for least in 0 1; do
  before=
  for r in records/accepted/* records/wide/* records/tidy/rows_once; do
    [ "$(sed -n '2s/.* //p' "$r/schema.txt")" = "$least" ] || continue
    if [ -n "$before" ]; then
      joins "join $before $r" "$before" "$r"
      check_record "$out" "join $before $r"
      read -r _ _ nodes links <<<"$(cat "$before/expected")"
      read -r _ _ more more_links <<<"$(cat "$r/expected")"
      same "join $before $r, counts" "$((1 + nodes + more)) $((links + more_links))" "$(counts "$out")" 1
      same "join $before $r, tidied" "$(cat "$out/proof.txt")" "$("$zorambi" tidy "$out" 2>&1)" 1
    fi
    before=$r
  done
done
# A join can be joined.
cp -r "$out" "$work/j10"
joins "a join and a record" "$work/j10" records/accepted/rca_zero
check_record "$out" "a join and a record"

# A refused record is refused as by the check, with a line that says which of both it is.
for r in records/refused/*; do
  numbers=$("$zorambi" check "$r" 2>"$work/said" | tail -n 1)
  words=$(head -n 1 "$work/said")
  line=$(tail -n +2 "$work/said" | unexplained)
  not_joined "join $r, first" "$numbers" "$words"$'\n'"in the first record:"$'\n'"$r/$line" "$r" records/accepted/rca_zero
  not_joined "join $r, second" "$numbers" "$words"$'\n'"in the second record:"$'\n'"$r/$line" records/accepted/rca_zero "$r"
done
record "$work/j3"
sed -i 's/^4 8 -1 -1 -1 1 1 5 7$/4 8 -1 -1 -1 1 2 5 7/' "$work/j3/proof.txt"
record "$work/j4"
sed -i '2s/4 1/0 1/' "$work/j4/schema.txt"
bounds="14 5 0 0"
bounds_said="refused: a link's bounds: n - by may lie outside its target's (14) at node 5"
not_joined "both faulty" "$bounds" "$bounds_said
in the first record:
$work/j3/proof.txt:12: 4 8 -1 -1 -1 1 2 5 7" "$work/j3" "$work/j4"
not_joined "both faulty, the other way round" "6 -1 0 0" "refused: the root or the least value (6)
in the first record:
$work/j4/" "$work/j4" "$work/j3"
mkdir "$out"
leaves "both faulty, into an empty folder" 1 $'answer place nodes links\n'"$bounds"$'\n' "$bounds_said
in the first record:
$work/j3/proof.txt:12: 4 8 -1 -1 -1 1 2 5 7"$'\n' "$work/j3" "$work/j4" "$out"
# A text that is none comes after a first record that the check refuses, and before the check of the second.
record "$work/j5"
sed -i 's/^root/Root/' "$work/j5/schema.txt"
not_joined "a faulty record, then a text that is none" "$bounds" "$bounds_said
in the first record:
$work/j3/proof.txt:12: 4 8 -1 -1 -1 1 2 5 7" "$work/j3" "$work/j5"
not_joined "a text that is none" "3 1 0 0" "refused: a heading (3) at line 1
in the second record:
$work/j5/schema.txt:1: Root least" "$work/j1" "$work/j5"
head -c 65537 /dev/zero >"$work/j5/proof.txt"
not_joined "a text that is none, then a long one" "3 1 0 0" "refused: a heading (3) at line 1
in the first record:
$work/j5/schema.txt:1: Root least" "$work/j5" "$work/j1"
cp "$work/j1/schema.txt" "$work/j5"
not_joined "a long text" "1 0 0 0" "refused: proof.txt has over 65,536 bytes (1)
in the second record:
$work/j5/" "$work/j1" "$work/j5"
twice_joined=$(twice 0 "2 0 2 0" 5 2)
not_joined "a record marked as older" "27 5 0 0" "${twice_joined/proof.txt/in the first record:$'\n'records/tidy/rows_twice/proof.txt}" records/tidy/rows_twice "$work/j1"

# 28, before 29; 29.
not_joined "other least values" "28 -1 0 0" "refused: the least values differ (28)
28: the first record has the least value 1, the second 0" records/accepted/rca_zero records/accepted/cmp_transitive
# False, closed at once, with true in all other rows.
rows_of() { # FOLDER LEAST ROWS
  mkdir -p "$1"
  { printf 'root least\n0 %s\nkind a b c\n1 0 0 0\n' "$2"; yes "0 0 0 0" | head -n "$(($3 - 1))"; } >"$1/schema.txt"
  printf 'kind a b c\nup rule on with other to by set\n-1 5 0 -1 -1 -1 0 0\n' >"$1/proof.txt"
}
rows_of "$work/j6" 0 1023
rows_of "$work/j7" 0 1
rows_of "$work/j8" 1 1
not_joined "1,025 rows" "29 -1 0 0" "refused: the joined record passes a limit (29)
29: the join would have 1,025 formula rows, 1,024 allowed" "$work/j6" "$work/j7"
not_joined "1,025 rows, other least values" "28 -1 0 0" "refused: the least values differ (28)
28: the first record has the least value 0, the second 1" "$work/j6" "$work/j8"
rows_of "$work/j6" 0 1022
joins "1,024 rows" "$work/j6" "$work/j7"
check_record "$out" "1,024 rows"

# OUT: nothing is written over. Wrong use comes before any refusal.
stays() { # NAME SAID DIR1 DIR2 OUT
  leaves "$1" 2 "" "zorambi join: $2"$'\n' "$3" "$4" "$5"
}
before=$(standing "$out")
stays "a folder that is not empty" "$out: the folder is not empty" "$work/j6" "$work/j7" "$out"
stays "a folder that is not empty, a refused record" "$out: the folder is not empty" "$work/j3" "$work/j7" "$out"
stays "a join into its own record" "$work/j7: the folder is not empty" "$work/j6" "$work/j7" "$work/j7"
same "a folder that is not empty, as it was" "$before" "$(standing "$out")" 1
rm -rf "$out"
mkdir "$out"
: >"$out/.hidden"
stays "a folder with a hidden file" "$out: the folder is not empty" "$work/j6" "$work/j7" "$out"
rm -rf "$out"
echo mine >"$out"
"$zorambi" join "$work/j6" "$work/j7" "$out" >"$work/out" 2>"$work/err"
same "a file as OUT, printed, said" "2 mine 0" "$? $(cat "$out") $(wc -c <"$work/out")" 1
said "a file as OUT" "$out: "
rm "$out"
ln -s "$work/none" "$out"
stays "a link to nothing as OUT" "$out: No such file or directory (os error 2)" "$work/j6" "$work/j7" "$out"
rm "$out"
stays "a folder in no folder" "$work/none/join: No such file or directory (os error 2)" "$work/j6" "$work/j7" "$work/none/join"
mkdir "$out"
gives "an empty folder" 0 "" "" join "$work/j7" "$work/j7" "$out"
check_record "$out" "an empty folder"
stays "no such folder" "no such folder: $work/none" "$work/none" "$work/j7" "$work/j9"
stays "no such second folder" "no such folder: $work/none" "$work/j7" "$work/none" "$work/j9"

for words in "join" "join $work/j1" "join $work/j1 $work/j1" "join $work/j1 $work/j1 $work/j9 $work/j9"; do
  # shellcheck disable=SC2086
  wrong_use $words
done
wrong_use join "" "$work/j1" "$work/j9"
wrong_use join "$work/j1" "$work/j1" ""
same "wrong use, nothing is made" "no" "$([ -e "$work/j9" ] && echo yes || echo no)" 1
rm -rf "$out" "$work"/j[1-9] "$work/j10"
