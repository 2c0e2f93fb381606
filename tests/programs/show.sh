# shellcheck shell=bash
# ./zorambi show, from tests/programs.sh: its exit status, what it says on standard error, its width. What it prints of the records is
# held by the tests of zorambi-show.

shows() { # NAME STATUS SAID LINE WORD...: LINE is one of those that are printed
  local name=$1 wanted=$2 told=$3 line=$4 status
  shift 4
  "$zorambi" show "$@" >"$work/out" 2>"$work/err" </dev/null
  status=$?
  if [ "$status" -eq "$wanted" ] && grep -qxF -- "$line" "$work/out" && [ "$told" = "$(cat "$work/err")" ]; then
    passed=$((passed + 1))
  else
    failed=$((failed + 1))
    echo "$name: exit $status; printed: $(tr '\n' '|' <"$work/out"); said: $(tr '\n' '|' <"$work/err")"
  fi
}
longest() { # WORD...: columns of the longest line
  "$zorambi" show "$@" | LC_ALL=C.UTF-8 wc -L
}
within() { # NAME LEAST MOST COLUMNS
  if [ "$4" -ge "$2" ] && [ "$4" -le "$3" ]; then
    passed=$((passed + 1))
  else
    failed=$((failed + 1))
    echo "$1: a line has $4 columns"
  fi
}

record "$work/s"
shows "an accepted record" 0 "" "accepted: 7 nodes, 1 link" "$work/s"
shows "with sets" 0 "" "0  n ≥ 1  {4}             rule 0, and: both parts of row 4" --sets --width 100 "$work/s"
shows "in plain letters" 0 "" "formula (some i from 2 to n: p0[i]) and all i from 2 to n: not p0[i]" --ascii "$work/s"
# A refusal of the tableau is part of what is shown; the node has its mark.
sed -i '$s/6 8$/5 6 8/' "$work/s/proof.txt"
shows "a refused record" 0 "" "         ▲ refused: a formula that the parent does not give (11)" "$work/s"
shows "a refused record, its verdict" 0 "" "refused: a formula that the parent does not give (11) at node 6" "$work/s"
shows "a refused record in plain letters" 0 "" "#          ^ refused: a formula that the parent does not give (11)" --ascii "$work/s"
# Names, and bad lines, which are told and ignored.
printf '0 carry\n1 a b\n\0332\n' >"$work/s/names.txt"
shows "names" 0 "names.txt:2: 1 a b: not a line NUMBER NAME
names.txt:3: \\x1b2: not a line NUMBER NAME" "  [8] = ¬carry(n)" "$work/s"
rm "$work/s/names.txt"
mkdir "$work/s/names.txt"
shows "a folder for names.txt" 0 "names.txt is a folder, not a regular file: no name is taken from it" "  [8] = ¬p0(n)" "$work/s"
rmdir "$work/s/names.txt"
# Texts that cannot be read are told with their refusal, and what can be shown is.
rm "$work/s/proof.txt"
shows "a schema alone" 0 "" "well formed" "$work/s"
printf 'kind a b c\nno row\n' >"$work/s/proof.txt"
shows "a proof that cannot be read" 1 "" "proof.txt:2: no row" "$work/s"
shows "a proof that cannot be read, its schema" 1 "" "schema: row 4, for n ≥ 1" "$work/s"
mv "$work/s/schema.txt" "$work/s/wide.txt"
rm "$work/s/proof.txt"
shows "a wide schema alone" 0 "" "well formed: its plain schema has 10 rows" "$work/s"
rm "$work/s/wide.txt"
shows "nothing" 1 "" "refused: schema.txt is missing (3)" "$work/s"
mkfifo "$work/s/schema.txt"
shows "a pipe" 1 "" "refused: schema.txt is a pipe, not a regular file (3)" "$work/s"
rm -r "$work/s"
shows "an older record" 0 "" "accepted: 8 nodes, 1 link" --older records/tidy/rows_twice

# Columns: those that are asked for, those of COLUMNS, or 100 where nobody looks.
within "60 columns" 50 60 "$(longest --width 60 records/accepted/rca_zero)"
within "COLUMNS" 60 70 "$(COLUMNS=70 longest records/accepted/rca_zero)"
within "COLUMNS that is no number" 90 100 "$(COLUMNS=x longest records/accepted/rca_zero)"
within "100 columns" 90 100 "$(longest records/accepted/rca_zero)"
gives "a width of 39" 2 "" $'zorambi show: a width is 40 to 10,000 columns: 39\n' show --width 39 records/accepted/rca_zero
gives "a width that is no number" 2 "" $'zorambi show: no number of up to 5 digits: x\n' show --width x records/accepted/rca_zero
wrong_use show
wrong_use show "$work/none"
wrong_use show --sets
