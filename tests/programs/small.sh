# shellcheck shell=bash
# ./zorambi small, from tests/programs.sh: all texts of each length against a list made here, and wrong use.

# Every small schema of so many rows: rows are tried in ascending order, with whether a literal on i, or another or an
# iteration, stands in each.
small_texts() { # ROWS
  awk -v rows="$1" '
    function keep(k, row, on_i, not_on_i,   r) {
      if (k == rows - 1 && on_i) return
      text[k] = row
      i[k] = on_i
      other[k] = not_on_i
      if (k < rows - 1) { each(k + 1); return }
      printf "%sroot least\n%d 0\nkind a b c\n", (count++ ? "\n" : ""), k
      for (r = 0; r < rows; r++) print text[r]
    }
    function each(k,   kind, a, b, c) {
      for (kind = 0; kind < 2; kind++) keep(k, kind " 0 0 0", 0, 0)
      for (kind = 2; kind < 4; kind++)
        for (b = 0; b < 3; b++)
          for (c = -1; c < 2; c++) keep(k, kind " 0 " b " " c, b == 2, b < 2)
      for (kind = 4; kind < 6; kind++)
        for (a = 0; a < k; a++)
          for (b = 0; b < k; b++)
            if (!((i[a] || i[b]) && (other[a] || other[b]))) keep(k, kind " " a " " b " 0", i[a] || i[b], other[a] || other[b])
      for (kind = 6; kind < 8; kind++)
        for (a = 0; a < k; a++)
          for (c = 0; c < 2; c++)
            if (!other[a]) keep(k, kind " " a " 0 " c, 0, 1)
    }
    BEGIN { each(0) }'
}
for rows in 1 2 3; do
  gives "small $rows" 0 "$(small_texts "$rows")"$'\n' "" small "$rows"
  gives "small $rows --count" 0 "$(small_texts "$rows" | grep -c '^root least$')"$'\n' "" small "$rows" --count
done
gives "14 of one row" 0 $'14\n' "" small 1 --count
gives "340 of two rows" 0 $'340\n' "" small 2 --count
gives "10,384 of three rows" 0 $'10384\n' "" small 3 --count

# The empty lines tell the texts apart: each is a schema, of which a model is checked.
mkdir -p "$work/s"
"$zorambi" small 1 | awk -v RS= -v folder="$work/s" '{ print >(folder "/" NR); close(folder "/" NR) }'
for text in $(seq 14); do
  mkdir "$work/s/record"
  cp "$work/s/$text" "$work/s/record/schema.txt"
  printf 'n\n1\nsymbol index\n0 0\n0 2\n' >"$work/s/record/model.txt"
  check_model_record "$work/s/record" "text $text of one row"
  rm -r "$work/s/record"
done
rm -r "$work/s"

for rows in 0 4 5 99999; do
  for more in "" --count; do
    # shellcheck disable=SC2086
    gives "small $rows $more" 1 "" $'answer place nodes links\n31 -1 0 0\nrefused: not 1 to 3 rows, or a table that is not on the list of small ones (31)\n' small "$rows" $more
  done
done
for words in "small" "small x" "small -1" "small 01" "small 1.5" "small 100000" "small --count" "small 1 2" "small 1 --counted" \
  "small 1 --count --count"; do
  # shellcheck disable=SC2086
  wrong_use $words
done
wrong_use small ""
wrong_use small 1 ""
