# shellcheck shell=bash
# ./zorambi compile, from tests/programs.sh: the blocks from their sources to accepted records, what is printed and written, and what is
# said of mistakes. The words of every mistake are tested in tools/compile.

is_file() { # NAME FILE FILE
  cmp -s "$2" "$3"
  same "$1" 0 $? 0
}

# A block's source comes to the wide schema of its record, that to its plain schema, and the tableau beside it is accepted.
for block in adder:adder_carries comparator:comparator_equal arbiter:arbiter_one_grant; do
  source=examples/blocks/${block%:*}.zor
  r=records/wide/${block#*:}
  gives "compile $source" 0 "$(cat "$r/wide.txt")"$'\n' "" compile "$source"
  gives "compile $source OUT" 0 "" "" compile "$source" "$work/block"
  is_file "$source: wide.txt" "$work/block/wide.txt" "$r/wide.txt"
  is_file "$source: names.txt" "$work/block/names.txt" "$r/names.txt"
  gives "convert what $source comes to" 0 "" "" convert "$work/block" "$work/plain"
  is_file "$source: schema.txt" "$work/plain/schema.txt" "$r/schema.txt"
  cp "$r/proof.txt" "$work/plain"
  gives "check what $source comes to" 0 $'answer place nodes links\n'"$(cat "$r/expected")"$'\n' "" check "$work/plain"
  rm -r "$work/block" "$work/plain"
done

# The same blocks with a mistake have models, which the model check accepts: what is refuted above is about the blocks.
mistaken() { # BLOCK OLD NEW N
  sed "s/$2/$3/" "examples/blocks/$1.zor" >"$work/mistaken.zor"
  cmp -s "$work/mistaken.zor" "examples/blocks/$1.zor"
  same "$1 with a mistake, the mistake" 1 $? 1
  "$zorambi" compile "$work/mistaken.zor" "$work/block" && "$zorambi" convert "$work/block" "$work/plain" &&
    "$zorambi" find "$work/plain" "$4" >"$work/model" 2>"$work/err" && mv "$work/model" "$work/plain/model.txt"
  gives "$1 with a mistake" 0 $'answer place nodes links\n0 0 0 0\n' "" model "$work/plain"
  rm -rf "$work/block" "$work/plain"
}
mistaken adder "half and c\[i\]" "half or c[i]" 2
mistaken comparator "e\[i-1\] and same" "e[i-1] or same" 2
mistaken arbiter "token\[i-1\] and not request\[i\]" "token[i-1]" 2

# Without OUT nothing is written but what --names asks for.
printf 'least 2 # the least\nformula some i from 2 to n: x[i] xor p0[i]\n' >"$work/source"
wide=$'root least\n3 2\nkind a b c\n2 1 2 0\n2 0 2 0\n11 0 1 0\n7 2 2 0\n'
gives "compile" 0 "$wide" "" compile "$work/source"
gives "compile --names" 0 "$wide" "" compile "$work/source" --names "$work/names"
same "compile --names, the names" "1 x" "$(cat "$work/names")" 1
gives "compile --names, a file that is there" 2 "" "zorambi compile: $work/names: File exists (os error 17)"$'\n' compile "$work/source" --names "$work/names"
gives "compile OUT" 0 "" "" compile "$work/source" "$work/block"
same "compile OUT, what is there" "names.txt wide.txt" "$(cd "$work/block" && echo *)" 1
gives "compile OUT, not empty" 2 "" "zorambi compile: $work/block: the folder is not empty"$'\n' compile "$work/source" "$work/block"
rm -r "$work/block"
gives "compile --names OUT" 2 "" "zorambi compile: --names is for a wide schema that is printed: OUT has its names.txt anyway"$'\n' \
  compile "$work/source" "$work/block" --names "$work/other"
same "compile -" "${wide%$'\n'}" "$("$zorambi" compile - <"$work/source")" 1
same "compile of a pipe" "${wide%$'\n'}" "$("$zorambi" compile <(cat "$work/source"))" 1

# A mistake: nothing is printed or written, and the line is shown with a caret.
printf 'least 1\n\tformula all i from 1 to n and x[i]\n' >"$work/a source"
gives "a mistake" 1 "" "$work/a source:2:28: expected ':' after the range, found 'and'
   formula all i from 1 to n and x[i]
                             ^
" compile "$work/a source" "$work/block" 
[ ! -e "$work/block" ]
same "a mistake, no OUT" 0 $? 0
printf 'formula x[1] and \033[31m\n' >"$work/source"
gives "an escape" 1 "" "$work/source:1:18: '\\x1b' has no meaning here
  formula x[1] and \\x1b[31m
                   ^
" compile "$work/source"
printf 'formula\n x\000[1]' >"$work/source"
gives "a byte 0" 1 "" "$work/source:2:3: a byte 0: the source is a text
   x\\x00[1]
    ^
" compile "$work/source"
printf '# \377\n' | "$zorambi" compile - >"$work/out" 2>"$work/err"
said "no UTF-8" "standard input:1:3: bytes that are no UTF-8: save the source as UTF-8"
head -c 2000000 /dev/zero | tr '\0' '(' | "$zorambi" compile - >"$work/out" 2>"$work/err"
said "a long source" "standard input:1:1048577: the source has over 1,048,576 bytes"
{ printf 'formula '; head -c 1000000 /dev/zero | tr '\0' '('; } | "$zorambi" compile - >"$work/out" 2>"$work/err"
said "a deep source" "nested more than 130 deep"
: >"$work/source"
gives "an empty source" 1 "" "$work/source:1:1: expected 'formula', found the end of the source: the last item is 'formula' and the schema's formula
  $(:)
  ^
" compile "$work/source"

gives "no source" 2 "" "zorambi compile: $work/none: No such file or directory (os error 2)"$'\n' compile "$work/none"
gives "a folder for a source" 2 "" "zorambi compile: $work: Is a directory (os error 21)"$'\n' compile "$work"
gives "--names without a name" 2 "" $'zorambi compile: --names wants a FILE\nuse: zorambi compile FILE [OUT] [--names FILE]\n' compile a --names
for words in "compile" "compile a b c"; do
  # shellcheck disable=SC2086
  wrong_use $words
done
rm -f "$work/source" "$work/a source" "$work/names" "$work/mistaken.zor" "$work/model"
