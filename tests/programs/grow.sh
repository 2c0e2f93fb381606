# shellcheck shell=bash
# ./zorambi grow, from tests/programs.sh: every shipped record row by row, 01's record with other lines in between, what is saved,
# and folders that hold no tableau. Each line is answered before the next one is given.

# One run with these lines on standard input: its exit status, all that it prints and all that it says.
grows() { # NAME STATUS LINES PRINTED SAID DIR
  gives "$1" "$2" "$4" "${5%x}" grow "$6" < <(printf '%s' "$3")
}
# The same where it begins: the lines that answer the first state and each line given. At the end it is told if what is held last is not
# what was held first, or what SAID is.
answers() { # NAME LINES ANSWERS DIR [SAID]
  grows "$1" 0 "$2" $'answer place nodes links\n'"$3" "${5-$(not_saved "$3")}" "$4"
}
not_saved() { # ANSWERS
  awk '/^0 0 / { if (!first) first = $0; last = $0; nodes = $3; links = $4; state = $5 }
    function s(count) { return count == 1 ? "" : "s" }
    END {
      if (first != last)
        printf "not saved: %d node%s, %d link%s, %s; \047save FILE\047 writes the proof text\nx", nodes, s(nodes), links, s(links), state
    }' <<<"$1"
}
# What a record's folder is before it has nodes, in $work/g.
without_nodes() { # FOLDER
  rm -rf "$work/g"
  mkdir "$work/g"
  cp "$1/schema.txt" "$work/g"
  sed '/^up/q' "$1/proof.txt" >"$work/g/proof.txt"
}
nodes_of() { # FOLDER
  sed '1,/^up/d' "$1/proof.txt"
}

alike() { # NAME EXPECTED FOUND
  if [ "$2" = "$3" ]; then
    passed=$((passed + 1))
  else
    failed=$((failed + 1))
    echo "$1: expected '${2//$'\n'/ / }'; got '${3//$'\n'/ / }'"
  fi
}

# ---- every accepted record, row by row

grown_whole=0
for r in records/accepted/* records/wide/* records/tidy/rows_once; do
  without_nodes "$r"
  # A row is open but for the last; links are counted as they come.
  expected=$(nodes_of "$r" | awk -v last="$(nodes_of "$r" | wc -l)" '
    BEGIN { print "0 0 0 0 open" }
    { if ($2 == 8) links++; print "0 0", NR, links + 0, NR == last ? "closed" : "open" }')
  answers "grow $r" "$(nodes_of "$r")"$'\n' "$expected"$'\n' "$work/g"
  alike "grow $r, closed" "$(cat "$r/expected") closed" "$(tail -n 1 "$work/out")"
  # All nodes in the folder: closed at once.
  answers "grow $r, all there" "" "$(cat "$r/expected") closed"$'\n' "$r"
  grown_whole=$((grown_whole + 1))
done
alike "at least 15 records grown" 1 "$((grown_whole >= 15))"

# A refused one says at its begin what the check says of it.
for r in records/refused/*; do
  "$zorambi" check "$r" >"$work/checked" 2>"$work/said"
  gives "grow $r" 1 "$(cat "$work/checked")"$'\n' "$(cat "$work/said")"$'\n' grow "$r" </dev/null
done

# ---- 01's record

record "$work/p"
without_nodes "$work/p"
first='-1 0 4 -1 -1 -1 0 4
0 2 -1 -1 -1 -1 0 2 3
1 7 2 -1 -1 -1 0 2 3
1 3 3 7 8 -1 0 2 3
3 4 2 5 6 -1 0 2 7 8
'
last='4 8 -1 -1 -1 1 1 5 7
4 6 6 8 -1 -1 0 6 8
'
five='0 0 0 0 open
0 0 1 0 open
0 0 2 0 open
0 0 3 0 open
0 0 4 0 open
0 0 5 0 open
'
# Rows that are refused change nothing.
answers "rows that are refused" "$first"'4 8 -1 -1 -1 1 2 5 7
4 8 -1 -1 -1 5 1 5 7
4 8 -1 -1 -1 1 1 5
4 8 -1 -1 -1 1 0 5 7
4 8 -1 -1 -1 1 1 7 5
5 8 -1 -1 -1 1 1 5 7
4 8 -1 -1 -1 1 1 3 5 7
0 8 -1 -1 -1 1 1 3 5 7
4 9 -1 -1 -1 1 1 5 7
'"$last$last" "$five""14 5 0 0 open refused: a link's bounds: n - by may lie outside its target's (14) at node 5
13 5 0 0 open refused: a link whose to is not the number of a node before it (13) at node 5
16 5 0 0 open refused: a link's row without its lowered partner (16) at node 5
12 5 0 0 open refused: the fields of rule 8, loop (12) at node 5
9 5 0 0 open refused: a set's place, order or members (9) at node 5
10 5 0 0 open refused: a wrong parent (10) at node 5
11 5 0 0 open refused: a formula that the parent does not give (11) at node 5
17 5 0 0 open refused: a child more than its parent's rule has (17) at node 5
12 5 0 0 open refused: no such rule (12) at node 5
0 0 6 1 open
0 0 7 1 closed
17 7 0 0 closed refused: a child more than its parent's rule has (17) at node 7
17 7 0 0 closed refused: a child more than its parent's rule has (17) at node 7
" "$work/g"
answers "an unfolding that is refused" "${first%3 4*}"'3 4 2 5 8 -1 0 2 7 8
-1 0 4 -1 -1 -1 0 4
' "${five%0 0 5*}15 4 0 0 open refused: an unfolding's with or other (15) at node 4
10 4 0 0 open refused: a wrong parent (10) at node 4
" "$work/g"
answers "a first row that is refused" '-1 0 4 -1 -1 -1 0 3
' "0 0 0 0 open
10 0 0 0 open refused: the first node's parent or set (10) at node 0
" "$work/g"
# Back, further than there are rows, and on again.
answers "back" "$first"'back
3 4 2 5 6 -1 0 2 7 8
'"$last"'back
back
back
back
back
back
back
back
back
-1 0 4 -1 -1 -1 0 4
' "$five"'0 0 4 0 open
0 0 5 0 open
0 0 6 1 open
0 0 7 1 closed
0 0 6 1 open
0 0 5 0 open
0 0 4 0 open
0 0 3 0 open
0 0 2 0 open
0 0 1 0 open
0 0 0 0 open
25 -1 0 0 open refused: no row to take back (25)
25 -1 0 0 open refused: no row to take back (25)
0 0 1 0 open
' "$work/g"

# ---- enquiries and commits

# Every accepted record by enquiries and commits: each row is answered twice alike, once as an enquiry.
for r in records/accepted/*; do
  without_nodes "$r"
  expected=$(nodes_of "$r" | awk -v last="$(nodes_of "$r" | wc -l)" '
    BEGIN { print "0 0 0 0 open" }
    { if ($2 == 8) links++; for (k = 0; k < 2; k++) print (k ? "" : "? ") "0 0", NR, links + 0, NR == last ? "closed" : "open" }')
  answers "grow $r by commits" "$(nodes_of "$r" | sed 's/^/? /; s/$/\ncommit/')"$'\n' "$expected"$'\n' "$work/g"
done
without_nodes "$work/p"
waits="26 -1 0 0 open refused: no row waits (26)"
answers "enquiries" "commit
$first"'? 4 8 -1 -1 -1 1 1 5 7
? 4 8 -1 -1 -1 1 2 5 7
commit
?4 8 -1 -1 -1 1 1 5 7
4 8 -1 -1 -1 1 2 5 7
0 x
commit
commit
? 4 6 6 8 -1 -1 0 6 8
back
commit
? 4 8 -1 -1 -1 1 1 5 7
4 8 -1 -1 -1 1 1 5 7
commit
? 4 6 6 8 -1 -1 0 6 8
commit
? 4 6 6 8 -1 -1 0 6 8
commit
' "0 0 0 0 open
$waits
${five#*$'\n'}? 0 0 6 1 open
? 14 5 0 0 open refused: a link's bounds: n - by may lie outside its target's (14) at node 5
$waits
? 0 0 6 1 open
14 5 0 0 open refused: a link's bounds: n - by may lie outside its target's (14) at node 5
4 12 0 0 open refused: a line's form (4) at line 12
0 0 6 1 open
$waits
? 0 0 7 1 closed
0 0 5 0 open
$waits
? 0 0 6 1 open
0 0 6 1 open
$waits
? 0 0 7 1 closed
0 0 7 1 closed
? 17 7 0 0 closed refused: a child more than its parent's rule has (17) at node 7
${waits/open/closed}
" "$work/g"
# An enquiry about what is no row is a line that cannot be read: the row that waits is still there.
answers "enquiries about no row" '? -1 0 4 -1 -1 -1 0 4
?
? 
?  -1 0 4 -1 -1 -1 0 4
? ? -1 0 4 -1 -1 -1 0 4
? back
? commit
commit 
Commit
commit
' "0 0 0 0 open
? 0 0 1 0 open
$(for n in $(seq 2 7); do echo "? 4 $n 0 0 open refused: a line's form (4) at line $n"; done)
nothing stands after 'commit'
no such word: 'Commit'; did you mean 'commit'?
0 0 1 0 open
" "$work/g"
# Nor is an enquiry that ends with the input before its row.
for cut in '?' '? '; do
  answers "an enquiry '$cut' cut short" "-1 0 4 -1 -1 -1 0 4
$cut" "0 0 0 0 open
0 0 1 0 open
? 4 2 0 0 open refused: a line's form (4) at line 2
" "$work/g"
done
# What only waits is not saved.
answers "an enquiry, and save" "$first? ${last%%$'\n'*}
save $work/g/five
" "${five}? 0 0 6 1 open
saved $work/g/five
" "$work/g" ""
alike "what only waits is not saved" "$(head -n 11 "$work/p/proof.txt")" "$(cat "$work/g/five")"

# ---- lines that cannot be read change nothing, and are told by their number

form="refused: a line's form (4) at line"
answers "lines that are no rows" "$first"$' \n4 8 -1 -1 -1 1 1 5 7 \n4  8 -1 -1 -1 1 1 5 7\n4 8 -1 -1 -1 1 1 05 7\n4 8 -1 -1 -1 1\n4 8 -1 -1 -1 1 1 \x1b[2J\n4 8 -1 -1 -1 1 1 5 7\r\n-\n' "$five$(
  for n in $(seq 6 13); do echo "4 $n 0 0 open $form $n"; done)
" "$work/g"
# Other words are no rows that were refused. The last line needs no end.
answers "words" "$first"$'\nBack\nback \nsave\nsave \nup rule on with other to by set\n\x1b[2J\xff\nopne\nexit\n'"${last%$'\n'}" "${five}5 nodes, 0 links, open
no such word: 'Back'; did you mean 'back'?
nothing stands after 'back'
save wants the name of a file
save wants the name of a file
no such word: 'up'; 'help' lists them
no such word: '\\x1b[2J\\xff'; 'help' lists them
no such word: 'opne'; did you mean 'open'?
no such word: 'exit'; 'help' lists them
0 0 6 1 open
0 0 7 1 closed
" "$work/g"
# What is held, and what is wanted.
answers "rows and open" "rows
open
${first}open
rows
${last%%$'\n'*}
open
${last#*$'\n'}open
" "0 0 0 0 open
no node
no node: the first has the root alone as its set
${five#*$'\n'}node 4: rule 4, unfold or, has 0 of 2 children
$(nl -v 0 -w 1 -s ': ' <<<"${first%$'\n'}" | sed 's/^/node /')
0 0 6 1 open
node 4: rule 4, unfold or, has 1 of 2 children
0 0 7 1 closed
no node wants children
" "$work/g"
answers "open at a node of each rule" '-1 0 4 -1 -1 -1 0 4
open
0 2 -1 -1 -1 -1 0 2 3
open
' "0 0 0 0 open
0 0 1 0 open
node 0: rule 0, and, has 0 of 1 children
0 0 2 0 open
node 1: rule 2, split, has 0 of 2 children
" "$work/g"
mkdir -p "$work/or"
printf 'root least\n1 0\nkind a b c\n1 0 0 0\n5 0 0 0\n' >"$work/or/schema.txt"
answers "open at an or and at false" '-1 1 1 -1 -1 -1 0 1
open
0 5 0 -1 -1 -1 0 0
open
0 5 0 -1 -1 -1 0 0
open
' "0 0 0 0 open
0 0 1 0 open
node 0: rule 1, or, has 0 of 2 children
0 0 2 0 open
node 0: rule 1, or, has 1 of 2 children
0 0 3 0 closed
no node wants children
" "$work/or"
# Of a word 20 bytes are shown.
answers "words that are cut" "xxxxxxxxxxyyyyyyyyyy
xxxxxxxxxxyyyyyyyyyyz
" "0 0 0 0 open
no such word: 'xxxxxxxxxxyyyyyyyyyy'; 'help' lists them
no such word: 'xxxxxxxxxxyyyyyyyyyy...'; 'help' lists them
" "$work/or"
"$zorambi" grow "$work/g" <<<help >"$work/out" 2>"$work/err"
alike "help, its status" 0 $?
for word in '? ROW' commit back 'formula KIND A B C, ..' 'formula back' rows open 'save FILE' help; do alike "help on $word" 1 "$(grep -c "^$word " "$work/out")"; done
# Rows that were not saved are told at the end; what was taken back, saved or never changed is not.
answers "nothing added" "back
" "0 0 0 0 open
25 -1 0 0 open refused: no row to take back (25)
" "$work/g" ""
answers "added and taken back" "${first%%$'\n'*}
back
" "0 0 0 0 open
0 0 1 0 open
0 0 0 0 open
" "$work/g" ""
answers "one row that is not saved" "${first%%$'\n'*}
" "0 0 0 0 open
0 0 1 0 open
" "$work/g" "not saved: 1 node, 0 links, open; 'save FILE' writes the proof text
"
members=$(seq -s ' ' 10000 18192)
answers "lines that are too long" "${first%3 4*}3 4 2 5 6 -1 0 $members
$(head -c 70000 /dev/zero | tr '\0' '7')
$(head -c 200000 /dev/zero | tr '\0' '7')
3 4 2 5 6 -1 0 2 7 8
" "${five%0 0 5*}5 5 0 0 open refused: too many rows or members (5) at line 5
1 0 0 0 open refused: a text over 65,536 bytes (1)
1 0 0 0 open refused: a text over 65,536 bytes (1)
0 0 5 0 open
" "$work/g"
# True and true, from itself again and again: 1,024 nodes, then no room.
mkdir -p "$work/h"
printf 'root least\n1 0\nkind a b c\n0 0 0 0\n4 0 0 0\n' >"$work/h/schema.txt"
answers "1,025 rows, and no proof text" "$(for up in $(seq -1 1023); do echo "$up 0 1 -1 -1 -1 0 1"; done)"$'\n' "$(
  for n in $(seq 0 1024); do echo "0 0 $n 0 open"; done)
24 -1 0 0 open refused: no room for the row (24)
" "$work/h"

# ---- what is saved

saved() { # NAME FILE: what stands there is 01's proof
  if cmp -s "$2" "$work/p/proof.txt"; then
    passed=$((passed + 1))
  else
    failed=$((failed + 1))
    echo "$1: $2 is not 01's proof"
  fi
}
mkdir "$work/s"
cp "$work/p/schema.txt" "$work/s"
answers "save" "$first${last}save $work/s/proof.txt
save $work/s/proof.txt
back
save $work/s/proof.txt
save $work/s/none/proof.txt
save $work/s/a file
" "${five}0 0 6 1 open
0 0 7 1 closed
saved $work/s/proof.txt
not saved: $work/s/proof.txt exists and is not written over
0 0 6 1 open
not saved: $work/s/proof.txt exists and is not written over
not saved: $work/s/none/proof.txt: No such file or directory (os error 2)
saved $work/s/a file
" "$work/g" ""
saved "save" "$work/s/proof.txt"
same "what was saved, checked" "answer place nodes links
0 0 7 1" "$("$zorambi" check "$work/s" 2>&1)" $?
cp "$work/s/a file" "$work/s/proof.txt"
answers "what was saved, grown on" "${last#*$'\n'}save $work/s/whole
" "0 0 6 1 open
0 0 7 1 closed
saved $work/s/whole
" "$work/s" ""
saved "grown on" "$work/s/whole"
# A name is meant from where the caller stands; nothing but what is saved is written.
before=$(find "$work/s" -type f | LC_ALL=C sort | xargs -d '\n' sha256sum)
(cd "$work/s" && "$zorambi" grow . <<<"save here" >/dev/null 2>&1)
saved_here=$(find "$work/s" -type f ! -name here | LC_ALL=C sort | xargs -d '\n' sha256sum)
alike "only what is saved is written" "$before" "$saved_here"
alike "saved from another folder" "$(cat "$work/s/proof.txt")" "$(cat "$work/s/here")"

# ---- each line is answered before the next one is given, in colour only on a terminal

coproc GROWS { "$zorambi" grow "$work/g" 2>"$work/err"; }
grows_pid=$GROWS_PID
told=''
for line in "" "-1 0 4 -1 -1 -1 0 4" "0 9 -1 -1 -1 -1 0" "back"; do
  [ -z "$line" ] || echo "$line" >&"${GROWS[1]}"
  [ -n "$line" ] || IFS= read -r -t 20 answered <&"${GROWS[0]}"
  IFS= read -r -t 20 answered <&"${GROWS[0]}" || answered="no answer in time"
  told+="$answered|"
done
eval "exec ${GROWS[1]}>&-"
wait "$grows_pid"
alike "line by line" "0 0 0 0 open|0 0 1 0 open|12 1 0 0 open refused: no such rule (12) at node 1: node 1: rule is 9; rules are 0 to 8|0 0 0 0 open|0" "$told$?"
# On a terminal that shows what is typed too; not where NO_COLOR is set.
on_terminal() { # SETTING...
  { printf '%s\n' "$first$last" "back" "0" "x" "save $work/s/proof.txt"; sleep 1; } |
    env "$@" script -qec "$zorambi grow $work/g" /dev/null | tr -d '\r'
}
shown_on_terminal=$(on_terminal -u NO_COLOR)
for shown in $'0 0 7 1 \e[32mclosed\e[0m' $'4 10 0 0 open \e[31mrefused: a line\'s form (4) at line 10: line 10 has 1 number; a node row has at least 7 numbers: up rule on with other to by, then its set\e[0m' $'0 0 6 1 open' \
  $'\e[31mno such word: \'x\'; \'help\' lists them\e[0m' $'\e[31mnot saved: '"$work/s/proof.txt exists and is not written over"$'\e[0m'; do
  alike "in colour" "$shown" "$(grep -F -x -m 1 -- "$shown" <<<"$shown_on_terminal")"
done
alike "not in colour" "" "$(on_terminal NO_COLOR=1 | grep -F $'\e[' | head -n 1)"

# ---- formula rows, written while it grows

rm -rf "$work/f"
mkdir "$work/f"
cp records/paper/some_and_none/schema.txt "$work/f"
paper_rows=$(nodes_of records/paper/some_and_none)
written='formula 7 0 2 1
formula 2 0 1 0, 6 1 2 1, 3 0 1 0'
# The paper's record with its formula rows written between its nodes, which are held all the while.
answers "formula rows between nodes" "$(head -n 3 <<<"$paper_rows")
$written
$(tail -n +4 <<<"$paper_rows")
save $work/f/whole
" "0 0 0 0 open
0 0 1 0 open
0 0 2 0 open
0 0 3 0 open
0 0 3 0 open
0 0 3 0 open
0 0 4 0 open
0 0 5 0 open
0 0 6 1 open
0 0 7 1 closed
saved $work/f/whole
" "$work/f" ""
alike "formula rows between nodes, as saved" "" "$(cmp "$work/f/whole" records/paper/some_and_none/proof.txt 2>&1)"
# Whatever is refused leaves all as it was.
answers "formula rows that are refused" "$(head -n 1 <<<"$paper_rows")
formula 7 0 2 1
formula 7 0 2 1
formula 2 0 1 0, 9 0 0 0
formula 4 5 9 0
formula 7 0 2
formula 7  0 2 1
formula 7 0 2 1,2 0 1 0
formula up rule on with other to by set
formula
formula back x
open
" "0 0 0 0 open
0 0 1 0 open
0 0 1 0 open
27 6 0 0 open refused: a proof row written twice (27) at row 6
7 7 0 0 open refused: an ill-formed formula (7) at row 7
7 6 0 0 open refused: an ill-formed formula (7) at row 6
4 6 0 0 open refused: a line's form (4) at line 6
4 7 0 0 open refused: a line's form (4) at line 7
4 8 0 0 open refused: a line's form (4) at line 8
4 9 0 0 open refused: a line's form (4) at line 9
formula wants rows KIND A B C, with a comma between
4 11 0 0 open refused: a line's form (4) at line 11
node 0: rule 0, and, has 0 of 1 children
" "$work/f"
# A row that a node names is not taken back.
answers "formula back" "$written
$(head -n 5 <<<"$paper_rows")
formula back
back
back
formula back
formula back
formula back
formula back
formula back
" "0 0 0 0 open
0 0 0 0 open
0 0 0 0 open
0 0 1 0 open
0 0 2 0 open
0 0 3 0 open
0 0 4 0 open
0 0 5 0 open
12 3 0 0 open refused: the fields of rule 3, unfold and (12) at node 3
0 0 4 0 open
0 0 3 0 open
0 0 3 0 open
0 0 3 0 open
0 0 3 0 open
0 0 3 0 open
the proof has no formula row to take back; those of the schema stay
" "$work/f"
# No more rows than there may be: 1,024 with the schema's.
{
  for symbol in $(seq 0 3); do
    printf 'formula '
    for c in $(seq 1 $((symbol < 3 ? 254 : 253))); do printf '2 %d 1 %d, ' "$symbol" "$c"; done
    printf '3 %d 1 0\n' "$symbol"
  done
  echo "formula 3 9 1 0"
} >"$work/f/lines"
"$zorambi" grow "$work/f" <"$work/f/lines" >"$work/out" 2>"$work/err"
alike "formula rows to the limit" "0 0 0 0 open 5 -1 0 0 open refused: too many rows or members (5)" "$(tail -n 2 "$work/out" | short_answers | paste -sd ' ')"

# ---- anew, and as JSON

gives "--anew" 0 $'answer place nodes links\n0 0 0 0 open\n' "" grow --anew records/accepted/rca_zero </dev/null
mkdir -p "$work/f/broken"
cp "$work/f/schema.txt" "$work/f/broken"
echo x >"$work/f/broken/proof.txt"
gives "--anew, whatever the proof is" 0 $'answer place nodes links\n0 0 0 0 open\n' "" grow --anew "$work/f/broken" </dev/null

# Members of the object that the last line is answered by, as Python shows them.
json_answer() { # LINES MEMBER..
  "$zorambi" grow --json "$work/f" <<<"$1" | python3 -c '
import json, sys
answers = [json.loads(line) for line in sys.stdin]
print(len(answers), *(answers[-1].get(name, "-") for name in sys.argv[1:]))' "${@:2}"
}
first_row=$(head -n 1 <<<"$paper_rows")
alike "json: what is held" "2 0 0 0 0 False False 0 nodes, 0 links, open" "$(json_answer "" answer place nodes links closed unsaved words)"
alike "json: added" "2 0 1 False True 1 node, 0 links, open -" "$(json_answer "$first_row" answer nodes closed unsaved words then)"
alike "json: asked" "2 0 0 {'nodes': 1, 'links': 0, 'closed': False, 'words': '1 node, 0 links, open'}" "$(json_answer "? $first_row" answer nodes then)"
alike "json: refused" "2 12 0 0 refused: the fields of rule 1, or (12) at node 0 -" "$(json_answer "? -1 1 4 -1 -1 -1 0 4" answer place nodes words then)"
alike "json: why" "2 node 0: on, row 4 ((⋁ i=2..n: p0(i)) ∧ ⋀ i=2..n: ¬p0(i)), is an and (kind 4); rule 1, or, wants an or (kind 5)" "$(json_answer "? -1 1 4 -1 -1 -1 0 4" why)"
alike "json: no such word" "2 None None no such word: 'x'; 'help' lists them" "$(json_answer x answer place words)"
alike "json: rows" "4 ['7 0 2 1'] ['$first_row']" "$(json_answer "formula 7 0 2 1
$first_row
rows" formulas rows)"
alike "json: open" "3 [{'node': 0, 'words': 'has 0 of 1 children'}]" "$(json_answer "$first_row
open" open)"
alike "json: drawn" "2 0 0 - None" "$(json_answer draw answer nodes then asked)"
alike "json: drawn with a row" "2 0 0 {'nodes': 1, 'links': 0, 'closed': False, 'words': '1 node, 0 links, open'} 0" "$(json_answer "draw $first_row" answer nodes then asked)"
alike "json: drawn with what cannot be read" "2 4 1 None" "$(json_answer "draw 1 2" answer place asked)"
alike "json: offers of no node" "2 None offers wants the number of a node, or -1 for the first one" "$(json_answer "offers 0" answer words)"
alike "json: a line for each line" "$(yes draw | head -n 40 | "$zorambi" grow --json "$work/f" | wc -l)" 41
# A rule is offered where the library takes a row with it, and nowhere else: at each node of the shipped records that has children, the
# rule of the first of them.
alike "json: rules that stand in accepted records are offered" "0 wrong" "$(python3 - "$zorambi" records/accepted/* <<'P'
import json, os, subprocess, sys
wrong = many = 0
for record in sys.argv[2:]:
    if not os.path.isfile(f"{record}/proof.txt"):
        continue
    proof = open(f"{record}/proof.txt").read().split("up rule on with other to by set\n")
    rows = [line.split() for line in proof[1].splitlines()]
    formulas = proof[0].splitlines()[1:]
    lines = [f"formula {', '.join(formulas)}"] if formulas else []
    asked = []
    for row in rows:
        asked.append(len(lines))
        lines += [f"offers {row[0]}", " ".join(row)]
    answers = subprocess.run([sys.argv[1], "grow", "--json", "--anew", record], input="\n".join(lines) + "\n", capture_output=True, text=True).stdout.splitlines()[1:]
    for row, at in zip(rows, asked):
        many += 1
        wrong += json.loads(answers[at])["rules"][int(row[1])]["whyNot"] is not None
print(wrong, "wrong" if many > 200 else f"of {many}")
P
)"

# ---- folders that hold no tableau

turns() { # NAME NUMBERS SAID
  grows "$1" 1 "" $'answer place nodes links\n'"$2"$'\n' "$3"$'\n' "$work/n"
}
rm -rf "$work/n"
mkdir "$work/n"
turns "no schema" "3 1 0 0" "refused: schema.txt is missing (3)"
record "$work/n"
: >"$work/n/proof.txt"
turns "an empty proof text" "3 1 0 0" "refused: a heading (3) at line 1
proof.txt:1: "
rm "$work/n/proof.txt"
mkfifo "$work/n/proof.txt"
turns "a pipe for the proof" "3 1 0 0" "refused: proof.txt is a pipe, not a regular file (3)"
rm "$work/n/proof.txt"
record "$work/n"
sed -i '$s/^4 6/1 6/' "$work/n/proof.txt"
turns "a child too many" "17 6 0 0" "refused: a child more than its parent's rule has (17) at node 6
proof.txt:13: 1 6 6 8 -1 -1 0 6 8"
record "$work/n"
sed -i '5s/.*/3 0 9 0/' "$work/n/proof.txt"
turns "a formula row" "7 8 0 0" "refused: an ill-formed formula (7) at row 8
proof.txt:5: 3 0 9 0"
head -c 65537 /dev/zero >"$work/n/proof.txt"
turns "a long proof" "1 0 0 0" "refused: proof.txt has over 65,536 bytes (1)"

for words in "grow" "grow $work/none" "grow $work/g $work/g"; do
  # shellcheck disable=SC2086
  wrong_use $words </dev/null
done
wrong_use grow "" </dev/null
