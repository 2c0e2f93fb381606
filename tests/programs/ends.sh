# shellcheck shell=bash
# From tests/programs.sh: what zorambi makes of a proved program that goes wrong, of outputs that cannot be written, of signals, and what
# --json, --quiet, --help and --version print. JSON is read back by Python's json.

alike() { # NAME EXPECTED FOUND
  if [ "$2" = "$3" ]; then
    passed=$((passed + 1))
  else
    failed=$((failed + 1))
    echo "$1: expected '${2//$'\n'/ / }'; got '${3//$'\n'/ / }'"
  fi
}
# A run of a command line: its exit status, all that it prints, all that it says.
ends() { # NAME STATUS PRINTED SAID COMMAND..
  local status
  "${@:5}" >"$work/out" 2>"$work/err"
  status=$?
  alike "$1" "$2|$3|$4" "$status|$(cat "$work/out")|$(unexplained <"$work/err")"
}

# ---- stand-ins for a proved program, beside a program that is installed

mkdir -p "$work/installed/bin" "$work/installed/libexec/zorambi" "$work/tmp"
cp "$zorambi" "$work/installed/bin/zorambi"
record "$work/e"
lines=$'answer place nodes links\n'
installed() { # NAME STATUS PRINTED SAID SCRIPT
  printf '#!/bin/sh\n%s\n' "$5" >"$work/installed/libexec/zorambi/check_proof"
  chmod +x "$work/installed/libexec/zorambi/check_proof"
  ends "$1" "$2" "$3" "$4" env TMPDIR="$work/tmp" "$work/installed/bin/zorambi" check "$work/e"
  alike "$1, the temporary folder" "" "$(ls -A "$work/tmp")"
}
accepts='printf "answer place nodes links\n0 0 7 1\n"'
refuses='printf "answer place nodes links\n4 3 0 0\n"'
no_verdict="zorambi check: check_proof ended without a verdict, with exit status: 0"
installed "an acceptance" 0 "${lines}0 0 7 1" "" "$accepts"
installed "a refusal" 1 "${lines}4 3 0 0" "refused: a line's form (4) at line 3" "$refuses"
installed "death after an acceptance is printed" 2 "" "zorambi check: check_proof ended without a verdict, with signal: 11 (SIGSEGV)" "$accepts; kill -SEGV \$\$"
installed "another exit status after a refusal" 2 "" "zorambi check: check_proof ended without a verdict, with exit status: 1" "$refuses; exit 1"
installed "nothing printed" 2 "" "$no_verdict" ":"
installed "no heading" 2 "" "$no_verdict" 'echo "0 0 7 1"'
installed "half a line" 2 "" "$no_verdict" 'printf "answer place nodes links\n0 0"'
installed "a line more" 2 "" "$no_verdict" "$accepts; echo 0"
for answer in 32 99 100 00 027 99999999999999999999; do
  installed "an answer that there is not: $answer" 2 "" "$no_verdict" "printf 'answer place nodes links\n$answer 0 0 0\n'"
done
red='printf "schema.txt:3: \033[31m a\\\\b\tc\000d\200\377\177 e\n" >&2'
shown='schema.txt:3: \x1b[31m a\\b\x09c\x00d\x80\xff\x7f e'
installed "bytes of a refused record" 1 "${lines}4 3 0 0" "refused: a line's form (4) at line 3"$'\n'"$shown" "$refuses; $red"
installed "bytes where there is no verdict" 2 "" "$no_verdict"$'\n'"$shown" "$red"
# It sees the two texts and no more, in a folder of its own, and nothing on standard input.
# shellcheck disable=SC2016
installed "what it sees" 2 "" "$no_verdict"$'\n'"proof.txt schema.txt drwx------\\x0a0" 'echo $(ls -A) $(ls -ld . | cut -c1-10) >&2; wc -c >&2'
# The same texts, cut off one byte after the longest that there may be.
yes 7 | head -c 3000000 >"$work/e/proof.txt"
installed "how much it sees" 2 "" "$no_verdict"$'\n'"65537 proof.txt" 'wc -c proof.txt >&2'
record "$work/e"
rm "$work/installed/libexec/zorambi/check_proof"
ends "no program" 2 "" "zorambi check: the proved program check_proof is missing: neither $work/installed/bin/../libexec/zorambi/check_proof nor \
$work/installed/bin/../../target/bin/check_proof is there; ./zorambi makes it" "$work/installed/bin/zorambi" check "$work/e"
# A signal ends it, and nothing is left.
printf '#!/bin/sh\necho >%s/started\nexec sleep 20\n' "$work" >"$work/installed/libexec/zorambi/check_proof"
chmod +x "$work/installed/libexec/zorambi/check_proof"
for signal in HUP INT QUIT TERM; do
  rm -f "$work/started"
  # A shell's background job ignores INT and QUIT; env does not.
  env --default-signal=INT,QUIT TMPDIR="$work/tmp" "$work/installed/bin/zorambi" check "$work/e" >/dev/null 2>&1 &
  running=$!
  for _ in $(seq 100); do [ -e "$work/started" ] && break; sleep 0.05; done
  alike "before $signal, a folder" 1 "$(find "$work/tmp" -mindepth 1 -maxdepth 1 | wc -l)"
  kill -s "$signal" "$running"
  wait "$running" 2>/dev/null
  status=$?
  alike "$signal, its status" "$((128 + $(kill -l "$signal")))" "$status"
  alike "$signal, the temporary folder" "" "$(ls -A "$work/tmp")"
done

# ---- outputs that cannot be written

check_it=("$zorambi" check records/accepted/rca_zero)
ends "no temporary folder" 2 "" "zorambi check: no private folder for the texts in $work/none: No such file or directory (os error 2); TMPDIR may name another" \
  env TMPDIR="$work/none" "${check_it[@]}"
# A temporary folder in which a file may have 1,024 bytes.
in_little_room() {
  (trap '' XFSZ && ulimit -f 1 && TMPDIR=$work/tmp exec "$@")
}
ends "a full temporary folder" 2 "" "zorambi check: no private folder for the texts in $work/tmp: File too large (os error 27); TMPDIR may name another" \
  in_little_room "${check_it[@]}"
alike "a full temporary folder, nothing is left" "" "$(ls -A "$work/tmp")"
ends "a full folder for a join" 2 "" "zorambi join: $work/full/proof.txt: File too large (os error 27)" \
  in_little_room "$zorambi" join records/accepted/rca_zero records/accepted/rca_zero "$work/full"
alike "a full folder for a join, nothing is left" "no" "$([ -e "$work/full" ] && echo yes || echo no)"
in_little_room "$zorambi" grow records/accepted/rca_zero <<<"save $work/full" >"$work/out" 2>"$work/err"
alike "a full folder for what is saved" "not saved: $work/full: File too large (os error 27)" "$(tail -n 1 "$work/out")"
alike "a full folder for what is saved, nothing is left" "no" "$([ -e "$work/full" ] && echo yes || echo no)"
rm -rf "$work/full"
to_full() { # COMMAND..
  "$@" >/dev/full
}
from_full() { # COMMAND..
  "$@" 2>/dev/full
}
no_space="standard output: No space left on device (os error 28)"
for words in "check records/accepted/rca_zero" "check --json records/accepted/rca_zero" "find records/accepted/rca_zero 3" "small 3" \
  "tidy records/tidy/rows_twice" "convert records/wide/adder_zero" "help" "--version" "grow records/accepted/rca_zero"; do
  # shellcheck disable=SC2086
  ends "$words to a full disk" 2 "" "zorambi$( [[ $words == grow* ]] && echo " grow"): $no_space" to_full "$zorambi" $words </dev/null
done
ends "a refusal on a full standard error" 2 "${lines}14 3 0 0" "" from_full "$zorambi" check records/refused/void_above_least
ends "wrong use on a full standard error" 2 "" "" from_full "$zorambi" chekc
closed() { # COMMAND..
  "$@" 2>&-
}
ends "a refusal, standard error closed" 1 "${lines}14 3 0 0" "" closed "$zorambi" check records/refused/void_above_least
# What reads is gone: quiet, with status 2.
for words in "small 3" "help" "check records/accepted/rca_zero"; do
  # shellcheck disable=SC2086
  (trap '' PIPE; { sleep 0.2; "$zorambi" $words 2>"$work/err"; echo $? >"$work/status"; } | true)
  alike "$words, with no reader" "2|" "$(cat "$work/status")|$(cat "$work/err")"
done
alike "small 3 | head -n 1" "root least" "$("$zorambi" small 3 2>&1 | head -n 1)"

# ---- what is said on a terminal

on_a_terminal() { # WORD..
  script -qec "$zorambi $*" /dev/null | tr -d '\r'
}
unset NO_COLOR
alike "accepted on a terminal" "${lines}0 0 65 3"$'\n\e[32maccepted: 65 nodes, 3 links\e[0m' "$(on_a_terminal check records/accepted/rca_zero)"
alike "refused on a terminal" "${lines}14 3 0 0"$'\n\e[31mrefused: a void\'s bound (14) at node 3\e[0m\n14: node 3 knows 0 <= n <= 8, but row 1 (some i from 5 to n: p0[i]) is empty only up to n = 4\nproof.txt:8: 2 7 1 -1 -1 -1 0 1' \
  "$(on_a_terminal check records/refused/void_above_least)"
export NO_COLOR=1
alike "accepted on a terminal, NO_COLOR" "${lines}0 0 65 3
accepted: 65 nodes, 3 links" "$(on_a_terminal check records/accepted/rca_zero)"
# One that is empty counts as none, as no-color.org has it.
export NO_COLOR=''
alike "accepted on a terminal, NO_COLOR empty" "${lines}0 0 65 3"$'\n\e[32maccepted: 65 nodes, 3 links\e[0m' "$(on_a_terminal check records/accepted/rca_zero)"
unset NO_COLOR

# ---- texts behind links out of their folder, in the commands that make texts

mkdir "$work/links"
ln -s "$PWD/records/tidy/rows_twice/schema.txt" "$PWD/records/tidy/rows_twice/proof.txt" "$PWD/records/wide/adder_zero/wide.txt" "$work/links"
for words in "find @ 3" "tidy @" "convert @"; do
  wanted=records/tidy/rows_twice
  [[ $words != convert* ]] || wanted=records/wide/adder_zero
  # shellcheck disable=SC2086
  ends "$words --follow" 0 "$("$zorambi" ${words/@/$wanted})" "" "$zorambi" ${words/@/$work/links} --follow
  # shellcheck disable=SC2086
  "$zorambi" ${words/@/$work/links} >"$work/out" 2>"$work/err"
  alike "$words without --follow" 1 $?
  said "$words without --follow" "is a link out of its folder, to "
done
ln -sf "$PWD/records/tidy/rows_once/schema.txt" "$PWD/records/tidy/rows_once/proof.txt" "$work/links"
once=records/tidy/rows_once
"$zorambi" join "$once" "$once" "$work/linked"
ends "join --follow" 0 "" "" "$zorambi" join --follow "$work/links" "$work/links" "$work/followed"
alike "join --follow, what is written" "$(cat "$work"/linked/*)" "$(cat "$work"/followed/*)"
ends "join without --follow, the second" 1 "${lines}3 1 0 0" "refused: schema.txt is a link out of its folder, to $PWD/$once/schema.txt, \
which is followed only with --follow (3)
in the second record:
$work/links/" "$zorambi" join "$once" "$work/links" "$work/unfollowed"
ends "grow --follow" 0 "$("$zorambi" grow "$once" </dev/null)" "" "$zorambi" grow --follow "$work/links" </dev/null
ends "grow without --follow" 1 "${lines}3 1 0 0" "refused: schema.txt is a link out of its folder, to $PWD/$once/schema.txt, \
which is followed only with --follow (3)" "$zorambi" grow "$work/links" </dev/null
rm -r "$work/links" "$work/linked" "$work/followed"

# ---- objects, quiet, help, version

# What Python reads from an object: the values of these keys.
read_back() { # KEY..
  python3 -c 'import json, sys
object = json.load(sys.stdin)
print([object[key] for key in sys.argv[1:]], len(object))' "$@"
}
keys=(record verdict answer place nodes links refusal file line text check)
alike "an object of an acceptance" "['records/accepted/rca_zero', 'accepted', 0, 0, 65, 3, None, None, None, None, 'present'] 12" \
  "$("$zorambi" check --json records/accepted/rca_zero | read_back "${keys[@]}")"
alike "an object of a refusal" "['records/refused/void_above_least', 'refused', 14, 3, 0, 0, \"a void's bound\", 'proof.txt', 8, '2 7 1 -1 -1 -1 0 1', 'present'] 12" \
  "$("$zorambi" check --json records/refused/void_above_least | read_back "${keys[@]}")"
alike "an object of an older record" "['accepted', 'older'] 12" "$("$zorambi" check --older --json records/tidy/rows_twice | read_back verdict check)"
ends "an object, its status and what is said" 1 "$("$zorambi" check --json records/refused/void_above_least)" "" "$zorambi" check --json records/refused/void_above_least
record "$work/quo\"te\\"$'\n\xff'
printf 'root "least"\\\x1b\n' >"$work/quo\"te\\"$'\n\xff/schema.txt'
alike "an object with bytes of all kinds" "['$work/quo\"te\\\\\\\\\\\\x0a\\\\xff', 'a heading', 'schema.txt', 1, 'root \"least\"\\\\\\\\\\\\x1b'] 12" \
  "$("$zorambi" check --json "$work/quo\"te\\"$'\n\xff' | read_back record refusal file line text)"
printf 'n\n9\nsymbol index\n' >"$work/e/model.txt"
alike "an object of a model" "['refused', 20, -1, 'the schema is false there', 'model'] 12" "$("$zorambi" model --json "$work/e" | read_back verdict answer place refusal check)"
printf 'n\n0\nsymbol index\n' >"$work/e/model.txt"
ends "a model's n out of range" 1 "${lines}19 -1 0 0" "refused: n out of range (19)" "$zorambi" model "$work/e"
found=(record n found pairs answer place refusal)
alike "an object of no model" "['$work/e', 3, False, None, 0, 0, None] 8" "$("$zorambi" find --json "$work/e" 3 | read_back "${found[@]}")"
sed -i '2s/4/2/' "$work/e/schema.txt"
alike "an object of a model found" "['$work/e', 3, True, [[0, 3]], 0, 0, None] 8" "$("$zorambi" find --json "$work/e" 3 | read_back "${found[@]}")"
alike "an object of a search that is refused" "['$work/e', 18, None, None, 30, -1, 'more than 16 pairs that occur at that n'] 8" \
  "$("$zorambi" find --json "$work/e" 18 | read_back "${found[@]}")"
ends "quiet, accepted" 0 "" "" "$zorambi" check --quiet records/accepted/rca_zero
ends "quiet, refused" 1 "" "" "$zorambi" check --quiet records/refused/void_above_least
ends "quiet, a model" 1 "" "" "$zorambi" model --quiet "$work/e"
ends "quiet, a model found" 0 "" "" "$zorambi" find --quiet "$work/e" 3
ends "quiet, a search refused" 1 "" "" "$zorambi" find --quiet "$work/e" 18
ends "quiet, no folder" 2 "" "zorambi check: no such folder: $work/none" "$zorambi" check --quiet "$work/none"
for command in check model show explain catalogue merge find widths dimacs verilog compile convert small tidy join grow edit help; do
  ends "help $command" 0 "$("$zorambi" "$command" --help)" "" "$zorambi" help "$command"
  said_first=$("$zorambi" help "$command" | head -n 1)
  alike "help $command, its use" "use: zorambi $command" "${said_first:0:$((13 + ${#command}))}"
done
ends "--help" 0 "$("$zorambi" help)" "" "$zorambi" --help
alike "help lists every command" "23" "$("$zorambi" help --list | grep -c .)"
release=$(sed -n 's/^version = "\(.*\)"/\1/p' Cargo.toml)
alike "--version" "zorambi $release, library $(sha256sum target/staticlib/libzorambi.a | head -c 16), rattle logic $(rt version | sed 's/.* logic //')" "$("$zorambi" --version)"
# The examples of the help can be run as they stand there; those of widths where their solver is installed.
"$zorambi" help --list | cut -f 1 | while read -r command; do "$zorambi" help "$command" | sed -n '/^for instance:/,$s/^  zorambi /zorambi /p'; done >"$work/examples"
sed -i "s|/tmp/|$work/tmp/|g" "$work/examples"
while read -r example; do
  [[ $example == *part-\** ]] && continue
  # It serves until it is ended: tests/editor.py.
  [[ $example == "zorambi edit "* ]] && continue
  [[ $example == "zorambi widths "* ]] && ! command -v cadical >/dev/null && continue
  (PATH=$(dirname "$zorambi"):$PATH; eval "$example") >"$work/out" 2>"$work/err" </dev/null
  alike "$example" 01 "0$(($? < 2))"
done <"$work/examples"
alike "at least 12 examples" 1 "$(($(wc -l <"$work/examples") >= 12))"
