# shellcheck shell=bash ./zorambi dimacs, verilog and widths, from tests/programs.sh, with scripts as solvers: what is
# printed and said, what ends them, and that nothing is left. Solvers themselves are tried by tests/solver.sh, the texts
# by the tests of tools/widths.

two=$'answer place nodes links\n'
# 01's schema with root 2, "some p_i for i from 2 to n".
record "$work/w"
sed -i '2s/.*/2 1/' "$work/w/schema.txt"
head_of() { # COMMAND N LINES
  "$zorambi" "$1" "$work/w" "$2" 2>&1 | grep -v '^c [A-Z]\|^//' | head -n "$3"
}
alike "dimacs at 3" $'c pair 0 2 1\nc pair 0 3 2\np cnf 3 2\n-3 1 2 0\n3 0' "$(head_of dimacs 3 9)"
alike "dimacs at 1" $'p cnf 0 1\n0' "$(head_of dimacs 1 9)"
alike "verilog at 2" $'module schema_at_2 (\n  input p0_2, // symbol 0 at 2\n  output root\n);\n  assign root = p0_2;\nendmodule' "$(head_of verilog 2 9)"
for command in dimacs verilog; do
  gives "$command below the least value" 1 "" "${two}19 -1 0 0"$'\nrefused: n out of range (19)\n19: n is 0, below the schema\'s least value, 1\n' "$command" "$work/w" 0
  gives "$command above 9999" 1 "" "${two}19 -1 0 0"$'\nrefused: n out of range (19)\n19: n is 10000, over 9999: 1 too large\n' "$command" "$work/w" 10000
  gives "$command of a row too large" 1 "" "${two}8 12 0 0"$'\nrefused: a formula too large or too deep (8) at row 12\n8: row 12 has size 4097, 4,096 allowed\nschema.txt:16: 4 11 0 0\n' \
    "$command" records/refused/size_4097 3
  gives "$command of no schema" 1 "" "${two}3 1 0 0"$'\nrefused: schema.txt is missing (3)\n' "$command" tests 3
  ends "$command to a full disk" 2 "" "zorambi $command: standard output: No space left on device (os error 28)" \
    sh -c "'$zorambi' $command '$work/w' 5 >/dev/full"
  wrong_use "$command" "$work/w"
  wrong_use "$command" "$work/w" 03
done

# A solver of its own, which leaves behind what it was given. A model: all pairs true.
mkdir "$work/solvers" "$work/files"
solver() { # NAME SCRIPT
  printf '#!/bin/sh\n%s\n' "$2" >"$work/solvers/$1"
  chmod +x "$work/solvers/$1"
}
solver yes 'echo "v 1 2 3 0"; exit 10'
solver no 'exit 20'
solver unknown 'exit 0'
solver liar 'echo "v -1 -2 -3 0"; exit 10'
solver killed 'kill -9 $$'
# Satisfiable as long as a pair is there.
solver honest 'if grep -q "^c pair" "$1"; then echo "v 1 $(sed -n "s/^p cnf \(.*\) .*/\1/p" "$1") 0"; exit 10; fi; exit 20'
solves() { # NAME STATUS PRINTED SAID SOLVER WORD..
  ends "$1" "$2" "$3" "$4" env TMPDIR="$work/files" "$zorambi" widths --solver "$work/solvers/$5" "${@:6}"
  alike "$1, the temporary folder" "" "$(ls -A "$work/files")"
}
solves "widths" 0 $'n = 1: no model, the solver\'s word\nn = 2: a model, accepted by the proved check\nn = 3: a model, accepted by the proved check' "" \
  honest "$work/w" 1 3
solves "no answer" 2 $'n = 3: no answer: the solver does not know\nn = 4: no answer: the solver does not know' "" unknown "$work/w" 3 4
solves "a model that is none" 2 "" "zorambi widths: n = 3: WRONG: what $work/solvers/liar gives as a model is none. The proved check refuses it: the \
schema is false there (20). Do not rely on this solver's other answers, nor on 'no model' above" liar "$work/w" 3 4
solves "a solver that is killed" 2 "" "zorambi widths: n = 3: $work/solvers/killed was ended by signal 9" killed "$work/w" 3 4
solves "a solver that is not there" 2 "" "zorambi widths: n = 3: no such solver: $work/solvers/none" none "$work/w" 3 4
solves "below the least value" 1 "${two}19 -1 0 0" $'refused: n out of range (19)' no "$work/w" 0 4
solves "up to above 9999" 1 "${two}19 -1 0 0" $'refused: n out of range (19)' no "$work/w" 3 10000
solves "the same, quietly" 1 "" "" no --quiet "$work/w" 3 10000
solves "quietly" 0 "" "" no --quiet "$work/w" 3 4
solves "an ill-formed row" 1 "${two}8 12 0 0" $'refused: a formula too large or too deep (8) at row 12\nschema.txt:16: 4 11 0 0' no records/refused/size_4097 3 4
solves "the wrong way round" 2 "" "zorambi widths: no width from 4 to 3: FROM is over TO" no "$work/w" 4 3
ends "an empty command" 2 "" "zorambi widths: the solver's command is empty" "$zorambi" widths --solver ' ' "$work/w" 3 4
ends "no solver installed" 2 "" "zorambi widths: no SAT solver is installed: cadical, kissat, minisat, cryptominisat5 are looked for, and --solver names any \
other; on Debian 'apt install cadical' installs one" env PATH="$work/none" "$zorambi" widths "$work/w" 3 4
ends "a temporary folder that is not there" 2 "" "zorambi widths: no private folder for the texts in $work/none: No such file or directory (os error 2); \
TMPDIR may name another" env TMPDIR="$work/none" "$zorambi" widths --solver "$work/solvers/no" "$work/w" 3 4
# The first that is installed is taken.
solver kissat 'exit 20'
solver cryptominisat5 'exit 0'
ends "the first solver" 0 "n = 3: no model, the solver's word" "" env PATH="$work/solvers:/usr/nowhere" "$zorambi" widths "$work/w" 3 3
rm "$work/solvers/kissat"
ends "the other solver" 2 "n = 3: no answer: the solver does not know" "" env PATH="$work/solvers:/usr/nowhere" "$zorambi" widths "$work/w" 3 3

# Objects, one a line.
in_json() { # EXPRESSION
  python3 -c 'import json, sys; rows = [json.loads(line) for line in sys.stdin]; print(eval(sys.argv[1]))' "$1"
}
widths_json() { # SOLVER FROM TO EXPRESSION
  "$zorambi" widths --json --solver "$work/solvers/$1" "$work/w" "$2" "$3" | in_json "$4"
}
alike "json" "[(1, False, False, None), (2, True, True, [[0, 2]])]" \
  "$(widths_json honest 1 2 '[(r["n"], r["found"], r["proved"], r["pairs"]) for r in rows]')"
alike "json, no answer" "[(None, False, 'no answer: the solver does not know', 0)]" \
  "$(widths_json unknown 2 2 '[(r["found"], r["proved"], r["words"], r["answer"]) for r in rows]')"
alike "json, refused" "[(None, False, None, 19, -1, 'n out of range', \"n is 0, below the schema's least value, 1\")]" \
  "$(widths_json no 0 2 '[(r["found"], r["proved"], r["solver"], r["answer"], r["place"], r["refusal"], r["why"]) for r in rows]')"

# Models in a new or an empty folder, each beside its schema.
solves "models" 0 $'n = 1: no model, the solver\'s word\nn = 2: a model, accepted by the proved check\nn = 3: a model, accepted by the proved check' "" \
  honest --models "$work/models" "$work/w" 1 3
alike "the models" "2 2/model.txt 2/schema.txt 3 3/model.txt 3/schema.txt" "$(cd "$work/models" && find . -mindepth 1 | sed 's|^./||' | sort | xargs)"
for n in 2 3; do
  same "the model at $n" "${two}0 0 0 0" "$("$zorambi" model "$work/models/$n" 2>&1)" $?
  check_model_record "$work/models/$n" "the model at $n"
done
solves "models, a folder that is not empty" 2 "" "zorambi widths: $work/models: the folder is not empty" honest --models "$work/models" "$work/w" 1 3
solves "models, none found" 0 "n = 1: no model, the solver's word" "" honest --models "$work/no-models" "$work/w" 1 1
alike "no folder for no model" "" "$(ls -d "$work/no-models" 2>/dev/null)"
solves "models, no folder to make it in" 2 "" "zorambi widths: $work/none/models: No such file or directory (os error 2)" \
  honest --models "$work/none/models" "$work/w" 2 2

# A signal ends it, the solver and what that has started, and leaves no file.
solver slow "sleep 30 & echo \$! >'$work/slow'; wait"
for signal in INT TERM; do
  rm -f "$work/slow"
  env --default-signal=INT,QUIT TMPDIR="$work/files" "$zorambi" widths --solver "$work/solvers/slow" "$work/w" 3 4 >/dev/null 2>&1 &
  running=$!
  for _ in $(seq 100); do [ -s "$work/slow" ] && break; sleep 0.05; done
  alike "before $signal, a folder" 1 "$(find "$work/files" -mindepth 1 -maxdepth 1 | wc -l)"
  kill -s "$signal" "$running"
  wait "$running" 2>/dev/null
  status=$?
  alike "$signal, its status" "$((128 + $(kill -l "$signal")))" "$status"
  alike "$signal, the temporary folder" "" "$(ls -A "$work/files")"
  for _ in $(seq 100); do kill -0 "$(cat "$work/slow")" 2>/dev/null || break; sleep 0.05; done
  alike "$signal, what the solver started" "gone" "$(kill -0 "$(cat "$work/slow")" 2>/dev/null || echo gone)"
done

for words in "widths" "widths $work/w" "widths $work/w 3" "widths $work/w 3 x" "widths $work/w 3 4 5" "widths --solver $work/w 3 4" "widths $work/none 3 4"; do
  # shellcheck disable=SC2086
  wrong_use $words
done
