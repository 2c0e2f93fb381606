#!/usr/bin/env bash
# Programs from outside beside the proved check, where they are installed: a SAT solver (the first of cadical, kissat,
# minisat and cryptominisat5, and the others on a few schemata), a simulator (iverilog) and yosys. Accepted records have
# no model at any width tried, shipped models' schemata have one at theirs, `find` and the solver agree, modules give
# what the model check says.
set -u
cd "$(dirname "$0")/.." || exit 2
zorambi=$PWD/build/release/zorambi
outside=$PWD/build/release/examples/outside
work=$(mktemp -d) || exit 2
trap 'rm -rf "$work"' EXIT
passed=0
failed=0

{ ./zorambi build && cargo build --release --offline --quiet --target-dir build -p zorambi-widths --example outside; } || { echo "0 passed, 1 failed"; exit 1; }

expect() { # NAME COMMAND..
  if "${@:2}"; then
    passed=$((passed + 1))
  else
    failed=$((failed + 1))
    echo "FAILED $1"
  fi
}
# Adds the closing line of a program that counts by itself.
tally() { # NAME COMMAND..
  local line
  "${@:2}" >"$work/log" 2>&1
  grep -v 'passed, ' "$work/log"
  line=$(grep -E '^[0-9]+ passed, [0-9]+ failed$' "$work/log" | tail -n 1)
  expect "$1: a closing line" [ -n "$line" ]
  line=${line:-0 passed, 0 failed}
  passed=$((passed + $(cut -d ' ' -f 1 <<<"$line")))
  failed=$((failed + $(cut -d ' ' -f 3 <<<"$line")))
}
least_of() { # FOLDER
  sed -n '2s/.* //p' "$1/schema.txt"
}

# The records that are accepted, by the present check or, if they are marked, by the older one.
accepted=()
for record in records/*/*/; do
  record=${record%/}
  older=()
  [ -f "$record/older" ] && older=(--older)
  [ -f "$record/proof.txt" ] && "$zorambi" check --quiet "${older[@]}" "$record" && accepted+=("$record")
done
expect "accepted records are found" [ "${#accepted[@]}" -ge 17 ]
# Beside a refused record stands a model that is accepted.
models=(records/refused/*/model.txt)
expect "models are found" [ "${#models[@]}" -ge 7 ]

# ---- a solver

# A line for each width, each with these words.
all_say() { # WORDS RECORD FROM TO SOLVER
  diff <(for n in $(seq "$3" "$4"); do echo "n = $n: $1"; done) <("$zorambi" widths --solver "$5" "$2" "$3" "$4" 2>&1) >&2
}
no_model() { # RECORD FROM TO SOLVER
  all_say "no model, the solver's word" "$@"
}
a_model() { # RECORD FROM TO SOLVER
  all_say "a model, accepted by the proved check" "$@"
}
models_are_found() { # SOLVER
  local model n
  for model in "${models[@]}"; do
    n=$(sed -n 2p "$model")
    expect "$1: $model has a model" a_model "${model%/model.txt}" "$n" "$n" "$1"
  done
  expect "$1: no p_i at 1" no_model examples/find 1 1 "$1"
  expect "$1: some p_i from 2 on" a_model examples/find 2 20 "$1"
}
with_first() { # SOLVER
  local record first n
  for record in "${accepted[@]}"; do
    first=$(least_of "$record")
    expect "$record at its first 12 widths" no_model "$record" "$first" "$((first + 11))" "$1"
    for n in 40 53; do
      [ "$n" -lt "$first" ] || expect "$record at $n" no_model "$record" "$n" "$n" "$1"
    done
  done
  tally "find and $1" "$outside" solver "$work" records "$1"
}
with_other() { # SOLVER
  expect "$1: the paper's record" no_model records/paper/some_and_none 1 12 "$1"
  expect "$1: an adder" no_model records/accepted/rca_zero 1 4 "$1"
}
# Thousands of pairs: for each i from 1 to n, x_i exclusive or y_i, for ten x and ten y. One of each two has to be true.
ten_differences() { # FOLDER
  mkdir "$1"
  awk 'BEGIN {
    print "root least\n88 0\nkind a b c"
    for (k = 0; k < 10; k++) {
      r = 8 * k; x = 2 * k; y = x + 1
      print 2, x, 2, 0 "\n" 3, x, 2, 0 "\n" 2, y, 2, 0 "\n" 3, y, 2, 0
      print 4, r, r + 3, 0 "\n" 4, r + 1, r + 2, 0 "\n" 5, r + 4, r + 5, 0 "\n" 6, r + 6, 1, 0
    }
    for (k = 1; k < 10; k++) print 4, (k == 1 ? 7 : 78 + k), 8 * k + 7, 0
  }' >"$1/schema.txt"
}
many_pairs() { # SOLVER
  ten_differences "$work/ten"
  expect "8,000 pairs" timeout 20 "$zorambi" widths --solver "$1" --models "$work/models" "$work/ten" 400 400 >"$work/out"
  expect "8,000 pairs: a model of 4,000" [ "$(cat "$work/out"; grep -c . "$work/models/400/model.txt")" = "n = 400: a model, accepted by the proved check
4003" ]
  expect "8,000 pairs: its text" "$zorambi" model --quiet "$work/models/400"
  expect "10,000 pairs: a model of 5,000" all_say "a model, the solver's word: it has 5,000 true pairs, and the proved check takes 4,096" \
    "$work/ten" 500 500 "$1"
  expect "an adder at 500" no_model records/wide/adder_zero 500 500 "$1"
}

solvers=()
for solver in cadical kissat minisat cryptominisat5; do command -v "$solver" >/dev/null && solvers+=("$solver"); done
if [ "${#solvers[@]}" -eq 0 ]; then
  echo "not tried: a SAT solver beside the check and beside find (cadical, kissat, minisat and cryptominisat5 are not installed)"
else
  echo "solvers: ${solvers[*]}"
  with_first "${solvers[0]}"
  many_pairs "${solvers[0]}"
  for solver in "${solvers[@]}"; do models_are_found "$solver"; done
  for solver in "${solvers[@]:1}"; do with_other "$solver"; done
fi

# ---- a simulator, and yosys

if command -v iverilog >/dev/null && command -v vvp >/dev/null; then
  echo "simulating modules by iverilog"
  tally "iverilog and the model check" "$outside" simulator "$work" records
else
  echo "not tried: modules in a simulator beside the model check (iverilog is not installed)"
fi

# The module of a schema at n, under a name of its own.
add_module() { # FOLDER N NAME
  "$zorambi" verilog "$1" "$2" | sed "s/^module schema_at_$2 /module $3 /" >>"$work/all.v"
}
if command -v yosys >/dev/null; then
  echo "proving modules constant by yosys"
  : >"$work/all.v"
  printf 'read_verilog all.v\nproc\nopt_clean\n' >"$work/all.ys"
  count=0
  for record in "${accepted[@]}"; do
    first=$(least_of "$record")
    for n in "$first" "$((first + 1))" "$((first + 3))" "$((first + 12))" "$((first + 20))"; do
      add_module "$record" "$n" "zero_$count"
      echo "sat -timeout 20 -verify -prove root 0 zero_$count" >>"$work/all.ys"
      count=$((count + 1))
    done
  done
  # And it can tell: where there is a model the output is not constantly 0.
  for model in "${models[@]}"; do
    add_module "${model%/model.txt}" "$(sed -n 2p "$model")" "some_$count"
    echo "sat -timeout 20 -falsify -prove root 0 some_$count" >>"$work/all.ys"
    count=$((count + 1))
  done
  in_yosys() {
    (cd "$work" && timeout 120 yosys -q all.ys >log 2>&1) || { tail -n 5 "$work/log"; return 1; }
  }
  expect "yosys on $count modules" in_yosys
else
  echo "not tried: that outputs are constantly 0, by yosys (it is not installed)"
fi

echo "$passed passed, $failed failed"
[ "$failed" -eq 0 ]
