#!/usr/bin/env bash
# Why the must-fail edits are refused, by the logs of tests/edit-tries.py, which tries those that have changed. An edit
# shows something only if a fact no longer holds with it. One that takes away a name which the proof uses is refused too,
# whatever the name said, and the prover names goals and steps after the code: so an edit fails here if its first error
# says that a name is gone. An edit may have several wrong answers, each with a line that says what refuses it:
# "# fn NAME: .." a function, which is proved by itself, "# theorem FILE NAME: .." a theorem of the crate's, or
# "# goal FUNCTION GOAL: .." a goal of a function's. Of each it is asked that its own proof is refused, and not for such a reason. Run from
# anywhere; with names of crates, of their edits alone.
set -u
cd "$(dirname "$0")/.." || exit 2
# shellcheck disable=SC2016
gone='that can be named from here|to be named from here|is not in scope|is not declared|not declared in|has no field|has no member|has no module|is no module|no module is found|does not export|cannot find (type|value)|expected type `tie\.Need-[^`]*`, but this has type `tie\.Need-'
named='^(fn [A-Za-z0-9_:]+|theorem [^ ]+ [^ ]+|goal [A-Za-z0-9_:]+ [^ ]+): '
passed=0
failed=0

if ! tests/edit-tries.py "$@"; then
  echo "not every edit is tried"
  echo "0 passed, 1 failed"
  exit 1
fi

wrong() { # EDIT WHY
  failed=$((failed + 1))
  echo "$1: $2"
}

# An error of the prover's; where there is none, a note that something is not proved.
first_error() { # LOG
  awk '
    at = index($0, ": error: ") { error = substr($0, at + 9); exit }
    note == "" && /it is not proved that/ { note = $0 }
    END { print error != "" ? error : note }' "$1"
}

# The first error in a file of proofs, of one theorem where it is named. That a callee is not proved, or that what was
# refused is cited further down, is no error of its own.
error_in() { # LOG FILE [THEOREM]
  error_at "$1" "/$2:" "${3:+\`$3\`: }"
}
error_at() { # LOG PART-OF-LINE START-OF-ERROR
  awk -v file="$2" -v start="$3" '
    index($0, file) && (at = index($0, ": error: ")) && !/was not admitted|which was rejected, was not checked/ {
      error = substr($0, at + 9)
      if (substr(error, 1, length(start)) != start) next
      # a long name of a record ends the line
      if ((getline next_line) > 0 && next_line ~ /^  has no /) error = error next_line
      print error
      exit
    }' "$1"
}

# The first error in a function's own proof, or that its search finds no proof of a goal that no file of it answers. The
# proofs of functions that call one another stand in one folder, +NAME, and have the function's name in front.
error_of() { # LOG FUNCTION
  local path=${2#*::} file error
  path=${path//:://}
  for file in Proof Invariants Answers; do
    error=$(error_in "$1" "proofs/$path/$file.antt")
    [ -z "$error" ] || break
  done
  for kind in '' invariant- decreases-; do
    [ -z "$error" ] || break
    error=$(grep -E "/proofs/($(dirname "$path")/)?\+[^/:]+/[A-Z]" "$1" | error_at /dev/stdin : "\`$kind${path##*/}-")
  done
  [ -n "$error" ] || error=$(grep -m 1 -E "^fn $2: no proof: .*\`search\` (does not close|did not prove)" "$1")
  echo "$error"
}
# The first error in what answers a goal of a function's, or that the search finds no proof of the goal.
error_of_goal() { # LOG FUNCTION GOAL
  local path=${2#*::} file error
  path=${path//:://}
  for file in Proof Answers; do
    error=$(error_in "$1" "proofs/$path/$file.antt" "$3")
    [ -z "$error" ] || break
  done
  [ -n "$error" ] || error=$(grep -E "/proofs/($(dirname "$path")/)?\+[^/:]+/[A-Z]" "$1" | error_at /dev/stdin : "\`${path##*/}-$3\`: ")
  [ -n "$error" ] || error=$(grep -m 1 -E "^fn $2: no proof: .*\`search\` did not prove .*\`(${path##*/}-)?$3(-clause-[a-z0-9_]+)?\`" "$1")
  echo "$error"
}

# All that the edit names is refused, and not because a name is gone.
named_refused() { # EDIT LOG NAME
  local line kind what theorem error ok=0
  while read -r line; do
    if [[ ! $line =~ $named ]]; then
      wrong "$3" "not understood: # $line"
      ok=1
      continue
    fi
    read -r kind what theorem <<<"${BASH_REMATCH[1]}"
    case $kind in
      fn) error=$(error_of "$2" "$what") ;;
      goal) error=$(error_of_goal "$2" "$what" "$theorem") ;;
      *) error=$(error_in "$2" "$what" "$theorem") ;;
    esac
    if [ -z "$error" ]; then
      wrong "$3" "$what${theorem:+ $theorem} is not refused"
      ok=1
    elif [[ $error =~ $gone ]]; then
      wrong "$3" "of the proof of $what${theorem:+ $theorem} only a name is gone: ${error:0:200}"
      ok=1
    fi
  done < <(sed -n 's/^# \(fn \|theorem \|goal \)/\1/p' "$1")
  return $ok
}

edits=(crates/*/must-fail/*.edit)
if [ $# -gt 0 ]; then edits=("${@/#/crates/}") && edits=("${edits[@]/%//must-fail/*.edit}"); fi
# shellcheck disable=SC2068
for edit in ${edits[@]}; do
  crate=${edit#crates/}
  name=${crate%%/*}/$(basename "$edit" .edit)
  log=target/must-fail/$name/.log
  if [ ! -f "$log" ]; then
    wrong "$name" "not tried"
    continue
  fi
  error=$(first_error "$log")
  if [ -z "$error" ]; then
    wrong "$name" "no error in $log"
  elif [[ $error =~ $gone ]]; then
    wrong "$name" "only a name of the proof is gone: ${error:0:200}"
  elif named_refused "$edit" "$log" "$name"; then
    passed=$((passed + 1))
  fi
done

echo "$passed passed, $failed failed"
[ "$failed" -eq 0 ]
