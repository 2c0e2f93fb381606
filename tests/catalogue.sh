#!/usr/bin/env bash
# The catalogue as its users meet it: on a terminal, by GNU parallel and as a Slurm array job, with a task killed. What is not installed
# is not tried, and said to be. PROGRAM is the built program.
set -u
root=$(CDPATH='' cd -- "$(dirname -- "$0")/.." && pwd)
program=${PROGRAM:-$root/build/release/zorambi}
scratch=$(mktemp -d) || exit 2
trap 'rm -rf "$scratch"' EXIT
passed=0
failed=0

check() { # WHAT CONDITION...
  local what=$1
  shift
  if "$@"; then
    passed=$((passed + 1))
  else
    failed=$((failed + 1))
    echo "failed: $what"
  fi
}

# Records: the shipped ones, each some times.
mkdir "$scratch/records"
for k in 1 2 3 4 5 6; do cp -r "$root/records" "$scratch/records/$k"; done
"$program" catalogue "$scratch/records" --csv "$scratch/whole.csv" >"$scratch/whole.out"
whole_status=$?
check "the whole has refusals" [ "$whole_status" -eq 1 ]

# What a terminal shows, with the codes that move on it made visible. `script` gives the command a terminal.
on_a_terminal() {
  script -qec "$*" /dev/null </dev/null 2>&1 | sed 's/\r/<CR>/g; s/\x1b\[K/<WIPE>/g; s/\x1b/<ESC>/g'
}
terminal() {
  if ! command -v script >/dev/null; then
    echo "not tried: a terminal (no 'script')"
    return
  fi
  local many=$scratch/many shown
  mkdir "$many"
  cp -r "$root/records" "$many/0"
  for k in $(seq 250); do cp -rl "$many/0" "$many/$k"; done
  shown=$(on_a_terminal "$program catalogue $many --jobs 1 | tail -n 1")
  check "progress has rate and time left" \
    grep -qE '<CR><WIPE>[0-9]+ of [0-9]+ records \([0-9]+ %\), [0-9]+ a second, [0-9]+ s left' <<<"$shown"
  check "the progress line is wiped before the totals" grep -qE '<CR><WIPE>[0-9]+ records: ' <<<"$shown"
  check "nothing else moves on the terminal" [ "$(grep -c '<ESC>' <<<"$shown")" -eq 0 ]
  shown=$(on_a_terminal "$program catalogue $many --jobs 1 --quiet")
  check "--quiet says nothing on a terminal" [ -z "$shown" ]
  shown=$("$program" catalogue "$many" --jobs 1 2>&1 >/dev/null)
  check "no progress where standard error is no terminal" [ -z "$shown" ]
}

# A script that runs parts: once as it is, then with a part that fails at first and is run again.
merged_by() { # SCRIPT
  local out status
  out=$(ZORAMBI=$program "$1" "$scratch/records" "$scratch/by.csv" 5 2>&1)
  status=$?
  check "$1: the status of the whole" [ "$status" -eq "$whole_status" ]
  check "$1: the table of the whole" cmp -s "$scratch/by.csv" "$scratch/whole.csv"
  check "$1: the totals of the whole" [ "$(tail -n 1 <<<"$out")" = "$(tail -n 1 "$scratch/whole.out")" ]
  rm -rf "$scratch"/by.csv*
}

# A program that is never done with part 3, the first time.
cat >"$scratch/slow" <<S
#!/usr/bin/env bash
if [[ " \$* " = *" 3/5 "* && ! -e $scratch/tried ]]; then
  echo \$\$ >$scratch/tried.new
  mv $scratch/tried.new $scratch/tried
  exec sleep 600
fi
echo "\$@" >>$scratch/calls
exec $program "\$@"
S
chmod +x "$scratch/slow"

# After part 3 was killed: merge tells that it is missing, and the same line runs it alone.
killed_part() { # SCRIPT KILL...
  local out status script=$1
  shift
  rm -f "$scratch/tried" "$scratch/calls"
  ("$@") &
  out=$(ZORAMBI=$scratch/slow "$script" "$scratch/records" "$scratch/by.csv" 5 2>&1)
  status=$?
  wait
  check "$script: a killed part is a failure" [ "$status" -eq 2 ]
  check "$script: the missing part is told" grep -q 'zorambi merge: part 3/5 is missing' <<<"$out"
  check "$script: no table without it" [ ! -e "$scratch/by.csv" ]
  rm -f "$scratch/calls"
  out=$(ZORAMBI=$scratch/slow "$script" "$scratch/records" "$scratch/by.csv" 5 2>&1)
  status=$?
  check "$script: run again it is whole" [ "$status" -eq "$whole_status" ]
  check "$script: only the missing part ran again" [ "$(grep -c -- --shard "$scratch/calls")" -eq 1 ]
  check "$script: with the table of the whole" cmp -s "$scratch/by.csv" "$scratch/whole.csv"
  rm -rf "$scratch"/by.csv*
}

# Waits until part 3 is at work.
at_work() {
  local k
  for k in $(seq 300); do
    [ -e "$scratch/tried" ] && return
    sleep 0.1
  done
  return 1
}

kill_part() {
  at_work && kill "$(cat "$scratch/tried")"
}

by_parallel() {
  if ! command -v parallel >/dev/null; then
    echo "not tried: GNU parallel is not installed"
    return
  fi
  merged_by "$root/examples/parallel/catalogue.sh"
  killed_part "$root/examples/parallel/catalogue.sh" kill_part
}

kill_task() {
  at_work && scancel "$(squeue -h -r -t R -o %i | grep '_3$')"
}

# Runs inside a Slurm: the functions above with the array job.
if [ "${1-}" = in-slurm ]; then
  merged_by "$root/examples/slurm/catalogue.sh"
  killed_part "$root/examples/slurm/catalogue.sh" kill_task
  echo "$passed passed, $failed failed"
  [ "$failed" -eq 0 ]
  exit
fi

by_slurm() {
  local here=$root/../shared/tools/slurm-here out counts
  if ! command -v sbatch >/dev/null; then
    echo "not tried: Slurm is not installed"
    return
  fi
  if sinfo -h >/dev/null 2>&1; then
    out=$("$0" in-slurm 2>&1)
  elif [ -x "$here" ]; then
    out=$("$here" "$0" in-slurm 2>&1)
  else
    echo "not tried: Slurm is installed, but none runs here"
    return
  fi
  echo "$out" | grep -v ' passed, '
  counts=$(grep -E '^[0-9]+ passed, [0-9]+ failed$' <<<"$out" | tail -n 1)
  if [ -z "$counts" ]; then
    echo "failed: the array job did not end"
    failed=$((failed + 1))
    return
  fi
  read -r p _ f _ <<<"$counts"
  passed=$((passed + p))
  failed=$((failed + f))
}

terminal
by_parallel
by_slurm
echo "$passed passed, $failed failed"
[ "$failed" -eq 0 ]
