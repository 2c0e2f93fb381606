#!/usr/bin/env bash
#SBATCH --job-name=zorambi
#SBATCH --ntasks=1
#SBATCH --output=/dev/null
# catalogue.sh DIR TABLE [PARTS [WORDS..]]: the catalogue of DIR as a Slurm array job of PARTS tasks (8 if none is given), and their
# merge as TABLE. WORDS go to sbatch, as '--partition=..' or '--time=..'. All nodes have to see the same folders and have zorambi. The
# parts' tables stay in TABLE.parts: after a task was killed the same line runs the missing parts alone; remove that folder to check
# everything anew.
#
#   catalogue.sh /firm/records table.csv 64 --partition=long --time=2:00:00
set -eu

# As a task of the array: one part.
if [ -n "${SLURM_ARRAY_TASK_ID-}" ]; then
  status=0
  "$zorambi" catalogue "$dir" --shard "$SLURM_ARRAY_TASK_ID/$parts" --csv "$table.parts/$SLURM_ARRAY_TASK_ID-of-$parts.csv" \
    --jobs "${SLURM_CPUS_PER_TASK:-1}" --quiet 2>"$table.parts/$SLURM_ARRAY_TASK_ID-of-$parts.err" || status=$?
  # 1 is a refusal, no failure.
  [ "$status" -le 1 ]
  exit
fi

[ $# -ge 2 ] || { echo "use: $0 DIR TABLE [PARTS [WORDS FOR SBATCH..]]" >&2; exit 2; }
zorambi=$(command -v "${ZORAMBI:-zorambi}") || { echo "$0: no zorambi in PATH; ZORAMBI may name it" >&2; exit 2; }
command -v sbatch >/dev/null || { echo "$0: no sbatch (Debian: slurm-wlm)" >&2; exit 2; }
dir=$(realpath -- "$1")
table=$(realpath -m -- "$2")
parts=${3:-8}
shift 2
[ $# -eq 0 ] || shift
[[ $parts =~ ^[1-9][0-9]*$ ]] || { echo "$0: PARTS is a number from 1 on, not '$parts'" >&2; exit 2; }
mkdir -p "$table.parts"
export zorambi dir table parts

# Which parts have no table yet. A table gets its name when it is whole.
missing=$(for k in $(seq "$parts"); do [ -f "$table.parts/$k-of-$parts.csv" ] || echo "$k"; done | paste -sd ,)
if [ -n "$missing" ]; then
  sbatch --wait --export=ALL --array="$missing" "$@" "$0" ||
    echo "$0: some tasks failed; $table.parts/*.err may say why; run it again for these" >&2
fi
tables=()
for k in $(seq "$parts"); do
  [ ! -f "$table.parts/$k-of-$parts.csv" ] || tables+=("$table.parts/$k-of-$parts.csv")
done
[ ${#tables[@]} -gt 0 ] || { echo "$0: no part has a table" >&2; exit 2; }
exec "$zorambi" merge "${tables[@]}" --csv "$table"
