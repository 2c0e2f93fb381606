#!/usr/bin/env bash
# catalogue.sh DIR TABLE [PARTS [WORDS..]]: the catalogue of DIR by GNU parallel, in PARTS parts (8 if none is given), and their
# merge as TABLE. The parts' tables stay in TABLE.parts, so that after an interrupt only the missing ones are run again; remove
# that folder to check everything anew. WORDS go to parallel: with '--sshloginfile hosts' the parts run on several machines that see the same folders and have zorambi.
#
#   catalogue.sh records table.csv
#   catalogue.sh /firm/records table.csv 64 --sshloginfile hosts --workdir .
set -eu
[ $# -ge 2 ] || { echo "use: $0 DIR TABLE [PARTS [WORDS FOR PARALLEL..]]" >&2; exit 2; }
zorambi=$(command -v "${ZORAMBI:-zorambi}") || { echo "$0: no zorambi in PATH; ZORAMBI may name it" >&2; exit 2; }
command -v parallel >/dev/null || { echo "$0: no GNU parallel (Debian: parallel)" >&2; exit 2; }
dir=$(realpath -- "$1")
table=$(realpath -m -- "$2")
parts=${3:-8}
shift 2
[ $# -eq 0 ] || shift
[[ $parts =~ ^[1-9][0-9]*$ ]] || { echo "$0: PARTS is a number from 1 on, not '$parts'" >&2; exit 2; }
mkdir -p "$table.parts"

# Which parts have no table yet. A table gets its name when it is whole.
missing() {
  local k
  for k in $(seq "$parts"); do [ -f "$table.parts/$k-of-$parts.csv" ] || echo "$k"; done
}

# One thread a part: parallel has as many parts at work as there are cores. Of a part's exit status 1 is a refusal, no failure.
export zorambi dir table parts
PARALLEL_SHELL=$(command -v bash)
export PARALLEL_SHELL
# shellcheck disable=SC2016 # the variables are those of the shell that runs a part
missing | parallel --will-cite --env zorambi --env dir --env table --env parts "$@" \
  '"$zorambi" catalogue "$dir" --shard {}/"$parts" --csv "$table.parts/{}-of-$parts.csv" --jobs 1 --quiet; [ $? -le 1 ]' ||
  echo "$0: some parts failed; run it again for these" >&2
tables=()
for k in $(seq "$parts"); do
  [ ! -f "$table.parts/$k-of-$parts.csv" ] || tables+=("$table.parts/$k-of-$parts.csv")
done
[ ${#tables[@]} -gt 0 ] || { echo "$0: no part has a table" >&2; exit 2; }
exec "$zorambi" merge "${tables[@]}" --csv "$table"
