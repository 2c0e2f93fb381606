#!/usr/bin/env bash
# The package for Python: its tests, beside the crate for Rust, by each Python from 3.9 on that is found (python3, python3.9, that of the
# system, which may have numpy where another has not); its words, which are the crate's; its types, where mypy is installed; the example.
set -u
cd "$(dirname "$0")/.." || exit 2
work=$(mktemp -d) || exit 2
trap 'rm -rf "$work"' EXIT
passed=0
failed=0
unset ZORAMBI_LIBRARY ZORAMBI_BESIDE PYTHONPATH
export PYTHONDONTWRITEBYTECODE=1

check() { # WHAT COMMAND..
  if "${@:2}" >"$work/out" 2>&1; then
    passed=$((passed + 1))
  else
    failed=$((failed + 1))
    echo "failed: $1"
    tail -n 20 "$work/out"
  fi
}

if ! { ./zorambi build && cargo build --release --offline --quiet --target-dir build -p zorambi-beside; }; then
  echo "the library or the program beside it is not made"
  echo "0 passed, 1 failed"
  exit 1
fi

# Each Python once, by where it really is.
declare -A seen=()
pythons=()
for python in python3 python3.9 /usr/bin/python3 "${PYENV_ROOT:-$HOME/.pyenv}"/versions/3.9.*/bin/python3; do
  found=$("$python" -c 'import os, sys; print(os.path.realpath(sys.executable)); sys.exit(sys.version_info < (3, 9))' 2>/dev/null) || continue
  [ -n "${seen[$found]-}" ] || pythons+=("$found")
  seen[$found]=1
done

# Its tests; warnings are errors.
package_tests() { # PYTHON
  local line
  echo "the package for Python, by $("$1" --version)"
  (cd bindings/python && "$1" -W error -m tests) >"$work/tests" 2>&1
  grep -v '^[0-9]* passed, [0-9]* failed$' "$work/tests" | grep -vE '^(-+|Ran .*|OK.*|)$'
  line=$(grep -E '^[0-9]+ passed, [0-9]+ failed$' "$work/tests" | tail -n 1)
  if [ -z "$line" ]; then
    failed=$((failed + 1))
    echo "no line 'N passed, M failed' from the tests"
    return
  fi
  passed=$((passed + ${line%% *}))
  line=${line#*, }
  failed=$((failed + ${line%% *}))
}
for python in "${pythons[@]}"; do package_tests "$python"; done
check "there is a Python from 3.9 on" [ "${#pythons[@]}" -gt 0 ]

build/release/python-refusals >"$work/refusals.py"
check "the words are the crate's ('cargo run -p zorambi-beside --bin python-refusals' prints bindings/python/zorambi/refusals.py anew)" \
  diff "$work/refusals.py" bindings/python/zorambi/refusals.py

mkdir "$work/paper"
paper() { PYTHONPATH=bindings/python "${pythons[0]}" examples/python/paper.py "$work/paper"; }
check "the example" [ "$(paper)" = "accepted: 7 nodes, 1 link" ]
for name in schema.txt proof.txt; do
  check "the example's $name" cmp "$work/paper/$name" "records/paper/some_and_none/$name"
done

if command -v mypy >/dev/null; then
  check "types" mypy --strict --cache-dir "$work/mypy" bindings/python/zorambi
else
  echo "not tried: mypy is not installed"
fi

echo "$passed passed, $failed failed"
[ "$failed" -eq 0 ]
