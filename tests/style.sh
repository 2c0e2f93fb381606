#!/usr/bin/env bash
# The layout and the lints: `rt fmt` for the proved crates, in a copy that it must leave as it is, rustfmt and clippy for the Rust around them, shellcheck for the shell
# scripts, and that each Python file is one for Python 3.9. A tool that is not installed is told, and what it would look at is not tried.
set -u
cd "$(dirname "$0")/.." || exit 2
scratch=$(mktemp -d) || exit 2
trap 'rm -rf "$scratch"' EXIT
passed=0
failed=0

check() { # WHAT COMMAND..
  if "${@:2}" >"$scratch/out" 2>&1; then
    passed=$((passed + 1))
  else
    failed=$((failed + 1))
    echo "failed: $1"
    head -n 60 "$scratch/out"
  fi
}
# Whether a tool is there; if not, says what is not tried.
have() { # TOOL WHAT
  command -v "$1" >/dev/null && return
  echo "NOT RUN: $2: $1 is not installed"
  return 1
}
files=$(git ls-files --cached --others --exclude-standard) || { echo "no list of files: git is needed"; echo "0 passed, 1 failed"; exit 1; }
# The files whose first line names one of these.
first_line() { # PATTERN
  local file
  while IFS= read -r file; do
    [ -f "$file" ] && [ ! -L "$file" ] && head -c 80 "$file" | head -n 1 | tr -d '\0' | grep -qE "$1" && echo "$file"
  done <<<"$files"
}

# `rt fmt` finds nothing to lay out in a crate.
laid_out() { # CRATE
  local part copy=$scratch/laid/$1
  mkdir -p "$copy"
  for part in src specs proofs; do
    [ ! -d "crates/$1/$part" ] || cp -r "crates/$1/$part" "$copy/" || return
  done
  (cd "$copy" && rt fmt) || return
  for part in src specs proofs; do
    [ ! -d "crates/$1/$part" ] || diff -r "crates/$1/$part" "$copy/$part" || return
  done
}
if have rt "the layout of .rt and .antt files"; then
  for crate in crates/*/; do check "rt fmt in $crate" laid_out "$(basename "$crate")"; done
fi

if have rustfmt "the layout of Rust"; then check "cargo fmt --check" cargo fmt --all --check; fi
if have cargo-clippy "clippy"; then
  if [ -f target/staticlib/libzorambi.a ]; then
    check "cargo clippy" cargo clippy --offline --quiet --workspace --all-targets --target-dir build -- -D warnings
  else
    echo "NOT RUN: clippy: the library is not made, './zorambi build' makes it"
  fi
fi

if have shellcheck "shell scripts"; then
  mapfile -t scripts < <(first_line '^#!.*\b(ba)?sh$')
  check "shell scripts are found" [ "${#scripts[@]}" -gt 10 ]
  for script in "${scripts[@]}"; do check "shellcheck $script" shellcheck "$script"; done
fi

mapfile -t sources < <({ grep '\.py$' <<<"$files"; first_line '^#!.*\bpython3$'; } | sort -u)
check "Python files are found" [ "${#sources[@]}" -gt 10 ]
for source in "${sources[@]}"; do
  check "$source" python3 -c 'import ast, sys; ast.parse(open(sys.argv[1]).read(), sys.argv[1], feature_version=(3, 9))' "$source"
done

echo "$passed passed, $failed failed"
[ "$failed" -eq 0 ]
