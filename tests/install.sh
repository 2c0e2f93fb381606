#!/usr/bin/env bash
# What is installed, in a temporary folder: examples in C by pkg-config alone, against either library, and every command with nothing in
# PATH but the system's folders. PROGRAM is the built program.
set -u
root=$(CDPATH='' cd -- "$(dirname -- "$0")/.." && pwd)
export PROGRAM=${PROGRAM:-$root/build/release/zorambi}
scratch=$(mktemp -d) || exit 2
trap 'chmod -R u+w "$scratch"; rm -rf "$scratch"' EXIT
passed=0
failed=0

check() { # WHAT CONDITION...
  local what=$1
  shift
  if "$@"; then
    passed=$((passed + 1))
  else
    failed=$((failed + 1))
    echo "failed: $what"
  fi
}
same() { # TEXT FILE
  [ "$1" = "$(cat "$2")" ]
}

# Installed under one name and moved to another, with a space: nothing points to where it was.
prefix="$scratch/a prefix"
"$root/tools/install.sh" "$scratch/first" >"$scratch/out" 2>&1
check "install" grep -q "^install: zorambi [0-9.]* is installed below $scratch/first$" "$scratch/out"
mv "$scratch/first" "$prefix"
records=$scratch/records
cp -r "$root/records" "$records"

# A system without the kit, cargo or the project: its own folders in PATH, and nothing else in the environment.
clean() { env -i PATH=/usr/bin:/bin HOME="$scratch" "$@"; }
zorambi() { (cd "$records" && clean "$prefix/bin/zorambi" "$@" 2>"$scratch/err"); }
no_kit() { ! clean sh -c 'command -v rt || command -v cargo' >/dev/null; }
if ! no_kit; then echo "the kit or cargo is in the system's own folders: that they are not needed is not shown here"; fi

# ---- C, by pkg-config alone
pkg() { env PKG_CONFIG_PATH="$prefix/lib/pkgconfig" pkg-config "$@" zorambi; }
if command -v pkg-config >/dev/null; then
  check "its version" [ "$(pkg --modversion)" = "$(clean "$prefix/bin/zorambi" --version | sed 's/^zorambi \([0-9.]*\),.*/\1/')" ]
  cp "$root"/examples/c/*.[ch] "$root"/examples/c/*.expected "$scratch"
  for name in check grow; do
    for way in shared static; do
      # pkg-config's quotes are a shell's
      flags=() libs=()
      eval "flags=($(pkg --cflags))" "libs=($(pkg --libs))"
      if [ "$way" = static ]; then libs=("$prefix/lib/libzorambi.a"); fi
      check "$name is compiled, $way" cc -std=c11 -Wall -Wextra -Werror "${flags[@]}" -o "$scratch/$name-$way" "$scratch/$name.c" "${libs[@]}"
      out=$(LD_LIBRARY_PATH=$prefix/lib "$scratch/$name-$way")
      check "$name says what it should, $way" same "$out" "$scratch/$name.expected"
    done
    check "$name is linked to the shared library" [ "$(LD_LIBRARY_PATH=$prefix/lib ldd "$scratch/$name-shared" | grep -c "$prefix/lib/libzorambi.so.0")" -eq 1 ]
    check "$name is not linked to it where it is static" [ "$(ldd "$scratch/$name-static" | grep -c libzorambi)" -eq 0 ]
  done
else
  echo "not tried: pkg-config is not installed"
fi

# ---- Python, with nothing of the project: the package finds the library from where it is
if python3 -c 'import sys; sys.exit(sys.version_info < (3, 9))' 2>/dev/null; then
  python() { (cd "$scratch" && env -u ZORAMBI_LIBRARY PYTHONPATH="$prefix/lib/python3" PYTHONDONTWRITEBYTECODE=1 python3 "$@"); }
  check "Python is told of" grep -q "^install: for Python: export PYTHONPATH=$scratch/first/lib/python3$" "$scratch/out"
  mkdir "$scratch/paper"
  out=$(python "$prefix/share/zorambi/examples/paper.py" paper)
  check "Python: the paper's record" [ "$out" = "accepted: 7 nodes, 1 link" ]
  for name in schema.txt proof.txt; do
    check "Python: its $name" cmp -s "$scratch/paper/$name" "$root/records/paper/some_and_none/$name"
  done
  out=$(python -c 'import zorambi; print(zorambi.library_file())')
  check "Python: the installed library" [ "$out" = "$(realpath "$prefix")/lib/libzorambi.so.0" ]
  check "Python: all of the package" diff -r -x __pycache__ "$root/bindings/python/zorambi" "$prefix/lib/python3/zorambi"
else
  echo "not tried: python3 is not installed, or older than 3.9"
fi

# The shared library has the entries of the header and no others, and needs no change of its code at loading.
nm -D --defined-only "$prefix/lib/libzorambi.so" | awk '{ print $3 }' | sort >"$scratch/has"
grep -oE '^(uint64_t|void) zorambi_[a-z_]+\(' "$prefix/include/zorambi.h" | sed 's/.* //; s/(//' | sort >"$scratch/declared"
check "the shared library has the header's entries" cmp -s "$scratch/has" "$scratch/declared"
check "there are 23 at least" [ "$(wc -l <"$scratch/has")" -ge 23 ]
check "it is position independent" [ "$(readelf -d "$prefix/lib/libzorambi.so" | grep -c TEXTREL)" -eq 0 ]

# ---- every command
for command in $(zorambi help | sed -n '/^and /q; s/^  \([a-z]*\) .*/\1/p'); do
  zorambi "$command" --help >"$scratch/help"
  check "$command --help" [ $? -eq 0 ]
  check "$command has a page" [ -s "$prefix/share/man/man1/zorambi-$command.1" ]
  if command -v man >/dev/null; then
    man -l --warnings "$prefix/share/man/man1/zorambi-$command.1" >"$scratch/page" 2>"$scratch/err"
    check "$command: its page has no mistakes" [ ! -s "$scratch/err" ]
    # The words of the help, those of the page: the same, but for the titles and what the page says besides.
    words() { tr -cs '[:alnum:]\\/_.-' '\n' | grep -vE '^(use|options|for|instance|NAME|SYNOPSIS|DESCRIPTION|OPTIONS|EXAMPLES)$' | sort -u; }
    lost=$(comm -23 <(words <"$scratch/help") <(MANWIDTH=1000 man -l "$prefix/share/man/man1/zorambi-$command.1" 2>/dev/null | words))
    check "$command: the words of its help are in its page: $lost" [ -z "$lost" ]
  fi
  done_commands="${done_commands-} $command"
done
check "the commands that are run here are all there are" \
  [ "${done_commands-}" = " check model show explain catalogue merge find widths dimacs verilog compile convert small tidy join grow edit help" ]
check "a page of the whole" grep -q '^.BR zorambi\\-catalogue (1)$' "$prefix/share/man/man1/zorambi.1"

check "check" same "$(zorambi check accepted/rca_zero)" <(printf 'answer place nodes links\n0 0 65 3\n')
zorambi check refused/open_clash >"$scratch/out"
check "check: refused" [ $? -eq 1 ]
check "check: its line" grep -q '^proof.txt:6: 1 6 0 1 -1 -1 0 0 1$' "$scratch/err"
check "check --older" same "$(zorambi check --older tidy/rows_twice)" <(printf 'answer place nodes links\n0 0 8 1\n')
model=$(cd "$records" && dirname "$(find refused -name model.txt | sort | head -n 1)")
zorambi model "$model" >"$scratch/out"
check "model" [ $? -eq 0 ]
zorambi explain refused/open_clash >"$scratch/out"
check "explain" grep -q '^14: node 3 knows n >= 4: row 0 ' "$scratch/out"
zorambi catalogue . --csv "$scratch/t.csv" --failed >"$scratch/out"
check "catalogue" [ $? -eq 1 ]
zorambi merge "$scratch/t.csv" --csv "$scratch/m.csv" >"$scratch/out"
check "merge" cmp -s "$scratch/t.csv" "$scratch/m.csv"
zorambi find "$model" "$(sed -n 2p "$records/$model/model.txt")" >"$scratch/model"
check "find" [ "$(head -n 1 "$scratch/model")" = n ]
printf '#!/bin/sh\nexit 20\n' >"$scratch/solver"
chmod +x "$scratch/solver"
check "widths" [ "$(zorambi widths --solver "$scratch/solver" accepted/rca_zero 2 2)" = "n = 2: no model, the solver's word" ]
zorambi dimacs accepted/rca_zero 2 >"$scratch/out"
check "dimacs" grep -q '^p cnf ' "$scratch/out"
zorambi verilog accepted/rca_zero 2 >"$scratch/out"
check "verilog" grep -q '^module schema_at_2 ' "$scratch/out"
zorambi convert wide/differs_from_itself >"$scratch/out"
check "convert" cmp -s "$scratch/out" "$records/wide/differs_from_itself/schema.txt"
check "small" [ "$(zorambi small 2 --count)" = 340 ]
zorambi tidy tidy/rows_twice >"$scratch/out"
check "tidy" cmp -s "$scratch/out" "$records/tidy/rows_once/proof.txt"
zorambi join accepted/chain_531 accepted/cmp_transitive "$scratch/joined"
check "join" same "$(zorambi check "$scratch/joined")" <(printf 'answer place nodes links\n0 0 71 2\n')
check "grow" [ "$(zorambi grow accepted/rca_zero </dev/null | tail -n 1 | cut -d ' ' -f 1-5)" = "0 0 65 3 closed" ]
# The editor answers with its page, and is ended from there.
edited() {
  cp -r "$records/paper/some_and_none" "$scratch/edited" && clean python3 -c '
import subprocess, sys, urllib.request
with subprocess.Popen([sys.argv[1], "edit", "--no-browser", sys.argv[2]], stdout=subprocess.PIPE, text=True) as editor:
    address = editor.stdout.readline().strip()
    page = urllib.request.urlopen(address, timeout=20).read()
    end = urllib.request.Request(address + "do", b"{\"do\":\"end\"}", {"Content-Type": "application/json"})
    urllib.request.urlopen(end, timeout=20).close()
    sys.exit(editor.wait(20) or b"<title>zorambi edit</title>" not in page)' "$prefix/bin/zorambi" "$scratch/edited" 2>"$scratch/err"
}
if clean python3 -c 'import sys; sys.exit(sys.version_info < (3, 9))' 2>/dev/null; then
  check "edit" edited
else
  zorambi edit accepted/rca_zero >"$scratch/out"
  check "edit without Python" [ $? -eq 2 ]
fi
check "--version" grep -qE '^zorambi [0-9.]+, library [0-9a-f]{16}, rattle logic [0-9a-f]{16}$' <(zorambi --version)

# Through a link, and in a folder that nobody may write to.
ln -s "$prefix/bin/zorambi" "$scratch/link"
chmod -R a-w "$prefix"
out=$(cd "$records" && clean "$scratch/link" check accepted/rca_zero)
check "check through a link" [ "$out" = $'answer place nodes links\n0 0 65 3' ]

# ---- completion
completed() { # WORDS
  # shellcheck disable=SC2016 # these are the inner shell's
  clean bash -c '
    source "$1"; shift
    COMP_WORDS=("$@") COMP_CWORD=$(($# - 1)) COMPREPLY=()
    _zorambi
    echo "${COMPREPLY[*]}"' bash "$prefix/share/bash-completion/completions/zorambi" "$@"
}
check "completion of a command" [ "$(completed zorambi cat)" = catalogue ]
check "completion of an option" [ "$(completed zorambi catalogue --sh)" = --shard ]
check "completion of a name" [ "$(cd "$root" && completed zorambi check rec)" = records ]
check "completion of no script's command" [ -z "$(completed zorambi fuz)" ]

# ---- what cannot be
"$root/tools/install.sh" >"$scratch/out" 2>&1
check "no PREFIX" [ $? -eq 2 ]
touch "$scratch/file"
"$root/tools/install.sh" "$scratch/file/below" >"$scratch/out" 2>&1
check "a PREFIX that cannot be: status" [ $? -eq 2 ]
check "a PREFIX that cannot be: words" grep -q '^install: not everything is installed below ' "$scratch/out"
PROGRAM=$scratch/nowhere "$root/tools/install.sh" "$scratch/other" >"$scratch/out" 2>&1
check "nothing built: status" [ $? -eq 2 ]
check "nothing built: words" grep -q 'nowhere is missing' "$scratch/out"
check "nothing built: nothing installed" [ ! -e "$scratch/other" ]
(cd "$scratch" && DESTDIR=$scratch/dest "$root/tools/install.sh" relative >"$scratch/out" 2>&1)
check "DESTDIR and a relative PREFIX" [ -x "$scratch/dest$scratch/relative/bin/zorambi" ]

echo "$passed passed, $failed failed"
[ "$failed" -eq 0 ]
