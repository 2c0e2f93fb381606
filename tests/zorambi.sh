#!/usr/bin/env bash
# The script ./zorambi by itself, with stand-ins for rt, for cargo and for what they make: when it proves and builds again, what it says
# meanwhile, and how it hands over.
set -u
cd "$(dirname "$0")/.." || exit 2
work=$(mktemp -d) || exit 2
trap 'chmod -R u+w "$work" && rm -rf "$work"' EXIT
passed=0
failed=0

# A repository of six crates: the program check_proof is made of two of them, check_older of three, the library of two.
repo=$work/repo
mkdir -p "$work/kit" "$work/tmp" "$work/record" "$repo/crates/low/src" "$repo/crates/low/must-fail" "$repo/crates/check_proof/src" \
  "$repo/crates/low/specs" "$repo/crates/low/proofs" "$repo/crates/zorambi" "$repo/crates/check_older" "$repo/crates/check_model" \
  "$repo/bindings/rust" "$repo/tools/zorambi/src" "$repo/.cargo" "$repo/tests"
cp zorambi "$repo/zorambi"
printf '# NAME: what it depends on\nlow:\nother: low\nzorambi staticlib: low\ncheck_proof: low json\ncheck_older: low other json\ncheck_model: low\n' >"$repo/crates.txt"
echo one >"$repo/crates/low/src/lib.rt"
echo two >"$repo/crates/low/src/more.rt"
echo three >"$repo/crates/check_proof/src/main.rt"
echo a definition >"$repo/crates/low/specs/words.antt"
echo a proof >"$repo/crates/low/proofs/laws.antt"
echo four >"$repo/tools/zorambi/src/main.rs"
touch "$repo/Cargo.toml" "$repo/Cargo.lock" "$repo/.cargo/config.toml"

# rt's stand-in notes each proof and makes what it is asked for, in the crate's folder that it stands in; `during` is run at the top while
# it proves. A program is run too, and rt ends with its status.
cat >"$work/kit/rt" <<'R'
#!/bin/sh
at=$(dirname "$0")/..
[ "$1" = version ] && exec cat "$at/version"
name=${PWD##*/}
echo "$1 $name" >>"$at/proofs"
echo "fn low::f: proved"
echo "logic=proved functions=1 sum=0"
(cd ../.. && sh "$at/during") || { echo "logic=not-proved"; exit 1; }
mkdir -p out
if [ "$1" = run ]; then
  echo "$name" >"out/$name"
  echo "logic=proved functions=2 sum=0"
  exit 1
fi
[ "$1" = lib ] || exit 2
echo made >"out/lib$name.a"
echo "logic=proved functions=3 sum=0"
R
# cargo's stand-in notes each package and makes its program. The words that are right begin with a command's name; the program says where
# it is run, by which process, and with which words.
cat >"$work/kit/cargo" <<'R'
#!/bin/sh
at=$(dirname "$0")/..
for package; do :; done
echo "$package" >>"$at/builds"
package=$package sh "$at/building" || exit 101
mkdir -p build/release
case $package in
  zorambi-commands) made=zorambi-use text='case $1 in check | model | find | build | test | fuzz | bench | install) exit 3 ;; help) echo help ;; *) echo wrong >&2; exit 2 ;; esac' ;;
  zorambi-cli) made=zorambi text='echo "$PWD: $*"; [ "$1" != find ] || { echo "$$"; exec sleep 30; }; [ "$2" != refused ]' ;;
  *) exit 0 ;;
esac
printf '#!/bin/sh\n%s\n' "$text" >"build/release/$made"
chmod +x "build/release/$made"
R
chmod +x "$work/kit/rt" "$work/kit/cargo"
# The script of the shared library notes what it is given, and makes that.
cat >"$repo/tools/shared.sh" <<R
#!/bin/sh
echo "\$*" >>"$work/sharing"
sh "$work/linking" && mkdir -p build/lib && echo shared >"\$1"
R
chmod +x "$repo/tools/shared.sh"
: >"$work/linking"
echo kit-1 >"$work/version"
: >"$work/during"
: >"$work/building"

# Runs ./zorambi: what it prints, says and ends with, how often rt proved and what cargo built.
zorambi=./zorambi
from=$repo
path=$work/kit:$PATH
use() { # WORD...
  : >"$work/proofs"
  : >"$work/builds"
  : >"$work/sharing"
  (cd "$from" && TMPDIR=$work/tmp PATH=$path "$zorambi" "$@") >"$work/out" 2>"$work/err"
  status=$?
  proofs=$(wc -l <"$work/proofs")
  builds=$(tr '\n' ' ' <"$work/builds")
}
check() {
  use check "$work/record"
}

# One expectation.
expect() { # NAME TEST...
  local name=$1
  shift
  if "$@"; then
    passed=$((passed + 1))
  else
    failed=$((failed + 1))
    echo "$name: exit status $status, $proofs proofs, built: $builds; printed: $(tr '\n' '|' <"$work/out"); said: $(tr '\n' '|' <"$work/err")"
  fi
}
ended() { # STATUS PROOFS BUILDS
  [ "$status" -eq "$1" ] && [ "$proofs" -eq "$2" ] && [ "$builds" = "$3" ]
}
said() { # LINE...
  printf '%s\n' "$@" | cmp -s - "$work/err"
}
printed() { # LINE...
  printf '%s\n' "$@" | cmp -s - "$work/out"
}
shares() { # TIMES
  yes "build/lib/libzorambi.so libzorambi.so" | head -n "$1" | cmp -s - "$work/sharing"
}
says() { # TEXT
  grep -qF -- "$1" "$work/err"
}

# ---- when it proves and builds, and what it says

some_minutes="first; from nothing this takes some minutes"
words="zorambi-commands "
program="zorambi-cli "
check
expect "first use" ended 0 2 "$words$program"
expect "first use, what is said" said "proving and building check_proof $some_minutes" "proved 1 of at most 2 crates" "proved 2 of at most 2 crates" \
  "proving and building zorambi $some_minutes" "proved 1 of at most 2 crates" "proved 2 of at most 2 crates" "building the program"
expect "first use, what is printed" printed "$repo: check $work/record"
check
expect "second use" ended 0 0 ""
expect "second use, what is said" cmp -s "$work/err" /dev/null
use check refused
expect "the exit status is the program's" ended 1 0 ""

# A change, then a use that makes what is wanted, then one that makes nothing.
changed() { # NAME PROOFS BUILDS
  check
  expect "$1" ended 0 "$2" "$3"
  check
  expect "$1, used again" ended 0 0 ""
}
# The library that the kit makes is always the same here, so that the program is built again only where its own sources or kit change.
echo two more >>"$repo/crates/low/src/more.rt"
changed "a source edited" 2 "$words"
echo another definition >"$repo/crates/low/specs/words.antt"
changed "a definition edited" 2 "$words"
echo another proof >"$repo/crates/low/proofs/laws.antt"
changed "a proof edited" 2 "$words"
echo one >"$repo/crates/low/src/lib.rt.new"
touch -d '2001-01-01' "$repo/crates/low/src/lib.rt.new"
mv "$repo/crates/low/src/lib.rt.new" "$repo/crates/low/src/new.rt"
changed "a source added that is old" 2 "$words"
mv "$repo/crates/low/src/new.rt" "$repo/crates/low/src/newer.rt"
changed "a source renamed" 2 "$words"
rm "$repo/crates/low/src/more.rt"
changed "a source deleted" 2 "$words"
echo '# a remark' >>"$repo/crates.txt"
changed "the list of crates edited" 2 "$words"
echo kit-2 >"$work/version"
changed "another kit" 2 "$words$program"
echo '# by hand' >>"$repo/target/bin/check_proof"
changed "another program in its place" 1 "$words"
rm "$repo/target/bin/check_proof"
changed "the program deleted" 1 "$words"
echo other >>"$repo/target/staticlib/libzorambi.a"
changed "another library in its place" 1 "$words"
rm -r "$repo/target/made"
changed "what it was made of is not known" 2 "$words"
echo five >>"$repo/tools/zorambi/src/main.rs"
changed "a file of the tools edited" 0 "$words$program"
echo six >"$repo/bindings/rust/lib.rs"
changed "a file of the binding added" 0 "$words$program"
for file in Cargo.lock Cargo.toml .cargo/config.toml; do
  echo '# a remark' >>"$repo/$file"
  changed "$file edited" 0 "$words$program"
done
echo '# by hand' >>"$repo/build/release/zorambi"
changed "another program zorambi in its place" 0 "$words$program"
echo 'an edit' >"$repo/crates/low/must-fail/wrong.edit"
check
expect "a must-fail edit is no source" ended 0 0 ""

echo "echo meanwhile >>crates/low/src/lib.rt; : >$work/during" >"$work/during"
echo four >>"$repo/crates/low/src/lib.rt"
check
expect "a source edited while it proves" ended 0 2 "$words"
check
expect "a source edited while it proved" ended 0 1 "$words"
check
expect "a source edited while it proved, used again" ended 0 0 ""
echo "echo meanwhile >>tools/zorambi/src/main.rs" >"$work/building"
echo seven >>"$repo/tools/zorambi/src/main.rs"
check
expect "a file edited while it builds" ended 0 0 "$words$program"
: >"$work/building"
changed "a file edited while it was built" 0 "$words$program"

echo false >"$work/during"
echo five >>"$repo/crates/low/src/lib.rt"
check
expect "not proved" ended 2 1 "$words"
expect "not proved, what is said" said "proving and building check_proof $some_minutes" "proved 1 of at most 2 crates" "fn low::f: proved" \
  "logic=proved functions=1 sum=0" "logic=not-proved" "check_proof is not proved"
expect "not proved, nothing is printed" cmp -s "$work/out" /dev/null
check
expect "still not proved" ended 2 1 "$words"
: >"$work/during"
changed "proved again" 2 "$words"
echo eight >>"$repo/tools/zorambi/src/main.rs"
echo "[ \"\$package\" = zorambi-commands ]" >"$work/building"
check
expect "not built" ended 2 0 "$words$program"
expect "not built, what is said" said "building the program" "zorambi: the program is not built"
: >"$work/building"
changed "built again" 0 "$words$program"

# ---- which proved program it is

use check --older "$work/record"
expect "an older record" ended 0 1 "$words"
expect "an older record, what is proved" grep -qx 'run check_older' "$work/proofs"
expect "an older record, what is said" said "proving and building check_older $some_minutes" "proved 1 of at most 3 crates" "proved 2 of at most 3 crates"
use check "$work/record" --older
expect "an older record again" ended 0 0 ""
rm "$repo/target/bin/check_proof"
use check --older "$work/record"
expect "an older record does not want the other program" ended 0 0 ""
use check -- --older
expect "a folder called --older" ended 0 1 "$words"
expect "a folder called --older, what is proved" grep -qx 'run check_proof' "$work/proofs"
use model "$work/record"
expect "a model" grep -qx 'run check_model' "$work/proofs"
rm -r "$repo/target/bin"
use build
expect "build" ended 0 3 "$words"
expect "build, nothing is printed" cmp -s "$work/out" /dev/null
expect "build makes the shared library" shares 1
use build
expect "build again makes it no more" shares 0
echo by hand >>"$repo/build/lib/libzorambi.so"
use build
expect "another shared library in its place" shares 1
echo '# a remark' >>"$repo/tools/shared.sh"
use build
expect "its script edited" shares 1
rm "$repo/build/lib/libzorambi.so"
echo false >"$work/linking"
use build
expect "the shared library is not made" ended 2 0 "$words"
expect "the shared library is not made, what is said" said "zorambi: the shared library is not made"
: >"$work/linking"
use build
expect "the shared library is made again" shares 1
check
expect "after build" ended 0 0 ""
expect "only build makes the shared library" shares 0

# ---- wrong words, and help, prove nothing

rm -r "$repo/target" "$repo/build"
use chekc "$work/record"
expect "a wrong word" ended 2 0 "$words"
expect "a wrong word, what is said" said wrong
use
expect "no word" ended 2 0 "$words"
use help
expect "help" ended 0 0 "$words"
expect "help, what is printed" printed help
check
use help
expect "help once the program is there" printed "$repo: help"

# ---- where it is called from, and by whom

ln -s "$repo/zorambi" "$work/a link"
ln -s "a link" "$work/a link to it"
mkdir "$work/elsewhere"
for zorambi in "$work/a link" "$work/a link to it" ../repo/zorambi; do
  from=$work/elsewhere
  CDPATH=$work use check record
  expect "from elsewhere by $zorambi" ended 0 0 ""
  expect "from elsewhere by $zorambi, where it is run" printed "$work/elsewhere: check record"
done
zorambi=$repo/zorambi
from=$work/elsewhere

# Without the kit, and without cargo: all goes on that is made, and what is missing is told.
mkdir "$work/system"
for tool in bash sh dirname realpath sha256sum find sort cat mkdir rm mktemp tee tail awk sleep chmod; do ln -s "$(command -v "$tool")" "$work/system"; done
path=$work/system
check
expect "without kit and cargo" ended 0 0 ""
rm "$repo/target/bin/check_proof"
check
expect "without kit and cargo, where something is to be made" ended 2 0 ""
expect "without cargo, what is said" said "zorambi: cargo is not on the PATH: it builds the program"
ln -s "$work/kit/cargo" "$work/system"
sed -i "s|^at=.*|at=$work|" "$work/kit/cargo"
check
expect "without the kit, where something is to be proved" ended 2 0 "$words"
expect "without the kit, what is said" said "zorambi: rt is not on the PATH: the Rattle kit is missing, which proves and builds check_proof"
path=$work/kit:$PATH
check
expect "with the kit" ended 0 1 "$words"

# As another user, in a folder that cannot be written: nothing is written, and nothing is called that would.
before=$(find "$repo" -printf '%p %m %s %T@\n' | LC_ALL=C sort)
chmod -R a-w "$repo"
chmod -R a+rX "$work"
as_another=()
[ "$(id -u)" -ne 0 ] || as_another=(setpriv --reuid=65534 --regid=65534 --clear-groups)
(cd / && PATH=$path TMPDIR=$work/none "${as_another[@]}" "$repo/zorambi" check "$work/record") >"$work/out" 2>"$work/err"
status=$?
expect "as another user in a folder that cannot be written" ended 0 1 "$words"
expect "as another user, what is printed" printed "/: check $work/record"
expect "as another user, nothing is said" cmp -s "$work/err" /dev/null
chmod -R u+w "$repo"
expect "nothing is written" [ "$before" = "$(find "$repo" -printf '%p %m %s %T@\n' | LC_ALL=C sort)" ]

# The program takes the script's place, so that a signal reaches it.
(cd "$from" && PATH=$path exec "$zorambi" find x) >"$work/out" 2>"$work/err" &
script=$!
for _ in $(seq 100); do
  [ "$(wc -l <"$work/out")" -ge 2 ] && break
  sleep 0.1
done
status=0
expect "the program has the script's process" [ "$(sed -n 2p "$work/out")" = "$script" ]
kill "$script" && wait "$script" 2>/dev/null
status=$?
expect "a signal ends it" [ "$status" -eq 143 ]

# ---- its own commands

for name in gate fuzz bench; do
  # shellcheck disable=SC2016
  printf '#!/bin/sh\necho "%s in $PWD: $*"\n' "$name" >"$repo/tests/$name.sh"
  chmod +x "$repo/tests/$name.sh"
done
use test
expect "test" printed "gate in $repo: "
expect "test proves nothing itself" ended 0 0 "$words"
use fuzz 7
expect "fuzz" printed "fuzz in $repo: 7"
rm "$repo/target/staticlib/libzorambi.a"
use bench
expect "bench" printed "bench in $repo: "
expect "bench wants the library" ended 0 1 "$words"
# shellcheck disable=SC2016
printf '#!/bin/sh\necho "$PROGRAM in $PWD: $*"\n' >"$repo/tools/install.sh"
chmod +x "$repo/tools/install.sh"
rm -r "$repo/target/bin"
use install "a prefix"
expect "install wants the three programs" ended 0 3 "$words$program"
expect "install, from where the caller stands" printed "$repo/build/release/zorambi in $from: a prefix"

expect "nothing is left in the temporary folder" [ -z "$(ls -A "$work/tmp")" ]
expect "at most 200 lines" [ "$(wc -l <zorambi)" -le 200 ]

echo "$passed passed, $failed failed"
[ "$failed" -eq 0 ]
