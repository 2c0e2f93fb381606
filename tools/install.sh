#!/usr/bin/env bash
# install.sh PREFIX: puts what is proved and built below PREFIX, where it needs neither the kit nor cargo. ./zorambi install
# proves and builds first. PROGRAM is the built program; with DESTDIR everything goes below that, as packagers want it.
set -eu
root=$(CDPATH='' cd -- "$(dirname -- "$0")/.." && pwd)
program=${PROGRAM:-$root/build/release/zorambi}
library=$root/target/staticlib/libzorambi.a
proved=("$root/target/bin/check_proof" "$root/target/bin/check_older" "$root/target/bin/check_model")

say() { printf 'install: %s\n' "$*" >&2; }
if [ $# -ne 1 ] || [ -z "$1" ]; then
  say "use: install.sh PREFIX"
  exit 2
fi
case $1 in /*) prefix=$1 ;; *) prefix=$PWD/$1 ;; esac
for file in "$program" "$library" "${proved[@]}"; do
  [ -f "$file" ] || { say "$file is missing: './zorambi install PREFIX' makes it first"; exit 2; }
done
scratch=$(mktemp -d)
trap 'rm -rf "$scratch"' EXIT
trap 'say "not everything is installed below $prefix"; exit 2' ERR

version=$("$program" --version | sed -n '1s/^zorambi \([0-9.]*\),.*/\1/p')
[ -n "$version" ] || { say "$program does not say its version"; exit 2; }
to=${DESTDIR-}$prefix

shared=libzorambi.so.$version
soname=libzorambi.so.${version%%.*}
"$root/tools/shared.sh" "$scratch/$shared" "$soname"

# The commands that the program has, without those of ./zorambi.
commands() { "$program" help | sed -n '/^and /q; s/^  \([a-z]*\) .*/\1/p'; }

# The page of a command, of the words of its help. Each kind of line of the help is one here.
page() { # COMMAND
  "$program" help "$1" | awk -v name="$1" -v version="$version" -v about="$("$program" help --list | awk -F '\t' -v n="$1" '$1 == n { print $2 }')" '
    function roff(text) {
      gsub(/\\/, "\\e", text)
      gsub(/-/, "\\-", text)
      return text ~ /^[.\047]/ ? "\\&" text : text
    }
    BEGIN {
      printf ".TH ZORAMBI-%s 1 \"\" \"zorambi %s\"\n.SH NAME\nzorambi-%s \\- %s\n", toupper(name), version, name, roff(about)
    }
    /^use: / { print ".SH SYNOPSIS\n" roff(substr($0, 6)) "\n.SH DESCRIPTION"; next }
    /^options:$/ { print ".SH OPTIONS"; part = "options"; next }
    /^for instance:$/ { print ".SH EXAMPLES"; part = "examples"; next }
    part == "options" && /^  -/ {
      line = substr($0, 3)
      match(line, /  +/)
      print ".TP\n.B " roff(substr(line, 1, RSTART - 1)) "\n" roff(substr(line, RSTART + RLENGTH))
      next
    }
    part == "examples" && /^  [^ ]/ { print ".TP\n.B " roff(substr($0, 3)); next }
    /^$/ { if (part == "") print ".PP"; next }
    { sub(/^ */, ""); print roff($0) }
    END { print ".SH SEE ALSO\n.BR zorambi (1)" }'
}

# The page of the whole: its commands, a line each.
overview() {
  printf '.TH ZORAMBI 1 "" "zorambi %s"\n.SH NAME\nzorambi \\- the proved check of schema tableaux\n' "$version"
  printf '.SH SYNOPSIS\nzorambi COMMAND ..\n.SH COMMANDS\n'
  local name
  for name in $(commands); do
    printf '.TP\n.BR zorambi\\-%s (1)\n' "$name"
    "$program" help --list | awk -F '\t' -v n="$name" '$1 == n { gsub(/-/, "\\-", $2); print $2 }'
  done
  printf '.SH EXIT STATUS\n0 for success and acceptance, 1 for a refusal, 2 for wrong use or a failure.\n'
}

# What bash completes: commands, options, and files and folders.
completion() {
  cat <<'B'
# Completion of zorambi for bash, made of the words of its help.
_zorambi() {
  local word=${COMP_WORDS[COMP_CWORD]} options=''
B
  printf '  local commands="%s --help --version"\n' "$(commands | paste -sd ' ')"
  cat <<'B'
  if [ "$COMP_CWORD" -eq 1 ]; then
    mapfile -t COMPREPLY < <(compgen -W "$commands" -- "$word")
    return
  fi
  case ${COMP_WORDS[1]} in
B
  "$program" help --list | awk -F '\t' '{ printf "    %s) options=\"%s --help\" ;;\n", $1, $3 }'
  cat <<'B'
  esac
  case $word in
    -*) mapfile -t COMPREPLY < <(compgen -W "$options" -- "$word") ;;
    *) mapfile -t COMPREPLY < <(compgen -f -- "$word") ;;
  esac
}
complete -o filenames -F _zorambi zorambi
B
}

# Files are put in place whole: install removes an old one before it writes.
install -d "$to/bin" "$to/libexec/zorambi/edit" "$to/lib/pkgconfig" "$to/lib/python3/zorambi" "$to/include" "$to/share/man/man1" \
  "$to/share/bash-completion/completions" "$to/share/zorambi/examples"
install -m 755 "$program" "$to/bin/zorambi"
install -m 755 "${proved[@]}" "$to/libexec/zorambi"
install -m 644 "$root"/tools/zorambi/edit/*.py "$to/libexec/zorambi/edit"
install -m 644 "$library" "$to/lib"
install -m 755 "$scratch/$shared" "$to/lib"
ln -sfn "$shared" "$to/lib/$soname"
ln -sfn "$soname" "$to/lib/libzorambi.so"
install -m 644 "$root/include/zorambi.h" "$to/include"
install -m 755 "$root/examples/slurm/catalogue.sh" "$to/share/zorambi/examples/slurm-catalogue.sh"
install -m 755 "$root/examples/parallel/catalogue.sh" "$to/share/zorambi/examples/parallel-catalogue.sh"

# The package for Python finds libzorambi.so.0 two folders above its own, so that PREFIX can be moved.
install -m 644 "$root"/bindings/python/zorambi/*.py "$root/bindings/python/zorambi/py.typed" "$to/lib/python3/zorambi"
install -m 755 "$root/examples/python/paper.py" "$to/share/zorambi/examples/paper.py"

# The folder is told from where the file is, so that PREFIX can be moved.
cat >"$scratch/zorambi.pc" <<PC
prefix=\${pcfiledir}/../..
libdir=\${prefix}/lib
includedir=\${prefix}/include

Name: zorambi
Description: The proved check of schema tableaux, the model check, and what makes models, schemata and records
Version: $version
Libs: -L\${libdir} -lzorambi
Cflags: -I\${includedir}
PC
install -m 644 "$scratch/zorambi.pc" "$to/lib/pkgconfig"

overview >"$scratch/zorambi.1"
for name in $(commands); do page "$name" >"$scratch/zorambi-$name.1"; done
install -m 644 "$scratch"/*.1 "$to/share/man/man1"
completion >"$scratch/zorambi"
install -m 644 "$scratch/zorambi" "$to/share/bash-completion/completions"

say "zorambi $version is installed below $prefix"
say "for Python: export PYTHONPATH=$prefix/lib/python3"
