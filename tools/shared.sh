#!/usr/bin/env bash
# shared.sh OUT SONAME: the shared library, of the code of the proved static one. It is put in place whole.
set -eu
root=$(CDPATH='' cd -- "$(dirname -- "$0")/.." && pwd)
library=$root/target/staticlib/libzorambi.a
if [ $# -ne 2 ]; then
  echo "use: shared.sh OUT SONAME" >&2
  exit 2
fi
mkdir -p "$(dirname -- "$1")"
new=$(mktemp "$1.XXXXXX")
trap 'rm -f "$new"' EXIT
# '-z text' fails if the code were not position independent.
cc -shared -o "$new" -Wl,-soname,"$2" -Wl,-z,text -Wl,-z,defs -Wl,--whole-archive "$library" -Wl,--no-whole-archive
chmod 755 "$new"
mv -f "$new" "$1"
