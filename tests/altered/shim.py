#!/usr/bin/env python3
"""Writes a C file that stands before the library: each entry calls the true one and alters what comes back.

Use: shim.py HEADER SHIM.c SYMBOLS. SYMBOLS gets the lines `zorambi_X true_zorambi_X` by which objcopy renames the true
entries. What is altered is said by the environment variable ALTER when the program runs:
  answer   the number of every refusal is one more
  place    the place of every refusal is one more
  line     the line that a refusal of texts points to is the next one
  count    every acceptance has one link more; a line found, one byte more
  lent     one number or byte of the lent results is another, the last one
  rare     one verdict in a thousand is turned round
"""
import re
import sys

DECLARED = re.compile(r"^(uint64_t|void) (zorambi_\w+)\(([^;{]*)\);", re.M | re.S)


def parameters(text):
    """(declaration, name, kind) of each parameter; kind is 'slice' for a lent pointer that a length follows, 'array' for an
    array that is written, with its length, else None."""
    parts = [" ".join(part.split()) for part in text.split(",")]
    found = []
    for at, part in enumerate(parts):
        array = re.fullmatch(r"(const )?(\w+) (\w+)\[(\d+)\]", part)
        pointer = re.fullmatch(r"(const )?(\w+) \*(\w+)", part)
        if array:
            kind = None if array.group(1) else ("array", array.group(4))
            found.append((part, array.group(3), kind))
        elif pointer:
            length = parts[at + 1].split()[-1]
            assert length == pointer.group(3) + "_len", part
            found.append((part, pointer.group(3), None if pointer.group(1) else ("slice", length)))
        else:
            found.append((part, part.split()[-1], None))
    return found


def shim(result, name, text):
    given = parameters(text)
    declared = ", ".join(part for part, _, _ in given)
    handed = ", ".join(name for _, name, _ in given)
    lines = [f"{result} true_{name}({declared});", f"{result} {name}({declared}) {{"]
    call = f"true_{name}({handed})"
    lines.append(f"  uint64_t r = {call};" if result == "uint64_t" else f"  uint64_t r = 0;\n  {call};")
    written = [(name, kind) for _, name, kind in given if kind]
    if written:
        name_of, (kind, length) = written[-1]
        lines.append(f'  if (is("lent") && {length} > 0) {name_of}[{length} - 1] ^= 1;')
        if result == "void":
            lines.append(f'  if (is("count")) {name_of}[{length} - 1] += 1;')
    lines.append("  return altered(r);" if result == "uint64_t" else "  (void)r;")
    lines.append("}")
    return "\n".join(lines)


BEFORE = """#include <stdint.h>
#include <stddef.h>
#include <stdlib.h>
#include <string.h>

static int is(const char *what) {
  static const char *alter;
  if (!alter) alter = getenv("ALTER") ? getenv("ALTER") : "";
  return strcmp(alter, what) == 0;
}

static uint64_t altered(uint64_t r) {
  static uint64_t calls;
  const int refused = r >> 39 != 0;
  if (is("answer") && refused) return r + ((uint64_t)1 << 39);
  if (is("place") && refused) return r + ((uint64_t)1 << 26);
  if (is("line") && r >> 44 != 0) return r + ((uint64_t)1 << 45);
  if (is("count") && !refused) return r + 1;
  if (is("rare") && ++calls % 1000 == 0) return refused ? (uint64_t)1 << 26 : (uint64_t)14 << 39;
  return r;
}
"""


def main():
    header, shim_file, symbols = sys.argv[1:]
    text = re.sub(r"/\*.*?\*/", "", open(header).read(), flags=re.S)
    entries = DECLARED.findall(text)
    if len(entries) < 23:
        sys.exit(f"{header}: only {len(entries)} entries found")
    with open(shim_file, "w") as out:
        out.write(BEFORE)
        out.writelines("\n" + shim(*entry) + "\n" for entry in entries)
    with open(symbols, "w") as out:
        out.writelines(f"{name} true_{name}\n" for _, name, _ in entries)


main()
