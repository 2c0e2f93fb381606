#!/usr/bin/env python3
"""Writes a C program that tests what the header's functions hand on to the library. Use: handed.py HEADER STAND_INS.c TEST.c

For every entry that the header declares: a stand-in that notes its arguments, and calls of the entry's name. Every argument is
another one, and each is handed on as it is; then each slice by itself is empty, with NULL for its pointer, and an address is
handed on for it alone; then each slice by itself has NULL and a count, which is handed on as it is; then all are empty.
"""
import re
import sys

DECLARED = re.compile(r"^(uint64_t|void) (zorambi_\w+)\(([^;{]*)\);", re.M | re.S)

NOTES = """#include <stddef.h>
#include <stdint.h>

uintptr_t seen[40];
size_t seen_count;
static void note(uintptr_t number) { seen[seen_count++] = number; }
"""

TESTS = """#include <stdio.h>

#include "zorambi.h"

extern uintptr_t seen[40];
extern size_t seen_count;

static int passed, failed;
/* places of memory, no two the same */
static union { int32_t numbers[1033]; uint8_t bytes[1033]; size_t sizes[2]; } memory[40];

/* An address, whichever it is. */
#define SOME UINTPTR_MAX
#define AT(pointer) ((uintptr_t)(const void *)(pointer))

static void test(const char *what, uint64_t answer, uint64_t back, const uintptr_t *expected, size_t count) {
  int right = back == answer && seen_count == count;
  for (size_t i = 0; i < count; i++) right = right && (expected[i] == SOME ? seen[i] != 0 : seen[i] == expected[i]);
  seen_count = 0;
  if (right) {
    passed++;
  } else {
    failed++;
    printf("FAILED %s\\n", what);
  }
}

/* A part of the one number, at its least and at its largest. */
static void part(const char *what, long long found, long long expected) {
  if (found == expected) {
    passed++;
  } else {
    failed++;
    printf("FAILED %s: %lld, expected %lld\\n", what, found, expected);
  }
}

static void parts(unsigned answer, int place, unsigned nodes, unsigned links, unsigned line, int second) {
  const uint64_t packed = ((((uint64_t)line * 2 + (uint64_t)second) * 32 + answer) * 8192 + (uint64_t)(place + 1)) * 67108864 +
                          (uint64_t)nodes * 8192 + links;
  part("answer", zorambi_answer(packed), answer);
  part("place", zorambi_place(packed), place);
  part("nodes", zorambi_nodes(packed), nodes);
  part("links", zorambi_links(packed), links);
  part("fault's line", zorambi_fault_line(packed), line);
  part("fault's text", zorambi_fault_second(packed), second);
}

int main(void) {
  parts(0, 0, 1024, 1023, 0, 0);
  parts(14, 5, 0, 0, 12, 1);
  parts(31, -1, 0, 0, 0, 1);
  parts(4, 8190, 0, 0, 8190, 0);
  parts(0, 0, 8191, 8191, 0, 0);
  parts(31, 8190, 8191, 8191, 65537, 1);
  parts(21, 4095, 256, 4096, 16384, 0);
  part("bytes", zorambi_bytes(((uint64_t)1 << 26) + 65536), 65536);
  part("bytes", zorambi_bytes(((uint64_t)1 << 26) + 67108863), 67108863);
"""

END = """  printf("%d passed, %d failed\\n", passed, failed);
  return failed != 0;
}
"""


class Entry:
    def __init__(self, at, result, name, text):
        self.answer = 1000 + at if result == "uint64_t" else 0
        self.result, self.name = result, name
        self.parts = [" ".join(part.split()) for part in text.split(",")]
        self.names = [re.match(r".*?(\w+)(\[\d+\])?$", part).group(1) for part in self.parts]

    def is_pointer(self, k):
        return "*" in self.parts[k] or "[" in self.parts[k]

    def slices(self):
        """Where each slice's pointer stands; its count is the next one."""
        return [k for k, part in enumerate(self.parts) if "*" in part]

    def stand_in(self):
        notes = [f"(uintptr_t)(const void *){n}" if self.is_pointer(k) else f"(uintptr_t)(intptr_t){n}" for k, n in enumerate(self.names)]
        lines = [f"{self.result} {self.name}({', '.join(self.parts)});", f"{self.result} {self.name}({', '.join(self.parts)}) {{"]
        lines += [f"  note({note});" for note in notes]
        return "\n".join(lines + [f"  return {self.answer};" if self.answer else "", "}", ""])

    def call(self, what, pointers):
        """A call in which these pointers are NULL; with the count 0 where the value is 0."""
        given, expected = [], []
        for k, part in enumerate(self.parts):
            if k in pointers:
                given.append("NULL")
                expected.append("SOME" if pointers[k] == 0 else "0")
            elif k - 1 in pointers and "*" in self.parts[k - 1]:
                given.append(str(pointers[k - 1]))
                expected.append(str(pointers[k - 1]))
            elif self.is_pointer(k):
                kind = "bytes" if "uint8_t" in part else "sizes" if "size_t" in part else "numbers"
                given.append(f"memory[{k}].{kind}")
                expected.append(f"AT(memory[{k}].{kind})")
            else:
                given.append(str(101 + k))
                expected.append(str(101 + k))
        call = f"{self.name}({', '.join(given)})"
        back = call if self.answer else f"({call}, 0)"
        wants = f"(const uintptr_t[]){{{', '.join(expected)}}}, {len(expected)}"
        return f'  test("{self.name}, {what}", {self.answer}, {back}, {wants});\n'

    def calls(self):
        lines = [self.call("as given", {})]
        for k in self.slices():
            lines.append(self.call(f"{self.names[k]} empty", {k: 0}))
            lines.append(self.call(f"{self.names[k]} NULL with a count", {k: 7}))
        lines.append(self.call("all empty", {k: 0 for k in self.slices()}))
        return "".join(lines)


def main():
    header, stand_ins, tests = sys.argv[1:]
    text = re.sub(r"/\*.*?\*/", "", open(header).read(), flags=re.S)
    entries = [Entry(at, *declared) for at, declared in enumerate(DECLARED.findall(text))]
    if len(entries) < 23:
        sys.exit(f"{header}: only {len(entries)} entries found")
    with open(stand_ins, "w") as out:
        out.write(NOTES)
        out.writelines("\n" + entry.stand_in() for entry in entries)
    with open(tests, "w") as out:
        out.write(TESTS)
        out.writelines(entry.calls() for entry in entries)
        out.write(END)


main()
