"""The entries, numbers and limits are those of include/zorambi.h."""

import ctypes
import re
import unittest

import zorambi
from zorambi import entries, record, text

from . import common

HEADER = common.HEADER.read_text()
C_TYPES = {"int32_t": ctypes.c_int32, "size_t": ctypes.c_size_t, "uint64_t": ctypes.c_uint64, "void": None}


def declared(name: str) -> "tuple[str, list[str]]":
    """What the header says that an entry gives back, and its parameters one by one."""
    found = re.search(rf"^(uint64_t|void) {name}\(([^)]*)\);", HEADER, re.M)
    assert found is not None, name
    return found[1], [" ".join(parameter.split()) for parameter in found[2].split(",")]


class Header(unittest.TestCase):
    def test_every_entry_is_declared_alike(self) -> None:
        names = re.findall(r"^(?:uint64_t|void) (zorambi_\w+)\(", HEADER, re.M)
        self.assertGreaterEqual(len(names), 23)
        self.assertEqual(sorted(names), sorted(entry.name for entry in entries.ALL))
        for entry in entries.ALL:
            given_back, parameters = declared(entry.name)
            ours = []
            for what, kind in entry.parameters:
                if "[" in kind.declared:
                    base, _, length = kind.declared.partition("[")
                    ours.append(f"{base} {what}[{length}")
                elif "*" in kind.declared:
                    ours += [f"{kind.declared}{what}", f"size_t {what}_len"]
                else:
                    ours.append(f"{kind.declared} {what}")
            self.assertEqual(ours, parameters, entry.name)
            function = getattr(entries._library, entry.name)
            types = [ctypes.c_void_p if "*" in each or "[" in each else C_TYPES[each.split()[0]] for each in parameters]
            self.assertEqual(list(function.argtypes), types, entry.name)
            self.assertIs(function.restype, C_TYPES[given_back], entry.name)

    def test_refusals_have_the_numbers_and_names_of_the_header(self) -> None:
        found = {name: int(number) for name, number in re.findall(r"^  ZORAMBI_(\w+) = (\d+),", HEADER, re.M)}
        self.assertEqual(found.pop("ACCEPTED"), 0)
        self.assertEqual(found, {refusal.name: refusal.value for refusal in zorambi.Refusal})

    def test_sizes_and_limits(self) -> None:
        self.assertEqual(zorambi.STACK, int(re.findall(r"#define ZORAMBI_STACK (\d+)", HEADER)[0]))
        waiting = re.findall(r"int32_t waiting\[(\d+)\]", HEADER)
        self.assertEqual({int(length) for length in waiting}, {entries.WAITING_NUMBERS})
        sizes = re.search(
            r"(\d+) numbers for formula rows, (\d+) for nodes, (\d+) for members,\s*\* (\d+) for pairs", HEADER
        )
        assert sizes is not None
        ours = [record.MAX_ROWS * 4, record.MAX_NODES * 9, record.MAX_MEMBERS, record.MAX_PAIRS * 2]
        self.assertEqual([int(size) for size in sizes.groups()], ours)
        self.assertIn("a text over 65,536 bytes", HEADER)
        self.assertEqual(text.MAX_TEXT, 65_536)


if __name__ == "__main__":
    unittest.main()
