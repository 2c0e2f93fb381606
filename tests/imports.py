#!/usr/bin/env python3
"""crates.txt says what each crate rests on, and that is what its files import.

A crate imports another where its code has a path into it (`use branch::node`, `drawn::is_drawn(..)`), or where its code, definitions or
proofs name something of it (`use Rattle.stab.specs.Rule`). Everything that is imported is listed, and everything that is listed is
imported, but for the pairs of UNUSED, which may only become fewer: one that is no longer so fails here too. Every folder of crates/ has a
line, every line a folder, and no crate rests on itself by way of others.

    tests/imports.py [ROOT]
"""
import re
import sys
from pathlib import Path

ROOT = Path(sys.argv[1] if len(sys.argv) > 1 else Path(__file__).resolve().parent.parent).resolve()
# Crates of the kit that one here rests on, which have no folder here. The library `std`, on which all rest, is not listed.
KIT = set()
# What is listed and not imported: the three programs hand on a `Fault`, a struct of stab, which they do not name.
UNUSED = {
    ("check_model", "stab"),
    ("check_older", "stab"),
    ("check_proof", "stab"),
}


def listed():
    """What each line of crates.txt names, in order."""
    found = {}
    for line in (ROOT / "crates.txt").read_text().splitlines():
        name, colon, rest = line.partition("#")[0].partition(":")
        if colon:
            found[name.split()[0]] = rest.split()  # a static library has that word after its name
    return found


def imported(crate):
    """The names that a crate's files take from elsewhere, its own left out."""
    names = set()
    for folder, suffix in (("src", "rt"), ("specs", "antt"), ("proofs", "antt")):
        for file in (ROOT / "crates" / crate / folder).rglob(f"*.{suffix}"):
            text = re.sub(r"(//|--).*", "", file.read_text())
            names |= set(re.findall(r"\bRattle\.(\w+)(?=\.)", text))
            if suffix == "rt":
                names |= set(re.findall(r"(?<![\w:])(\w+)::", text))
    return names - {crate}


def below(crates, crate):
    """All that a crate rests on, by way of others too."""
    found, todo = set(), list(crates[crate])
    while todo:
        other = todo.pop()
        if other not in found:
            found.add(other)
            todo += crates.get(other, [])
    return found


def main():
    passed = failed = 0

    def expect(what, fits):
        nonlocal passed, failed
        if fits:
            passed += 1
        else:
            failed += 1
            print(what)

    crates = listed()
    folders = {folder.name for folder in (ROOT / "crates").iterdir() if folder.is_dir()}
    expect(f"crates.txt and crates/ differ: {sorted(folders ^ set(crates))}", folders == set(crates))
    unused = set()
    for crate, needs in crates.items():
        names = imported(crate)
        for other in sorted((set(crates) | KIT) & names - set(needs)):
            expect(f"{crate} imports {other}, which its line in crates.txt does not have", False)
        for other in needs:
            expect(f"{crate} rests on {other}, which crates.txt has no line for", other in set(crates) | KIT)
            if other in names:
                expect(None, True)
            else:
                unused.add((crate, other))
                expect(f"{crate} lists {other} in crates.txt and imports nothing of it", (crate, other) in UNUSED)
        expect(f"{crate} lists a crate twice", len(needs) == len(set(needs)))
        expect(f"{crate} rests on itself", crate not in below(crates, crate))
    for crate, other in sorted(UNUSED - unused):
        expect(f"{crate} no longer lists {other} unused: tests/imports.py need not have it", False)
    print(f"{passed} passed, {failed} failed")
    return 1 if failed else 0


if __name__ == "__main__":
    sys.exit(main())
