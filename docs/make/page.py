"""A page that is made: written, or held against what is there."""
import difflib
import sys
from pathlib import Path

ROOT = Path(__file__).resolve().parent.parent.parent


def crates():
    """The crates in the order of crates.txt, with what each rests on."""
    found = {}
    for line in (ROOT / "crates.txt").read_text().splitlines():
        name, colon, rest = line.partition("#")[0].partition(":")
        if colon:
            found[name.split()[0]] = rest.split()  # a static library has that word after its name
    return found


def main(page, made):
    """Without words the page is written; with --check it is compared, and differences are printed."""
    if sys.argv[1:] not in ([], ["--check"]):
        sys.exit(f"use: {sys.argv[0]} [--check]")
    path = ROOT / page
    there = path.read_text() if path.is_file() else ""
    if not sys.argv[1:]:
        path.write_text(made)
        return
    if there != made:
        for line in list(difflib.unified_diff(there.splitlines(), made.splitlines(), page, "made anew", lineterm="", n=0))[:20]:
            print(line[:200])
        sys.exit(f"{page} is not what its script makes: run {Path(sys.argv[0]).resolve().relative_to(ROOT)}")
