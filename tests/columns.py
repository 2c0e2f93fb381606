#!/usr/bin/env python3
"""Lines of prose have at most 120 columns, in every Markdown page of the repository.

Rows of tables, blocks of code, pictures, comments and what has no space to break at may be wider. Left out are pages below crates/, since
what is proved is known by all bytes there; what docs/changes/measure writes; and the section of its page that says how was measured.

    tests/columns.py [FILE..]
"""
import re
import subprocess
import sys
from pathlib import Path

ROOT = Path(__file__).resolve().parent.parent
COLUMNS = 120
# Sections that are left out, by page.
LEFT_OUT = {"docs/changes/README.md": "## Times"}


def wide(page, text):
    """The numbers of the lines of prose that are too wide."""
    fenced = left_out = listed = False
    before = ""
    for number, line in enumerate(text.splitlines(), 1):
        fenced ^= line.startswith("```")
        if line.startswith("#"):
            left_out = LEFT_OUT.get(page) == line
        # a line that is set in is code, but in a list it goes on with what stands above it
        code = fenced or line.startswith("    ") and not listed and (not before or before.startswith("    "))
        if line and not line.startswith(" "):
            listed = re.match(r"([-*]|\d+\.) ", line) is not None
        before = line
        prose = not (left_out or code or line.startswith(("|", "![", "<!--", "All proofs from nothing")))
        if prose and len(line) > COLUMNS and " " in line.strip()[:COLUMNS]:
            yield number


def main():
    names = sys.argv[1:] or subprocess.run(["git", "ls-files", "--cached", "--others", "--exclude-standard", "*.md"], cwd=ROOT,
                                           capture_output=True, text=True, check=True).stdout.split()
    passed = failed = 0
    names = [name for name in names if not name.startswith("crates/")]
    for name in names:
        found = list(wide(name, (ROOT / name).read_text()))
        if found:
            failed += 1
            print(f"{name}: more than {COLUMNS} columns in line {', '.join(map(str, found))}")
        else:
            passed += 1
    if not names:
        failed += 1
        print("no page is found")
    print(f"{passed} passed, {failed} failed")
    return 1 if failed else 0


if __name__ == "__main__":
    sys.exit(main())
