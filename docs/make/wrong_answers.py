#!/usr/bin/env python3
"""Makes docs/WRONG_ANSWERS.md: one row for each wrong answer that a must-fail edit has, below what stands in wrong_answers.md.

An edit whose first line says the wrong answer has one; else each line "# fn FUNCTION: [NAME: ]..", "# theorem FILE THEOREM: [NAME: ].."
and "# goal FUNCTION GOAL: [NAME: ].." is one. Whether it is one of the definitions or of the code is said by the file that it edits.

    docs/make/wrong_answers.py [--check]
"""
import re
import sys

import page

NAMED = re.compile(r"# (?:fn (\S+)|theorem (\S+) (\S+)|goal (\S+) (\S+)): (?:(\w+): )?(.*)")


def wrong_answers(crate, edit):
    """Name, what it says, whether it is of the definitions, and what refuses it."""
    lines = edit.read_text().splitlines()
    if not lines or not lines[0].startswith("# "):
        sys.exit(f"{edit.relative_to(page.ROOT)}: its first line does not say what it is")
    file, found = None, []
    for line in lines:
        if line.startswith("file: "):
            file = line.removeprefix("file: ")
        named = NAMED.fullmatch(line)
        if named:
            function, proof, theorem, part, goal, name, words = named.groups()
            by = f"`{function}`" if function else f"`{part}`, at its goal {goal}" if part else f"`{theorem}` (`{crate}/{proof}`)"
            found.append((name or "", words, file, by))
        elif line.startswith(("# fn ", "# theorem ", "# goal ")):
            sys.exit(f"{edit.relative_to(page.ROOT)}: not understood: {line}")
    if not found:
        found = [(edit.stem, lines[0].removeprefix("# "), file, "the crate's proofs")]
    return [(name, words.rstrip("."), "definitions" if file.startswith("specs/") else "code", by) for name, words, file, by in found]


def made():
    text = (page.ROOT / "docs" / "make" / "wrong_answers.md").read_text()
    count = edits = 0
    parts = []
    for crate in page.crates():
        rows = []
        for edit in sorted((page.ROOT / "crates" / crate / "must-fail").glob("*.edit")):
            edits += 1
            for name, words, of, by in wrong_answers(crate, edit):
                words = words.replace("|", "\\|")
                called = f"`{crate}/{name}`" if name else ""
                rows.append(f"| {words} | {of} | {by} | {called} | `{edit.stem}` |\n")
        if rows:
            count += len(rows)
            parts.append(f"\n### {crate}\n\n| wrong answer | of the | refused by | name | edit |\n|---|---|---|---|---|\n{''.join(rows)}")
    return f"{text}\n## All of them\n\n{count} wrong answers in {edits} edits, by crate.\n{''.join(parts)}"


if __name__ == "__main__":
    page.main("docs/WRONG_ANSWERS.md", made())
