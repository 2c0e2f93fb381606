#!/usr/bin/env python3
"""Quotations in the definitions are the papers' words.

Takes every quotation in double marks out of the comments of crates/*/specs and crates/*/proofs, the lines of one comment block
joined, and looks for it in the demands (00) and in documents 01 and 02, where these stand beside the project in ../shared, or in
the folder that is given. It has to stand in one paragraph, as whole words, white space folded. ` .. ` in a quotation stands for
words left out; in 0..255, without spaces, it is the paper's. A quotation may begin with a small letter where the paper has a
capital; a last stop or comma of its own has to be the paper's. Where the papers are not at hand it says so and checks nothing.

    tests/quotations.py [PAPERS]
"""
import re
import sys
from pathlib import Path

ROOT = Path(__file__).resolve().parent.parent
NAMES = ("00-demands.md", "01-scope.md", "02-change-requests.md")


def folded(text):
    """One space between words; marks within a quotation are single ones, where the paper has double ones."""
    return " ".join(text.split()).replace('"', "'")


def blocks(lines):
    """Line number and text of each run of comment lines."""
    start, words = 0, []
    for number, line in enumerate([*lines, ""], 1):
        comment = re.match(r"\s*--(?: (.*)|$)", line)
        if comment:
            start = start or number
            words.append(comment.group(1) or "")
        elif start:
            yield start, " ".join(words)
            start, words = 0, []


def quotations(text):
    """What stands in marks, and the depth at which the text ends; marks within a quotation belong to it."""
    found, depth, start, opened = [], 0, 0, False
    for at, letter in enumerate(text):
        if letter != '"':
            continue
        before = text[at - 1] if at else " "
        opened = opened if before == '"' else before in " ("
        if opened:
            depth += 1
            start = at + 1 if depth == 1 else start
        else:
            depth -= 1
            if depth == 0:
                found.append(text[start:at])
            elif depth < 0:
                break
    return found, depth


def edged(part):
    """Just these characters, and no part of a word at either edge."""
    before = r"(?<!\w)" if re.match(r"\w", part) else ""
    after = r"(?!\w)" if re.search(r"\w$", part) else ""
    return before + re.escape(part) + after


def pattern(quotation):
    """The quotation with ` .. ` for any words, its first letter small or large."""
    parts = [part for part in re.split(r"(?:^| )\.\.(?=[ ,;.]|$) ?", quotation) if part]
    if not parts:
        return None
    first = parts[0][0]
    begun = "|".join(edged(letter + parts[0][1:]) for letter in {first.lower(), first.upper()})
    return re.compile(".*?".join([f"(?:{begun})", *map(edged, parts[1:])]))


def main():
    papers = Path(sys.argv[1]) if len(sys.argv) > 1 else ROOT.parent / "shared"
    if not all((papers / name).is_file() for name in NAMES):
        print(f"NOT RUN: quotations are held against {', '.join(NAMES)}, which are not at hand")
        print("0 passed, 0 failed")
        return 0
    paragraphs = [folded(line) for name in NAMES for line in (papers / name).read_text().splitlines()]
    passed = failed = 0
    for file in sorted([*ROOT.glob("crates/*/specs/**/*.antt"), *ROOT.glob("crates/*/proofs/**/*.antt")]):
        for line, text in blocks(file.read_text().splitlines()):
            name = file.relative_to(ROOT)
            found, depth = quotations(text)
            if depth != 0:
                failed += 1
                print(f"{name}:{line}: a mark without its other: {text}")
            for quotation in found:
                wanted = pattern(folded(quotation))
                if wanted and any(wanted.search(paragraph) for paragraph in paragraphs):
                    passed += 1
                else:
                    failed += 1
                    print(f"{name}:{line}: not in the papers: \"{quotation}\"")
    if passed + failed == 0:
        failed = 1
        print("no quotation is found in crates/")
    print(f"{passed} passed, {failed} failed")
    return 1 if failed else 0


if __name__ == "__main__":
    sys.exit(main())
