#!/usr/bin/env python3
"""What the documents name is there.

Every name in backquotes in README.md, docs/MANUAL.md, ARCHITECTURE.md, TOUR.md, READING.md, THEOREMS.md, DECISIONS.md,
WRONG_ANSWERS.md and REQUIRES.md that looks like a file, a definition, a theorem, a function or an edit has to exist in the tree:

- `name/NAME` in WRONG_ANSWERS.md is an edit, crates/name/must-fail/NAME.edit, or a wrong answer that an edit of the crate has under that name;
- a path, or a file's name, is a file or folder: from the top, below crates/, or below the folder that the page says it speaks of;
- `crate::module::name`, `module::name` and `name_*` are functions, types or modules of the code, there and not elsewhere;
- `NAME` (`FILE`) is defined in that file, and so is each NAME of `FILE` (`NAME`, `NAME`); a theorem of THEOREMS.md in one of the files of its row; a function that DECISIONS.md
  lists after another's path in its crate;
- any other name is a definition, a theorem, a function, a type, one of its cases or fields, a crate, a record or an edit of any crate.

What is left out: what has a space in it (commands, lines of text), numbers, what is made below target/ and build/, and the words of WORDS, which name nothing of the tree;
of README.md, MANUAL.md and ARCHITECTURE.md also single words in small letters, which are commands and what is typed and printed.
What a link in one of these pages leads to is there, a heading too.

    tests/names.py [PAGE...]
"""
import re
import sys
from pathlib import Path

ROOT = Path(__file__).resolve().parent.parent
CRATES = ROOT / "crates"
PAGES = ["README", "MANUAL", "ARCHITECTURE", "TOUR", "READING", "THEOREMS", "DECISIONS", "WRONG_ANSWERS", "REQUIRES"]
# Pages for users: a single word in small letters is one that is typed or printed.
FOR_USERS = {"README", "MANUAL", "ARCHITECTURE"}
# Where a page's files are when it names no folder.
FOLDERS = {"READING": CRATES / "stab" / "specs", "THEOREMS": CRATES / "stab" / "proofs"}
# Words in marks that are no names of the tree: libraries and types of the kit, a byte, a command, folders and files of any crate.
WORDS = {"std", "os", "libc", "i32", "u", "cargo", "specs/", "proofs/", "CRATE/NAME", "crates/CRATE/must-fail/NAME.edit", "schema.txt",
         "proof.txt", "model.txt", "wide.txt", "names.txt", "PYTHONPATH", "PREFIX/lib/python3", "NAME", "requires", "must-fail"}

NAME = re.compile(r"[A-Za-z][\w′₀-₉]*(?:[-·][\w′₀-₉]+)*$")


def code(text):
    """The text without its comments."""
    return re.sub(r"^\s*(//|--).*$", "", text, flags=re.M)


def stated(text):
    """The names that a file of definitions or proofs states: at its left edge, within a module or a record, or public."""
    return set(re.findall(r"^(?: {0,4}|\s*(?=pub ))(?:(?:unfoldable|abbrev|pub|record|data) )*([\w′₀-₉]+(?:-[\w′₀-₉]+)*) (?:[:({]|[^=\n]* : )", text, re.M))


def defined_in(file, name):
    """Whether a file of the code, of definitions or of proofs defines the name."""
    text, word = code(file.read_text()), re.escape(name)
    if file.suffix == ".rt":
        return re.search(rf"\b(fn|struct|enum|const|mod|static|type) {word}\b", text) is not None
    if file.suffix == ".antt":
        return name in stated(text)
    return re.search(rf"^{word}\(\) {{", text, re.M) is not None


def wrong_answers(file):
    """The names of an edit: its own, and those of the wrong answers that it has, "# fn NAME: name: ..", "# theorem FILE NAME: name: .." or "# goal FUNCTION GOAL: name: .."."""
    return {file.stem, *re.findall(r"^# (?:fn|theorem \S+|goal \S+) \S+: (\w+): ", file.read_text(), re.M)}


class Tree:
    def __init__(self):
        self.rt = sorted(CRATES.glob("*/src/**/*.rt"))
        self.antt = sorted(CRATES.glob("*/specs/**/*.antt")) + sorted(CRATES.glob("*/proofs/**/*.antt"))
        self.crates = {folder.name for folder in CRATES.iterdir() if folder.is_dir()}
        self.names = set(self.crates)
        for file in self.rt:
            text = code(file.read_text())
            self.names |= set(re.findall(r"\b(?:fn|struct|enum|const|mod|static|type) (\w+)", text))
            for body in re.findall(r"\b(?:struct|enum) \w+ \{(.*?)\n\}", text, re.S):
                self.names |= set(re.findall(r"^\s*(?:pub )?(\w+)", body, re.M))
        for file in self.antt:
            self.names |= stated(code(file.read_text()))
        self.names |= {path.name for path in (ROOT / "records").glob("*/*")}
        self.names |= set(re.findall(r"\b(zorambi_\w+)\(", (ROOT / "include" / "zorambi.h").read_text()))
        for file in ROOT.glob("bindings/rust/src/*.rs"):
            self.names |= set(re.findall(r"\bpub (?:fn|struct|enum|const) (\w+)", file.read_text()))
        self.edits = {f"{file.parent.parent.name}/{name}" for file in CRATES.glob("*/must-fail/*.edit") for name in wrong_answers(file)}

    def module(self, parts):
        """The file of a module, given by its crate and its names, or None."""
        source = CRATES / parts[0] / "src"
        if len(parts) == 1:
            return next((file for file in (source / "lib.rt", source / "main.rt") if file.is_file()), None)
        file = source.joinpath(*parts[1:]).with_suffix(".rt")
        return file if file.is_file() else None

    def has_path(self, words):
        """crate::module::name or module::name, where * stands for any rest of a name."""
        *place, last = words
        if place == ["zorambi"] and any(re.search(rf"\b(fn|struct|enum) {last}\b", file.read_text()) for file in ROOT.glob("bindings/rust/src/*.rs")):
            return True
        if place[0] in self.crates:
            candidates = [self.module(place)]
            if candidates == [None] and self.module(place[:-1]):  # a type's function
                candidates = [self.module(place[:-1])] if defined_in(self.module(place[:-1]), place[-1]) else [None]
            if last != "*" and self.module([*place, last]):
                return True
        elif place[0][0].isupper():
            candidates = [file for file in [*self.rt, *ROOT.glob("bindings/rust/src/*.rs")] if re.search(rf"\b(struct|enum) {place[0]}\b", file.read_text())]
        else:
            candidates = [file for file in self.rt if file.stem == place[-1]]
        candidates = [file for file in candidates if file]
        if last == "*":
            return bool(candidates)
        wanted = last.replace("*", r"\w*")
        return any(re.search(rf"\b(fn|struct|enum|const|mod) {wanted}\b", code(file.read_text())) for file in candidates)

    def has_file(self, page, word, named):
        """A path from the top, below crates/, or in the page's folder, or in a folder that was named before in the same block."""
        bases = [ROOT, CRATES, *([FOLDERS[page]] if page in FOLDERS else []), *named]
        return any((base / word).exists() for base in bases)


def path_of(page):
    return ROOT / "README.md" if page == "README" else ROOT / "docs" / f"{page}.md"


def headings(file):
    """What a link to a heading of the page may name, as the forges make it of the heading's words."""
    titles = re.findall(r"^#+ (.*)", file.read_text(), re.M)
    return {re.sub(r"[^\w -]", "", title.lower()).replace(" ", "-") for title in titles}


def blocks(text):
    """Paragraphs and rows of tables, with the number of their first line."""
    start, lines = 1, []
    for number, line in enumerate([*text.splitlines(), ""], 1):
        single = line.startswith("|") or line.startswith("    ")
        if not line.strip() or single or line.startswith("#"):
            if lines:
                yield start, " ".join(lines)
            lines = []
            if single and not re.match(r"\|[-|]*$", line):
                yield number, line
        else:
            start = start if lines else number
            lines.append(line.strip())


def fault(tree, page, word, named):
    """What is wrong with a word, or None; the empty string where it names nothing."""
    if " " in word or word in WORDS or word.startswith(("target/", "build/")) or \
            (page in FOR_USERS and re.fullmatch(r"[a-z]+", word)):
        return ""
    if page == "WRONG_ANSWERS" and re.fullmatch(r"\w+/\w+", word):
        return None if word in tree.edits else "no such edit"
    if "::" in word:
        parts = word.rstrip("(").split("::")
        return None if tree.has_path(parts) else "no such function, type or module"
    if re.search(r"\.(antt|rt|md|rs|c|h|sh|py|edit|csv)$", word) or re.fullmatch(r"[\w./-]+/[\w./-]*", word):
        return None if tree.has_file(page, word, named) else "no such file"
    if word.endswith("*") and NAME.match(word[:-1].rstrip("_")):
        return None if any(name.startswith(word[:-1]) for name in tree.names) else "no name begins so"
    if re.fullmatch(r"\w+_\*_\w+", word):
        return None if any(re.fullmatch(word.replace("*", r"\w+"), name) for name in tree.names) else "no such name"
    if not NAME.match(word):
        return ""
    return None if word in tree.names or any(edit.endswith(f"/{word}") for edit in tree.edits) else "no such name"


def main():
    tree = Tree()
    passed = failed = 0

    def tell(page, line, word, what):
        nonlocal passed, failed
        if what is None:
            passed += 1
        elif what:
            failed += 1
            print(f"{path_of(page).relative_to(ROOT)}:{line}: `{word}`: {what}")

    for page in sys.argv[1:] or PAGES:
        before = passed
        for line, block in blocks(path_of(page).read_text()):
            named = []
            for link in re.findall(r"\]\(([^)]+)\)", block):
                file, _, heading = link.partition("#")
                target = path_of(page).parent / file if file else path_of(page)
                there = target.exists() and (not heading or heading in headings(target))
                tell(page, line, link, None if there else "a link to nothing")
            for word in re.findall(r"`([^`]+)`", block):
                tell(page, line, word, fault(tree, page, word, named))
                path = next((base / word for base in (ROOT, CRATES) if "/" in word and (base / word).exists()), None)
                if path:
                    named += [path if path.is_dir() else path.parent]
            for name, file in re.findall(r"`([^` ]+)` \(`([^` ]+)`\)", block):
                path = next((base / file for base in [CRATES, ROOT, *([FOLDERS[page]] if page in FOLDERS else []), *named] if (base / file).is_file()), None)
                if path and (path.suffix in (".rt", ".antt") or file == "./zorambi"):
                    tell(page, line, name, None if defined_in(path, name) else f"not defined in {file}")
            for file, names in re.findall(r"`([^` ]+)` \(((?:`[^` ]+`(?:, )?)+)\)", block):
                path = next((base / file for base in [CRATES, ROOT, *named] if (base / file).is_file()), None)
                if path and path.suffix in (".rt", ".antt"):
                    for name in re.findall(r"`([^`]+)`", names):
                        tell(page, line, name, None if defined_in(path, name) else f"not defined in {file}")
            cells = [cell.strip() for cell in block.strip("|").split("|")] if block.startswith("|") else []
            if page == "DECISIONS" and len(cells) == 2:
                last = None
                for word in re.findall(r"`([^`]+)`", cells[0]):
                    if "::" in word:
                        last = word.split("::")[0]
                    elif last in tree.crates and NAME.match(word):
                        files = (CRATES / last / "src").rglob("*.rt")
                        tell(page, line, word, None if any(defined_in(file, word) for file in files) else f"not in crate {last}")
            if page == "THEOREMS" and len(cells) == 3 and "antt" in cells[1]:
                files = [FOLDERS[page] / file for file in re.findall(r"`([^`]+)`", cells[1])]
                files = [file for file in files if file.is_file()]
                for name in re.findall(r"`([^`]+)`", cells[0]):
                    if NAME.match(name):
                        tell(page, line, name, None if any(defined_in(file, name) for file in files) else f"not in {cells[1]}")
        if passed == before:
            failed += 1
            print(f"{path_of(page).relative_to(ROOT)} names nothing")
    print(f"{passed} passed, {failed} failed")
    return 1 if failed else 0


if __name__ == "__main__":
    sys.exit(main())
