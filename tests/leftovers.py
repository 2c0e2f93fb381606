#!/usr/bin/env python3
"""Nothing is left over: what a file brings in it uses, and what is defined something needs.

Asked of every file below crates/:

- a name or a module that a `use` line of a file of definitions or proofs brings stands somewhere in that file; so does what a
  `ghost use` of the code brings, in one of the clauses, and what a `use` of the code brings, in the code;
- a lemma or definition of proofs/ is cited by one that is needed, by a contract, or by the table of docs/THEOREMS.md or by
  docs/READING.md, which list what is an end in itself; the theorem `NAME_spec` of a function's Proof.antt is one too, what answers a goal
  or gives an invariant of the function in its Answers.antt or Invariants.antt, and in files of trials (TRIALS) every equation;
- a definition of specs/ is used by something that is needed so, or by a contract.

Files are read by their layout: a name stands for what the `use` lines or the file itself give it, the parts of `◌and◌` are used as
`x and y`, what follows a dot is a field or of the module before it. So a variable with the name of a lemma counts as the lemma.
What stays though nothing uses it is in STAYS, with a reason; a reason that is no longer needed fails too.

    tests/leftovers.py [ROOT]
"""
import re
import sys
from collections import defaultdict
from pathlib import Path

ROOT = Path(sys.argv[1] if len(sys.argv) > 1 else Path(__file__).resolve().parent.parent).resolve()
CRATES = ROOT / "crates"
TRIALS = {"Trials.antt", "Cases.antt"}
# What stays: file and name, and why.
CHAIN = "the one hash chain, which classes, repeats and folds are to use"
STAYS = {
    ("tables/specs/Chain.antt", "latest"): CHAIN,
    ("tables/specs/Chain.antt", "Chained"): CHAIN,
    ("tables/specs/Chain.antt", "next_with"): CHAIN,
    ("tables/specs/Chain.antt", "heads_with"): CHAIN,
    ("tables/proofs/ChainLaws.antt", "latest_here"): CHAIN,
    ("tables/proofs/ChainLaws.antt", "latest_other"): CHAIN,
    ("tables/proofs/ChainLaws.antt", "latest_none"): CHAIN,
    ("tables/proofs/ChainLaws.antt", "latest_small"): CHAIN,
    ("tables/proofs/ChainLaws.antt", "Last"): CHAIN,
    ("tables/proofs/ChainLaws.antt", "latest_some"): CHAIN,
    ("tables/proofs/ChainLaws.antt", "chained_none"): CHAIN,
    ("tables/proofs/ChainLaws.antt", "first_more"): CHAIN,
    ("tables/proofs/ChainLaws.antt", "onward_here"): CHAIN,
    ("tables/proofs/ChainLaws.antt", "chained_more"): CHAIN,
    ("tables/proofs/ChainLaws.antt", "next_more"): CHAIN,
    ("tables/proofs/ChainLaws.antt", "heads_more"): CHAIN,
    ("tables/proofs/ChainLaws.antt", "latest_agree"): CHAIN,
    ("tables/proofs/ChainLaws.antt", "chained_agree"): CHAIN,
}

TOKEN = re.compile(r'--[^\n]*|"(?:\\.|[^"\\])*"|«[^»]*»|[(){};,@.⌜⌝\n]|[^\s(){};,@."«»⌜⌝]+')
USE = re.compile(r"^use +([^\s{]+?)(?:\.\{([^}]*)\}|((?: as \S+)?))$")
MARKS = r"(?:(?:unfoldable|abbrev|pub|axiom) +)*"
SIGNATURE = re.compile(rf"{MARKS}(«[^»]*»|[^\s(){{}};,@.\"«»:]+)(?: +\{{[^}}]*\}})? *:(?= |$)")
DATA = re.compile(rf"{MARKS}(?:data|record) +(\S+)")


def words(text):
    """The words of a text, each path with its dots as one; what is behind a dot alone is a field, and left out."""
    found, end, dotted, field = [], None, False, False
    for m in TOKEN.finditer(text):
        word = m.group()
        if word == ".":
            dotted = text[m.end() : m.end() + 1].strip() != ""
            field = end != m.start()
            continue
        if word.startswith(("--", '"')) or re.match(r"[(){};,@⌜⌝\n]$", word):
            end = None
        else:
            if dotted and not field:
                found[-1] += "." + word
            elif not dotted:
                found.append(word)
            end = m.end()
        dotted = False
    return found


def brought(line):
    """The module of a `use` line, and what it brings: each name here with the name there, None for the module itself."""
    m = USE.match(" ".join(line.split()).replace("{ ", "{").replace(", }", "}").replace(",}", "}"))
    if not m:
        sys.exit(f"a use line that is not read: {line}")
    module, names, alias = m.groups()
    if names is None:
        return module, {alias.replace(" as ", "") or module.split(".")[-1]: None}
    pairs = [name.strip().split(" as ") for name in names.split(",") if name.strip()]
    return module, {pair[-1].strip(): pair[0].strip() for pair in pairs}


class Item:
    """A definition, lemma, type or record: its text, its clauses' included, and the parameters of the modules around it."""

    def __init__(self, file, name, line, text):
        self.file, self.name, self.line, self.text, self.signature = file, name, line, text, text
        self.made = [name]
        self.needs = set()


class File:
    """A file of definitions or proofs: its use lines with their numbers, its items, and the words of what is neither."""

    def __init__(self, path):
        self.path, self.uses, self.items, self.children, self.other = path, [], [], set(), ""
        self.name = str(path.relative_to(CRATES))
        lines = [re.sub(r"(^|(?<=[\s(){};,]))--.*", "", line).rstrip() for line in path.read_text().splitlines()]
        around, k = [], 0
        while k < len(lines):
            line = lines[k].strip()
            indent = len(lines[k]) - len(lines[k].lstrip())
            end = k + 1
            while end < len(lines) and (not lines[end] or len(lines[end]) - len(lines[end].lstrip()) > indent or lines[end].strip()[0] in ")}"):
                end += 1
            text = "\n".join(lines[k:end])
            while around and line and indent <= around[-1][0]:
                around.pop()
            if not line or line.startswith("infix"):
                end = k + 1
            elif re.match(r"(pub )?mod ", line):
                end = k + 1
                self.children.add(line.split()[-1])
            elif line.startswith("use "):
                self.uses.append((k, text))
            elif re.match(r"(module|mutual)\b", line):
                end = k + 1
                while line != "mutual" and not re.search(r"\bwhere$", lines[end - 1]):
                    end += 1
                around.append((indent, "\n".join(lines[k + 1 : end] if line == "mutual" else lines[k:end])))
            elif DATA.match(line):
                item = Item(self, DATA.match(line).group(1), k + 1, text)
                if not re.search(r"\brecord\b", line):
                    item.made += re.findall(r"^ +([^\s(){}.;,@\":]+(?: +[^\s(){}.;,@\":]+)*)(?= +:)", text, re.M)
                self.items.append(item)
            elif SIGNATURE.match(line):
                self.items.append(Item(self, SIGNATURE.match(line).group(1), k + 1, text + "\n" + "\n".join(p for _, p in around)))
            elif self.items:
                head = TOKEN.match(line).group()
                same = [item for item in self.items if item.name == head]
                (same or self.items)[-1].text += "\n" + text
            else:
                self.other += "\n" + text
            k = end


def modules(files):
    """Files by the names that their modules have."""
    found = {}
    for file in files:
        crate, kind, *rest = file.path.relative_to(CRATES).with_suffix("").parts
        rest = [] if rest == ["Lib"] else rest
        found[".".join([f"Rattle.{crate}.{kind}", *rest])] = file
    return found


def at(found, path):
    """The file and the name that a path with its module in front stands for."""
    module, _, name = path.rpartition(".")
    return (found[module], name) if module in found else None


class Scope:
    """What words mean under some use lines: the local names with what they bring."""

    def __init__(self, files, uses, own):
        self.files, self.own, self.brings, self.parts = files, own, {}, defaultdict(set)
        for module, names in uses:
            for name, there in names.items():
                self.brings[name] = (module, there)
        for name in [*self.brings, *own]:
            for part in name.split("◌") if "◌" in name else ():
                if part:
                    self.parts[part].add(name)

    def cited(self, text):
        """The names brought that a text uses, and the items, by file and name."""
        used, items = set(), set()
        for word in set(words(text)):
            path = word.split(".")
            for name in {path[0], *self.parts.get(path[0], ())} if len(path) > 1 else {word, *self.parts.get(word, ())}:
                if name in self.brings:
                    used.add(name)
                    module, there = self.brings[name]
                    if there is not None and module in self.files:
                        items.add((self.files[module], there))
                    elif there is None and at(self.files, ".".join([module, *path[1:]])):
                        items.add(at(self.files, ".".join([module, *path[1:]])))
                if name in self.own:
                    items.add((None, name))
            if len(path) > 1:
                for k in range(len(path), 1, -1):
                    if at(self.files, ".".join(path[:k])):
                        items.add(at(self.files, ".".join(path[:k])))
                        break
        return used, items


def is_answer(uses, item):
    """What answers a goal or gives an invariant: its type is of the module of a function's goals or of what it is given."""
    given = {name for module, names in uses for name, there in names.items() if there is None and re.search(r"\.(Goals|Given)$", module)}
    wanted = re.match(r"[^:\n]* :\s+(\w+)\.[^\s:]+(?=\n|$)", item.text)
    return bool(wanted) and wanted[1] in given


def clauses(text):
    """The clauses of the code's contracts, and the code without them."""
    found, rest, start = [], [], 0
    for m in re.finditer(r"\b(?:requires|ensures)\b[^{};]*\{", text):
        if m.start() < start:
            continue
        depth, end = 1, m.end()
        while depth:
            depth += {"{": 1, "}": -1}.get(text[end], 0)
            end += 1
        found.append(text[m.end() : end - 1])
        rest.append(text[start : m.start()])
        start = end
    return "\n".join(found), "".join([*rest, text[start:]])


def listed():
    """The names in marks of the pages: of a row of THEOREMS.md with that row, of READING.md with all of it."""
    found = defaultdict(list)
    reading = (ROOT / "docs" / "READING.md").read_text()
    rows = [line for line in (ROOT / "docs" / "THEOREMS.md").read_text().splitlines() if line.startswith("|")]
    for text in [*rows, reading]:
        for name in re.findall(r"`([^`\s]+)`", text):
            found[name].append(text)
    return found


def main():
    passed = failed = 0

    def expect(file, name, what, fits):
        nonlocal passed, failed
        if not fits and (file, name) in STAYS:
            kept.add((file, name))
            fits = True
        if fits:
            passed += 1
        else:
            failed += 1
            print(f"crates/{file}: {what}")

    kept = set()
    files = [File(path) for kind in ("specs", "proofs") for path in sorted(CRATES.glob(f"*/{kind}/**/*.antt"))]
    found, pages = modules(files), listed()
    whole = {file: module for module, file in found.items()}
    needed = set()

    def below(file, module):
        return f"{whole[file]}.{module}" if module.split(".")[0] in file.children else module

    for file in files:
        uses = [(below(file, module), names) for module, names in (brought(text) for _, text in file.uses)]
        own = {name: item for item in file.items for name in item.made}
        scope = Scope(found, uses, own)
        used, _ = scope.cited(file.other)
        heads = {module.split(".")[0] for module, _ in uses}
        for item in file.items:
            more, items = scope.cited(item.text)
            used |= more
            item.needs = {(other or file, name) for other, name in items}
        for (line, _), (_, names) in zip(file.uses, uses):
            for name in names:
                expect(file.name, name, f"line {line + 1}: {name} is brought in and not used", name in used or name in heads)
        for item in file.items:
            end = file.path.name == "Proof.antt" and item.name.endswith("_spec") or is_answer(uses, item)
            end |= file.path.name in TRIALS and "≡" in item.signature
            end |= "/proofs/" in file.name and any(file.path.name in text for text in pages.get(item.name, ()))
            if end:
                needed.add((file, item.name))
    for path in sorted(CRATES.glob("*/src/**/*.rt")):
        name = str(path.relative_to(CRATES))
        text = re.sub(r"//[^\n]*", "", path.read_text())
        ghosts = [brought(f"use {line}") for line in re.findall(r"^ *ghost use ([^;]*);", text, re.M)]
        code = re.sub(r"^ *(?:pub )?(?:ghost )?use [^;]*;", "", text, flags=re.M)
        stated, code = clauses(code)
        used, items = Scope(found, ghosts, {}).cited(stated)
        needed |= items
        for _, names in ghosts:
            for each in names:
                expect(name, each, f"{each} is brought in and not used in a clause", each in used)
        for line in re.findall(r"^ *use ([^;]*);", text, re.M):
            group = re.match(r"(.*)::\{(.*)\}$", line, re.S)
            for each in group.group(2).split(",") if group else [line]:
                each = re.split(r"::| as ", each.strip())[-1]
                expect(name, each, f"{each} is brought in and not used in the code", re.search(rf"\b{each}\b", code) is not None)
    # What is needed, and what that needs.
    items = {(file, name): item for file in files for item in file.items for name in item.made}
    todo, seen = [items[key] for key in needed if key in items], set()
    while todo:
        item = todo.pop()
        if item not in seen:
            seen.add(item)
            todo += [items[key] for key in item.needs if key in items]
    for file in files:
        for item in file.items:
            expect(file.name, item.name, f"line {item.line}: nothing needs {item.name}", item in seen)
    for file, name in sorted(set(STAYS) - kept):
        expect(file, None, f"{name} is used or gone: tests/leftovers.py need not have it", False)
    print(f"{passed} passed, {failed} failed")
    return 1 if failed else 0


if __name__ == "__main__":
    sys.exit(main())
