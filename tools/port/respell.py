#!/usr/bin/env python3
"""Turns the names of this repository's own definitions and lemmas to the spelling of today's Rattle.

Functions, lemmas, fields, constructors and variables in snake case; types, modules and the names that Rattle makes stay. It runs once,
after port.py, at the top of the repository; what it renames it prints, old and new, a line each.

    tools/port/respell.py [ROOT]
"""
import re
import sys
from collections import defaultdict
from pathlib import Path

ROOT = Path(sys.argv[1] if len(sys.argv) > 1 else ".").resolve()
CRATES = ROOT / "crates"
KIT = Path("/opt/rattle/rattle")
LIBRARIES = {"mathlib", "lib", "borrow", "native", "Prim", "mir", "denote", "types", "prog", "contract", "seplogic", "base", "sound"}
# Lemmas that would have the names of definitions.
GIVEN = {name: name + "_lem" for name in (
    "above_if", "found_before", "both_facts", "of_two", "digits_value", "same_nodes",
    "is_digit", "pair_line", "stands_at", "same_index", "model_of",
)}

WORD = re.compile(r"[^\s(){};,.@⌜⌝\"«»:]+")
SIGNATURE = re.compile(r"^\s*(?:where\s+)?(?:(?:unfoldable|abbrev|pub|axiom|let)\s+)*([^\s(){};,.@\"«»:]+(?: [^\s(){};,.@\"«»:]+)*?)(?: *\{[^}]*\})*(?: \([^)]*\))* :(?= |$)")
HEAD = re.compile(r"^\s*(?:(?:unfoldable|abbrev|pub|axiom)\s+)*(?:data|record)\s+(\S+)")
USE = re.compile(r"^\s*(?:pub )?(?:ghost )?use +([^\s{;]+?)\.\{([^}]*)\};?$", re.M)


def files(*endings):
    for path in sorted(CRATES.rglob("*")):
        if path.suffix in endings and "out" not in path.relative_to(CRATES).parts:
            yield path


def spelled(name):
    """A name in snake case; a dash stays beside a type or a sign."""
    if name in GIVEN:
        return GIVEN[name]
    parts = re.split(r"(◌)", name)
    return "".join(part if part == "◌" else plain(part) for part in parts)


def plain(name):
    if not name or not name[0].isalpha() or name[0].isupper() or not name[0].isascii():
        return name
    name = re.sub(r"(?<=[a-z0-9₀₁₂'])([A-Z])", lambda m: "_" + m.group(1).lower(), name)
    return re.sub(r"(?<=[a-z0-9'₀₁₂])-(?=[a-z0-9])", "_", name)


def kit_names():
    names = set()
    for path in KIT.rglob("*.antt"):
        names |= set(WORD.findall(path.read_text(errors="replace")))
    return names


def own_names():
    names = set()
    for path in files(".antt"):
        for line in path.read_text().split("\n"):
            line = line.split(" -- ")[0]
            if line.lstrip().startswith(("--", "use ", "pub use ", "mod ", "pub mod ", "unfolding ")):
                continue
            m = HEAD.match(line)
            if m:
                names.add(m.group(1))
                continue
            m = SIGNATURE.match(line)
            if m and not re.search(r" : tie\.(Need-|invariant-|decreases-)", line):
                names |= set(m.group(1).split())
            # constructors and fields that stand in a row
            m = re.match(r"^\s*\| (\S+)", line)
            if m:
                names.add(m.group(1))
    return {n for n in names if not re.fullmatch(r"[=|→λ_]+", n)}


def imported_from_kit(text, crates):
    names = set()
    for path, inside in USE.findall(text):
        parts = path.split(".")
        if not (parts[0] in LIBRARIES or parts[0] == "Rattle" and parts[1] not in crates):
            continue
        for item in inside.replace("\n", " ").split(","):
            item = item.strip()
            if item:
                names.add(item.split(" as ")[-1].strip())
                names.add(item.split(" as ")[0].strip())
    return names


def turn(text, keep, table, seen):
    """Each word of a text, renamed where it is one of the table and not kept; in comments those in camel case alone."""
    out, end = [], 0
    comments = [m.span() for m in re.finditer(r"(?m)(?<![^\s])--(?: [^\n]*)?$|^# (?!theorem )[^\n]*", text)]
    at = 0
    for m in WORD.finditer(text):
        word = m.group()
        new = table.get(word)
        if new is None or word in keep:
            continue
        while at < len(comments) and comments[at][1] <= m.start():
            at += 1
        if at < len(comments) and comments[at][0] <= m.start() and not re.search(r"[a-z0-9][A-Z]", word):
            continue
        dotted = m.start() > 0 and text[m.start() - 1] == "."
        if dotted and ("-" in word or new.endswith("_lem")):
            before = re.search(r"([^\s(){};,.]+)\.$", text[: m.start()])
            if not (before and before.group(1)[0].isupper()):
                continue
        out.append(text[end : m.start()])
        out.append(new)
        end = m.end()
        seen[word] = new
    out.append(text[end:])
    return "".join(out)


def main():
    crates = {p.name for p in CRATES.iterdir() if (p / "src").is_dir()}
    kit = kit_names()
    own = own_names()
    table = {}
    for name in own:
        new = spelled(name)
        if new != name:
            table[name] = new
    # variables and what a let names: in camel case, and not a name of the library
    for path in files(".antt"):
        for word in WORD.findall(path.read_text()):
            if word not in table and word not in kit and word not in own and re.match(r"[a-z][\w']*[a-z0-9][A-Z]", word):
                new = spelled(word)
                if new != word:
                    table[word] = new
    # a lemma that would have its function's name, or another name of a file that names it
    texts = {path: path.read_text() for path in files(".antt", ".rt", ".edit")}
    words = {path: set(WORD.findall(text)) for path, text in texts.items()}
    taken = defaultdict(set)
    for path, those in words.items():
        keep = imported_from_kit(texts[path], crates)
        for w in those:
            taken[table.get(w, w) if w not in keep else w].add(w)
    for name in sorted(table):
        if "-" in name and len(taken[table[name]]) > 1:
            table[name] = re.sub("(?=◌$)|(?<!◌)$", "_lem", table[name], count=1)
    # ◌x◌ stands as x between its arguments; port.py spelled some of these uses already
    within = defaultdict(dict)
    for name, new in table.items():
        if "◌" in name:
            for a, b in zip(name.split("◌"), new.split("◌")):
                if a and a != b and a not in own:
                    table_of = [path for path, those in words.items() if name in those]
                    for path in table_of:
                        within[path] |= {a: b, plain(a): b}
    seen = {}
    clash = []
    for path in files(".antt", ".rt", ".edit"):
        text = path.read_text()
        keep = imported_from_kit(text, crates)
        mine = {w: table[w] for w in set(WORD.findall(text)) if w in table and w not in keep}
        words = set(WORD.findall(text))
        back = defaultdict(set)
        for w in words:
            back[mine.get(w, w)].add(w)
        for new, olds in back.items():
            if len(olds) > 1:
                clash.append((str(path.relative_to(ROOT)), new, sorted(olds)))
        if path.suffix == ".rt":
            new = turn_code(text, keep, table, seen)
        else:
            new = turn(text, keep, table | within[path], seen)
        if new != text and "--dry" not in sys.argv:
            path.write_text(new)
    for old, new in sorted(seen.items()):
        print(f"{old}\t{new}")
    for where, new, olds in clash:
        print(f"together: {where}: {' '.join(olds)} -> {new}", file=sys.stderr)


def turn_code(text, keep, table, seen):
    """In code the names in clauses and imports: words in camel case, which code has none of."""
    def one(m):
        word = m.group()
        if word in keep or word not in table or not re.search(r"[a-z0-9][A-Z]", word):
            return word
        seen[word] = table[word]
        return table[word]

    return re.sub(r"(?<![\w'-])[a-z][\w'-]*", one, text)


if __name__ == "__main__":
    main()
