#!/usr/bin/env python3
"""Makes docs/REQUIRES.md: every public function that has a `requires`, with its clauses and a reason.

Functions and clauses are taken from crates/*/src, the reasons from requires.txt beside this script, what stands above them from
requires.md. A function without a reason fails, and so does a reason for what is no such function, and an entry with a `requires`.

    docs/make/requires.py [--check]
"""
import re
import sys

import page


def functions():
    """Every function of the code: its path, whether it is public, whether its module is, whether it is an entry, its `requires`."""
    for crate in page.crates():
        source = page.ROOT / "crates" / crate / "src"
        top = next(source / name for name in ("lib.rt", "main.rt") if (source / name).is_file())
        public = set(re.findall(r"^pub mod (\w+);", top.read_text(), re.M))
        for file in sorted(source.rglob("*.rt")):
            modules = [] if file == top else list(file.relative_to(source).with_suffix("").parts)
            of_type = function = None
            entry = False
            for line in file.read_text().splitlines():
                begun = re.match(r"impl(?:<[^>]*>)? (\w+)", line)
                of_type = begun[1] if begun else None if line == "}" else of_type
                found = re.match(r'\s*(pub )?(?:extern "C" )?fn (\w+)', line)
                if found:
                    function = {"path": "::".join([crate, *modules, *([of_type] if of_type else []), found[2]]), "crate": crate,
                                "public": bool(found[1]), "open": not modules or modules[0] in public, "entry": entry, "requires": []}
                    yield function
                entry = line.strip() == "#[unsafe(no_mangle)]"
                clause = re.match(r"\s+requires(?: \w+)? \{(.*)\}$", line)
                if clause:
                    function["requires"].append(clause[1].strip())
                elif re.match(r"\s+requires\b", line):
                    sys.exit(f"{file.relative_to(page.ROOT)}: a clause that is not in one line: {line.strip()}")


def reasons():
    """The reason of each function that requires.txt names."""
    found = {}
    for line in (page.ROOT / "docs" / "make" / "requires.txt").read_text().splitlines():
        if not line or line.startswith("#"):
            continue
        names, _, reason = line.partition(": ")
        for name in names.split(", "):
            if name in found or not reason:
                sys.exit(f"docs/make/requires.txt: {name} has no reason, or two")
            found[name] = reason
    return found


def table(rows):
    lines = ["| function | what it requires, and why | in the source |\n", "|---|---|---|\n"]
    for path, reason, clauses in rows:
        clauses = "<br>".join(f"`{clause}`" for clause in clauses).replace("|", "\\|")
        lines.append(f"| `{path}` | {reason} | {clauses} |\n")
    return "".join(lines)


def made():
    why = reasons()
    rows = {True: [], False: []}
    entries = 0
    for function in list(functions()):
        if function["entry"]:
            entries += 1
            if function["requires"]:
                sys.exit(f"{function['path']} is an entry and has a `requires`")
        elif function["public"] and function["requires"]:
            if function["path"] not in why:
                sys.exit(f"docs/make/requires.txt has no reason for {function['path']}")
            rows[function["open"]].append((function["path"], why.pop(function["path"]), function["requires"]))
    if why:
        sys.exit(f"docs/make/requires.txt has a reason for what is no public function with a `requires`: {', '.join(why)}")
    text = (page.ROOT / "docs" / "make" / "requires.md").read_text()
    return (f"{text}\n{entries} entries, none with a `requires`; {len(rows[True])} functions that other crates can call, "
            f"{len(rows[False])} that only their own can.\n\n"
            f"## In public modules\n\n{table(rows[True])}\n## In modules that are private to their crate\n\n{table(rows[False])}")


if __name__ == "__main__":
    page.main("docs/REQUIRES.md", made())
