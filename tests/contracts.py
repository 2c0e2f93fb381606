#!/usr/bin/env python3
"""What a public function leaves in memory that it is lent: of every `pub fn` with a `&mut`, a clause of its `ensures`
says without a condition what the parameter is at its exit.

A clause says it if it is, or has among its parts, an equation with the parameter at its exit, whole, on one side and
not on the other. It may stand in a record or an abbreviation of specs/, or among the fields of a record on that side.
An equation behind `→` does not count, nor one with a part of the parameter (`take 9 x.new ≡ ..`, `x.new.items ≡ ..`).
"""
import re
import sys
from pathlib import Path

ROOT = Path(__file__).resolve().parent.parent

# Functions that fall short, by name and parameter, each with a reason. A reason that is no longer needed fails too.
# Those of a module without `pub` cannot be called from another crate: PRIVATE. That this is so is looked up.
PRIVATE = {
    "folds::links::schema_rows next": "an array of `fold`'s own; `Linked` says what is found by it",
    "folds::links::schema_rows heads": "as next",
    "grow::row::lay saved_node": "an array of `try_row`'s own: the nine numbers that are read are given",
    "grow::row::lay saved_set": "an array of `try_row`'s own: as many numbers as are read are given",
    "jointnodes::node::each_node out_nodes": "`fill_nodes` puts zeros past the nodes, or everywhere",
    "jointnodes::node::each_node out_members": "as out_nodes",
    "jointnodes::node::put_first out_nodes": "`fill_nodes` puts the other nodes after the first, and zeros",
    "jointnodes::node::put_first out_members": "as out_nodes",
    "nextsmall::list::first table": "`next_small` puts zeros past the table that is found, or everywhere",
    "text::reader::next_line self": "said of its two fields: the text, and the place, by `Stepped`",
    "text::reader::read_lines table": "the readers put zeros past what is read, or everywhere",
    "text::reader::read_lines nodes": "as table",
    "text::reader::read_lines members": "as table",
}
OTHERS = {
    "classes::compare::is_lowered agreed": "what is remembered of comparisons: each call finds it true (`Remembers`) and leaves it so; answers rest on no more",
    "classes::compare::is_instance agreed": "as of is_lowered",
    "alike::lowered::all_lowered agreed": "as of is_lowered",
    "steps::partners::partners_fit agreed": "as of is_lowered",
    "steps::steps::each_node agreed": "as of is_lowered",
    "files::load buf": "the bytes of a file; past those counted there are zeros",
}

OPEN, CLOSE = "([{", ")]}"


def plain(text):
    """Names without guillemets, and one space between words."""
    return " ".join(text.replace("«", "").replace("»", "").split())


def bare(text):
    """Without parentheses around the whole."""
    text = text.strip()
    while text.startswith("(") and closing(text, 0) == len(text) - 1:
        text = text[1:-1].strip()
    return text


def closing(text, start):
    depth = 0
    for at in range(start, len(text)):
        if text[at] in OPEN:
            depth += 1
        elif text[at] in CLOSE:
            depth -= 1
            if depth == 0:
                return at
    raise ValueError("no closing bracket: " + text[start : start + 60])


def split(text, sign):
    """The parts between a sign that stands in no brackets."""
    parts, depth, last = [], 0, 0
    for at, char in enumerate(text):
        if char in OPEN:
            depth += 1
        elif char in CLOSE:
            depth -= 1
        elif depth == 0 and char == sign:
            parts.append(text[last:at])
            last = at + 1
    return [part.strip() for part in parts + [text[last:]]]


def words(text):
    """A function and its arguments."""
    text, found, at = bare(text), [], 0
    while at < len(text):
        if text[at] == " ":
            at += 1
        else:
            # in brackets, and then a field of it, or a name
            end = closing(text, at) + 1 if text[at] in OPEN else at
            while end < len(text) and text[end] != " " and text[end] not in OPEN + CLOSE:
                end += 1
            found.append(text[at:end])
            at = end
    return found


class File:
    """A source or a file of specs/, and where its names come from."""

    read = {}

    def __init__(self, path):
        self.crate = path.relative_to(ROOT / "crates").parts[0]
        self.text = re.sub(r"(?m)^\s*(//|--).*$", "", path.read_text(encoding="utf-8"))
        self.names = {}
        uses = r"use Rattle\.(\w+)\.specs\.([\w.]+)\.\{([^}]*)\}"
        for crate, module, names in re.findall(uses, self.text):
            for name in names.split(","):
                old, _, new = name.strip().partition(" as ")
                self.names[new or old] = (ROOT / "crates" / crate / "specs" / f"{module.replace('.', '/')}.antt", old)

    @classmethod
    def of(cls, path):
        if path not in cls.read:
            cls.read[path] = cls(path)
        return cls.read[path]

    def meaning(self, name):
        """The file that defines a name, the names of its parameters, and its parts: a record's fields or its right side."""
        path, name = self.names.get(name, (None, name))
        if path and not path.exists():
            return None  # of the kit
        file = File.of(path) if path else self
        record = re.search(rf"(?m)^pub record {re.escape(name)} (.*?) : Type 0 where\n((?:[ \t]+.*\n|\n)*)", file.text)
        if record:
            names = [n for group in re.findall(r"\(([^:()]*):", record[1]) for n in group.split()]
            return file, names, re.findall(r"(?m)^  pub \w+ : (.*)$", record[2])
        lines = re.findall(rf"(?m)^{re.escape(name)} ([^:=]*)=((?:.*\n)(?:[ \t]+.*\n)*)", file.text)
        if len(lines) == 1:
            return file, lines[0][0].split(), [plain(lines[0][1])]
        return None


def mentions(text, wanted):
    """The parameter stands in the text, whole or with a field of it behind a dot."""
    edge = r"[^\s(){};,]"
    return re.search(rf"(?<!{edge}){re.escape(wanted)}(?!{edge.replace('[^', '[^.')})", text) is not None


class Both:
    """A right side, whose names are of its own file, with arguments, whose names are of the file that wrote them."""

    def __init__(self, inner, outer):
        self.inner, self.outer = inner, outer

    def meaning(self, name):
        return self.inner.meaning(name) or self.outer.meaning(name)


def put(text, names, values):
    """A right side with arguments for its parameters, of which fields may be taken; a record's own fields keep their names."""
    held = dict(zip(names, values))

    def given(match):
        base, dot, fields = match[0].partition(".")
        is_field = text[match.end() :].startswith(" = ") and text[: match.start()].rstrip().endswith(("{", ";"))
        return match[0] if is_field or base not in held else held[base] + dot + fields

    return re.sub(r"[^\s(){};,]+", given, text)


def opened(file, side, depth=4):
    """A record that is written out, or that a definition makes, with the file of its names."""
    side = bare(side)
    if side.startswith("record {"):
        return side
    head, *arguments = words(side)
    meaning = file.meaning(head) if depth else None
    if not meaning or len(meaning[1]) != len(arguments) or len(meaning[2]) != 1:
        return None
    inner, names, (right,) = meaning
    return opened(Both(inner, file), put(right, names, arguments), depth - 1)


def field_of(file, value):
    """What a field of a record is, where the record is told; else the value itself."""
    base, dot, name = bare(value).rpartition(".")
    record = opened(file, base) if dot and re.fullmatch(r"[\w«»]+", name) else None
    for field in split(record[8:-1], ";") if record else []:
        label, _, told = field.partition("=")
        if label.strip() == name:
            return bare(told)
    return bare(value)


def holds_whole(file, side, wanted, size, depth=4):
    """One side of an equation is the parameter, or a record that has it whole, or all numbers of an array of `size`."""
    side = bare(side)
    if side == wanted:
        return True
    if side.startswith("record {"):
        values = [field_of(file, field.partition("=")[2]) for field in split(side[8:-1], ";")]
        numbers = [f"get_or {wanted} {k} 0" for k in range(size)]
        if size and all(number in values for number in numbers):
            return True
        return any(mentions(value, wanted) and holds_whole(file, value, wanted, size, depth) for value in values)
    head, *arguments = words(side)
    meaning = file.meaning(head) if depth else None
    if not meaning or len(meaning[1]) != len(arguments) or len(meaning[2]) != 1:
        return False
    inner, names, (right,) = meaning
    return holds_whole(Both(inner, file), put(right, names, arguments), wanted, size, depth - 1)


def says(file, clause, wanted, size):
    """A clause says without a condition what `wanted` is."""
    clause = bare(plain(clause))
    if len(split(clause, "→")) > 1:
        return False
    parts = split(clause, "×")
    if len(parts) > 1:
        return any(says(file, part, wanted, size) for part in parts)
    sides = split(clause, "≡")
    if len(sides) == 2:
        return any(
            not mentions(other, wanted) and holds_whole(file, one, wanted, size)
            for one, other in (sides, reversed(sides))
        )
    head, *arguments = words(clause)
    at = [k for k, argument in enumerate(arguments) if bare(argument) == wanted]
    meaning = file.meaning(head) if at else None
    if not meaning or len(meaning[1]) != len(arguments):
        return False
    file, names, clauses = meaning
    return any(says(file, part, names[k], size) for k in at for part in clauses)


def functions(path):
    """Each `pub fn` of a source: its name, its parameters that are lent to be written, and its `ensures`."""
    text = File.of(path).text
    for match in re.finditer(r'(?m)^( *)pub (?:unsafe )?(?:extern "C" )?fn (\w+)', text):
        start = text.index("(", match.end())
        end = closing(text, start)
        lent = []
        for parameter in split(text[start + 1 : end], ","):
            found = re.fullmatch(r"(?:mut )?(\w+)\s*:\s*&(?:'\w+ )?mut\s+(.*)", parameter, re.S)
            if found:
                array = re.fullmatch(r"\[\w+; (\d+)\]", found[2].strip())
                lent.append((found[1], int(array[1]) if array else 0))
            elif re.fullmatch(r"&(?:'\w+ )?mut self", parameter):
                lent.append(("self", 0))
            elif "mut" in re.findall(r"\w+", parameter):
                raise ValueError(f"{path}: {match[2]}: a parameter that is not understood: {parameter}")
        head = text[end : text.index("\n" + match[1] + "{", end)]
        begun = list(re.finditer(r"\bensures(?: \w+)? \{", head))
        clauses = [head[each.end() : closing(head, each.end() - 1)] for each in begun]
        if len(clauses) != len(re.findall(r"\bensures\b", head)):
            raise ValueError(f"{path}: {match[2]}: an ensures that is not understood")
        yield match[2], lent, clauses


def is_private(path):
    """A source of a module that another crate cannot name."""
    if path.stem in ("lib", "main"):
        return False
    outer = path.parent / ("lib.rt" if path.parent.name == "src" else f"../{path.parent.name}.rt")
    outer = outer.resolve()
    return not re.search(rf"(?m)^pub mod {path.stem};", outer.read_text(encoding="utf-8")) or is_private(outer)


def main():
    passed, failed, needed = 0, [], set()
    for path in sorted(ROOT.glob("crates/*/src/**/*.rt")):
        file = File.of(path)
        inner = [] if path.stem in ("lib", "main") else [path.stem]
        for function, lent, clauses in functions(path):
            name = "::".join([file.crate, *inner, function])
            for parameter, size in lent:
                key = f"{name} {parameter}"
                if any(says(file, clause, f"{parameter}.new", size) for clause in clauses):
                    passed += 1
                    continue
                needed.add(key)
                if key in OTHERS or key in PRIVATE and is_private(path):
                    passed += 1
                elif key in PRIVATE:
                    failed.append(f"{key}: its module is not private to its crate")
                else:
                    failed.append(f"{key}: no clause without a condition says what it is at the exit")
    for key in sorted({*PRIVATE, *OTHERS} - needed):
        failed.append(f"{key}: named in this test as an exception, and is none")
    for line in failed:
        print(line)
    print(f"{passed} passed, {len(failed)} failed")
    return 1 if failed else 0


if __name__ == "__main__":
    sys.exit(main())
