#!/usr/bin/env python3
"""The numbers of docs/MANUAL.md are the library's.

Its table of refusals has every number with the words and the kind of place that the bindings have; its rules are those of the rule
table in the code; its headings are those that the readers take; each limit is tried: what lies at it is not refused with the numbers
that the page gives, what lies one beyond it is. Rows stand on the lines that the page says.

    tests/manual.py
"""
import re
import subprocess
import sys
from pathlib import Path

ROOT = Path(__file__).resolve().parent.parent
sys.dont_write_bytecode = True
sys.path.insert(0, str(ROOT / "bindings" / "python"))
PAGE = (ROOT / "docs" / "MANUAL.md").read_text()
# The same in one line, for sentences.
PLAIN = " ".join(PAGE.split())
# The least value of a schema whose n has that as its limit.
LEAST = 5
passed = failed = 0


def expect(what, fits):
    global passed, failed
    if fits:
        passed += 1
    else:
        failed += 1
        print(f"docs/MANUAL.md: {what}")


def table(heading, first):
    """The rows of the table below a heading whose first column's head is `first`."""
    _, _, section = PAGE.partition(f"\n## {heading}\n")
    section = section.split("\n## ")[0]
    lines = section.splitlines()
    starts = [k for k, line in enumerate(lines) if line.startswith(f"| {first} |")]
    rows = []
    for line in lines[starts[0] + 2:] if starts else []:
        if not line.startswith("|"):
            break
        rows.append([cell.strip() for cell in line.strip("|").split("|")])
    expect(f"no table '{first}' below '{heading}'", rows)
    return rows


def refusals(zorambi):
    from zorambi.refusals import PLACE_COUNTS, WORDS
    rows = table("Refusals", "number")
    expect("the refusals are not 1 to 31 in order", [row[0] for row in rows] == [str(number) for number in sorted(WORDS)])
    for row in rows:
        number = int(row[0])
        expect(f"refusal {number} has other words: {WORDS.get(number)}", row[1] == WORDS.get(number))
        counts = PLACE_COUNTS.get(number)
        expect(f"refusal {number}: its place counts {counts}", (counts in row[2]) if counts else not re.search(r"line|row|node|pair", row[2]))
        expect(f"refusal {number} says nothing of its meaning or what to do", len(row) == 5 and row[3] and row[4])
    lines = (ROOT / "records" / "README.md").read_text()
    for row in rows:
        expect(f"refusal {row[0]} has another line in records/README.md", re.search(rf"^\| {row[0]} \| ", lines, re.M))


def rules(zorambi):
    file = next(ROOT.glob("crates/*/src/rules.rt"))
    entries = [dict(re.findall(r"(\w+): (-?\w+)", entry)) for entry in re.findall(r"\bRule \{(.*?)\}", file.read_text(), re.S)]
    rows = table("The rules", "rule")
    expect("the rules are not nine", len(rows) == len(entries) == 9)
    for number, (row, entry) in enumerate(zip(rows, entries)):
        kind = {field: "" if entry[field] == "-1" else f"kind {entry[field]}" for field in ("on", "with")}
        wanted = [f"{number} {zorambi.RULES[number]}", kind["on"], kind["with"], "a row" if entry["other"] == "true" else "",
                  "a node" if entry["link"] == "true" else "",
                  "k" if entry["link"] == "true" else "K" if entry["split"] == "true" else "", entry["children"]]
        expect(f"rule {number} is not that of {file.relative_to(ROOT)}: {wanted}", row[:7] == wanted)


def number(text):
    return int(text.replace(",", ""))


# ---- what lies at a limit and one beyond it, as what the library answers

def answer(call):
    """The number of a refusal, 0 without one."""
    from zorambi import Refused
    try:
        verdict = call()
    except Refused as refused:
        return refused.number
    return (verdict.number or 0) if hasattr(verdict, "number") else 0


def sized(size):
    """Rows of which the last has that size: ands of true, and a big and over them where it is even."""
    rows, known = [(0, 0, 0, 0)], {1: 0}

    def leaves(count):
        if count not in known:
            rows.append((4, leaves(count // 2), leaves(count - count // 2), 0))
            known[count] = len(rows) - 1
        return known[count]

    top = leaves((size + 1) // 2 if size % 2 else size // 2)
    return rows if size % 2 else [*rows, (6, top, 0, 0)]


def deep(depth):
    return [(0, 0, 0, 0)] + [(4, k, 0, 0) for k in range(depth - 1)]


def schema_text(rows):
    return "".join(["root least\n0 0\nkind a b c\n", *(" ".join(map(str, row)) + "\n" for row in rows)]).encode()


def tried_limits(zorambi):
    """For each limit of the page calls with a number at it or beyond it."""
    from zorambi import Model, Proof, Record, Schema
    true, false = (0, 0, 0, 0), (1, 0, 0, 0)

    def model(rows, n=0, pairs=(), root=0, least=0):
        return lambda: zorambi.check_model(Schema(root, least, list(rows)), Model(n, list(pairs)))

    def check(rows, nodes, members=(0,), proof=()):
        return lambda: zorambi.check(Record(Schema(0, 0, list(rows)), Proof(list(proof), list(nodes), list(members))))

    def split(k):
        return (-1, 2, -1, -1, -1, -1, k, 0, 1)

    def iterated(n):
        return Schema(1, 0, [(2, 0, 2, 0), (7, 0, 1, 0)]), n

    return {
        "bytes of a text": lambda n: [lambda: zorambi.read_schema(b"x" * n)],
        "digits of a number in a text": lambda n: [lambda: zorambi.read_schema(schema_text([(2, 0, 0, int("1" * n))]))],
        "formula rows, schema and proof together": lambda n: [
            check([false], [(-1, 5, 0, -1, -1, -1, 0, 0, 1)], proof=[(2, 0, 0, k) for k in range(n - 1)])],
        "formula rows of one text": lambda n: [
            lambda: zorambi.read_schema(schema_text([true] * n)),
            lambda: zorambi.read_proof(b"kind a b c\n" + b"0 0 0 0\n" * n + b"up rule on with other to by set\n")],
        "nodes": lambda n: [check([true], [split(0)] + [(k, 2, -1, -1, -1, -1, 0, 1, 0) for k in range(n - 1)])],
        "members of all sets together": lambda n: [check([true], [split(0)], members=[0] * n)],
        "pairs of a model": lambda n: [model([true], pairs=[(0, k) for k in range(n)])],
        "symbol": lambda n: [model([true, (2, n, 0, 0)]), model([true], pairs=[(n, 0)])],
        "c of a literal, b and c of an iteration": lambda n: [
            model([true, (2, 0, 0, n)]), model([true, (2, 0, 2, 0), (6, 1, n, 0)]), model([true, (2, 0, 2, 0), (6, 1, 0, n)])],
        "index of a pair": lambda n: [model([true], pairs=[(0, n)])],
        "size of a formula": lambda n: [model(sized(n))],
        "depth of a formula": lambda n: [model(deep(n))],
        "least value": lambda n: [model([true], n=max(n, 0), least=n)],
        "n of a model, given or to be found": lambda n: [
            model([true], n=n, least=LEAST), lambda: zorambi.find_model(Schema(0, LEAST, [true]), n)],
        "K of a split at an open node": lambda n: [check([true], [split(n)])],
        # each row of kind 0 gives two
        "plain rows of a wide schema": lambda n: [lambda: zorambi.convert(Schema(0, 0, [true] * ((n + 1) // 2)))],
        "pairs that occur, where a model is to be found": lambda n: [lambda: zorambi.find_model(*iterated(n))],
        "rows of a small schema": lambda n: [lambda: zorambi.next_small([true] * n)],
    }


def limits(zorambi):
    tried = tried_limits(zorambi)
    rows = table("Limits", "what")
    expect("a limit that is not tried: " + ", ".join(row[0] for row in rows if row[0] not in tried and row[1] != "none"),
           all(row[0] in tried or row[1] == "none" for row in rows))
    expect("a limit that is not on the page: " + ", ".join(set(tried) - {row[0] for row in rows}), set(tried) <= {row[0] for row in rows})
    for what, limit, beyond in rows:
        if what not in tried:
            continue
        numbers = {int(each) for each in re.findall(r"\d+", beyond)}
        low, _, high = limit.rpartition("..")
        at = [number(high)] + ([LEAST if low == "least" else number(low)] if low else [])
        over = [number(high) + 1] + ([at[1] - 1] if low else [])
        for each in at:
            for call in tried[what](each):
                expect(f"{what}: {each} is refused with {answer(call)}", answer(call) not in numbers)
        for each in over:
            for call in tried[what](each):
                expect(f"{what}: {each} is answered with {answer(call)}, not one of {beyond}", answer(call) in numbers)


def sizes(zorambi):
    """The full sizes of result tables: one number less is refused with 2."""
    from array import array
    from zorambi import entries
    said = re.search(r"([\d,]+) numbers for formula rows, ([\d,]+) for pairs, ([\d,]+) for nodes, ([\d,]+) for members", PLAIN)
    expect("the full sizes of tables are not said", said)
    if not said:
        return
    rows, pairs, nodes, members = map(number, said.groups())

    def lent(count):
        return array("i", [0] * count)

    def proof(rows, nodes, members):
        return entries.read_proof(b"kind a b c\nup rule on with other to by set\n", lent(rows), lent(nodes), lent(members), lent(3)) >> 39

    def model(pairs):
        return entries.read_model(b"n\n0\nsymbol index\n", lent(pairs), lent(2)) >> 39

    expect("full tables are refused", proof(rows, nodes, members) == 0 and model(pairs) == 0)
    for short in ((rows - 1, nodes, members), (rows, nodes - 1, members), (rows, nodes, members - 1)):
        expect(f"tables of {short} numbers are not refused with 2", proof(*short) == 2)
    expect("a table of pairs one number short is not refused with 2", model(pairs - 1) == 2)


def lines(zorambi):
    """The lines of rows: what the library says of the line at fault is what the page's sums come to."""
    said = {what: (int(start), sum_) for what, start, sum_ in
            re.findall(r"^\| (schema row|proof row|node|pair) \w,?[^|]*\| line (\d) \+ ([^|]*?) of the", PAGE, re.M)}
    expect("the lines of rows are not said", set(said) == {"schema row", "proof row", "node", "pair"})
    if len(said) < 4:
        return

    def line(what, **names):
        start, sum_ = said[what]
        total, sign = start, 1
        for word in sum_.split():
            sign = {"+": 1, "-": -1}.get(word, sign)
            total += sign * names[word] if word in names else 0
        return total

    folder = ROOT / "records" / "paper" / "some_and_none"
    schema, proof = (folder / "schema.txt").read_text(), (folder / "proof.txt").read_text()
    fault = zorambi.check_texts(schema.replace("7 0 2 0\n", "9 0 2 0\n").encode(), proof.encode()).line
    expect("schema row 2 is on another line", fault.number == line("schema row", r=2))
    fault = zorambi.check_texts(schema.encode(), proof.replace("6 1 2 1\n", "9 1 2 1\n").encode()).line
    expect("proof row 7 is on another line", fault.number == line("proof row", r=7, S=5))
    fault = zorambi.check_texts(schema.encode(), proof.replace("4 8 -1 -1 -1 1 1 ", "4 8 -1 -1 -1 1 2 ").encode()).line
    expect("node 5 is on another line", fault.number == line("node", P=4, j=5))
    fault = zorambi.check_model_texts(schema.encode(), b"n\n3\nsymbol index\n0 1\n0 2\n0 2\n").line
    expect("pair 2 is on another line", fault.number == line("pair", k=2))


def headings(zorambi):
    for row in table("Texts", "text"):
        first, third = row[1].strip("`"), row[3].strip("`")
        second = {"schema": "0 0", "model": "0"}[row[0]]
        read = {"schema": zorambi.read_schema, "model": zorambi.read_model}[row[0]]
        text = f"{first}\n{second}\n{third}\n".encode()
        expect(f"the headings of a {row[0]} are others", answer(lambda text=text, read=read: read(text)) == 0)
    said = re.search(r"A proof has the heading `([^`]*)`, further formula rows, the heading `([^`]*)`", PLAIN)
    expect("the headings of a proof are not said", said)
    expect("the headings of a proof are others", said and answer(lambda: zorambi.read_proof(f"{said[1]}\n{said[2]}\n".encode())) == 0)


def one_number(zorambi):
    from zorambi.verdict import unpacked
    said = re.search(r"\(\(answer × (\d+) \+ place \+ 1\) × (\d+) \+ nodes\) × (\d+) \+ links", PAGE)
    expect("the one number is not said", said)
    if not said:
        return
    a, b, c = map(int, said.groups())
    expect("the one number is another", tuple(unpacked(((14 * a + 5 + 1) * b + 7) * c + 3)) == (14, 5, 7, 3))


def main():
    if subprocess.run([ROOT / "zorambi", "build"], check=False).returncode:
        print("0 passed, 1 failed")
        return 1
    import zorambi
    for test in (refusals, rules, limits, sizes, lines, headings, one_number):
        test(zorambi)
    print(f"{passed} passed, {failed} failed")
    return 1 if failed else 0


if __name__ == "__main__":
    sys.exit(main())
