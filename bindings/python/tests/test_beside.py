"""Every entry beside the crate for Rust, on the same inputs: the number that comes back and all that is lent."""

import unittest
from typing import Any, Callable, Dict, List, Tuple

import zorambi
from zorambi import entries

from . import common
from .common import Bytes, Lent

Case = Tuple[str, List[Any]]


def flat(rows: Any) -> List[int]:
    return [number for row in rows for number in row]


def tables(record: zorambi.Record) -> List[Any]:
    schema, proof = record.schema, record.proof
    return [
        flat(schema.rows), len(schema.rows), flat(proof.rows), len(proof.rows), schema.root, schema.least,
        flat(proof.nodes), len(proof.nodes), list(proof.members), len(proof.members),
    ]  # fmt: skip


class Inputs:
    """Inputs of each entry: shipped ones, shipped ones with something changed, and what comes."""

    def __init__(self) -> None:
        self.rng = common.rng("beside")
        sorts = ("accepted", "refused", "paper", "tidy", "wide")
        self.folders = [folder for sort in sorts for folder in common.folders(sort)]
        self.texts = [common.texts(folder) for folder in self.folders]
        self.tables = [tables(common.record(folder)) for folder in self.folders]
        self.accepted = [given for given in self.tables if entries.check(*given) >> 39 == 0]
        self.models = [file.read_bytes() for file in sorted(common.ROOT.glob("records/**/model.txt"))]
        self.models += [b"n\n3\nsymbol index\n0 3\n", b"n\n1\nsymbol index\n0 1\n1 -2\n"]
        found = [(schema, zorambi.find_model(schema, n)) for schema in zorambi.small(2) for n in (0, 2, 3)]
        self.found = [(schema, model) for schema, model in found if model is not None]
        self.modelled = [(schema, model) for schema, _ in self.texts for model in self.models]
        self.modelled += [(zorambi.write_schema(schema), zorambi.write_model(model)) for schema, model in self.found]
        self.wide = [zorambi.read_schema(file.read_bytes()) for file in sorted(common.ROOT.glob("records/**/wide.txt"))]

    def number(self) -> int:
        ends = [-(2**31), 2**31 - 1, -1, 0, 1, 9999, 10000, 99999, 100000]
        return self.rng.choice([self.rng.randint(-2, 12), self.rng.randint(-(2**31), 2**31 - 1), self.rng.choice(ends)])

    def count(self, length: int) -> int:
        """A count for a table of so many rows: most often the right one."""
        return self.rng.choice(
            [length] * 24 + [length + 1, max(0, length - 1), 0, 1024, 1025, 8192, 8193, 2**32, 2**64 - 1]
        )

    def changed(self, numbers: List[int]) -> List[int]:
        """The numbers, or some of them others, or one fewer or more."""
        numbers = list(numbers)
        how = self.rng.randrange(6)
        if how == 0 and numbers:
            del numbers[self.rng.randrange(len(numbers))]
        elif how == 1:
            numbers.insert(self.rng.randint(0, len(numbers)), self.number())
        elif how == 2:
            numbers = [self.number() for _ in range(self.rng.randrange(40))]
        elif how < 5 and numbers:
            at = self.rng.randrange(len(numbers))
            numbers[at] = self.rng.choice([numbers[at] + 1, numbers[at] - 1, self.number()])
            numbers[at] = max(-(2**31), min(2**31 - 1, numbers[at]))
        return numbers

    def record(self) -> List[Any]:
        """The tables of a record with their counts, root and least."""
        given = list(self.rng.choice(self.tables))
        for at in range(len(given)):
            if self.rng.random() < 0.15:
                given[at] = self.changed(given[at]) if isinstance(given[at], list) else given[at]
        for at in (1, 3, 7, 9):
            if self.rng.random() < 0.15:
                given[at] = self.count(given[at])
        for at in (4, 5):
            if self.rng.random() < 0.1:
                given[at] = self.number()
        return given

    def schema(self) -> List[Any]:
        given = self.record()
        return given[:2] + given[4:6]

    def text(self, texts: List[bytes]) -> bytes:
        """One of the texts, or one with bytes changed, or any bytes."""
        text = bytearray(self.rng.choice(texts))
        how = self.rng.randrange(8)
        if how == 0:
            return bytes(self.rng.randrange(256) for _ in range(self.rng.randrange(80)))
        if how == 1:
            return bytes(self.rng.choice(b"0123456789-\n ") for _ in range(self.rng.randrange(80)))
        if how == 2:
            return bytes(text) * self.rng.choice([0, 2, 400])
        if how < 6 and text:
            at = self.rng.randrange(len(text))
            part = bytes(self.rng.choice(b"0123456789-\n \0\xff") for _ in range(self.rng.randrange(3)))
            text[at : at + self.rng.randrange(3)] = part
        return bytes(text)

    def schema_text(self) -> bytes:
        return self.text([schema for schema, _ in self.texts])

    def proof_text(self) -> bytes:
        return self.text([proof for _, proof in self.texts])

    def two_texts(self, pairs: List[Tuple[bytes, bytes]]) -> List[bytes]:
        """A schema's text and the other one of a pair, each changed or not."""
        schema, other = self.rng.choice(pairs)
        return [
            self.text([schema]) if self.rng.random() < 0.3 else schema,
            self.text([other]) if self.rng.random() < 0.6 else other,
        ]

    def lent(self, length: int) -> Lent:
        """A table to lend with something in it: most often of full size."""
        other = [0, 1, max(0, length - 1), length + 1, self.rng.randint(0, length)]
        return Lent([self.number()] * self.rng.choice([length] * 40 + other))

    def fixed(self, length: int) -> Lent:
        return Lent([self.number() for _ in range(length)])

    def out(self) -> Bytes:
        return Bytes(
            bytes([self.rng.randrange(256)]) * self.rng.choice([65536] * 4 + [65535, 65537, 0, 10, 100, 500, 5000])
        )

    def proof_lent(self) -> List[Lent]:
        return [self.lent(4096), self.lent(9216), self.lent(8192)]

    def model(self) -> List[Any]:
        pairs = self.rng.choice([[], [0, 3], [0, 1, 0, 2, 0, 3], [0, 0, 1, 5], [0, -1, 0, 1]])
        pairs = self.changed(pairs) if self.rng.random() < 0.3 else pairs
        return [self.rng.choice([0, 1, 2, 3, 8, self.number()]), pairs, self.count(len(pairs) // 2)]

    def schema_and_model(self) -> List[Any]:
        if self.rng.random() < 0.6:
            return self.schema() + self.model()
        schema, model = self.rng.choice(self.found)
        return [
            flat(schema.rows), len(schema.rows), schema.root, schema.least, model.n, flat(model.pairs), len(model.pairs)
        ]

    def proof_rows(self) -> List[Any]:
        given = self.record()
        return given[2:4] + given[6:]

    def growing(self) -> Tuple[List[Any], List[int], List[int]]:
        """The first values of an entry that grows a tableau, and a row with its set to go with them."""
        record = list(self.rng.choice(self.tables))
        nodes, members = record[6], record[8]
        rows = self.rng.randint(0, record[7] - 1)
        at = nodes[9 * rows + 7]
        room, members_room = self.rng.choice(
            [(9216, 8192)] * 6 + [(9 * rows + 9, at + nodes[9 * rows + 8]), (9 * rows, at), (0, 0)]
        )
        held_nodes = (nodes[: 9 * rows] + [self.rng.choice([0, 7])] * room)[:room]
        held_members = (members[:at] + [self.rng.choice([0, 7])] * members_room)[:members_room]
        if self.rng.random() < 0.2:
            held_nodes = self.changed(held_nodes)
        if self.rng.random() < 0.1:
            held_members = self.changed(held_members)
        held = [rows, at] if self.rng.random() < 0.8 else [self.count(rows), self.count(at)]
        row, members = nodes[9 * rows : 9 * rows + 7], members[at : at + nodes[9 * rows + 8]]
        if self.rng.random() < 0.3:
            row[self.rng.randrange(7)] = self.number()
        if self.rng.random() < 0.2:
            members = self.changed(members)
        lent = [Lent(held_nodes), Lent(held_members), Lent(held, sizes=True), self.fixed(1)]
        return record[:6] + lent, row, members

    def waiting(self, row: List[int], members: List[int]) -> Lent:
        numbers = [1, len(members), *row, *members][:1033]
        numbers = (numbers + [0] * 1033)[:1033]
        if self.rng.random() < 0.3:
            numbers[self.rng.randrange(12)] = self.number()
        return self.rng.choice([Lent(numbers), Lent(numbers), Lent([0] * 1033), Lent([self.number()] * 1033)])

    def grown(self, with_row: bool) -> List[Any]:
        given, row, members = self.growing()
        return given + ([row, members] if with_row else []) + [self.waiting(row, members)]

    def small(self) -> List[Any]:
        rows = self.rng.randint(1, 3)
        table = self.rng.choice(
            [[0] * (4 * rows), [3, 0, 2, 1, 7, 0, 0, 1], [3, 0, 1, 1], self.changed([0] * (4 * rows))]
        )
        return [table, self.rng.choice([len(table) // 4] * 5 + [0, 1, 2, 3, 4, 2**63]), self.lent(4 * rows)]

    def widened(self) -> List[Any]:
        wide = self.rng.choice(self.wide)
        rows = flat(wide.rows)
        rows = self.changed(rows) if self.rng.random() < 0.5 else rows
        return [rows, self.count(len(wide.rows)), wide.root, wide.least, self.lent(4096), self.fixed(3)]

    def joined(self) -> List[Any]:
        """Two records, most often accepted ones."""
        both = [self.record() if self.rng.random() < 0.25 else self.rng.choice(self.accepted) for _ in range(2)]
        return both[0] + both[1] + [self.lent(4096), *self.proof_lent(), self.fixed(6)]

    def of(self) -> Dict[str, Callable[[], List[Any]]]:
        """How an input of each entry is made."""
        return {
            "check": self.record,
            "check_older": self.record,
            "check_model": self.schema_and_model,
            "read_schema": lambda: [self.schema_text(), self.lent(4096), self.fixed(3)],
            "read_proof": lambda: [self.proof_text(), *self.proof_lent(), self.fixed(3)],
            "read_model": lambda: [self.text(self.models), self.lent(8192), self.fixed(2)],
            "write_schema": lambda: self.schema() + [self.out()],
            "write_proof": lambda: self.proof_rows() + [self.out()],
            "write_model": lambda: self.model() + [self.out()],
            "line": lambda: [
                self.proof_text(), self.rng.choice([0, 1, 2, 3, 7, 30, 2**64 - 1]), Lent([5, 5], sizes=True)
            ],
            "check_texts": lambda: self.two_texts(self.texts),
            "check_older_texts": lambda: self.two_texts(self.texts),
            "check_model_texts": lambda: self.two_texts(self.modelled),
            "find_model": lambda: self.schema() + [
                self.rng.choice([0, 1, 2, 3, self.number()]), self.lent(8192), self.fixed(2)
            ],
            "convert": self.widened,
            "next_small": self.small,
            "tidy": lambda: self.record() + [*self.proof_lent(), self.fixed(3)],
            "join": self.joined,
            "begin": lambda: self.grown(False),
            "add": lambda: self.grown(True),
            "take_back": lambda: self.grown(False),
            "enquire": lambda: self.grown(True),
            "commit": lambda: self.grown(False),
        }


class Beside(unittest.TestCase):
    EACH = 60

    def test_every_entry_answers_alike(self) -> None:
        inputs = Inputs()
        makers = inputs.of()
        self.assertEqual({f"zorambi_{name}" for name in makers}, {entry.name for entry in entries.ALL})
        cases: List[Case] = [(name, make()) for name, make in makers.items() for _ in range(self.EACH)]
        cases += [("check", given) for given in inputs.tables] + [("check_older", given) for given in inputs.tables]
        cases += [("check_texts", list(both)) for both in inputs.texts]
        lines = [common.line_of(*case) for case in cases]
        for case, line, answer in zip(cases, lines, common.beside([self.without_span(line) for line in lines])):
            self.assertEqual(common.called(*case), answer, f"seed {common.SEED}: {line[:2000]}")

    @staticmethod
    def without_span(line: str) -> str:
        """The crate's function gives a line's span back, and has no array for it."""
        return line.rsplit(" ", 1)[0] if line.startswith("line ") else line

    def test_inputs_are_accepted_and_refused(self) -> None:
        """What the entries are given is of both sorts, and of many refusals."""
        inputs = Inputs()
        numbers: Dict[str, List[int]] = {}
        for name, make in inputs.of().items():
            if name != "line":
                numbers[name] = [int(common.called(name, make()).split()[0]) >> 39 & 31 for _ in range(self.EACH)]
                self.assertIn(0, numbers[name], name)
                self.assertGreater(len(set(numbers[name])), 1, name)
        self.assertGreaterEqual(len({number for each in numbers.values() for number in each}), 24)


if __name__ == "__main__":
    unittest.main()
