"""Whatever is given: an answer, a refusal, or an error of Python's that says what is wrong with the value."""

import unittest
from array import array
from typing import Any, Callable, List

import zorambi
from zorambi import Growing, Model, Proof, Record, Refusal, Refused, Schema, Verdict

from . import common

TURNED_AWAY = (TypeError, ValueError, OverflowError)


class Anything(unittest.TestCase):
    def setUp(self) -> None:
        self.rng = common.rng(self.id())

    def number(self) -> int:
        return self.rng.choice([self.rng.randint(-1, 4)] * 9 + [self.rng.randint(-(2**31), 2**31 - 1)])

    def formulas(self) -> List[Any]:
        """Rows of which the first are well formed."""
        well_formed = [(self.rng.randrange(2), 0, 0, 0), (2, 0, 1, 0), (3, 0, 1, 0)]
        return well_formed[: self.rng.randrange(4)] + self.rows(4)[:2]

    def rows(self, width: int) -> List[Any]:
        return [tuple(self.number() for _ in range(width)) for _ in range(self.rng.randrange(9))]

    def record(self) -> Record:
        proof = Proof(self.rows(4)[:2], self.rows(9), [self.number() for _ in range(self.rng.randrange(9))])
        return Record(Schema(self.number(), self.number(), self.formulas()), proof)

    def test_random_tables(self) -> None:
        seen = set()
        for _ in range(1500):
            record, model = self.record(), Model(self.number(), self.rows(2))
            for verdict in (
                zorambi.check(record), zorambi.check_older(record), zorambi.check_model(record.schema, model)
            ):
                self.assertIsInstance(verdict, Verdict)
                self.assertTrue(verdict.accepted or isinstance(verdict.refusal, Refusal))
                seen.add(verdict.number)
            makers: List[Callable[[], Any]] = [
                lambda: zorambi.tidy(record),
                lambda: zorambi.join(record, record),
                lambda: zorambi.convert(record.schema),
                lambda: zorambi.find_model(record.schema, model.n),
                lambda: zorambi.next_small(record.schema.rows),
                lambda: zorambi.write_schema(record.schema),
                lambda: zorambi.write_proof(record.proof),
                lambda: zorambi.write_model(model),
                lambda: Growing(record.schema, record.proof.rows),
            ]
            for make in makers:
                try:
                    make()
                except Refused as refused:
                    seen.add(refused.refusal.value)
        self.assertGreaterEqual(len(seen), 7, seen)

    def test_random_bytes(self) -> None:
        letters = [bytes(range(256)), b"0123456789- \n", b"root least\nkind a b c\n0123456789 "]
        for _ in range(1500):
            schema, proof = (
                bytes(self.rng.choices(self.rng.choice(letters), k=self.rng.randrange(200))) for _ in range(2)
            )
            for verdict in (
                zorambi.check_texts(schema, proof),
                zorambi.check_older_texts(schema, proof),
                zorambi.check_model_texts(schema, proof),
            ):
                self.assertIn(verdict.refusal, (Refusal.HEADING, Refusal.LINE))
                assert verdict.line is not None
                self.assertEqual(verdict.line.number, verdict.place)
                self.assertEqual(
                    verdict.line.content,
                    ((schema + b"\n").split(b"\n")[verdict.place - 1]) if self.finished(schema, verdict.place) else b"",
                )

    @staticmethod
    def finished(text: bytes, number: Any) -> bool:
        return bool(number <= text.count(b"\n"))

    def value(self, depth: int = 0) -> Any:
        """Something, which need not be what is wanted."""
        plain: List[Any] = [
            None,
            True,
            1.5,
            "x",
            b"x",
            2**31,
            -(2**40),
            self.number(),
            object(),
            array("i", [1, 2, 3, 4]),
            array("d", [1]),
            {},
            set(),
        ]
        if depth < 2 and self.rng.random() < 0.5:
            return [self.value(depth + 1) for _ in range(self.rng.randrange(6))]
        return self.rng.choice(plain)

    def test_values_of_any_type(self) -> None:
        turned_away = 0
        for _ in range(3000):
            record = Record(
                Schema(self.value(), self.value(), self.value()), Proof(self.value(), self.value(), self.value())
            )
            calls: List[Callable[[], Any]] = [
                lambda: zorambi.check(record),
                lambda: zorambi.check_model(record.schema, Model(self.value(), self.value())),
                lambda: zorambi.join(self.value(), record),
                lambda: zorambi.read_proof(self.value()),
                lambda: zorambi.line(self.value(), self.value()),
                lambda: zorambi.next_small(self.value()),
                lambda: Growing(Schema(0, 0, [(0, 0, 0, 0)])).add(self.value(), self.value()),
            ]
            try:
                self.rng.choice(calls)()
            except Refused:
                pass
            except TURNED_AWAY as error:
                turned_away += 1
                self.assertTrue(str(error))
        self.assertGreater(turned_away, 1000)


if __name__ == "__main__":
    unittest.main()
