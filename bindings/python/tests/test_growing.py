"""A tableau that grows: every shipped record row by row, wrong rows in between, what is taken back, enquiries and
commits."""

import unittest
from array import array
from typing import Any, Callable

import zorambi
from zorambi import Growing, Proof, Record, Refusal, Refused, Schema, Standing

from . import common


class Grows(unittest.TestCase):
    def refused(self, call: Callable[..., Any], *given: Any) -> Refused:
        with self.assertRaises(Refused) as caught:
            call(*given)
        return caught.exception

    def test_shipped_records_row_by_row(self) -> None:
        for folder in common.folders("accepted"):
            record = common.record(folder)
            rows = common.node_rows(record.proof)
            growing = Growing(record.schema, record.proof.rows)
            self.assertEqual(growing.standing, Standing(0, 0, False))
            self.assertEqual(self.refused(growing.take_back).refusal, Refusal.NO_ROW)
            links = 0
            for number, (row, members) in enumerate(rows):
                wrong = (number, *row[1:])
                refused = self.refused(growing.add, wrong, members)
                self.assertEqual((refused.refusal, refused.place), (Refusal.PARENT, number))
                links += row[1] == 8
                standing = Standing(number + 1, links, number + 1 == len(rows))
                self.assertEqual(growing.enquire(row, members), standing)
                self.assertEqual(growing.standing.nodes, number)
                self.assertEqual((growing.commit() if number % 2 else growing.add(row, members)), standing)
                self.assertEqual(growing.standing, standing)
                self.assertEqual(growing.row(number), (row, members))
                self.assertEqual(self.refused(growing.commit).refusal, Refusal.WAITING)
            self.assertEqual(growing.record(), record)
            self.assertTrue(zorambi.check(growing.record()))
            self.assertRaises(IndexError, growing.row, len(rows))
            self.assertRaises(IndexError, growing.row, -1)

            row, members = rows[-1]
            refused = self.refused(growing.add, row, members)
            self.assertEqual((refused.refusal, refused.place), (Refusal.CHILDREN, len(rows)))
            self.assertEqual(str(refused), f"refused: a child more than its parent's rule has (17) at node {len(rows)}")
            self.assertTrue(growing.standing.closed)
            self.assertEqual(growing.take_back(), Standing(len(rows) - 1, links - (row[1] == 8), False))
            self.assertTrue(growing.add(row, members).closed)
            self.assertEqual(growing.begin(), Standing())
            self.assertEqual(growing.record(), Record(record.schema, Proof(record.proof.rows)))

    def test_refused_records(self) -> None:
        for folder in common.folders("refused"):
            record = common.record(folder)
            verdict = zorambi.check(record)

            def grow() -> None:
                growing = Growing(record.schema, record.proof.rows)
                for row, members in common.node_rows(record.proof):
                    growing.add(row, members)

            refused = self.refused(grow)
            self.assertEqual((refused.number, refused.place), (verdict.number, verdict.place), folder)
            self.assertEqual((refused.words, str(refused)), (verdict.words, str(verdict)), folder)

    def test_formula_rows(self) -> None:
        rows = [(2, 0, 2, 0), (6, 0, 0, 0)]
        self.assertEqual(Growing(Schema(1, 0, rows)).standing, Standing())
        self.assertEqual(self.refused(Growing, Schema(0, 0, rows)).refusal, Refusal.ROOT)
        refused = self.refused(Growing, Schema(1, 0, rows), [(4, 0, 1, 0)])
        self.assertEqual((refused.refusal, refused.place), (Refusal.ILL_FORMED, 2))
        self.assertEqual(self.refused(Growing, Schema(1, 0, rows), [(0,) * 4] * 2).refusal, Refusal.REPEATED)

    def test_it_has_its_own_rows(self) -> None:
        rows = array("i", [2, 0, 1, 0, 3, 0, 1, 0, 4, 0, 1, 0])
        schema = Schema(2, 0, rows)
        more = array("i", [0, 0, 0, 0])
        growing = Growing(schema, more)
        rows[8], more[0] = 0, 99
        schema.root = 9
        growing.add((-1, 0, 2, -1, -1, -1, 0), [2])
        growing.record().schema.rows.clear()
        growing.record().proof.nodes.clear()
        self.assertTrue(growing.add((0, 6, 0, 1, -1, -1, 0), [0, 1]).closed)

    def test_rows_of_another_length(self) -> None:
        growing = Growing(Schema(0, 0, [(0, 0, 0, 0)]))
        for call in (growing.add, growing.enquire):
            self.assertRaises(ValueError, call, (0,) * 6, [])
            self.assertRaises(ValueError, call, (0,) * 9, [])
            self.assertRaises(TypeError, call, (0,) * 6 + ("0",), [])
            self.assertRaises(TypeError, call, None, [])
            self.assertRaises(OverflowError, call, (0,) * 7, [2**31])
        self.assertEqual(growing.standing, Standing())

    def test_no_room(self) -> None:
        growing = Growing(Schema(1, 0, [(0, 0, 0, 0), (4, 0, 0, 0)]))
        for up in range(-1, 1023):
            growing.add((up, 0, 1, -1, -1, -1, 0), [1])
        self.assertEqual(self.refused(growing.add, (1023, 0, 1, -1, -1, -1, 0), [1]).refusal, Refusal.ROOM)


if __name__ == "__main__":
    unittest.main()
