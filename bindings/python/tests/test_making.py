"""Models found, wide schemata made plain, small schemata, older records tidied, records joined."""

import unittest
from typing import Any, Callable

import zorambi
from zorambi import Model, Record, Refusal, Refused, Schema, Verdict

from . import common
from .test_records import paper


class Making(unittest.TestCase):
    def refused(self, make: Callable[..., Any], *given: Any) -> Refused:
        with self.assertRaises(Refused) as caught:
            make(*given)
        return caught.exception

    def test_models_found(self) -> None:
        some = Schema(2, 1, paper().schema.rows)
        self.assertIsNone(zorambi.find_model(some, 1))
        self.assertEqual(zorambi.find_model(some, 3), Model(3, [(0, 3)]))
        self.assertEqual(zorambi.find_model(Schema(3, 1, some.rows), 17), Model(17, []))
        self.assertIsNone(zorambi.find_model(paper().schema, 17))
        self.assertEqual(
            str(self.refused(zorambi.find_model, some, 18)), "refused: more than 16 pairs that occur at that n (30)"
        )
        self.assertEqual(self.refused(zorambi.find_model, some, 0).refusal, Refusal.WIDTH)

    def test_wide_schemata(self) -> None:
        for folder in common.folders("wide"):
            wide = zorambi.read_schema((folder / "wide.txt").read_bytes())
            plain = zorambi.convert(wide)
            self.assertEqual(zorambi.write_schema(plain), (folder / "schema.txt").read_bytes())
        self.assertEqual(self.refused(zorambi.convert, Schema(0, 0, [(12, 0, 0, 0)])).number, 7)
        self.assertEqual(
            self.refused(zorambi.convert, Schema(0, 0, [(0, 0, 0, 0)] + [(10, 0, 0, 0)] * 200)).refusal, Refusal.PLAIN
        )

    def test_small_schemata(self) -> None:
        for rows, count in ((1, 14), (2, 340), (3, 10_384)):
            self.assertEqual(sum(1 for _ in zorambi.small(rows)), count)
        first = list(zorambi.small(1))
        self.assertEqual(first[0], Schema(0, 0, [(0, 0, 0, 0)]))
        numbers = [schema.rows[0] for schema in first]
        self.assertEqual(numbers, sorted(set(numbers)))
        self.assertEqual([schema.root for schema in zorambi.small(2)], [1] * 340)
        self.assertEqual(list(zorambi.small(2))[-1].rows, [(3, 0, 2, 1), (7, 0, 0, 1)])
        self.assertEqual(zorambi.next_small([(0, 0, 0, 0)]), [(1, 0, 0, 0)])
        self.assertIsNone(zorambi.next_small([(3, 0, 2, 1), (7, 0, 0, 1)]))
        for rows in (0, 4, 5, 2**60):
            self.assertEqual(self.refused(zorambi.small, rows).refusal, Refusal.NOT_LISTED)
        self.assertEqual(self.refused(zorambi.next_small, [(9, 0, 0, 0)]).refusal, Refusal.NOT_LISTED)

    def test_older_records_tidied(self) -> None:
        twice, once = common.ROOT / "records/tidy/rows_twice", common.ROOT / "records/tidy/rows_once"
        record = common.record(twice)
        self.assertEqual(zorambi.check(record).refusal, Refusal.REPEATED)
        tidied = zorambi.tidy(record)
        self.assertEqual(zorambi.write_proof(tidied), (once / "proof.txt").read_bytes())
        self.assertEqual(zorambi.check(Record(record.schema, tidied)), Verdict(0, None, 8, 1))
        for folder in common.folders("refused"):
            refused = common.record(folder)
            verdict = zorambi.check_older(refused)
            if not verdict:
                again = self.refused(zorambi.tidy, refused)
                self.assertEqual((again.number, again.place), (verdict.number, verdict.place))

    def test_records_joined(self) -> None:
        chain, transitive = (
            common.record(common.ROOT / "records/accepted" / name) for name in ("chain_531", "cmp_transitive")
        )
        joined = zorambi.join(chain, transitive)
        self.assertEqual(zorambi.check(joined), Verdict(0, None, 71, 2))
        rows = len(chain.schema.rows), len(transitive.schema.rows)
        self.assertEqual(joined.schema.rows[: rows[0]], chain.schema.rows)
        self.assertEqual(joined.schema.root, sum(rows))
        self.assertEqual(joined.schema.rows[-1], (5, chain.schema.root, rows[0] + transitive.schema.root, 0))
        self.assertEqual(
            zorambi.check_texts(zorambi.write_schema(joined.schema), zorambi.write_proof(joined.proof)).links, 2
        )
        self.assertEqual(self.refused(zorambi.join, chain, paper()).refusal, Refusal.LEASTS)
        wrong = common.record(common.ROOT / "records/refused/void_above_least")
        self.assertEqual(
            (self.refused(zorambi.join, chain, wrong).number, self.refused(zorambi.join, wrong, chain).place), (14, 3)
        )
        large = chain
        with self.assertRaises(Refused) as caught:
            for _ in range(12):
                large = zorambi.join(large, large)
        self.assertEqual(caught.exception.refusal, Refusal.JOINT)


if __name__ == "__main__":
    unittest.main()
