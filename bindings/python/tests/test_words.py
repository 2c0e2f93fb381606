"""Refusals in words, as the crate for Rust has them, for each number, place and rule."""

import unittest

from zorambi import Refusal, Refused, Verdict
from zorambi.verdict import told

from . import common


class Words(unittest.TestCase):
    def test_words_are_those_of_the_crate_for_rust(self) -> None:
        cases = [
            (refusal.value, place, rule, growing)
            for refusal in Refusal
            for place in (None, 0, 1, 7, 1023)
            for rule in (None, *range(11), 12345)
            for growing in (False, True)
        ]
        asked = [" ".join(["told", *(str(-1 if value is None else int(value)) for value in case)]) for case in cases]
        for case, expected in zip(cases, common.beside(asked)):
            number, place, rule, growing = case
            self.assertEqual(told(number, place, rule, growing), expected)
            self.assertEqual(str(Refused(number, place, None, rule, growing)), expected)
            if not growing:
                verdict = Verdict(number, place, rule=rule)
                self.assertEqual(str(verdict), expected)
                self.assertIn(verdict.words, expected)

    def test_accepted(self) -> None:
        self.assertEqual(str(Verdict(0, None, 7, 1)), "accepted: 7 nodes, 1 link")
        self.assertEqual(str(Verdict(0, None, 1, 0)), "accepted: 1 node, 0 links")
        self.assertEqual(str(Verdict(0)), "accepted")

    def test_a_number_of_a_later_library(self) -> None:
        self.assertEqual(str(Verdict(99, 3)), "refused: a refusal that this package does not know (99)")


if __name__ == "__main__":
    unittest.main()
