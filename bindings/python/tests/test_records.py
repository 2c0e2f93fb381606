"""The paper's record and all shipped ones: checked, read and written, and the line at fault."""

import copy
import dataclasses
import pickle
import unittest

import zorambi
from zorambi import Line, Model, Proof, Record, Refusal, Refused, Schema, Text, Verdict

from . import common

SORTS = ("accepted", "paper", "refused", "tidy", "wide")


def paper() -> Record:
    """The paper's record: some p_i for i from 2 to n, and no p_i for i from 2 to n."""
    schema = Schema(root=4, least=1, rows=[(2, 0, 2, 0), (3, 0, 2, 0), (7, 0, 2, 0), (6, 1, 2, 0), (4, 2, 3, 0)])
    proof = Proof(rows=[(7, 0, 2, 1), (2, 0, 1, 0), (6, 1, 2, 1), (3, 0, 1, 0)])
    proof.add_node((-1, 0, 4, -1, -1, -1, 0), [4])
    proof.add_node((0, 2, -1, -1, -1, -1, 0), [2, 3])
    proof.add_node((1, 7, 2, -1, -1, -1, 0), [2, 3])
    proof.add_node((1, 3, 3, 7, 8, -1, 0), [2, 3])
    proof.add_node((3, 4, 2, 5, 6, -1, 0), [2, 7, 8])
    proof.add_node((4, 8, -1, -1, -1, 1, 1), [5, 7])
    proof.add_node((4, 6, 6, 8, -1, -1, 0), [6, 8])
    return Record(schema, proof)


class Paper(unittest.TestCase):
    def test_it_is_accepted(self) -> None:
        verdict = zorambi.check(paper())
        self.assertEqual(verdict, Verdict(0, None, nodes=7, links=1))
        self.assertTrue(verdict)
        self.assertTrue(verdict.accepted)
        self.assertIsNone(verdict.refusal)
        self.assertEqual((str(verdict), verdict.words), ("accepted: 7 nodes, 1 link", "accepted"))
        self.assertEqual(
            (zorambi.write_schema(paper().schema), zorambi.write_proof(paper().proof)), common.texts(common.PAPER)
        )
        self.assertEqual(common.record(common.PAPER), paper())

    def test_a_link_below_its_target(self) -> None:
        record = paper()
        record.proof.nodes[5] = (4, 8, -1, -1, -1, 1, 2, 10, 2)
        verdict = zorambi.check(record)
        self.assertFalse(verdict)
        self.assertEqual((verdict.number, verdict.place, verdict.refusal, verdict.rule), (14, 5, Refusal.BOUND, 8))
        self.assertEqual((verdict.nodes, verdict.links, verdict.line), (0, 0, None))
        self.assertEqual(str(verdict), "refused: a link's bounds: n - by may lie outside its target's (14) at node 5")
        verdict = zorambi.check_texts(zorambi.write_schema(record.schema), zorambi.write_proof(record.proof))
        self.assertEqual(verdict.line, Line(Text.PROOF, 12, b"4 8 -1 -1 -1 1 2 5 7"))
        self.assertEqual(str(verdict.line), "proof.txt:12: 4 8 -1 -1 -1 1 2 5 7")

    def test_a_row_written_twice(self) -> None:
        record = paper()
        record.proof.rows.append((2, 0, 1, 0))
        self.assertEqual(str(zorambi.check(record)), "refused: a proof row written twice (27) at row 9")
        self.assertEqual(zorambi.check_older(record), Verdict(0, None, 7, 1))
        both = zorambi.write_schema(record.schema), zorambi.write_proof(record.proof)
        self.assertEqual(zorambi.check_texts(*both).line, Line(Text.PROOF, 6, b"2 0 1 0"))
        self.assertEqual(zorambi.check_older_texts(*both), Verdict(0, None, 7, 1))
        self.assertEqual(zorambi.check(Record(record.schema, zorambi.tidy(record))), Verdict(0, None, 7, 1))
        # With a wrong node besides, each check has its own line.
        record.proof.nodes[5] = (4, 8, -1, -1, -1, 1, 2, 10, 2)
        both = zorambi.write_schema(record.schema), zorambi.write_proof(record.proof)
        self.assertEqual(zorambi.check_texts(*both).line, Line(Text.PROOF, 6, b"2 0 1 0"))
        older = zorambi.check_older_texts(*both)
        self.assertEqual((older.line, older.rule), (Line(Text.PROOF, 13, b"4 8 -1 -1 -1 1 2 5 7"), 8))

    def test_without_nodes(self) -> None:
        verdict = zorambi.check(Record(paper().schema, Proof()))
        self.assertEqual((verdict.number, verdict.place, str(verdict)), (10, None, "refused: no node (10)"))
        self.assertEqual(zorambi.check(Record()).number, 6)

    def test_wrong_rules(self) -> None:
        record = paper()
        record.proof.nodes[3] = (1, 9, 3, 7, 8, -1, 0, 5, 2)
        self.assertEqual(str(zorambi.check(record)), "refused: no such rule (12) at node 3")
        record.proof.nodes[3] = (1, 3, 3, 7, 8, 0, 0, 5, 2)
        self.assertEqual(str(zorambi.check(record)), "refused: the fields of rule 3, unfold and (12) at node 3")
        record.proof.nodes[0] = (0, 0, 4, -1, -1, -1, 0, 0, 1)
        self.assertEqual(str(zorambi.check(record)), "refused: the first node's parent or set (10) at node 0")

    def test_models(self) -> None:
        some = Schema(2, 1, paper().schema.rows)
        self.assertEqual(str(zorambi.check_model(some, Model(3, [(0, 3)]))), "accepted")
        self.assertTrue(zorambi.check_model(some, Model(3, [(0, 3)])))
        self.assertEqual(zorambi.check_model(some, Model(3, [])).refusal, Refusal.FALSE)
        self.assertEqual(
            str(zorambi.check_model(some, Model(3, [(0, 3), (0, 3)]))),
            "refused: a pair out of order or range (18) at pair 1",
        )
        self.assertEqual(zorambi.check_model(some, Model(0, [])).refusal, Refusal.WIDTH)
        text = zorambi.write_schema(some)
        self.assertTrue(zorambi.check_model_texts(text, b"n\n3\nsymbol index\n0 3\n"))
        verdict = zorambi.check_model_texts(text, b"n\n3\nsymbol index\n0 3\n0 2\n")
        self.assertEqual((verdict.number, verdict.place, verdict.line), (18, 1, Line(Text.MODEL, 5, b"0 2")))


class Shipped(unittest.TestCase):
    def test_verdicts_are_the_expected_ones(self) -> None:
        for folder in (folder for sort in SORTS for folder in common.folders(sort)):
            number, place, nodes, links = map(int, (folder / "expected").read_text().split())
            older = (folder / "older").exists()
            expected = (number, place if number else None, nodes, links)
            schema, proof = common.texts(folder)
            checks = (zorambi.check_older, zorambi.check_older_texts) if older else (zorambi.check, zorambi.check_texts)
            of_tables, verdict = checks[0](common.record(folder)), checks[1](schema, proof)
            self.assertEqual((verdict.number, verdict.place, verdict.nodes, verdict.links), expected, folder)
            # The words are the same, since the line names the node's rule.
            self.assertEqual(dataclasses.replace(verdict, line=None), of_tables, folder)
            fault = verdict.line
            self.assertEqual(fault is None, number == 0, folder)
            if number in range(9, 18):
                assert fault is not None and place is not None
                rows = len(common.record(folder).proof.rows)
                self.assertEqual((fault.text, fault.number), (Text.PROOF, 1 + rows + 1 + place + 1), folder)

    def test_texts_read_and_written_again(self) -> None:
        for folder in (folder for sort in SORTS for folder in common.folders(sort)):
            schema, proof = common.texts(folder)
            self.assertEqual(zorambi.write_schema(zorambi.read_schema(schema)), schema)
            self.assertEqual(zorambi.write_proof(zorambi.read_proof(proof)), proof)
        models = list(common.ROOT.glob("records/refused/*/model.txt"))
        self.assertGreaterEqual(len(models), 9)
        for file in models:
            model = file.read_bytes()
            self.assertEqual(zorambi.write_model(zorambi.read_model(model)), model)
            self.assertTrue(zorambi.check_model_texts((file.parent / "schema.txt").read_bytes(), model))


class Texts(unittest.TestCase):
    def refused(self, read: object, *given: object) -> Refused:
        with self.assertRaises(Refused) as caught:
            read(*given)  # type: ignore[operator]
        return caught.exception

    def test_a_text_refused_in_reading(self) -> None:
        refused = self.refused(zorambi.read_schema, b"root least\n007 0\n")
        self.assertEqual((refused.number, refused.place, refused.refusal), (4, 2, Refusal.LINE))
        self.assertEqual(refused.line, Line(Text.SCHEMA, 2, b"007 0"))
        self.assertEqual(str(refused), "refused: a line's form (4) at line 2")
        self.assertEqual(refused.words, "a line's form")
        self.assertEqual(zorambi.check_texts(b"root least\n007 0\n", b""), Verdict(4, 2, line=refused.line))
        refused = self.refused(zorambi.read_proof, b"")
        self.assertEqual((refused.number, refused.line), (3, Line(Text.PROOF, 1, b"")))
        self.assertEqual(self.refused(zorambi.read_model, b"x\n").line, Line(Text.MODEL, 1, b"x"))

    def test_a_text_too_long(self) -> None:
        refused = self.refused(zorambi.read_schema, b"x" * 65_537)
        self.assertEqual((refused.number, refused.line), (1, None))
        self.assertEqual(self.refused(zorambi.read_schema, b"x" * 65_536).number, 3)

    def test_bytes_of_any_kind(self) -> None:
        schema, _ = common.texts(common.PAPER)
        for given in (
            bytearray(schema),
            memoryview(schema),
            memoryview(b"##" + schema)[2:],
            memoryview(bytes(2 * len(schema)))[::2],
        ):
            expected = None if bytes(given) != schema else zorambi.read_schema(schema)
            if expected is None:
                self.refused(zorambi.read_schema, given)
            else:
                self.assertEqual(zorambi.read_schema(given), expected)

    def test_rows_that_have_no_text(self) -> None:
        self.assertEqual(self.refused(zorambi.write_schema, Schema(0, 0, [(0, 0, 0, 100_000)])).refusal, Refusal.NUMBER)
        self.assertEqual(self.refused(zorambi.write_schema, Schema(0, 0, [(0, 0, 0, 0)] * 1025)).number, 5)
        self.assertEqual(self.refused(zorambi.write_model, Model(100_000, [])).refusal, Refusal.NUMBER)
        self.assertEqual(
            self.refused(zorambi.write_proof, Proof([], [(0,) * 7 + (1, 1)], [0, 0])).refusal, Refusal.NUMBER
        )

    def test_lines(self) -> None:
        text = b"one\n\nthree\nunfinished"
        self.assertEqual([zorambi.line(text, number) for number in range(6)], [b"", b"one", b"", b"three", b"", b""])
        self.assertEqual(zorambi.line(b"", 1), b"")
        self.assertEqual(zorambi.line(text, 2**64 - 1), b"")

    def test_what_is_shown_is_printable(self) -> None:
        for byte in range(256):
            expected = "\\\\" if byte == 92 else chr(byte) if 32 <= byte < 127 else f"\\x{byte:02x}"
            self.assertEqual(zorambi.shown(bytes([byte])), expected)
        line = zorambi.check_texts(b"root least\n\x1b[31m\xff\n", b"").line
        self.assertEqual(str(line), "schema.txt:2: \\x1b[31m\\xff")

    def test_refusals_and_verdicts_go_to_other_processes(self) -> None:
        refused = self.refused(zorambi.read_schema, b"root least\n007 0\n")
        again = pickle.loads(pickle.dumps(refused))
        self.assertEqual((type(again), str(again), again.line), (Refused, str(refused), refused.line))
        for value in (refused.verdict, paper(), zorambi.check(paper())):
            self.assertEqual(pickle.loads(pickle.dumps(value)), value)
            self.assertEqual(copy.deepcopy(value), value)


class Equality(unittest.TestCase):
    def test_equal_if_their_numbers_are(self) -> None:
        self.assertEqual(Schema(0, 1, [[2, 0, 1, 0]]), Schema(0, 1, ((2, 0, 1, 0),)))
        self.assertNotEqual(Schema(0, 1, [(2, 0, 1, 0)]), Schema(0, 1, [(2, 0, 1, 1)]))
        self.assertNotEqual(Schema(0, 1, []), Schema(0, 0, []))
        self.assertNotEqual(Schema(1, 1, []), Schema(0, 1, []))
        self.assertNotEqual(Proof([], [], [1]), Proof([], [], [2]))
        self.assertNotEqual(Proof([(0,) * 4], [], []), Proof([], [], []))
        self.assertNotEqual(Proof([], [(0,) * 9], []), Proof([], [], []))
        self.assertNotEqual(Model(1, []), Model(2, []))
        self.assertNotEqual(Model(1, []), Model(1, [(0, 0)]))
        self.assertNotEqual(Schema(), Model())
        self.assertNotEqual(Schema(), None)
        with self.assertRaises(TypeError):
            hash(Schema())


if __name__ == "__main__":
    unittest.main()
