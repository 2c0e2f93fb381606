"""What is given: buffers in place, sequences copied, wrong values told before anything is called."""

import ctypes
import unittest
from array import array
from decimal import Decimal
from fractions import Fraction
from typing import Any, Callable, List
from unittest import mock

import zorambi
from zorambi import Growing, Model, Proof, Record, Refused, Schema, Verdict, entries

from . import common
from .test_records import paper

try:
    import numpy
except ImportError:
    numpy = None  # type: ignore[assignment]


def flat(rows: Any) -> List[int]:
    return [number for row in rows for number in row]


def handed(entry: entries.Entry, call: Callable[[], Any]) -> List[int]:
    """What an entry is handed in a call."""
    kept: List[int] = []

    def instead(*given: int) -> int:
        kept.extend(given)
        return 0

    with mock.patch.object(entry, "_function", instead):
        call()
    return kept


class NeverCalled(unittest.TestCase):
    """Wrong values raise, and no entry is called."""

    def raises(self, error: type, words: str, call: Callable[..., Any], *given: Any) -> None:
        with mock.patch("zorambi.entries.Entry.__call__", side_effect=AssertionError("an entry is called")):
            with self.assertRaises(error) as caught:
                call(*given)
        self.assertIs(type(caught.exception), error)
        self.assertIn(words, str(caught.exception))

    def test_numbers(self) -> None:
        for wrong in (None, "4", b"4", 4.0, [4], Decimal(4), Fraction(4), 4j, object()):
            self.raises(TypeError, "root is", zorambi.check, Record(Schema(wrong, 1, []), Proof()))
            self.raises(TypeError, "least is", zorambi.write_schema, Schema(0, wrong, []))
            self.raises(TypeError, "n is", zorambi.check_model, Schema(), Model(wrong, []))
            self.raises(TypeError, "n is", zorambi.find_model, Schema(), wrong)
            self.raises(TypeError, "rows is", zorambi.small, wrong)
            self.raises(
                TypeError, "number 1 of row 1 is", zorambi.check_model, Schema(), Model(0, [(0, 1), (0, wrong)])
            )
            self.raises(
                TypeError, "the members: number 2 is", zorambi.check, Record(Schema(), Proof([], [], [1, 2, wrong]))
            )
        for beyond in (2**31, -(2**31) - 1, 2**32, 2**64, 10**5000):
            self.raises(OverflowError, "does not fit in 32 bits", zorambi.check, Record(Schema(beyond, 1, []), Proof()))
            self.raises(OverflowError, "number 3 of row 0 is", zorambi.write_schema, Schema(0, 0, [(0, 0, 0, beyond)]))
            self.raises(OverflowError, "n is", zorambi.find_model, Schema(), beyond)
            self.raises(
                OverflowError, "the members: number 1 is", zorambi.check, Record(Schema(), Proof([], [], [0, beyond]))
            )
        self.raises(ValueError, "rows is -1; a count is 0 or more", zorambi.small, -1)

    def test_rows(self) -> None:
        self.raises(
            ValueError,
            "the schema: row 1 has 3 numbers, not 4",
            zorambi.write_schema,
            Schema(0, 0, [(0, 0, 0, 0), (0, 0, 0)]),
        )
        self.raises(
            ValueError, "the schema: row 0 has 5 numbers, not 4", zorambi.write_schema, Schema(0, 0, [(0, 0, 0, 0, 0)])
        )
        self.raises(ValueError, "the nodes: row 0 has 7 numbers, not 9", zorambi.write_proof, Proof([], [(0,) * 7], []))
        self.raises(ValueError, "the pairs: row 0 has 1 numbers, not 2", zorambi.write_model, Model(0, [(0,)]))
        for wrong in (0, None, "0000", b"0000", {0: 0, 1: 0, 2: 0, 3: 0}, {0, 1, 2, 3}):
            self.raises(TypeError, "the schema: row 0 is", zorambi.write_schema, Schema(0, 0, [wrong]))
        for wrong in (None, 7, "rows", b"rows", bytearray(16), {}, set(), iter([]), (row for row in [])):
            self.raises(TypeError, "is not a sequence", zorambi.write_schema, Schema(0, 0, wrong))
            self.raises(TypeError, "is not a sequence", zorambi.check, Record(Schema(), Proof([], [], wrong)))
        self.raises(
            ValueError,
            "an array of shape (7,) is not rows of 4 numbers",
            zorambi.write_schema,
            Schema(0, 0, array("i", [0] * 7)),
        )
        for shape in ((1, 8), (8, 1), (2, 2, 2)):
            rows = memoryview(bytearray(32)).cast("i", shape)
            self.raises(ValueError, f"an array of shape {shape} is not rows", zorambi.write_schema, Schema(0, 0, rows))

    def test_records_and_texts(self) -> None:
        self.raises(TypeError, "a record is needed, zorambi.Record, not a Schema", zorambi.check, Schema())
        self.raises(TypeError, "a schema is needed", zorambi.write_schema, Proof())
        self.raises(TypeError, "a proof is needed", zorambi.write_proof, Schema())
        self.raises(TypeError, "a model is needed", zorambi.check_model, Schema(), [(0, 1)])
        self.raises(TypeError, "a schema is needed", Growing, None)
        for read in (zorambi.read_schema, zorambi.read_proof, zorambi.read_model):
            self.raises(TypeError, "a text is bytes: read its file in mode 'rb'", read, "root least\n")
            self.raises(TypeError, "a text is bytes", read, None)
            self.raises(TypeError, "a text is bytes", read, [1, 2])
            self.raises(TypeError, "a text is bytes", read, array("i", [1, 2]))
        for check in (zorambi.check_texts, zorambi.check_older_texts, zorambi.check_model_texts):
            self.raises(TypeError, "a schema text is a str; a text is bytes", check, "root least\n", b"")
            self.raises(TypeError, " text is a str; a text is bytes", check, b"", "n\n")

    def test_nodes_added(self) -> None:
        proof = Proof()
        self.assertRaises(ValueError, proof.add_node, (0,) * 9, [])
        self.assertRaises(TypeError, Proof(nodes=array("i")).add_node, (0,) * 7, [])
        self.assertEqual(proof, Proof())
        self.assertEqual([proof.add_node((0,) * 7, [1, 2]), proof.add_node((0,) * 7, [3])], [0, 1])
        self.assertEqual((proof.nodes[1][7:], proof.members), ((2, 1), [1, 2, 3]))


class Lent(unittest.TestCase):
    """What the entries themselves take."""

    def test_memory_that_is_lent(self) -> None:
        text, table, results = b"root least\n", array("i", [7] * 4096), array("i", [7] * 3)
        for wrong in (
            [0] * 4096,
            bytes(4096 * 4),
            memoryview(bytes(4096 * 4)).cast("i"),
            array("q", [0] * 4096),
            array("I", [0]),
            None,
        ):
            self.assertRaisesRegex(
                TypeError, "table is lent to be written", entries.read_schema, text, wrong, results
            )
        for length in (0, 2, 4):
            self.assertRaises(ValueError, entries.read_schema, text, table, array("i", [0] * length))
        self.assertRaises(TypeError, entries.read_schema, text, table, [0] * 3)
        for wrong in (bytes(10), array("i", [0]), None, "", memoryview(bytearray(10))[::2]):
            self.assertRaisesRegex(TypeError, "out is lent to be written", entries.write_model, 0, [], 0, wrong)
        for wrong in (array("Q", [0, 0]), [0, 0], (ctypes.c_size_t * 3)(), None):
            self.assertRaises(TypeError, entries.line, b"", 1, wrong)
        self.assertEqual((table, results), (array("i", [7] * 4096), array("i", [7] * 3)))
        entries.read_schema(text, table, results)
        self.assertEqual((table, results), (array("i", [0] * 4096), array("i", [0] * 3)))

    def test_memory_that_overlaps(self) -> None:
        table = array("i", [0] * 4099)
        view = memoryview(table)
        with self.assertRaisesRegex(ValueError, "table and results share memory"):
            entries.read_schema(b"", view[:4096], view[4093:4096])
        entries.read_schema(b"", view[:4096], view[4096:])
        with self.assertRaisesRegex(ValueError, "table and next share memory"):
            entries.next_small(view[:8], 1, view[4:8])
        with self.assertRaisesRegex(ValueError, "share memory"):
            entries.next_small(view, 1, view[4:8])
        with self.assertRaisesRegex(ValueError, "next and table share memory"):
            entries.next_small(view[4:8], 1, view[:8])
        entries.next_small(view[4:8], 1, view[:4])
        # What is only read may overlap.
        self.assertEqual(entries.check(view[:8], 2, view[4:12], 2, 0, 0, view[:9], 1, view[:1], 1) >> 39, 27)

    def test_counts(self) -> None:
        self.assertRaises(ValueError, entries.next_small, [0] * 4, -1, array("i", [0] * 4))
        self.assertRaises(OverflowError, entries.next_small, [0] * 4, 2**64, array("i", [0] * 4))
        self.assertEqual(entries.next_small([0] * 4, 2**64 - 1, array("i", [0] * 4)) >> 39, 2)
        with self.assertRaisesRegex(TypeError, "zorambi_next_small is given 2 values; it has 3: table, rows, next"):
            entries.next_small([], 0)

    def test_nothing_of_everything(self) -> None:
        """Empty slices have an address."""
        nothing: Any = array("i")
        self.assertEqual(entries.check([], 0, nothing, 0, 0, 0, (), 0, memoryview(nothing), 0) >> 39, 6)
        self.assertEqual(entries.read_schema(b"", nothing, array("i", [1] * 3)) >> 39, 2)
        self.assertEqual(entries.write_model(0, [], 0, bytearray()) >> 39, 22)
        self.assertNotIn(0, handed(entries.check_texts, lambda: entries.check_texts(b"", b""))[::2])


class InPlace(unittest.TestCase):
    """int32 numbers are taken where they stand."""

    def setUp(self) -> None:
        self.record = paper()
        self.rows = flat(self.record.schema.rows)

    def address(self, rows: Any) -> int:
        """Where the schema's table is that the check is handed."""
        record = Record(Schema(4, 1, rows), self.record.proof)
        return handed(entries.check, lambda: zorambi.check(record))[0]

    def test_arrays(self) -> None:
        rows = array("i", self.rows)
        for given in (rows, memoryview(rows), memoryview(rows).cast("B").cast("i", (5, 4))):
            self.assertEqual(self.address(given), rows.buffer_info()[0])
            self.assertEqual(zorambi.check(Record(Schema(4, 1, given), self.record.proof)), Verdict(0, None, 7, 1))
        given = (ctypes.c_int32 * 20)(*self.rows)
        self.assertEqual(self.address(given), ctypes.addressof(given))
        nodes, members = array("i", flat(self.record.proof.nodes)), array("i", self.record.proof.members)
        record = Record(self.record.schema, Proof(array("i", flat(self.record.proof.rows)), nodes, members))
        self.assertEqual(zorambi.check(record), Verdict(0, None, 7, 1))
        self.assertEqual(record, self.record)
        nodes[9 * 5 + 6] = 2
        verdict = zorambi.check(record)
        self.assertEqual((verdict.number, verdict.place, verdict.rule), (14, 5, 8))
        kept = handed(entries.check, lambda: zorambi.check(record))
        self.assertIn(nodes.buffer_info()[0], kept)
        self.assertIn(members.buffer_info()[0], kept)

    def test_other_numbers_are_copied(self) -> None:
        rows = array("i", self.rows)
        read_only = memoryview(rows.tobytes()).cast("i")
        apart = memoryview(array("i", [number for each in self.rows for number in (each, 99)]))[::2]
        for given in (read_only, self.record.schema.rows, tuple(map(list, self.record.schema.rows))):
            self.assertTrue(zorambi.check(Record(Schema(4, 1, given), self.record.proof)))
        wide = [array(kind, row) for row in self.record.schema.rows for kind in "q"]
        self.assertTrue(zorambi.check(Record(Schema(4, 1, wide), self.record.proof)))
        members = self.record.proof.members
        for given in (array("q", members), array("B", members), array("I", members), tuple(members)):
            self.assertTrue(
                zorambi.check(Record(self.record.schema, Proof(self.record.proof.rows, self.record.proof.nodes, given)))
            )
        # Numbers one by one are no rows, whatever they are in.
        self.assertRaises(TypeError, zorambi.check, Record(Schema(4, 1, apart), self.record.proof))
        self.assertRaises(TypeError, zorambi.check, Record(Schema(4, 1, self.rows), self.record.proof))
        self.assertRaises(TypeError, zorambi.check, Record(Schema(4, 1, array("f", self.rows)), self.record.proof))

    def test_what_is_given_is_not_written(self) -> None:
        for folder in common.folders("accepted") + common.folders("refused"):
            record = common.record(folder)
            proof = record.proof
            given = [
                array("i", flat(record.schema.rows)),
                array("i", flat(proof.rows)),
                array("i", flat(proof.nodes)),
                array("i", proof.members),
            ]
            before = [array("i", each) for each in given]
            held = Record(Schema(record.schema.root, record.schema.least, given[0]), Proof(*given[1:]))
            zorambi.check(held), zorambi.check_older(held), zorambi.write_proof(held.proof)
            for make in (zorambi.tidy, lambda held: zorambi.join(held, held)):
                try:
                    make(held)
                except Refused:
                    pass
            self.assertEqual(given, before)

    def test_it_can_grow_again_afterwards(self) -> None:
        rows = array("i", self.rows)
        self.assertTrue(zorambi.check(Record(Schema(4, 1, rows), self.record.proof)))
        rows.append(0)  # a BufferError if the memory were still held

    @unittest.skipIf(numpy is None, "numpy is not installed")
    def test_numpy(self) -> None:
        rows = numpy.array(self.record.schema.rows, dtype=numpy.int32)
        self.assertEqual(self.address(rows), rows.ctypes.data)
        self.assertEqual(self.address(rows.reshape(-1)), rows.ctypes.data)
        self.assertEqual(self.address(rows[1:]), rows.ctypes.data + 16)
        frozen = rows.copy()
        frozen.flags.writeable = False
        kinds = [rows.astype(kind) for kind in ("int64", "uint8", "int16", ">i4", "uint64", "object")]
        for given in [rows, frozen, numpy.asfortranarray(rows), numpy.repeat(rows, 2, axis=0)[::2], *kinds]:
            self.assertTrue(zorambi.check(Record(Schema(4, 1, given), self.record.proof)))
            self.assertEqual(Schema(4, 1, given), self.record.schema)
        self.assertTrue(zorambi.check(Record(Schema(numpy.int64(4), numpy.uint8(1), rows), self.record.proof)))
        for wrong in (rows.astype("float64"), rows.astype("float32"), rows.astype("complex64"), rows.astype("U")):
            self.assertRaises(TypeError, zorambi.check, Record(Schema(4, 1, wrong), self.record.proof))
        for wrong in (
            rows.reshape(2, 10),
            rows.reshape(1, 5, 4),
            rows[:, :3].copy(),
            rows[:, :3],
            numpy.zeros(7, dtype=numpy.int32),
        ):
            self.assertRaises(ValueError, zorambi.check, Record(Schema(4, 1, wrong), self.record.proof))
        self.assertRaises(TypeError, zorambi.check, Record(Schema(4, 1, numpy.int32(7)), self.record.proof))
        self.assertRaises(
            OverflowError, zorambi.check, Record(Schema(4, 1, rows.astype("int64") + 2**31), self.record.proof)
        )
        self.assertEqual(
            zorambi.check(Record(Schema(4, 1, numpy.zeros((0, 4), dtype=numpy.int32)), self.record.proof)).number, 6
        )
        nodes, members = (
            numpy.array(each, dtype=numpy.int32) for each in (self.record.proof.nodes, self.record.proof.members)
        )
        record = Record(
            Schema(4, 1, rows), Proof(numpy.array(self.record.proof.rows, dtype=numpy.int32), nodes, members)
        )
        self.assertEqual(record, self.record)
        kept = handed(entries.check, lambda: zorambi.check(record))
        self.assertTrue({nodes.ctypes.data, members.ctypes.data, rows.ctypes.data} <= set(kept))
        self.assertEqual(zorambi.write_proof(record.proof), common.texts(common.PAPER)[1])
        self.assertEqual(zorambi.tidy(record), self.record.proof)
        growing = Growing(record.schema, record.proof.rows)
        for node in nodes:
            growing.add(node[:7], members[node[7] : node[7] + node[8]])
        self.assertTrue(growing.standing.closed)
        results, table = numpy.zeros(3, dtype=numpy.int32), numpy.ones(4096, dtype=numpy.int32)
        self.assertEqual(entries.read_schema(common.texts(common.PAPER)[0], table, results) >> 39, 0)
        self.assertEqual((results.tolist(), table[:4].tolist()), ([4, 1, 5], [2, 0, 2, 0]))


if __name__ == "__main__":
    unittest.main()
