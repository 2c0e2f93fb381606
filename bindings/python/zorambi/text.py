"""Texts of schemata, proofs and models: read, written, and checked at once, and the line at fault. A text is bytes."""

from typing import Any, Callable

from . import entries
from ._memory import plain_rows, text as text_bytes
from .record import (
    MAX_MEMBERS,
    MAX_NODES,
    MAX_PAIRS,
    MAX_ROWS,
    Model,
    Proof,
    Schema,
    model_tables,
    proof_tables,
    schema_tables,
    zeros,
)
from .refusals import PLACE_COUNTS
from .verdict import Line, Refused, Text, Verdict, succeeded, unpacked

# A text has at most this many bytes.
MAX_TEXT = 65_536


def line(text: bytes, number: int) -> bytes:
    """Line `number` of a text, from 1, without its byte 10; empty if there is no such finished line."""
    text = text_bytes("the text", text)
    span = entries.Sizes()
    entries.line(text, number, span)
    start, length = span
    return text[start : start + length]


def _read(which: Text, text: bytes, read: Callable[[bytes], int]) -> None:
    """Reads; a refusal has the line that it speaks of."""
    try:
        succeeded(read(text))
    except Refused as refused:
        at = refused.place
        raise Refused(refused.number, at, Line(which, at, line(text, at)) if at else None) from None


def read_schema(text: bytes) -> Schema:
    """Reads a schema text, also of a wide schema. Raises Refused with the line at fault."""
    text = text_bytes("a schema text", text)
    rows, results = zeros(MAX_ROWS * 4), zeros(3)
    _read(Text.SCHEMA, text, lambda text: entries.read_schema(text, rows, results))
    root, least, count = results
    return Schema(root, least, plain_rows(rows[: count * 4], 4))


def with_lists(proof: Proof) -> Proof:
    """A proof whose tables are arrays, with lists instead."""
    return Proof(plain_rows(proof.rows, 4), plain_rows(proof.nodes, 9), list(proof.members))


def filled_proof(fill: Callable[..., Any]) -> Proof:
    """The proof that `fill` puts into tables of full size; its results are the numbers of rows, nodes and members."""
    rows, nodes, members, results = zeros(MAX_ROWS * 4), zeros(MAX_NODES * 9), zeros(MAX_MEMBERS), zeros(3)
    fill(rows, nodes, members, results)
    row_count, node_count, member_count = results
    return with_lists(Proof(rows[: row_count * 4], nodes[: node_count * 9], members[:member_count]))


def read_proof(text: bytes) -> Proof:
    """Reads a proof text. Raises Refused with the line at fault."""
    text = text_bytes("a proof text", text)
    return filled_proof(lambda *lent: _read(Text.PROOF, text, lambda text: entries.read_proof(text, *lent)))


def read_model(text: bytes) -> Model:
    """Reads a model text. Raises Refused with the line at fault."""
    text = text_bytes("a model text", text)
    pairs, results = zeros(MAX_PAIRS * 2), zeros(2)
    _read(Text.MODEL, text, lambda text: entries.read_model(text, pairs, results))
    n, count = results
    return Model(n, plain_rows(pairs[: count * 2], 2))


def _written(entry: entries.Entry, *tables: Any) -> bytes:
    out = bytearray(MAX_TEXT)
    packed = entry(*tables, out)
    succeeded(packed)
    return bytes(out[: packed & 0x3FF_FFFF])


def write_schema(schema: Schema) -> bytes:
    """Writes a schema text. Raises Refused where its rows have none."""
    return _written(entries.write_schema, *schema_tables(schema))


def write_proof(proof: Proof) -> bytes:
    """Writes a proof text. Raises Refused where its rows have none."""
    return _written(entries.write_proof, *proof_tables(proof))


def write_model(model: Model) -> bytes:
    """Writes a model text. Raises Refused where its pairs have none."""
    return _written(entries.write_model, *model_tables(model))


def _judged(entry: entries.Entry, second: Text, schema: bytes, other: bytes) -> Verdict:
    """The verdict on two texts. Above its number stand the line at fault and whether it is in the second text."""
    schema, other = text_bytes("a schema text", schema), text_bytes(f"a {second.name.lower()} text", other)
    packed = entry(schema, other)
    answer, number = unpacked(packed), packed >> 45
    if number == 0:
        return Verdict(*answer)
    which, text = (second, other) if packed >> 44 & 1 else (Text.SCHEMA, schema)
    at = Line(which, number, line(text, number))
    rule = int(at.content.split(b" ")[1]) if PLACE_COUNTS.get(answer.number) == "node" else None
    return Verdict(*answer, line=at, rule=rule)


def check_texts(schema: bytes, proof: bytes) -> Verdict:
    """Reads a schema text, then a proof text, and checks the record. A text refused in reading gives its refusal, and
    nothing is checked. A refusal has its line: the one refused in reading, or that of the row or node at fault; a
    refusal of the whole has none."""
    return _judged(entries.check_texts, Text.PROOF, schema, proof)


def check_older_texts(schema: bytes, proof: bytes) -> Verdict:
    """The same with `check_older`."""
    return _judged(entries.check_older_texts, Text.PROOF, schema, proof)


def check_model_texts(schema: bytes, model: bytes) -> Verdict:
    """Reads a schema text, then a model text, and checks the model. A refusal has its line, as that of the pair at
    fault."""
    return _judged(entries.check_model_texts, Text.MODEL, schema, model)
