"""What makes models, schemata and records. Each raises Refused where the library refuses."""

from typing import Iterator, Optional

from . import entries
from ._memory import count as count_of, number, plain_rows, table
from .record import (
    MAX_MEMBERS,
    MAX_NODES,
    MAX_PAIRS,
    MAX_ROWS,
    Model,
    Proof,
    Record,
    Rows,
    Schema,
    record_tables,
    schema_tables,
    zeros,
)
from .text import filled_proof, with_lists
from .verdict import succeeded


def find_model(schema: Schema, n: int) -> Optional[Model]:
    """A model of the schema at n, or None if no assignment makes it true there. Of the pairs that occur in the schema
    at n, at most 16, the ascending first is the most significant, and false comes before true: the model given is the
    first in that order. `check_model` accepts it."""
    pairs, results = zeros(MAX_PAIRS * 2), zeros(2)
    answer = succeeded(entries.find_model(*schema_tables(schema), number("n", n), pairs, results))
    n, count = results
    return Model(n, plain_rows(pairs[: count * 2], 2)) if answer.nodes == 1 else None


def convert(wide: Schema) -> Schema:
    """The plain schema of a wide one, whose rows may also be of kinds 8 not (a), 9 implies, 10 equivalent and 11
    exclusive or (a, b). The plain root is true exactly where the wide root is, so a tableau for the plain schema that
    `check` accepts refutes the wide one."""
    plain, results = zeros(MAX_ROWS * 4), zeros(3)
    succeeded(entries.convert(*schema_tables(wide), plain, results))
    root, least, count = results
    return Schema(root, least, plain_rows(plain[: count * 4], 4))


def next_small(rows: Rows) -> Optional[Rows]:
    """The small table after the given one, of as many rows; None if it is the last.

    The small tables of 1, 2 or 3 rows are all well-formed ones with symbol 0, literal offsets -1 to 1, iterations from
    0 with c 0 or 1, and an outer last row, which is the root. They ascend by their numbers, read row after row, and the
    first is all 0. Any other table is refused."""
    numbers, count = table("the table", rows, 4)
    following = zeros(count * 4)
    answer = succeeded(entries.next_small(numbers, count, following))
    return plain_rows(following, 4) if answer.nodes == 1 else None


def small(rows: int) -> Iterator[Schema]:
    """All small schemata of this many rows, 1 to 3, each with its last row as the root and least value 0: 14, 340 or
    10,384 of them, in the order of `next_small`.

    >>> sum(1 for schema in small(2))
    340
    """
    # More than 3 rows are refused, however many there are: that is seen here, not at the first step.
    first: Rows = [(0, 0, 0, 0)] * min(count_of("rows", rows), 4)
    next_small(first)
    return _from_table(first)


def _from_table(rows: Optional[Rows]) -> Iterator[Schema]:
    while rows is not None:
        yield Schema(len(rows) - 1, 0, rows)
        rows = next_small(rows)


def tidy(record: Record) -> Proof:
    """The proof of an older record without the rows that are written twice: each is folded into the earliest row that
    equals it, sets and fields get the new numbers, each set is sorted anew. If `check_older` accepts the record,
    `check` accepts its schema with this proof, with the same counts; otherwise its refusal is raised."""
    tables = record_tables(record)
    return filled_proof(lambda *lent: succeeded(entries.tidy(*tables, *lent)))


def join(first: Record, second: Record) -> Record:
    """One record for two: its schema has the first's rows, the second's, then the or of both roots, which is its root.
    Its tableau starts with rule 1 on that or, then has the first's nodes and the second's; their proof rows follow one
    another, tidied. `check` accepts it, with one node more than both have, and with as many links.

    If `check` refuses the first record its refusal is raised, and otherwise the second's; then 28 if the least values
    differ, 29 if the joined record passes a limit."""
    schema, proof = zeros(MAX_ROWS * 4), zeros(MAX_ROWS * 4)
    nodes, members, results = zeros(MAX_NODES * 9), zeros(MAX_MEMBERS), zeros(6)
    succeeded(entries.join(*record_tables(first), *record_tables(second), schema, proof, nodes, members, results))
    root, least, schema_rows, proof_rows, node_rows, member_count = results
    joined = Proof(proof[: proof_rows * 4], nodes[: node_rows * 9], members[:member_count])
    return Record(Schema(root, least, plain_rows(schema[: schema_rows * 4], 4)), with_lists(joined))
