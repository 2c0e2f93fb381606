"""Records and models as tables, and their checks."""

from array import array
from dataclasses import dataclass, field
from typing import Any, List, Optional, Sequence, Tuple, Union

from . import entries
from ._memory import Numbers, flat, number, numbers, table
from .refusals import PLACE_COUNTS
from .verdict import Verdict, unpacked

# Rows of so many numbers each, in a list or another sequence; or a buffer of int32 numbers, such as a numpy array, flat
# or with a row in each line.
Rows = Union[List[Sequence[int]], Any]
# Numbers in a list or another sequence, or in a buffer.
Row = Union[Sequence[int], Any]
Members = Union[List[int], Any]

# What a node's row is.
NODE_ROW = "up rule on with other to by; its set is given by itself"
MAX_ROWS = 1024
MAX_NODES = 1024
MAX_MEMBERS = 8192
MAX_PAIRS = 4096


class _Tables:
    """Two are equal if their numbers are, whatever holds them."""

    def _numbers(self) -> Tuple[Any, ...]:
        raise NotImplementedError

    def __eq__(self, other: object) -> bool:
        if type(other) is not type(self):
            return NotImplemented
        assert isinstance(other, _Tables)
        return self._numbers() == other._numbers()

    __hash__ = None  # type: ignore[assignment]


def _content(what: str, rows: Rows, width: int) -> bytes:
    return memoryview(table(what, rows, width)[0]).tobytes()


@dataclass(eq=False)
class Schema(_Tables):
    """A schema: its formula rows (kind a b c), one of them as the root, and the least value of n."""

    root: int = 0
    least: int = 0
    rows: Rows = field(default_factory=list)

    def _numbers(self) -> Tuple[Any, ...]:
        return (self.root, self.least, _content("the schema", self.rows, 4))


@dataclass(eq=False)
class Proof(_Tables):
    """A tableau for a schema: further formula rows, which go on counting where the schema's rows end, and nodes with
    their sets.

    A node row has 9 numbers: up rule on with other to by, then its set's start among the members and its length. The
    sets follow one another in `members`; `add_node` sees to that.
    """

    rows: Rows = field(default_factory=list)
    nodes: Rows = field(default_factory=list)
    members: Members = field(default_factory=list)

    def add_node(self, row: Row, members: Members) -> int:
        """Adds a node (up rule on with other to by) with its set at the end, and gives its number. `nodes` and
        `members` are lists."""
        if len(row) != 7:
            raise ValueError(f"a node's row has {len(row)} numbers, not 7: {NODE_ROW}")
        if not (isinstance(self.nodes, list) and isinstance(self.members, list)):
            raise TypeError("a node can be added where nodes and members are lists")
        self.nodes.append((*row, len(self.members), len(members)))
        self.members.extend(members)
        return len(self.nodes) - 1

    def _numbers(self) -> Tuple[Any, ...]:
        members = memoryview(numbers("the members", self.members)).tobytes()
        return (_content("the proof", self.rows, 4), _content("the nodes", self.nodes, 9), members)


@dataclass
class Record:
    """A schema and its tableau."""

    schema: Schema = field(default_factory=Schema)
    proof: Proof = field(default_factory=Proof)


@dataclass(eq=False)
class Model(_Tables):
    """A model: n, and the pairs (symbol index) that are true, strictly ascending."""

    n: int = 0
    pairs: Rows = field(default_factory=list)

    def _numbers(self) -> Tuple[Any, ...]:
        return (self.n, _content("the pairs", self.pairs, 2))


def zeros(count: int) -> "array[int]":
    """Memory to lend."""
    return array("i", bytes(4 * count))


def schema_tables(schema: Schema) -> List[Any]:
    """What an entry is given of a schema: its table, its count, root and least value."""
    _expect("a schema", schema, Schema)
    rows, count = table("the schema", schema.rows, 4)
    return [rows, count, number("root", schema.root), number("least", schema.least)]


def proof_tables(proof: Proof) -> List[Any]:
    """What an entry is given of a proof: three tables with their counts."""
    _expect("a proof", proof, Proof)
    members = numbers("the members", proof.members)
    given = [*table("the proof", proof.rows, 4), *table("the nodes", proof.nodes, 9)]
    return [*given, members, memoryview(members).nbytes // 4]


def record_tables(record: Record) -> List[Any]:
    """What an entry is given of a record."""
    _expect("a record", record, Record)
    schema, proof = schema_tables(record.schema), proof_tables(record.proof)
    return [*schema[:2], *proof[:2], *schema[2:], *proof[2:]]


def model_tables(model: Model) -> List[Any]:
    """What an entry is given of a model: n, its table and its count."""
    _expect("a model", model, Model)
    return [number("n", model.n), *table("the pairs", model.pairs, 2)]


def _expect(what: str, given: Any, kind: type) -> None:
    if not isinstance(given, kind):
        raise TypeError(f"{what} is needed, zorambi.{kind.__name__}, not a {type(given).__name__}")


def _rule_at(number: int, place: Optional[int], nodes: Numbers) -> Optional[int]:
    """The rule of the node at fault."""
    if PLACE_COUNTS.get(number) != "node" or place is None:
        return None
    return flat(nodes)[9 * place + 1]


def _judged(packed: int, nodes: Numbers) -> Verdict:
    answer = unpacked(packed)
    return Verdict(*answer, rule=_rule_at(answer.number, answer.place, nodes))


def check(record: Record) -> Verdict:
    """Checks a record. If it is accepted, its schema is false at every natural n from the least value up, under every
    assignment. A proof row that equals an earlier schema or proof row is refused."""
    tables = record_tables(record)
    return _judged(entries.check(*tables), tables[6])


def check_older(record: Record) -> Verdict:
    """Checks an older record: the same, but proof rows may repeat. Where `check` says anything else than 27, both say
    the same."""
    tables = record_tables(record)
    return _judged(entries.check_older(*tables), tables[6])


def check_model(schema: Schema, model: Model) -> Verdict:
    """Checks a model. If it is accepted, the schema is true at its n where exactly its pairs are true."""
    return Verdict(*unpacked(entries.check_model(*schema_tables(schema), *model_tables(model))))
