"""A tableau that grows row by row."""

import threading
from dataclasses import dataclass
from typing import Any, List, Tuple

from . import entries
from ._memory import flat, numbers, plain_rows, table
from .record import MAX_MEMBERS, MAX_NODES, NODE_ROW, Members, Proof, Record, Row, Rows, Schema, schema_tables, zeros
from .verdict import Refused, unpacked


@dataclass(frozen=True)
class Standing:
    """What is there of a tableau that grows: its nodes and links, and whether it is closed, that is, `check` accepts
    it."""

    nodes: int = 0
    links: int = 0
    closed: bool = False


class Growing:
    """A tableau that is built row by row, and the formula rows that it is built on, of which it has a copy.

    A row that is refused raises Refused and changes nothing. Several threads may use one Growing: its calls wait for
    one another.

    >>> growing = Growing(Schema(2, 0, [(2, 0, 1, 0), (3, 0, 1, 0), (4, 0, 1, 0)]))  # p_n and not p_n
    >>> growing.add((-1, 0, 2, -1, -1, -1, 0), [2])
    Standing(nodes=1, links=0, closed=False)
    >>> growing.enquire((0, 6, 0, 1, -1, -1, 0), [0, 1]).closed
    True
    >>> growing.commit()
    Standing(nodes=2, links=0, closed=True)
    """

    def __init__(self, schema: Schema, rows: Rows = ()) -> None:
        """Begins with a schema, and further formula rows, which go on counting where the schema's end. They are judged
        as by `check`."""
        schema_rows, schema_count, root, least = schema_tables(schema)
        proof_rows, proof_count = table("the formula rows", rows, 4)
        self._given: List[Any] = [flat(schema_rows), schema_count, flat(proof_rows), proof_count, root, least]
        self._nodes, self._members = zeros(MAX_NODES * 9), zeros(MAX_MEMBERS)
        self._held, self._shown, self._waiting = entries.Sizes(), zeros(1), zeros(entries.WAITING_NUMBERS)
        self._standing = Standing()
        self._lock = threading.RLock()
        self.begin()

    def _call(self, entry: entries.Entry, *row: Any) -> Standing:
        """What is there after a call, or with the row that it asks about."""
        lent = (self._nodes, self._members, self._held, self._shown)
        answer = unpacked(entry(*self._given, *lent, *row, self._waiting))
        if answer.number == 0:
            return Standing(answer.nodes, answer.links, self._shown[0] == 1)
        # Only the row that is given has a rule to be spoken of: those held were accepted.
        rule = row[0][1] if row and answer.place == self._held[0] else None
        raise Refused(answer.number, answer.place, rule=rule, growing=True)

    def begin(self) -> Standing:
        """Begins anew: no row is held after it and none waits."""
        with self._lock:
            self._standing = self._call(entries.begin)
            return self._standing

    def add(self, row: Row, members: Members) -> Standing:
        """Adds a node row (up rule on with other to by) with its set at the end. It is judged as by `check`, but that
        its children may come later and that it may not be a child too many."""
        with self._lock:
            self._standing = self._call(entries.add, _node_row(row), numbers("the set", members))
            return self._standing

    def take_back(self) -> Standing:
        """Takes the last node row back."""
        with self._lock:
            self._standing = self._call(entries.take_back)
            return self._standing

    def enquire(self, row: Row, members: Members) -> Standing:
        """Answers as `add` would, and changes no row: what would be there with the row. One that would be added waits
        for `commit`, otherwise none does."""
        with self._lock:
            return self._call(entries.enquire, _node_row(row), numbers("the set", members))

    def commit(self) -> Standing:
        """Adds the row last enquired about, if the enquiry said yes and no commit, addition or take-back succeeded
        since."""
        with self._lock:
            self._standing = self._call(entries.commit)
            return self._standing

    @property
    def standing(self) -> Standing:
        """The nodes and links that are there, and whether the tableau is closed."""
        return self._standing

    def row(self, number: int) -> Tuple[Tuple[int, ...], List[int]]:
        """The node row with this number (up rule on with other to by) and its set. Raises IndexError if there is
        none."""
        with self._lock:
            if not 0 <= number < self._held[0]:
                raise IndexError(f"there is no node {number}: {self._held[0]} are held")
            *row, start, length = self._nodes[9 * number : 9 * number + 9]
            return tuple(row), self._members[start : start + length].tolist()

    def record(self) -> Record:
        """The schema, the formula rows and the node rows that are there."""
        with self._lock:
            schema_rows, _, proof_rows, _, root, least = self._given
            node_count, member_count = self._held
            nodes = plain_rows(self._nodes[: node_count * 9], 9)
            members = self._members[:member_count].tolist()
            schema = Schema(root, least, plain_rows(schema_rows, 4))
            return Record(schema, Proof(plain_rows(proof_rows, 4), nodes, members))


def _node_row(row: Row) -> Any:
    """The seven numbers of a node row."""
    given = flat(numbers("the row", row))
    if len(given) != 7:
        raise ValueError(f"a node's row has {len(given)} numbers, not 7: {NODE_ROW}")
    return given
