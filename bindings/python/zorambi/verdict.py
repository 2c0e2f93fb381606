"""Verdicts and refusals. What is asked of the library is answered by a `Verdict`, refused or not; what it cannot make
raises `Refused`."""

from dataclasses import dataclass
from enum import Enum
from typing import NamedTuple, Optional

from .refusals import AT_PLACE, GROWING, NO_SUCH_RULE, OF_RULE, PLACE_COUNTS, RULES, WORDS, Refusal


def shown(content: bytes) -> str:
    """Bytes of a record as they can be shown on one line: printable ASCII as it is, a backslash twice, any other byte
    as \\xNN.

    >>> print(shown(b"a\\\\b\\t\\x1b[31m"))
    a\\\\b\\x09\\x1b[31m
    """
    return "".join("\\\\" if byte == 92 else chr(byte) if 32 <= byte <= 126 else f"\\x{byte:02x}" for byte in content)


class Text(Enum):
    """A text of a record or of a model. Its file in the folder has that name."""

    SCHEMA = "schema.txt"
    PROOF = "proof.txt"
    MODEL = "model.txt"


@dataclass(frozen=True)
class Line:
    """A line at fault: of which text it is, its number from 1, and its bytes. As a str it can be printed, whatever its
    bytes are."""

    text: Text
    number: int
    content: bytes

    def __str__(self) -> str:
        return f"{self.text.value}:{self.number}: {shown(self.content)}"


def about(number: int, place: Optional[int], rule: Optional[int] = None, growing: bool = False) -> str:
    """What a refusal is about, as closely as its place and the rule of its node tell."""
    if growing and number in GROWING:
        return GROWING[number]
    if (number, place) in AT_PLACE:
        return AT_PLACE[number, place]
    words = WORDS.get(number, "a refusal that this package does not know")
    if rule is None:
        return words
    return OF_RULE.get((number, rule), words) if 0 <= rule < len(RULES) else NO_SUCH_RULE.get(number, words)


def told(number: int, place: Optional[int], rule: Optional[int] = None, growing: bool = False) -> str:
    """A refusal whole: 'refused: a split's K (14) at node 9'."""
    counts = PLACE_COUNTS.get(number)
    at = "" if counts is None or place is None else f" at {counts} {place}"
    return f"refused: {about(number, place, rule, growing)} ({number}){at}"


def _counted(count: int, thing: str) -> str:
    return f"{count} {thing}" + ("" if count == 1 else "s")


@dataclass(frozen=True)
class Verdict:
    """What the checks say. It counts as true if it is an acceptance, so `if check(record):` does what it says.

    number: 0 for an acceptance, else the refusal's number. place: the row, node, pair or line that a refusal speaks of,
    None for the whole. nodes, links: the counts of an accepted tableau. line: the line at fault, where texts were
    checked. rule: the rule of the node at fault, where it is known; the words speak of it.
    """

    number: int
    place: Optional[int] = None
    nodes: int = 0
    links: int = 0
    line: Optional[Line] = None
    rule: Optional[int] = None

    @property
    def accepted(self) -> bool:
        return self.number == 0

    def __bool__(self) -> bool:
        return self.accepted

    @property
    def refusal(self) -> Optional[Refusal]:
        """The refusal by its name; None for an acceptance."""
        return None if self.accepted else Refusal(self.number)

    @property
    def words(self) -> str:
        """What it comes to, without number and place: 'accepted', or what the refusal is about."""
        return "accepted" if self.accepted else about(self.number, self.place, self.rule)

    def __str__(self) -> str:
        if not self.accepted:
            return told(self.number, self.place, self.rule)
        if self.nodes == 0:
            return "accepted"
        return f"accepted: {_counted(self.nodes, 'node')}, {_counted(self.links, 'link')}"


class Refused(Exception):
    """The library refuses to make what it was asked for. The fields are as a `Verdict` has them."""

    def __init__(
        self,
        number: int,
        place: Optional[int] = None,
        line: Optional[Line] = None,
        rule: Optional[int] = None,
        growing: bool = False,
    ) -> None:
        super().__init__(number, place, line, rule, growing)
        self.number = number
        self.place = place
        self.line = line
        self.rule = rule
        self.growing = growing

    @property
    def refusal(self) -> Refusal:
        return Refusal(self.number)

    @property
    def words(self) -> str:
        return about(self.number, self.place, self.rule, self.growing)

    @property
    def verdict(self) -> Verdict:
        """The same as a value."""
        return Verdict(self.number, self.place, line=self.line, rule=self.rule)

    def __str__(self) -> str:
        return told(self.number, self.place, self.rule, self.growing)


class Answer(NamedTuple):
    """What the one number of the library says: ((number * 8192 + place + 1) * 8192 + nodes) * 8192 + links, whatever
    stands above it."""

    number: int
    place: Optional[int]
    nodes: int
    links: int


def unpacked(packed: int) -> Answer:
    number = packed >> 39 & 31
    place = (packed >> 26 & 8191) - 1
    return Answer(number, None if number == 0 or place < 0 else place, packed >> 13 & 8191, packed & 8191)


def succeeded(packed: int) -> Answer:
    """The answer of a success; raises Refused otherwise."""
    answer = unpacked(packed)
    if answer.number != 0:
        raise Refused(answer.number, answer.place)
    return answer
