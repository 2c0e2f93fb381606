"""The refusals: their numbers, names and words.

The words stand in bindings/rust. This file is written from there and not by hand: where they change,
'cargo run -p zorambi-beside --bin python-refusals' prints it anew.
"""

from enum import IntEnum
from typing import Dict, Optional, Tuple


class Refusal(IntEnum):
    """Why a record, a model or a text is turned away, by the paper's numbers."""

    TEXT_TOO_LONG = 1
    TABLE_TOO_SHORT = 2
    HEADING = 3
    LINE = 4
    TOO_MANY = 5
    ROOT = 6
    ILL_FORMED = 7
    TOO_LARGE = 8
    SET = 9
    PARENT = 10
    DRAWN = 11
    FIELDS = 12
    TARGET = 13
    BOUND = 14
    PARTNER = 15
    LOWERED = 16
    CHILDREN = 17
    PAIR = 18
    WIDTH = 19
    FALSE = 20
    NUMBER = 21
    OUTPUT = 22
    PLAIN = 23
    ROOM = 24
    NO_ROW = 25
    WAITING = 26
    REPEATED = 27
    LEASTS = 28
    JOINT = 29
    WIRES = 30
    NOT_LISTED = 31


# The rules by their numbers.
RULES = ("and", "or", "split", "unfold and", "unfold or", "false", "clash", "void", "loop")

# What a place counts.
PLACE_COUNTS: Dict[int, str] = {
    3: "line",
    4: "line",
    5: "line",
    7: "row",
    8: "row",
    9: "node",
    10: "node",
    11: "node",
    12: "node",
    13: "node",
    14: "node",
    15: "node",
    16: "node",
    17: "node",
    18: "pair",
    27: "row",
}

# What a refusal is about.
WORDS: Dict[int, str] = {
    1: "a text over 65,536 bytes",
    2: "a lent table too short",
    3: "a heading",
    4: "a line's form",
    5: "too many rows or members",
    6: "the root or the least value",
    7: "an ill-formed formula",
    8: "a formula too large or too deep",
    9: "a set's place, order or members",
    10: "a wrong parent",
    11: "a formula that the parent does not give",
    12: "no such rule, or fields that do not fit it",
    13: "a link whose to is not the number of a node before it",
    14: "a bound",
    15: "an unfolding's with or other",
    16: "a link's row without its lowered partner",
    17: "the number of children",
    18: "a pair out of order or range",
    19: "n out of range",
    20: "the schema is false there",
    21: "a number beyond 5 digits, or sets that do not follow one another",
    22: "the output",
    23: "plain rows too many, too large or too deep",
    24: "no room for the row",
    25: "no row to take back",
    26: "no row waits",
    27: "a proof row written twice",
    28: "the least values differ",
    29: "the joined record passes a limit",
    30: "more than 16 pairs that occur at that n",
    31: "not 1 to 3 rows, or a table that is not on the list of small ones",
}

# The same at a place that says more.
AT_PLACE: Dict[Tuple[int, Optional[int]], str] = {
    (10, None): "no node",
    (10, 0): "the first node's parent or set",
}

# The same of a node whose rule is known.
OF_RULE: Dict[Tuple[int, int], str] = {
    (12, 0): "the fields of rule 0, and",
    (12, 1): "the fields of rule 1, or",
    (12, 2): "the fields of rule 2, split",
    (12, 3): "the fields of rule 3, unfold and",
    (12, 4): "the fields of rule 4, unfold or",
    (12, 5): "the fields of rule 5, false",
    (12, 6): "the fields of rule 6, clash",
    (12, 7): "the fields of rule 7, void",
    (12, 8): "the fields of rule 8, loop",
    (14, 2): "a split's K",
    (14, 3): "an unfolding's bound",
    (14, 4): "an unfolding's bound",
    (14, 6): "a clash's index",
    (14, 7): "a void's bound",
    (14, 8): "a link's bounds: n - by may lie outside its target's",
    (17, 0): "the number of children of rule 0, and",
    (17, 1): "the number of children of rule 1, or",
    (17, 2): "the number of children of rule 2, split",
    (17, 3): "the number of children of rule 3, unfold and",
    (17, 4): "the number of children of rule 4, unfold or",
    (17, 5): "the number of children of rule 5, false",
    (17, 6): "the number of children of rule 6, clash",
    (17, 7): "the number of children of rule 7, void",
    (17, 8): "the number of children of rule 8, loop",
}

# The same of a node that names no rule.
NO_SUCH_RULE: Dict[int, str] = {
    12: "no such rule",
}

# The same of a row that is added to a tableau that grows.
GROWING: Dict[int, str] = {
    17: "a child more than its parent's rule has",
}
