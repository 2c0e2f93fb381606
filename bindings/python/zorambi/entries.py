"""The library's entries as include/zorambi.h declares them: tables with counts in, one number back.

No entry asks for anything: tables may be shorter or longer than their counts say, and counts and numbers may be
whatever they are. The answer is then a refusal. `zorambi.check` and its neighbours are easier to use.

A slice of numbers is given as a sequence, a text as bytes; the count of what it has goes with it by itself. What is
lent, to be written, is a buffer that can be written: array.array('i'), a numpy array of dtype int32, or a bytearray for
bytes. An array of a fixed number of numbers has exactly so many. Memory that is lent may overlap nothing else of the
call, and is not to be touched until it returns.

    >>> from array import array
    >>> results = array("i", [0] * 3)
    >>> entries.read_schema(b"root least\\n0 0\\nkind a b c\\n0 0 0 0\\n", array("i", [0] * 4096), results) >> 39
    0
    >>> results
    array('i', [0, 0, 1])
"""

import ctypes
from typing import Any, List, Optional, Tuple

from . import _memory
from ._library import load

_library = load()
# Two numbers of the C type size_t: what is held of a tableau that grows, or where a line stands.
Sizes = ctypes.c_size_t * 2
# For an empty slice: the library takes an address that is not NULL, at which nothing is read or written.
_nothing = ctypes.c_uint64()


class _Call:
    """What one call hands to the library, and what holds the memory in place until it returns."""

    def __init__(self) -> None:
        self.handed: List[int] = []
        self.holders: List[Any] = []
        # of each slice where it starts and ends, its name, and whether it is written
        self.spans: List[Tuple[int, int, str, bool]] = []

    def memory(self, what: str, buffer: Any, nbytes: int, written: bool) -> None:
        """The address of a buffer of so many bytes, which can be written."""
        if nbytes == 0:
            self.handed.append(ctypes.addressof(_nothing))
            return
        holder = ctypes.c_char.from_buffer(buffer)
        self.address(what, ctypes.addressof(holder), holder, nbytes, written)

    def address(self, what: str, address: int, holder: Any, nbytes: int, written: bool) -> None:
        self.handed.append(address)
        self.holders.append(holder)
        self.spans.append((address, address + nbytes, what, written))

    def must_not_overlap(self) -> None:
        """No two slices share memory if one of them is written: so the library asks."""
        spans = sorted(self.spans)
        furthest: Optional[Tuple[int, int, str, bool]] = None
        furthest_written: Optional[Tuple[int, int, str, bool]] = None
        for span in spans:
            for earlier in (furthest, furthest_written):
                if earlier is not None and span[0] < earlier[1] and (span[3] or earlier[3]):
                    raise ValueError(f"{earlier[2]} and {span[2]} share memory, and one of them is written")
            if furthest is None or span[1] > furthest[1]:
                furthest = span
            if span[3] and (furthest_written is None or span[1] > furthest_written[1]):
                furthest_written = span


class _Kind:
    """What a parameter is: how the header declares it, and what is handed over for a value."""

    def __init__(self, declared: str, *types: Any) -> None:
        self.declared = declared
        self.types = types

    def hand(self, call: _Call, what: str, given: Any) -> None:
        raise NotImplementedError


class _Number(_Kind):
    def hand(self, call: _Call, what: str, given: Any) -> None:
        call.handed.append(_memory.number(what, given))


class _Count(_Kind):
    def hand(self, call: _Call, what: str, given: Any) -> None:
        call.handed.append(_memory.count(what, given))


class _Numbers(_Kind):
    def hand(self, call: _Call, what: str, given: Any) -> None:
        numbers = memoryview(_memory.numbers(what, given))
        call.memory(what, numbers, numbers.nbytes, False)
        call.handed.append(numbers.nbytes // 4)


class _TextBytes(_Kind):
    def hand(self, call: _Call, what: str, given: Any) -> None:
        text = _memory.text(what, given)
        if text:
            address = ctypes.cast(ctypes.c_char_p(text), ctypes.c_void_p).value
            assert address is not None
            call.address(what, address, text, len(text), False)
        else:
            call.memory(what, b"", 0, False)
        call.handed.append(len(text))


def _lent(what: str, given: Any) -> memoryview:
    """Numbers that can be written."""
    view = _memory.int32_view(given)
    if view is None or view.readonly:
        raise TypeError(
            f"{what} is lent to be written: an array of int32 numbers that can be is needed, as array.array('i')"
        )
    return view


class _LentNumbers(_Kind):
    def hand(self, call: _Call, what: str, given: Any) -> None:
        view = _lent(what, given)
        call.memory(what, view, view.nbytes, True)
        call.handed.append(view.nbytes // 4)


class _LentBytes(_Kind):
    def hand(self, call: _Call, what: str, given: Any) -> None:
        try:
            view = memoryview(given)
        except TypeError:
            view = memoryview(b"")
        if view.readonly or view.itemsize != 1 or not view.c_contiguous:
            raise TypeError(f"{what} is lent to be written: bytes that can be are needed, as a bytearray")
        call.memory(what, view, view.nbytes, True)
        call.handed.append(view.nbytes)


class _Array(_Kind):
    """A fixed number of numbers. Sizes are of the C type size_t."""

    def __init__(self, declared: str, length: int, written: bool = True, sizes: bool = False) -> None:
        super().__init__(f"{declared}[{length}]", ctypes.c_void_p)
        self.length = length
        self.written = written
        self.sizes = sizes

    def hand(self, call: _Call, what: str, given: Any) -> None:
        view = self._view(what, given)
        if view.nbytes != self.length * view.itemsize:
            raise ValueError(f"{what} has {view.nbytes // view.itemsize} numbers; it needs {self.length}")
        call.memory(what, view, view.nbytes, self.written)

    def _view(self, what: str, given: Any) -> memoryview:
        if self.sizes:
            if not isinstance(given, Sizes):
                raise TypeError(f"{what} is lent to be written: zorambi.entries.Sizes() is needed")
            return memoryview(given)
        if self.written:
            return _lent(what, given)
        return memoryview(_memory.numbers(what, given))


NUMBER = _Number("int32_t", ctypes.c_int32)
COUNT = _Count("size_t", ctypes.c_size_t)
NUMBERS = _Numbers("const int32_t *", ctypes.c_void_p, ctypes.c_size_t)
TEXT = _TextBytes("const uint8_t *", ctypes.c_void_p, ctypes.c_size_t)
LENT = _LentNumbers("int32_t *", ctypes.c_void_p, ctypes.c_size_t)
LENT_BYTES = _LentBytes("uint8_t *", ctypes.c_void_p, ctypes.c_size_t)
NODE_ROW = _Array("const int32_t", 7, written=False)
WAITING_NUMBERS = 1033


def _results(length: int) -> _Array:
    return _Array("int32_t", length)


SIZES = _Array("size_t", 2, sizes=True)


class Entry:
    """An entry of the library, which is called as a function."""

    def __init__(self, name: str, about: str, *parameters: Tuple[str, _Kind], result: Any = ctypes.c_uint64) -> None:
        self.name = name
        self.parameters = parameters
        self.__doc__ = about
        try:
            self._function = getattr(_library, name)
        except AttributeError:
            raise ImportError(
                f"{_library._name} has no {name}: it is not the library that this package is for"
            ) from None
        self._function.argtypes = [each for _, kind in parameters for each in kind.types]
        self._function.restype = result

    def __call__(self, *given: Any) -> int:
        if len(given) != len(self.parameters):
            raise TypeError(f"{self.name} is given {len(given)} values; it has {len(self.parameters)}: {self._names()}")
        call = _Call()
        for (what, kind), value in zip(self.parameters, given):
            kind.hand(call, what, value)
        call.must_not_overlap()
        packed: int = self._function(*call.handed)
        return packed

    def _names(self) -> str:
        return ", ".join(what for what, _ in self.parameters)

    def __repr__(self) -> str:
        return f"<{self.name}({self._names()})>"


def _record(of: str = "") -> Tuple[Tuple[str, _Kind], ...]:
    """The tables of a record, or of one of two records, with their counts, the root and the least value."""
    return (
        (of + "schema", NUMBERS),
        (of + "schema_rows", COUNT),
        (of + "proof", NUMBERS),
        (of + "proof_rows", COUNT),
        (of + "root", NUMBER),
        (of + "least", NUMBER),
        (of + "nodes", NUMBERS),
        (of + "node_rows", COUNT),
        (of + "members", NUMBERS),
        (of + "member_count", COUNT),
    )


_SCHEMA = (("schema", NUMBERS), ("schema_rows", COUNT), ("root", NUMBER), ("least", NUMBER))
_SCHEMA_ROWS = (("table", NUMBERS), ("rows", COUNT), ("root", NUMBER), ("least", NUMBER))
_PROOF_ROWS = (
    ("table", NUMBERS),
    ("rows", COUNT),
    ("nodes", NUMBERS),
    ("node_rows", COUNT),
    ("members", NUMBERS),
    ("member_count", COUNT),
)
_MODEL_ROWS = (("n", NUMBER), ("pairs", NUMBERS), ("pair_rows", COUNT))
_OUT = ("out", LENT_BYTES)
_PROOF_TABLES = (("table", LENT), ("nodes", LENT), ("members", LENT))
_GROWING = _record()[:6] + (("nodes", LENT), ("members", LENT), ("held", SIZES), ("shown", _results(1)))
_ROW = (("row", NODE_ROW), ("set", NUMBERS))
_WAITING = ("waiting", _results(WAITING_NUMBERS))

check = Entry("zorambi_check", "The check: four tables with their counts, the root and the least value.", *_record())
check_older = Entry(
    "zorambi_check_older", "The same without the refusal of a proof row that is written twice.", *_record()
)
check_model = Entry(
    "zorambi_check_model", "The model check.", *_SCHEMA, ("n", NUMBER), ("pairs", NUMBERS), ("pair_rows", COUNT)
)

read_schema = Entry(
    "zorambi_read_schema",
    "Reads a schema text. Results: root, least, rows.",
    ("text", TEXT),
    ("table", LENT),
    ("results", _results(3)),
)
read_proof = Entry(
    "zorambi_read_proof",
    "Reads a proof text. Results: rows, nodes, members.",
    ("text", TEXT),
    *_PROOF_TABLES,
    ("results", _results(3)),
)
read_model = Entry(
    "zorambi_read_model",
    "Reads a model text. Results: n, pairs.",
    ("text", TEXT),
    ("pairs", LENT),
    ("results", _results(2)),
)

write_schema = Entry(
    "zorambi_write_schema", "Writes a schema text; its bytes are in the lower 26 bits.", *_SCHEMA_ROWS, _OUT
)
write_proof = Entry(
    "zorambi_write_proof", "Writes a proof text; its bytes are in the lower 26 bits.", *_PROOF_ROWS, _OUT
)
write_model = Entry(
    "zorambi_write_model", "Writes a model text; its bytes are in the lower 26 bits.", *_MODEL_ROWS, _OUT
)

line = Entry(
    "zorambi_line",
    "Where a line, counted from 1, starts in the text, and its length without its byte 10, in the lent span.",
    ("text", TEXT),
    ("k", COUNT),
    ("span", SIZES),
    result=None,
)
check_texts = Entry(
    "zorambi_check_texts",
    "Reads two texts and checks them. Above the verdict's number, from bit 44 on: twice the line at fault, and 1 more if "
    "in the second text.",
    ("schema", TEXT),
    ("proof", TEXT),
)
check_older_texts = Entry(
    "zorambi_check_older_texts", "The same with the older check.", ("schema", TEXT), ("proof", TEXT)
)
check_model_texts = Entry(
    "zorambi_check_model_texts", "The same with a model text.", ("schema", TEXT), ("model", TEXT)
)

# A failing width.
find_model = Entry(
    "zorambi_find_model",
    "Finds a model at n: 1 as the count of nodes where there is one. Results: n, pairs.",
    *_SCHEMA,
    ("n", NUMBER),
    ("pairs", LENT),
    ("results", _results(2)),
)

# Connectives as designers write them.
convert = Entry(
    "zorambi_convert",
    "Makes plain rows of wide ones. Results: root, least, rows.",
    ("wide", NUMBERS),
    ("wide_rows", COUNT),
    ("root", NUMBER),
    ("least", NUMBER),
    ("plain", LENT),
    ("results", _results(3)),
)

# All small schemata.
next_small = Entry(
    "zorambi_next_small",
    "The small table after the given one: 1 as the count of nodes where there is one.",
    ("table", NUMBERS),
    ("rows", COUNT),
    ("next", LENT),
)

# Older records, tidied.
tidy = Entry(
    "zorambi_tidy",
    "Folds the proof rows of an older record that are written twice. Results: rows, nodes, members.",
    *_record(),
    ("out_proof", LENT),
    ("out_nodes", LENT),
    ("out_members", LENT),
    ("results", _results(3)),
)

# One record for either fault.
join = Entry(
    "zorambi_join",
    "Joins two records. Results: root, least, schema rows, proof rows, nodes, members.",
    *_record("first_"),
    *_record("second_"),
    ("out_schema", LENT),
    ("out_proof", LENT),
    ("out_nodes", LENT),
    ("out_members", LENT),
    ("results", _results(6)),
)

# A tableau that grows. Held: nodes, members. Shown: 1 where the rows are closed.
begin = Entry(
    "zorambi_begin", "Takes the formula rows of a tableau that grows; no row is held after it.", *_GROWING, _WAITING
)
add = Entry("zorambi_add", "Adds a node row and its set.", *_GROWING, *_ROW, _WAITING)
take_back = Entry("zorambi_take_back", "Takes the last node row back.", *_GROWING, _WAITING)
enquire = Entry(
    "zorambi_enquire",
    "Answers as adding would, and changes no row; a row with a yes waits.",
    *_GROWING,
    *_ROW,
    _WAITING,
)
commit = Entry("zorambi_commit", "Adds the row that waits.", *_GROWING, _WAITING)

ALL = tuple(each for each in list(globals().values()) if isinstance(each, Entry))
