"""Numbers and bytes as the library takes them. All that is wrong with a value is said here, before the library is
called.

Numbers are int32: a C-contiguous buffer of these (array.array('i'), a numpy array of dtype int32, a memoryview of
either, a ctypes array) is taken where it stands if it can be written to, and copied as a whole if not. The numbers of
any other sequence are copied one by one.
"""

import ctypes
import reprlib
from array import array
from collections.abc import Mapping, Set
from itertools import chain
from operator import index
from typing import Any, Callable, Iterable, List, Optional, Sequence, Tuple, Union

LEAST, MOST = -(2**31), 2**31 - 1
MOST_COUNT = 2 ** (8 * ctypes.sizeof(ctypes.c_size_t)) - 1

Numbers = Union["array[int]", memoryview]

if array("i").itemsize != 4:
    raise ImportError("zorambi needs a platform where a C int has 32 bits")


def _shown(given: Any) -> str:
    """A value as a message shows it, not at length."""
    try:
        return reprlib.repr(given)
    except ValueError:  # a number of thousands of digits, which Python does not write
        return f"a {type(given).__name__} too long to show"


def whole(what: str, given: Any) -> int:
    """A whole number of any size."""
    try:
        return index(given)
    except TypeError:
        raise TypeError(f"{what} is {_shown(given)}, not a whole number") from None


def number(what: str, given: Any) -> int:
    """An int32."""
    value = whole(what, given)
    if not LEAST <= value <= MOST:
        raise OverflowError(f"{what} is {_shown(value)}, which does not fit in 32 bits")
    return value


def count(what: str, given: Any) -> int:
    """A size_t."""
    value = whole(what, given)
    if value < 0:
        raise ValueError(f"{what} is {_shown(value)}; a count is 0 or more")
    if value > MOST_COUNT:
        raise OverflowError(f"{what} is {_shown(value)}, which is no count of this machine")
    return value


def text(what: str, given: Any) -> bytes:
    """The bytes of a text."""
    if isinstance(given, bytes):
        return given
    if isinstance(given, str):
        raise TypeError(f"{what} is a str; a text is bytes: read its file in mode 'rb', or encode it")
    view = _view(given)
    if view is None or view.itemsize != 1:
        raise TypeError(f"{what} is {_shown(given)}; a text is bytes")
    return view.tobytes()


def _view(given: Any) -> Optional[memoryview]:
    try:
        return memoryview(given)
    except TypeError:
        return None


def int32_view(given: Any) -> Optional[memoryview]:
    """The buffer of int32 numbers, one after another, that is given; None if it is no such buffer."""
    view = _view(given)
    if view is None or view.ndim == 0 or not view.c_contiguous or view.itemsize != 4:
        return None
    # numpy and array write 'i', ctypes '<i'; what is marked as the other byte order is copied number by number.
    return view if view.format.lstrip("@=" + _NATIVE) in ("i", "l") else None


_NATIVE = "<" if memoryview(ctypes.c_int32()).format.startswith("<") else ">"


def writable(view: memoryview) -> Numbers:
    """The view itself, or a copy of what it shows if it may not be written to: the address of that could not be had."""
    if not view.readonly:
        return view
    return flat(view)


def flat(numbers: Numbers) -> "array[int]":
    """A copy, in which they stand one after another."""
    copy = array("i")
    copy.frombytes(memoryview(numbers).tobytes())
    return copy


# What has a length, but no rows or numbers in their order.
_NO_ROWS = (str, bytes, bytearray, Mapping, Set)


def sequence(what: str, given: Any) -> Sequence[Any]:
    """A sequence, which can be gone through more than once, that is no text."""
    if isinstance(given, _NO_ROWS) or not (hasattr(given, "__len__") and hasattr(given, "__getitem__")):
        raise TypeError(f"{what}: {_shown(given)} is not a sequence of numbers or rows")
    found: Sequence[Any] = given
    return found


def numbers(what: str, given: Any) -> Numbers:
    """Numbers one after another."""
    view = int32_view(given)
    if view is not None:
        return writable(view)
    given = sequence(what, given)
    return _copied(given, lambda at: f"{what}: number {at}")


def table(what: str, rows: Any, width: int) -> Tuple[Numbers, int]:
    """The numbers of rows, one row after another, and how many rows there are. A buffer may be flat, or have a row in
    each line."""
    view = int32_view(rows)
    if view is not None:
        shape = view.shape or ()
        if view.ndim > 2 or (view.ndim == 2 and shape[1] != width) or shape[-1] % width:
            raise ValueError(f"{what}: an array of shape {tuple(shape)} is not rows of {width} numbers")
        return writable(view), view.nbytes // (4 * width)
    rows = sequence(what, rows)
    for at, row in enumerate(rows):
        if not hasattr(row, "__len__") or isinstance(row, _NO_ROWS):
            raise TypeError(f"{what}: row {at} is {_shown(row)}, not {width} numbers")
        if len(row) != width:
            raise ValueError(f"{what}: row {at} has {len(row)} numbers, not {width}")
    each = chain.from_iterable(rows)
    return _copied(each, lambda at: f"{what}: number {at % width} of row {at // width}"), len(rows)


def _copied(given: Iterable[Any], named: Callable[[int], str]) -> "array[int]":
    """A copy of the numbers. `named` names the one at a place, if it is none or too large."""
    copy = array("i")
    for value in given:
        # array.append alone would round what is no whole number in Python 3.9.
        try:
            copy.append(index(value))
        except (TypeError, OverflowError):
            number(named(len(copy)), value)
            raise
    return copy


def plain_rows(numbers: Any, width: int) -> List[Tuple[int, ...]]:
    """The numbers of an array, which stand one after another, as rows, each a tuple."""
    return list(zip(*[iter(numbers)] * width))
