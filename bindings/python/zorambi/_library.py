"""Which file is the library, and that it is this one."""

import ctypes
import os
from pathlib import Path
from typing import List

VARIABLE = "ZORAMBI_LIBRARY"


def places(package: Path) -> List[Path]:
    """Where the library may be, seen from the package's folder, in the order in which it is looked for: beside the
    package's files, in the installation (PREFIX/lib, the package being in PREFIX/lib/python3/zorambi), in the project's
    tree."""
    beside = [package / "libzorambi.so"]
    installed = [package.parents[1] / "libzorambi.so.0"] if package.parent.name == "python3" else []
    in_tree = [package.parents[2] / "build/lib/libzorambi.so"] if package.parent.name == "python" else []
    return beside + installed + in_tree


def library_file() -> Path:
    """The library's file: the one that the variable ZORAMBI_LIBRARY names, or else the first that is there."""
    named = os.environ.get(VARIABLE, "")
    if named:
        if not Path(named).is_file():
            raise ImportError(f"{VARIABLE} names {named!r}, which is no file: name libzorambi.so, or unset it")
        return Path(named).absolute()
    looked_at = places(Path(__file__).resolve().parent)
    for place in looked_at:
        if place.is_file():
            return place
    raise ImportError(
        "the library libzorambi.so is not there: run './zorambi build' in the project's folder, or "
        "'./zorambi install PREFIX' and use the package in PREFIX/lib/python3, or let "
        f"{VARIABLE} name the file; looked for: {', '.join(map(str, looked_at))}"
    )


def load() -> ctypes.CDLL:
    """The library, loaded."""
    file = library_file()
    try:
        return ctypes.CDLL(str(file))
    except OSError as error:
        raise ImportError(f"{file} cannot be loaded as the library: {error}") from error
