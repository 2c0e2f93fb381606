"""What the tests share: the project's folders, the shipped records, and the program that answers as the crate for Rust
does."""

import hashlib
import os
import random
import subprocess
from array import array
from pathlib import Path
from typing import Any, List, Optional, Tuple

import zorambi
from zorambi import entries

ROOT = Path(__file__).resolve().parents[3]
PACKAGE = ROOT / "bindings/python/zorambi"
HEADER = ROOT / "include/zorambi.h"
BESIDE = Path(os.environ.get("ZORAMBI_BESIDE", ROOT / "build/release/zorambi-beside"))
# Other inputs with another seed.
SEED = int(os.environ.get("ZORAMBI_SEED", "1"))

PAPER = ROOT / "records/paper/some_and_none"


def folders(sort: str) -> List[Path]:
    """The folders of all records of a sort."""
    found = sorted(folder for folder in (ROOT / "records" / sort).iterdir() if (folder / "proof.txt").is_file())
    assert found, sort
    return found


def texts(folder: Path) -> Tuple[bytes, bytes]:
    return (folder / "schema.txt").read_bytes(), (folder / "proof.txt").read_bytes()


def record(folder: Path) -> zorambi.Record:
    schema, proof = texts(folder)
    return zorambi.Record(zorambi.read_schema(schema), zorambi.read_proof(proof))


def node_rows(proof: zorambi.Proof) -> List[Tuple[Tuple[int, ...], List[int]]]:
    """Each node's row with its set."""
    return [(tuple(node[:7]), list(proof.members[node[7] : node[7] + node[8]])) for node in proof.nodes]


def rng(name: str) -> random.Random:
    return random.Random(f"{SEED} {name}")


def beside(lines: List[str]) -> List[str]:
    """What the crate for Rust answers to these lines."""
    done = subprocess.run([str(BESIDE)], input="\n".join(lines) + "\n", capture_output=True, text=True, check=False)
    assert done.returncode == 0, done.stderr[-2000:]
    answers = done.stdout.splitlines()
    assert len(answers) == len(lines), (len(answers), len(lines))
    return answers


class Bytes(bytearray):
    """Bytes that are lent."""


class Lent:
    """Numbers that are lent, as they are before the call; a fixed array of sizes if so marked."""

    def __init__(self, numbers: List[int], sizes: bool = False) -> None:
        self.numbers = numbers
        self.sizes = sizes

    def memory(self) -> Any:
        return entries.Sizes(*self.numbers) if self.sizes else array("i", self.numbers)


def written(value: Any) -> str:
    """A value as the program reads it."""
    if isinstance(value, Lent):
        value = value.numbers
    if isinstance(value, (bytes, bytearray)):
        return bytes(value).hex() or "-"
    if isinstance(value, int):
        return str(value)
    numbers = list(value)
    if len(numbers) > 1 and numbers.count(numbers[0]) == len(numbers):
        return f"{len(numbers)}x{numbers[0]}"
    return ",".join(map(str, numbers)) or "-"


def hashed(memory: Any) -> str:
    return hashlib.sha256(memoryview(memory).tobytes()).hexdigest()[:16]


def called(name: str, values: List[Any], lent_memory: Optional[List[Any]] = None) -> str:
    """What the package answers, as the program prints it. The memory that was lent can be looked at afterwards."""
    given, lent = [], []
    for value in values:
        if isinstance(value, (Lent, Bytes)):
            memory = value.memory() if isinstance(value, Lent) else bytearray(value)
            lent.append(memory)
            given.append(memory)
        else:
            given.append(value)
    packed = getattr(entries, name)(*given)
    if lent_memory is not None:
        lent_memory.extend(lent)
    return " ".join([str(packed or 0), *map(hashed, lent)])


def line_of(name: str, values: List[Any]) -> str:
    return " ".join([name, *map(written, values)])
