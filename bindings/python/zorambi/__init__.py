"""The proved check of schema tableaux, and the model check, for programs in Python.

A record is a propositional schema and a closed tableau with loop links for it. If `check` accepts it, the schema is
false at every natural n from its least value up, under every assignment. So it is if `check_older` accepts, which is
for older records: in these a proof row may repeat an earlier row. If `check_model` accepts a model, the schema is true
in it. That these are so is proved of the library that this package calls; the package itself only lends it memory and
names its answers.

    >>> schema = Schema(root=4, least=1, rows=[(2, 0, 2, 0), (3, 0, 2, 0), (7, 0, 2, 0), (6, 1, 2, 0), (4, 2, 3, 0)])
    >>> proof = Proof(rows=[(7, 0, 2, 1), (2, 0, 1, 0), (6, 1, 2, 1), (3, 0, 1, 0)])
    >>> proof.add_node((-1, 0, 4, -1, -1, -1, 0), [4])
    0
    >>> print(check(Record(schema, proof)))
    refused: the number of children of rule 0, and (17) at node 0

Refusals. The checks give a `Verdict`, for an acceptance and a refusal alike; it counts as true if it is an acceptance.
All that makes something, as `read_schema`, `find_model`, `join` or `Growing.add`, raises `Refused` where the library
refuses. Both have `number`, `place`, `words` and, of texts, `line`.

Values. Any whole numbers of 32 bits and any bytes may be given. Tables are rows in a list or another sequence, or int32
numbers in a C-contiguous buffer, as array.array('i') and numpy arrays of dtype int32 have them: these are taken without
a copy if they can be written to (they are not written), and copied otherwise. What is no number is a TypeError, a
number beyond 32 bits an OverflowError, and a row of another length a ValueError, before anything is called.

Threads. Every function may be called from several threads, which then run at the same time: each call has its own
memory. What is given without a copy is not to be changed until the call returns. A call takes up to `STACK` bytes of
its thread's stack: any thread has these but one with a `threading.stack_size` set below 262,144, or by default on
systems with the musl library; set it to 1 << 20 there.

The library's file is the one that the environment variable ZORAMBI_LIBRARY names; if it is not set, libzorambi.so
beside this package's files, or that of the installation or of the project's tree that the package is in.
"""

from ._library import library_file
from .growing import Growing, Standing
from .making import convert, find_model, join, next_small, small, tidy
from .record import Model, Proof, Record, Schema, check, check_model, check_older
from .refusals import RULES, Refusal
from .text import (
    MAX_TEXT,
    check_model_texts,
    check_older_texts,
    check_texts,
    line,
    read_model,
    read_proof,
    read_schema,
    write_model,
    write_proof,
    write_schema,
)
from .verdict import Line, Refused, Text, Verdict, shown

# How much stack a call takes at most, in bytes, as include/zorambi.h has it.
STACK = 196608

__all__ = [
    "MAX_TEXT",
    "RULES",
    "STACK",
    "Growing",
    "Line",
    "Model",
    "Proof",
    "Record",
    "Refusal",
    "Refused",
    "Schema",
    "Standing",
    "Text",
    "Verdict",
    "check",
    "check_model",
    "check_model_texts",
    "check_older",
    "check_older_texts",
    "check_texts",
    "convert",
    "find_model",
    "join",
    "library_file",
    "line",
    "next_small",
    "read_model",
    "read_proof",
    "read_schema",
    "shown",
    "small",
    "tidy",
    "write_model",
    "write_proof",
    "write_schema",
]
