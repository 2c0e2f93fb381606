#!/usr/bin/env python3
"""paper.py FOLDER: writes the paper's record, schema.txt and proof.txt, into the folder, and checks it."""
import sys
from pathlib import Path
from zorambi import Proof, Record, Schema, check, write_proof, write_schema

# Some p_i for i from 2 to n, and no p_i for i from 2 to n: the rows are p_i, not p_i, big or, big and, and both.
schema = Schema(root=4, least=1, rows=[(2, 0, 2, 0), (3, 0, 2, 0), (7, 0, 2, 0), (6, 1, 2, 0), (4, 2, 3, 0)])
# What the tableau needs besides, rows 5 to 8: the big or up to n-1, p_n, the big and up to n-1, not p_n.
proof = Proof(rows=[(7, 0, 2, 1), (2, 0, 1, 0), (6, 1, 2, 1), (3, 0, 1, 0)])
proof.add_node((-1, 0, 4, -1, -1, -1, 0), [4])  # node 0: and; its child has both parts
proof.add_node((0, 2, -1, -1, -1, -1, 0), [2, 3])  # node 1: split; n = 1, or n from 2 up
proof.add_node((1, 7, 2, -1, -1, -1, 0), [2, 3])  # node 2: void; at n = 1 there is no i from 2 to n
proof.add_node((1, 3, 3, 7, 8, -1, 0), [2, 3])  # node 3: the big and unfolded, into rows 7 and 8
proof.add_node((3, 4, 2, 5, 6, -1, 0), [2, 7, 8])  # node 4: the big or unfolded, into row 5 or row 6
proof.add_node((4, 8, -1, -1, -1, 1, 1), [5, 7])  # node 5: loop to node 1, with n-1 for n
proof.add_node((4, 6, 6, 8, -1, -1, 0), [6, 8])  # node 6: clash of p_n and not p_n

Path(sys.argv[1], "schema.txt").write_bytes(write_schema(schema))
Path(sys.argv[1], "proof.txt").write_bytes(write_proof(proof))
print(check(Record(schema, proof)))
