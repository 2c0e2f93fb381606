import sys
from pathlib import Path
from zorambi import check_texts

verdict = check_texts(*(Path(sys.argv[1], name).read_bytes() for name in ("schema.txt", "proof.txt")))
print(verdict)
if not verdict:
    print(verdict.number, verdict.place, verdict.words, sep="; ")
    print(verdict.line)
