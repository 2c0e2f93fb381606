"""The texts of a record's folder: whether another program changed them, and a new proof.txt in the place of the one before."""

import fcntl
import hashlib
import os
import shutil
import stat

from program import Failed

PROOF, BEFORE = "proof.txt", "proof.txt.bak"
TEXTS = ("schema.txt", PROOF)
# More than a text may have.
LONGEST = 2**20


class Folder:
    def __init__(self, path):
        self.path = path

    def file(self, name):
        return os.path.join(self.path, name)

    def lock(self):
        """Keeps others from editing the same folder for as long as this program runs."""
        self.number = os.open(self.path, os.O_RDONLY | os.O_DIRECTORY)
        try:
            fcntl.flock(self.number, fcntl.LOCK_EX | fcntl.LOCK_NB)
        except BlockingIOError:
            raise Failed("another 'zorambi edit' has this folder: go on in its page, or end it first") from None

    def hash_of(self, name):
        """The hash of a text as it is now; none if it cannot be read."""
        try:
            number = os.open(self.file(name), os.O_RDONLY | os.O_NONBLOCK)
        except OSError:
            return "none"
        if not stat.S_ISREG(os.fstat(number).st_mode):
            os.close(number)
            return "none"
        with open(number, "rb") as file:
            return hashlib.sha256(file.read(LONGEST)).hexdigest()

    def changed(self, hashes):
        """The texts whose hashes are no longer these."""
        return [name for name, known in zip(TEXTS, hashes) if self.hash_of(name) != known]

    def part(self):
        """The name that a new proof.txt has until it is whole."""
        name = f".{PROOF}.{os.getpid()}.new"
        if os.path.lexists(self.file(name)):
            os.unlink(self.file(name))
        return name

    def replace(self, part):
        """Puts a new text in the place of proof.txt, which is kept. If that fails, proof.txt is what it was."""
        proof, new = self.file(PROOF), self.file(part)
        try:
            if os.path.lexists(proof):
                self.keep(proof, new)
            with open(new, "rb") as file:
                os.fsync(file.fileno())
            os.replace(new, proof)
        except BaseException:
            os.unlink(new)
            raise
        os.fsync(self.number)

    def keep(self, proof, new):
        """The text before gets its other name without being gone for a moment; the new one is as readable as it."""
        was = os.lstat(proof)
        if not stat.S_ISREG(was.st_mode):
            raise Failed("proof.txt is a link or no regular file, and is not written over: put a file in its place")
        os.chmod(new, stat.S_IMODE(was.st_mode))
        kept = new + ".bak"
        shutil.copyfile(proof, kept)
        os.replace(kept, self.file(BEFORE))
