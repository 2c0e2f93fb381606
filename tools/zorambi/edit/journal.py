"""The journal of rows that are not saved, beside the record: lines that `zorambi grow --anew` comes to the same tableau by. Its first line
has the hashes of the texts that the rows were begun with."""

import os
import re
import stat

NAME = "proof.txt.journal"
OLD = "proof.txt.journal.old"
FIRST = re.compile(r"zorambi journal 1 ([0-9a-f]{64}|none) ([0-9a-f]{64}|none)")
# Rows, and what takes them back; nothing that writes a file.
LINE = re.compile(r"-?[0-9][0-9 -]*|back|formula back|formula [0-9][0-9 ,-]*")
LONGEST = 64 * 2**20


class Journal:
    def __init__(self, folder):
        self.folder = folder
        self.path = os.path.join(folder, NAME)
        self.file = None

    def read(self):
        """The two hashes, and the lines, of a journal that is there; a last line that is not whole is left out. None if there is none that
        can be read."""
        try:
            number = os.open(self.path, os.O_RDONLY | os.O_NOFOLLOW | os.O_NONBLOCK)
        except OSError:
            return None
        if not stat.S_ISREG(os.fstat(number).st_mode):
            os.close(number)
            return None
        with open(number, "rb") as file:
            text = file.read(LONGEST)
        first, *lines = text.decode("ascii", "replace").split("\n")[:-1] or [""]
        hashes = FIRST.fullmatch(first)
        if hashes is None or not all(LINE.fullmatch(line) for line in lines):
            return None
        return hashes.groups(), lines

    def is_there(self):
        return os.path.lexists(self.path)

    def set_aside(self):
        """Gives it another name, so that nothing of it is lost."""
        os.replace(self.path, os.path.join(self.folder, OLD))

    def begin(self, hashes, lines):
        """Writes it anew, whole before it has its name. What had that name before, a link too, is gone then."""
        self.close()
        part = os.path.join(self.folder, f".{NAME}.{os.getpid()}")
        if os.path.lexists(part):
            os.unlink(part)
        number = os.open(part, os.O_WRONLY | os.O_CREAT | os.O_EXCL | os.O_APPEND, 0o644)
        self.file = open(number, "wb", buffering=0)
        text = "\n".join([f"zorambi journal 1 {hashes[0]} {hashes[1]}", *lines]) + "\n"
        try:
            self.write(text)
            os.replace(part, self.path)
        except OSError:
            os.unlink(part)
            raise

    def append(self, line):
        self.write(line + "\n")

    def write(self, text):
        text = text.encode("ascii")
        while text:
            text = text[self.file.write(text) :]
        os.fsync(self.file.fileno())

    def is_begun(self):
        return self.file is not None

    def remove(self):
        self.close()
        if self.is_there():
            os.unlink(self.path)

    def close(self):
        if self.file is not None:
            self.file.close()
            self.file = None
