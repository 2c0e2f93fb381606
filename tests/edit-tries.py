#!/usr/bin/env python3
"""Tries the must-fail edits one by one and keeps all that the prover says of each.

`rt ci` and `rt must-fail` say in one line what an edit came to; tests/edit-reasons.sh asks why. So here each edit is made in a copy of its
crate, outside the repository, and `rt check` checks that, over what making the library left (`./zorambi build`). What it says goes into
target/must-fail/CRATE/EDIT/.log, with a number in .of for all that it was said of: the kit, the crate, those below it and the edit. Where
that number is still the same, nothing is tried. RT_JOBS says how many are tried at once, else as many as there are processors.

    tests/edit-tries.py [CRATE..]
"""
import hashlib
import os
import queue
import shutil
import subprocess
import sys
import tempfile
import threading
from pathlib import Path

ROOT = Path(__file__).resolve().parent.parent
LOGS = ROOT / "target" / "must-fail"
PARTS = ("src", "specs", "proofs")


def crates():
    """What each line of crates.txt names; a static library has that word after its name."""
    found = {}
    for line in (ROOT / "crates.txt").read_text().splitlines():
        name, colon, rest = line.partition("#")[0].partition(":")
        if colon:
            found[name.split()[0]] = rest.split()
    return found


def sum_of(folder):
    """A number for the files of a crate."""
    found = hashlib.sha256()
    for part in PARTS:
        for file in sorted((folder / part).rglob("*")):
            if file.is_file():
                found.update(repr((str(file.relative_to(folder)), file.read_bytes())).encode())
    return found.hexdigest()


def below(listed, crate):
    """A crate and all that it rests on."""
    found, todo = set(), [crate]
    while todo:
        name = todo.pop()
        if name in listed and name not in found:
            found.add(name)
            todo += listed[name]
    return sorted(found)


def edited(edit, folder):
    """The files that an edit changes, by their path in the crate; each old text stands there once."""
    path, old, texts = None, None, {}
    for line in edit.read_text().split("\n"):
        if line.startswith("file: "):
            path = line[len("file: "):].strip()
        elif line.startswith("old: "):
            old = line[len("old: "):]
        elif line.startswith("new:"):
            new = line[len("new:"):]
            new = new[1:] if new.startswith(" ") else new
            if not path or not old:
                raise ValueError("a new text before any file or old text")
            texts.setdefault(path, (folder / path).read_text())
            if texts[path].count(old) != 1:
                raise ValueError(f"an old text stands in {path} {texts[path].count(old)} times")
            texts[path] = texts[path].replace(old, new)
            old = None
    if not texts:
        raise ValueError("no old and new text")
    return texts


def linked(one, other):
    """Another name for a file: rt removes such a file before it makes it anew, and never writes into it."""
    try:
        os.link(one, other)
    except OSError:
        shutil.copy2(one, other)


def proof_or_copy(one, other):
    """What was proved by another name, as rt itself hands it on; the rest is copied."""
    (linked if one.endswith(".oantt") else shutil.copy2)(one, other)


class Lane:
    """A copy of the repository's crates, with the libraries that are built, in which one edit after the other is tried."""

    def __init__(self, room):
        self.room = room
        (room / ".git").mkdir(parents=True)
        shutil.copy2(ROOT / "crates.txt", room)
        for crate in crates():
            for part in PARTS:
                if (ROOT / "crates" / crate / part).is_dir():
                    shutil.copytree(ROOT / "crates" / crate / part, room / "crates" / crate / part)
            built = ROOT / "crates" / crate / "out" / "rlib"
            if built.is_dir():
                shutil.copytree(built, room / "crates" / crate / "out" / "rlib", copy_function=linked)

    def laid(self, crate):
        """The crate as it stands, with what its own checks kept."""
        folder, kept = self.room / "crates" / crate, ROOT / "crates" / crate / "out" / "incremental"
        for part in (*PARTS, "out/incremental"):
            shutil.rmtree(folder / part, ignore_errors=True)
        for part in PARTS:
            if (ROOT / "crates" / crate / part).is_dir():
                shutil.copytree(ROOT / "crates" / crate / part, folder / part)
        if kept.is_dir():
            shutil.copytree(kept, folder / "out" / "incremental", copy_function=proof_or_copy)
        return folder

    def tried(self, crate, edit):
        """What rt says of the crate with the edit, and whether it came to a judgement."""
        folder = self.laid(crate)
        try:
            texts = edited(edit, folder)
        except (OSError, ValueError) as error:
            return f"the edit cannot be made: {error}\n", True
        for path, text in texts.items():
            (folder / path).write_text(text)
        try:
            done = subprocess.run(["rt", "check", "--jobs", "1"], cwd=folder, stdin=subprocess.DEVNULL, stdout=subprocess.PIPE,
                                  stderr=subprocess.STDOUT, errors="replace", check=False)
            return f"{done.stdout}exit status {done.returncode}\n", done.returncode in (0, 1)
        finally:
            self.laid(crate)


def main():
    listed = crates()
    kit = subprocess.run(["rt", "version"], stdout=subprocess.PIPE, text=True, check=True).stdout
    sums = {crate: sum_of(ROOT / "crates" / crate) for crate in listed}
    todo = queue.Queue()
    for crate in sys.argv[1:] or listed:
        for edit in sorted((ROOT / "crates" / crate / "must-fail").glob("*.edit")):
            of = repr((kit, [(name, sums[name]) for name in below(listed, crate)], edit.read_text()))
            of = hashlib.sha256(of.encode()).hexdigest() + "\n"
            at = LOGS / crate / edit.stem
            if not ((at / ".log").is_file() and (at / ".of").is_file() and (at / ".of").read_text() == of):
                todo.put((crate, edit, at, of))
    count = todo.qsize()
    if not count:
        return 0
    jobs = min(int(os.environ.get("RT_JOBS") or os.cpu_count() or 1), count)
    print(f"trying {count} must-fail edits, {jobs} at once", flush=True)
    errors = []

    def work(room):
        try:
            lane = Lane(room)
            while True:
                try:
                    crate, edit, at, of = todo.get_nowait()
                except queue.Empty:
                    return
                said, judged = lane.tried(crate, edit)
                if not judged:  # it was cut off, most likely: once more
                    said, judged = lane.tried(crate, edit)
                at.mkdir(parents=True, exist_ok=True)
                (at / ".of").unlink(missing_ok=True)
                (at / ".log").write_text(said)
                if judged:
                    (at / ".of").write_text(of)
        except Exception as error:  # told where the others end
            errors.append(error)

    with tempfile.TemporaryDirectory(prefix="zorambi-edits-") as room:
        lanes = [threading.Thread(target=work, args=(Path(room) / str(number),)) for number in range(jobs)]
        for lane in lanes:
            lane.start()
        for lane in lanes:
            lane.join()
    for error in errors:
        print(f"tests/edit-tries.py: {error}", file=sys.stderr)
    return 1 if errors else 0


if __name__ == "__main__":
    sys.exit(main())
