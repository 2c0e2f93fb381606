"""What the pages ask: one tableau, held by the program `zorambi grow --json`. Pages say which version of it they know, so that none
changes what it has not seen."""

import threading

from journal import NAME, OLD, Journal
from program import Failed, Program
from record import PROOF, TEXTS, Folder

LARGEST = 99999


class Wrong(Exception):
    """A request that no page of ours makes."""


def numbers(value, count=None):
    """Numbers as the texts have them, with blanks between."""
    is_list = isinstance(value, list) and (count is None or len(value) == count)
    if not is_list or not all(type(number) is int and abs(number) <= LARGEST for number in value):
        raise Wrong("not a list of numbers of up to five digits")
    return " ".join(map(str, value))


def node_row(asked):
    return f"{numbers(asked.get('row'), 7)} {numbers(asked.get('set'))}".rstrip()


class Session:
    def __init__(self, program, path):
        self.lock = threading.RLock()
        self.path = program
        self.folder = Folder(path)
        self.folder.lock()
        self.journal = Journal(path)
        self.version = 0
        self.is_ended = False
        self.program = None
        self.begin()
        self.page = self.program.say("page")["page"]

    # ---- beginning, and beginning again after a crash

    def begin(self):
        self.notes, self.told = [], []
        journal = self.journal.read()
        if journal is None:
            self.put_strange_journal_aside()
            self.begin_with_record()
        else:
            self.begin_with_journal(*journal)
        self.name = self.program.first["name"]
        self.notes = self.program.first["notes"] + self.notes
        self.changed()

    def begin_with_record(self):
        self.program = Program(self.path, self.folder.path)
        first = self.program.first
        self.hashes = tuple(first[name] or "none" for name in ("schema_sha256", "proof_sha256"))
        # The program knows what proof.txt holds, and so whether rows are unsaved.
        self.knows_saved, self.is_unsaved = True, False

    def begin_with_journal(self, hashes, lines):
        self.program = Program(self.path, self.folder.path, anew=True)
        self.hashes, self.knows_saved, self.is_unsaved = hashes, False, True
        for number, line in enumerate(lines, 2):
            answer = self.program.say(line)
            if answer["answer"] != 0:
                why = f"{NAME}:{number}: {answer['words']}: {answer.get('why', '')}"
                self.notes.append(f"{why}; the rows before it are held, and the journal is kept as {OLD}")
                self.journal.set_aside()
                break
        else:
            count = "1 line" if len(lines) == 1 else f"{len(lines)} lines"
            self.notes.append(f"rows that were not saved are taken up again from {NAME}, {count}")
        self.journal.begin(self.hashes, self.lines())

    def put_strange_journal_aside(self):
        if self.journal.is_there():
            self.journal.set_aside()
            self.notes.append(f"{NAME} is no journal of this program, and is kept as {OLD}")

    def lines(self):
        """The lines that lead to what is held."""
        held = self.program.say("rows")
        formulas = [f"formula {', '.join(held['formulas'])}"] if held["formulas"] else []
        return formulas + held["rows"]

    # ---- what is told

    def words(self):
        return self.program.say("")["words"]

    def changed(self):
        """How the tableau stands now, drawn; a new version of it."""
        self.version += 1
        self.state = self.program.say("draw")
        self.tell()

    def tell(self):
        more = {"name": self.name, "version": self.version, "unsaved": self.is_unsaved}
        self.state.update(more, notes=[*self.notes, *self.told])

    def look_at_files(self):
        """Tells that another program changed a text, once."""
        changed = self.folder.changed(self.hashes)
        told = [self.words_of(changed)] if changed else []
        if told != self.told:
            self.told = told
            self.version += 1
            self.tell()

    def words_of(self, changed):
        if changed == [PROOF]:
            return f"{PROOF} was changed by another program since it was read or saved here."
        return f"{' and '.join(changed)} changed since they were read here: the rows are judged by the schema as it was read."

    # ---- what is asked

    def do(self, asked):
        """The answer to a request."""
        with self.lock:
            todo = {
                "look": self.look,
                "ask": self.ask,
                "offers": self.offers,
                "add": self.add,
                "back": self.back,
                "formula": self.formula,
                "formula back": self.formula_back,
                "save": self.save,
                "end": self.ask_to_end,
            }.get(asked.get("do") if isinstance(asked, dict) and isinstance(asked.get("do"), str) else None)
            if todo is None:
                raise Wrong("no such request")
            if todo not in (self.look, self.ask_to_end) and asked.get("version") != self.version:
                words = "Another page has changed the tableau: it is shown as it now is."
                return {"stale": True, "words": words, "state": self.state}
            try:
                return todo(asked)
            except Failed as failed:
                return self.begin_again(failed)

    def begin_again(self, failed):
        """The program that holds the rows has failed: its journal has them all."""
        self.program.end()
        self.begin()
        return {"stale": True, "words": f"{failed}; it was begun again with the rows that were held.", "state": self.state}

    def look(self, asked):
        self.look_at_files()
        return {} if asked.get("version") == self.version else {"state": self.state}

    def ask(self, asked):
        return {"answer": self.program.say(f"draw {node_row(asked)}")}

    def offers(self, asked):
        return {"offers": self.program.say(f"offers {numbers([asked.get('up')])}")}

    # ---- what changes it

    def add(self, asked):
        row = node_row(asked)
        before = self.lines_before()
        answer = self.program.say(f"? {row}")
        if answer["answer"] == 0:
            answer = self.program.say("commit")
        return self.done(answer, row, before)

    def back(self, _):
        before = self.lines_before()
        return self.done(self.program.say("back"), "back", before)

    def formula(self, asked):
        rows = asked.get("rows")
        if not isinstance(rows, list) or not rows:
            raise Wrong("no rows")
        line = f"formula {', '.join(numbers(row, 4) for row in rows)}"
        before = self.lines_before()
        return self.done(self.program.say(line), line, before)

    def formula_back(self, _):
        before = self.lines_before()
        return self.done(self.program.say("formula back"), "formula back", before)

    def lines_before(self):
        """What the journal begins with, if it is not begun."""
        return None if self.journal.is_begun() else self.lines()

    def done(self, answer, line, before):
        if answer["answer"] != 0:
            return {"answer": answer}
        self.notes = []
        self.is_unsaved = answer["unsaved"] or not self.knows_saved
        try:
            self.write_journal(line, before)
        except OSError as error:
            self.journal.close()
            self.notes.append(f"{NAME} cannot be written ({error.strerror}): save soon, a crash would lose rows")
        self.changed()
        return {"answer": answer, "state": self.state}

    def write_journal(self, line, before):
        if not self.is_unsaved:
            self.journal.remove()
            return
        if before is not None:
            self.journal.begin(self.hashes, before)
        self.journal.append(line)

    # ---- saving and ending

    def save(self, asked):
        changed = self.folder.changed(self.hashes)
        if changed and asked.get("over") is not True:
            kept = "proof.txt as it is there is kept as proof.txt.bak if it is written over."
            return {"changed": True, "saved": False, "words": f"{self.words_of(changed)} {kept}"}
        if not self.is_unsaved and not changed:
            return {"saved": True, "state": self.state}
        try:
            words = self.write_proof()
        except (OSError, Failed) as error:
            words = f"not saved: {error}"
        if words:
            return {"saved": False, "words": words}
        self.notes, self.told = [], []
        self.changed()
        return {"saved": True, "state": self.state}

    def write_proof(self):
        """Why it is not saved, or nothing."""
        part = self.folder.part()
        answer = self.program.say(f"save {part}")
        if answer["answer"] != 0:
            return f"{answer['words']}: {answer.get('why', '')}"
        # It takes what it wrote for saved, whatever becomes of that.
        self.knows_saved = False
        self.folder.replace(part)
        self.hashes = tuple(map(self.folder.hash_of, TEXTS))
        self.knows_saved, self.is_unsaved = True, False
        self.journal.remove()
        return ""

    def ask_to_end(self, _):
        self.is_ended = True
        return {"words": self.kept() or "The program has ended."}

    def kept(self):
        if not self.is_unsaved:
            return ""
        where = f"kept in {NAME}, and 'zorambi edit' takes them up again" if self.journal.is_begun() else "lost: no journal could be written"
        return f"not saved: {self.words()}; the rows are {where}"

    def end(self):
        """What is said in the end."""
        with self.lock:
            try:
                words = self.kept()
            except Failed as failed:
                words = f"{failed}; rows that were not saved are kept in {NAME}"
            self.program.end()
            self.journal.close()
            return words
