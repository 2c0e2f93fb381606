#!/usr/bin/env python3
"""The editor, `zorambi edit`, as its users meet it: its server by requests, then its page in Chromium without a window. Where Chromium or
chromedriver is not installed, what needs them is not tried, and said to be. PROGRAM is the built program."""

import contextlib
import hashlib
import http.client
import json
import os
import pathlib
import re
import shutil
import signal
import socket
import subprocess
import sys
import tempfile
import time

sys.dont_write_bytecode = True
import browser

ROOT = pathlib.Path(__file__).resolve().parent.parent
PROGRAM = os.environ.get("PROGRAM", str(ROOT / "build/release/zorambi"))
PAPER = ROOT / "records/paper/some_and_none"
LARGE = ROOT / "records/accepted/rca_zero"
MARKUP = "<b onmouseover=alert(1)>&amp;</b>'\"</script><script>alert(1)</script>"
JOURNAL = "proof.txt.journal"
passed = 0
failed = 0


def check(what, holds):
    global passed, failed
    if holds:
        passed += 1
    else:
        failed += 1
        print(f"failed: {what}", flush=True)


def same(what, found, expected):
    check(f"{what}: {str(found)[:300]!r}, not {str(expected)[:300]!r}", found == expected)


def zorambi(*words, **more):
    return subprocess.run([PROGRAM, *map(str, words)], capture_output=True, text=True, check=False, **more)


# ---- the program and its requests


class Editor:
    """The program on a folder. Its interrupt signal is as a terminal's job has it, whatever this test was started with."""

    def __init__(self, folder, with_browser=False, **environment):
        self.folder = pathlib.Path(folder)
        self.said = tempfile.TemporaryFile("w+")
        self.process = subprocess.Popen(
            [PROGRAM, "edit", *([] if with_browser else ["--no-browser"]), "--", str(folder)],
            stdout=subprocess.PIPE,
            stderr=self.said,
            text=True,
            env={**os.environ, "DISPLAY": "", "WAYLAND_DISPLAY": "", **environment},
            preexec_fn=lambda: signal.signal(signal.SIGINT, signal.SIG_DFL),
        )
        self.address = self.process.stdout.readline().strip()
        parts = re.fullmatch(r"http://127\.0\.0\.1:(\d+)(/[\w-]{20,}/)", self.address)
        self.port, self.secret = (int(parts[1]), parts[2]) if parts else (0, "")
        self.version = -1

    def __enter__(self):
        return self

    def __exit__(self, *_):
        if self.process.poll() is None:
            self.process.kill()
        self.process.wait()
        self.process.stdout.close()
        self.said.close()

    def request(self, method, path, body=None, **headers):
        """The status, the headers and the body; 0 where the connection is cut."""
        connection = http.client.HTTPConnection("127.0.0.1", self.port, timeout=20)
        given = {name.replace("_", "-"): value for name, value in headers.items() if value is not None}
        try:
            connection.putrequest(method, path, skip_host="Host" in headers, skip_accept_encoding=True)
            if body is not None and "Content-Length" not in given:
                given["Content-Length"] = str(len(body))
            for name, value in given.items():
                connection.putheader(name, value)
            connection.endheaders()
            with contextlib.suppress(ConnectionError):
                if body is not None:
                    connection.send(body)
            answer = connection.getresponse()
            return answer.status, answer.headers, answer.read()
        except (OSError, http.client.HTTPException):
            return 0, {}, b""
        finally:
            connection.close()

    def post(self, what, **headers):
        headers.setdefault("Content_Type", "application/json")
        body = what if isinstance(what, bytes) else json.dumps(what).encode()
        return self.request("POST", self.secret + "do", body, **headers)

    def do(self, todo, **more):
        """What a page is told, and which version it then knows."""
        status, _, body = self.post({"do": todo, "version": self.version, **more})
        told = json.loads(body) if status == 200 else {"status": status, **json.loads(body or b"{}")}
        if told.get("state"):
            self.version = told["state"]["version"]
        return told

    def row(self, todo, line):
        numbers = list(map(int, line.split()))
        return self.do(todo, row=numbers[:7], set=numbers[7:])

    def ended(self, seconds=10):
        """Its exit status."""
        try:
            return self.process.wait(seconds)
        except subprocess.TimeoutExpired:
            return None

    def words(self):
        self.said.seek(0)
        return self.said.read()


def schema_alone(folder, record=PAPER):
    folder.mkdir(parents=True)
    shutil.copy(record / "schema.txt", folder)
    return folder


def node_lines(record=PAPER):
    return (record / "proof.txt").read_text().split("up rule on with other to by set\n")[1].splitlines()


FORMULAS = [[7, 0, 2, 1], [2, 0, 1, 0], [6, 1, 2, 1], [3, 0, 1, 0]]
WRONG_LINK = "4 8 -1 -1 -1 1 2 5 7"


def five_nodes(editor):
    """The paper's formula rows, and its nodes but the last two."""
    editor.do("look")
    editor.do("formula", rows=FORMULAS)
    for line in node_lines()[:5]:
        editor.row("add", line)


# ---- who is turned away


def turned_away(scratch):
    with Editor(schema_alone(scratch / "away")) as editor:
        check("an address with a secret", editor.secret)
        status, headers, page = editor.request("GET", editor.secret)
        same("the page", (status, headers["Content-Type"]), (200, "text/html; charset=utf-8"))
        check("the page has nothing from elsewhere", not re.search(rb"(?:src|href)=\"(?!data:)", page) and b"@import" not in page and b"url(" not in page)
        check("its script alone may run", b"default-src 'none'; style-src 'unsafe-inline'; img-src data:; script-src 'sha256-" in page)
        check("it asks its server alone", b"connect-src 'self'" in page and headers["Referrer-Policy"] == "no-referrer")
        same("nothing is kept or framed", (headers["Cache-Control"], headers["Content-Security-Policy"]), ("no-store", "frame-ancestors 'none'"))
        for path in ("/", "/do", "//", editor.secret[:-2] + "/", editor.secret.lower() + "x/", "/" + "A" * 32 + "/", "/" + "A" * 32 + "/do", editor.secret[:-1]):
            same(f"GET {path}", editor.request("GET", path)[0], 403)
        for path in ("/do", "/x/do", editor.secret[:-2] + "/do"):
            same(f"POST {path}", editor.request("POST", path, b'{"do":"look"}', Content_Type="application/json")[0], 403)
        same("another page", editor.request("GET", editor.secret + "proof.txt")[0], 404)
        same("a page above", editor.request("GET", editor.secret + "../../etc/passwd")[0], 404)
        for host in ("localhost", f"localhost:{editor.port}", "127.0.0.1", f"127.0.0.2:{editor.port}", f"evil.example:{editor.port}", ""):
            same(f"GET, host {host!r}", editor.request("GET", editor.secret, Host=host)[0], 403)
            same(f"POST, host {host!r}", editor.post({"do": "look"}, Host=host)[0], 403)
        for origin in ("http://evil.example", "null", f"http://localhost:{editor.port}", f"https://127.0.0.1:{editor.port}", "http://127.0.0.1"):
            same(f"origin {origin}", editor.post({"do": "look"}, Origin=origin)[0], 403)
        same("its own origin", editor.post({"do": "look"}, Origin=f"http://127.0.0.1:{editor.port}")[0], 200)
        same("a form's request", editor.post(b"do=look", Content_Type="text/plain")[0], 415)
        same("no secret is told", [editor.secret.strip("/").encode() in editor.request("GET", path)[2] for path in ("/", "/x")], [False, False])
        # Sizes.
        begin = time.monotonic()
        status, _, body = editor.post(b" " * 10_000_000)
        same("10 MB", (status, b"at most" in body), (413, True))
        check("10 MB are not waited for", time.monotonic() - begin < 5)
        same("10 MB that do not come", editor.post(b"x", Content_Length="10000000")[0], 413)
        same("a long length", editor.post(b"x", Content_Length="9" * 5000)[0], 413)
        for length in ("-1", "x", "1e3", "٣"):
            check(f"length {length}", editor.post(b"{}", Content_Length=length.encode())[0] in (400, 411))
        same("no length", editor.request("POST", editor.secret + "do", None, Content_Type="application/json")[0], 411)
        same("in chunks", editor.post(b"2\r\n{}\r\n0\r\n\r\n", Transfer_Encoding="chunked")[0], 411)
        check("a long path", editor.request("GET", "/" + "a" * 100_000)[0] in (0, 403, 414))
        same("other methods", [editor.request(method, editor.secret)[0] for method in ("PUT", "DELETE", "OPTIONS", "TRACE")], [501] * 4)
        # What is no request of a page.
        for body in (b"", b"{", b"[]", b"1", b"\xff", b"[" * 60000, b'{"do":1}', b'{"do":["look"]}', b'{"do":"exec"}', b'{"do":{}}'):
            same(f"request {body[:20]}", editor.post(body)[0], 400)
        editor.do("look")
        for row, rows in (([1, 2], []), ("back", []), ([-1, 0, 4, -1, -1, -1, 1.5], [4]), ([-1, 0, 4, -1, -1, -1, True], [4]), ([-1, 0, 4, -1, -1, -1, 0], "4\nsave x"), ([-1, 0, 4, -1, -1, -1, 10**9], [4])):
            same(f"row {row} {rows}", editor.do("add", row=row, set=rows)["status"], 400)
        for rows in ([], "x", [[1, 2, 3]], [["7", 0, 2, 1]], [[7, 0, 2, 1], "save x"]):
            same(f"formula {rows}", editor.do("formula", rows=rows)["status"], 400)
        same("offers", editor.do("offers", up="0\nsave x")["status"], 400)
        same("nothing was written", sorted(os.listdir(editor.folder)), ["schema.txt"])
        same("it still answers", editor.do("look").get("status"), None)
        # Half a request keeps nobody else waiting.
        with socket.create_connection(("127.0.0.1", editor.port)) as one:
            one.sendall(b"POST ")
            same("beside half a request", editor.request("GET", editor.secret)[0], 200)
        with socket.socket() as elsewhere:
            check("no other address is listened on", elsewhere.connect_ex(("127.0.0.2", editor.port)) != 0)


# ---- the paper's record, by requests


def paper_by_requests(scratch):
    folder = schema_alone(scratch / "paper")
    with Editor(folder) as editor:
        state = editor.do("look")["state"]
        same("to begin with", (state["nodes"], state["closed"], state["unsaved"], state["words"]), (0, False, False, "0 nodes, 0 links, open"))
        same("the schema", state["schema"], ["n ≥ 1", "(⋁ i=2..n: p0(i)) ∧ ⋀ i=2..n: ¬p0(i)"])
        offers = editor.do("offers", up=-1)["offers"]
        same("the first node's set", (offers["set"], offers["given"], offers["ticked"]), ([], [4], [4]))
        same("rules for it", [offer["name"] for offer in offers["rules"] if offer["whyNot"] is None], ["and", "split"])
        same("why no or", offers["rules"][1]["whyNot"], "no row that it may have is an or (kind 5)")
        same("why no link", offers["rules"][8]["whyNot"], "there is no node before it")
        # An unfolding and what it needs.
        editor.row("add", node_lines()[0])
        offers = editor.do("offers", up=0)["offers"]
        same("rows of a next node", (offers["set"], offers["given"], offers["ticked"]), ([4], [2, 3], [2, 3]))
        why = {offer["name"]: offer["whyNot"] or "" for offer in offers["rules"]}
        check(f"why no unfolding: {why['unfold or']}", why["unfold or"] == "node 1 knows n ≥ 1, but row 2 (⋁ i=2..n: p0(i)) runs from 2 to n and may be empty below n = 2; split first")
        check("why no void", "is empty only up to n = 1" in why["void"])
        for line in node_lines()[1:3]:
            editor.row("add", line)
        rules = editor.do("offers", up=1)["offers"]["rules"]
        same("rules above", [rule["name"] for rule in rules if rule["whyNot"] is None], ["split", "unfold and", "unfold or"])
        answer = editor.row("ask", "1 3 3 -1 -1 -1 0 2 3")["answer"]
        same("an unfinished row", (answer["answer"], answer["place"], answer["asked"]), (12, 3, 3))
        same("what it needs", [(need["field"], need["there"], need["rows"]) for need in answer["needed"]], [("with", None, [[6, 1, 2, 1]]), ("other", None, [[3, 0, 1, 0]])])
        told = editor.do("formula", rows=FORMULAS)
        same("rows are written, and the nodes held", (told["state"]["nodes"], len(told["state"]["tableau"]["rows"])), (3, 9))
        told = editor.do("formula", rows=[[7, 0, 2, 1]])
        check("a row twice is refused", told["answer"]["answer"] == 27 and "state" not in told and "row 9 is row 5" in told["answer"]["why"])
        same("a row that is none", editor.do("formula", rows=[[9, 0, 0, 0]])["answer"]["answer"], 7)
        answer = editor.row("ask", "1 3 3 7 8 -1 0 2 3")["answer"]
        same("the same row, whole", (answer["answer"], [need["there"] for need in answer["needed"]], answer["then"]["words"]), (0, [7, 8], "4 nodes, 0 links, open"))
        for line in node_lines()[3:5]:
            editor.row("add", line)
        # The wrong link: its words are those of the one program.
        answer = editor.row("ask", WRONG_LINK)["answer"]
        words = zorambi("grow", ROOT / "examples/grow", input=f"? {WRONG_LINK}\n").stdout.splitlines()[2]
        same("the wrong link", (answer["answer"], answer["place"]), (14, 5))
        check(f"its words: {words}", words.replace(">=", "≥").endswith(f"{answer['words']}: {answer['why']}") and answer["mend"])
        same("it is drawn and marked", (len(answer["tableau"]["nodes"]), answer["tableau"]["refused"]), (6, {"node": 5}))
        told = editor.row("add", WRONG_LINK)
        check("it is not added", told["answer"]["answer"] == 14 and "state" not in told)
        # Rows are taken back, and none more than there are.
        told = editor.row("add", "4 8 -1 -1 -1 1 1 5 7")
        same("a link", (told["state"]["nodes"], told["state"]["links"]), (6, 1))
        same("taken back", editor.do("back")["state"]["nodes"], 5)
        editor.row("add", node_lines()[5])
        answer = editor.row("ask", node_lines()[6])["answer"]
        same("closed before it is", (answer["then"]["closed"], answer["closed"]), (True, False))
        state = editor.row("add", node_lines()[6])["state"]
        same("closed", (state["closed"], state["words"], state["open"]), (True, "7 nodes, 1 link, closed", []))
        check("no leaf is left", all("no child" in rule["whyNot"] or "takes no children" in rule["whyNot"] for rule in editor.do("offers", up=6)["offers"]["rules"] if rule["rule"] == 2))
        same("a journal", (state["unsaved"], (folder / JOURNAL).is_file(), (folder / "proof.txt").exists()), (True, True, False))
        told = editor.do("save")
        same("saved", (told["saved"], told["state"]["unsaved"]), (True, False))
        same("files", sorted(os.listdir(folder)), ["proof.txt", "schema.txt"])
        same("the paper's bytes", (folder / "proof.txt").read_bytes(), (PAPER / "proof.txt").read_bytes())
        same("check", zorambi("check", folder).stdout, "answer place nodes links\n0 0 7 1\n")
        # Saved again, with the text before beside it; where nothing changed nothing is written.
        editor.do("save")
        check("nothing to save", not (folder / "proof.txt.bak").exists())
        editor.do("back")
        os.chmod(folder / "proof.txt", 0o640)
        editor.do("save")
        same("the text before", (folder / "proof.txt.bak").read_bytes(), (PAPER / "proof.txt").read_bytes())
        same("as readable as before", (folder / "proof.txt").stat().st_mode & 0o777, 0o640)
        same("the new text", zorambi("check", folder).stdout.split()[4:6], ["17", "4"])
        # What is taken back and added again is what is saved.
        editor.do("back")
        check("unsaved", (folder / JOURNAL).exists())
        check("as it was saved", not editor.row("add", node_lines()[5])["state"]["unsaved"] and not (folder / JOURNAL).exists())
        for _ in range(6):
            editor.do("back")
        told = editor.do("back")
        check("nothing to take back", told["answer"]["answer"] == 25 and "no node is held" in told["answer"]["why"])


def two_pages(scratch):
    with Editor(schema_alone(scratch / "two")) as editor:
        one = editor.do("look")["state"]["version"]
        editor.row("add", node_lines()[0])
        two = editor.version
        same("nothing new for the one that did it", editor.do("look"), {})
        editor.version = one
        told = editor.row("add", node_lines()[0])
        same("the other page is told", (told["stale"], told["state"]["nodes"], "Another page" in told["words"]), (True, 1, True))
        for todo in ("back", "save", "offers", "ask", "formula"):
            editor.version = one
            same(f"{todo} of a page that does not know", editor.do(todo, up=0, row=[0] * 7, set=[], rows=[[0, 0, 0, 0]]).get("stale"), True)
        same("nothing came of them", (editor.do("look"), editor.version), ({}, two))


# ---- crashes, and other programs


def crash(scratch):
    folder = schema_alone(scratch / "crash")
    with Editor(folder) as editor:
        five_nodes(editor)
        editor.row("add", node_lines()[5])
        editor.do("back")
        editor.process.kill()
    check("the journal stays", (folder / JOURNAL).is_file() and not (folder / "proof.txt").exists())
    # The last line was cut short.
    with open(folder / JOURNAL, "a") as journal:
        journal.write("4 8 -1")
    with Editor(folder) as editor:
        state = editor.do("look")["state"]
        same("taken up again", (state["nodes"], len(state["tableau"]["rows"]), state["unsaved"]), (5, 9, True))
        check("that is told", any("taken up again" in note for note in state["notes"]) and "taken up again" in editor.words())
        # The program that holds the rows is killed under it.
        children = pathlib.Path(f"/proc/{editor.process.pid}/task/{editor.process.pid}/children").read_text().split()
        for child in children:
            os.kill(int(child), signal.SIGKILL)
        same("one program below", len(children), 1)
        told = editor.row("ask", node_lines()[5])
        same("begun again", (told.get("stale"), told["state"]["nodes"]), (True, 5))
        for line in node_lines()[5:]:
            editor.row("add", line)
        editor.process.kill()
    with Editor(folder) as editor:
        same("and again", editor.do("look")["state"]["words"], "7 nodes, 1 link, closed")
        same("saved", editor.do("save")["saved"], True)
        check("no journal", not (folder / JOURNAL).exists())
    same("the paper's bytes", (folder / "proof.txt").read_bytes(), (PAPER / "proof.txt").read_bytes())
    # What is begun with a proof comes back without it.
    with Editor(folder) as editor:
        editor.do("look")
        editor.do("back")
        editor.process.kill()
    (folder / "proof.txt").write_text("broken\n")
    with Editor(folder) as editor:
        state = editor.do("look")["state"]
        same("without its proof", state["nodes"], 6)
        check("the changed proof is told", any("proof.txt was changed by another program" in note for note in state["notes"]))
        same("it is told before it is written over", [editor.do("save").get(name) for name in ("changed", "saved")], [True, False])
        same("as it was", (folder / "proof.txt").read_text(), "broken\n")
        same("written over when asked", editor.do("save", over=True)["saved"], True)
        same("and kept", (folder / "proof.txt.bak").read_text(), "broken\n")


def changed_underneath(scratch):
    folder = scratch / "under"
    shutil.copytree(PAPER, folder)
    with Editor(folder) as editor:
        editor.do("look")
        editor.do("back")
        same("nothing is told", editor.do("look"), {})
        other = (PAPER / "proof.txt").read_bytes().replace(b"6 8\n", b"6 7 8\n")
        (folder / "proof.txt").write_bytes(other)
        notes = editor.do("look")["state"]["notes"]
        check(f"it is told: {notes}", any("proof.txt was changed by another program" in note for note in notes))
        same("once", editor.do("look"), {})
        told = editor.do("save")
        check("and before it is saved", told["changed"] and not told["saved"] and "proof.txt.bak" in told["words"])
        same("nothing is written", ((folder / "proof.txt").read_bytes(), (folder / JOURNAL).exists(), (folder / "proof.txt.bak").exists()), (other, True, False))
        same("not by a word like true", editor.do("save", over=1)["saved"], False)
        same("saved over it", editor.do("save", over=True)["saved"], True)
        same("the other's text is kept", (folder / "proof.txt.bak").read_bytes(), other)
        same("nothing more is told", editor.do("look")["state"]["notes"] if editor.do("look") else [], [])
        (folder / "schema.txt").write_bytes((folder / "schema.txt").read_bytes().replace(b"4 1\n", b"4 2\n"))
        editor.do("back")
        told = editor.do("save")
        check("a changed schema is told", told["changed"] and "schema.txt" in told["words"])
        # It is gone.
        shutil.copy(PAPER / "schema.txt", folder)
        editor.do("look")
        (folder / "proof.txt").unlink()
        check("a proof that is gone is told", editor.do("save")["changed"])
        same("saved all the same", (editor.do("save", over=True)["saved"], zorambi("check", folder).stdout.split()[4]), (True, "17"))
        # A link in its place is not written over, nor what it leads to.
        editor.do("back")
        elsewhere = scratch / "elsewhere"
        elsewhere.write_text("x\n")
        (folder / "proof.txt").unlink()
        (folder / "proof.txt").symlink_to(elsewhere)
        told = editor.do("save", over=True)
        check(f"a link is not written over: {told['words']}", not told["saved"] and "put a file in its place" in told["words"] and elsewhere.read_text() == "x\n")
        same("nothing half written", [name for name in os.listdir(folder) if ".new" in name], [])


def no_journal(scratch):
    """Where the journal cannot be written that is told, and rows are saved all the same."""
    folder = schema_alone(scratch / "no journal at all")
    with Editor(folder) as editor:
        editor.do("look")
        (folder / JOURNAL / "x").mkdir(parents=True)
        state = editor.row("add", node_lines()[0])["state"]
        check(f"it is told: {state['notes']}", state["unsaved"] and any("save soon" in note for note in state["notes"]))
        same("nothing half written", sorted(os.listdir(folder)), [JOURNAL, "schema.txt"])
        shutil.rmtree(folder / JOURNAL)
        state = editor.do("formula", rows=FORMULAS)["state"]
        check("once it can be it is", not state["notes"] and (folder / JOURNAL).read_text().count("\n") == 3)
        # Formula rows are taken back, unless a node names them.
        same("a formula row back", len(editor.do("formula back")["state"]["tableau"]["rows"]), 8)
        # A failed save is no save.
        (folder / "proof.txt").mkdir()
        told = editor.do("save", over=True)
        check("a folder in its place", not told["saved"] and "not saved" in told["words"])
        (folder / "proof.txt").rmdir()
        editor.do("back")
        state = editor.row("add", node_lines()[0])["state"]
        check("still unsaved", state["unsaved"] and (folder / JOURNAL).is_file())
        editor.process.kill()
    with Editor(folder) as editor:
        state = editor.do("look")["state"]
        same("and not lost", (state["nodes"], len(state["tableau"]["rows"])), (1, 8))


def strange_journals(scratch):
    outside = scratch / "outside"
    hashes = [hashlib.sha256((PAPER / name).read_bytes()).hexdigest() for name in ("schema.txt", "proof.txt")]
    first = f"zorambi journal 1 {' '.join(hashes)}\n"
    for name, text in (("a file to write", f"{first}save {outside}\n"), ("no journal", "x\n"), ("other bytes", "\0\xff\n"), ("empty", ""), ("a word more", f"{first}page\n")):
        folder = scratch / f"journal {name}"
        shutil.copytree(PAPER, folder)
        (folder / JOURNAL).write_text(text, "latin-1")
        with Editor(folder) as editor:
            state = editor.do("look")["state"]
            same(f"a journal with {name}", (state["nodes"], state["unsaved"], outside.exists()), (7, False, False))
            check(f"it is kept, with {name}", (folder / f"{JOURNAL}.old").read_text("latin-1") == text and any("kept as" in note for note in state["notes"]))
    folder = scratch / "journal refused"
    shutil.copytree(PAPER, folder)
    (folder / JOURNAL).write_text(f"{first}{node_lines()[0]}\n5 5 5 5 5 5 5\nback\n")
    with Editor(folder) as editor:
        state = editor.do("look")["state"]
        same("a refused line", (state["nodes"], state["unsaved"]), (1, True))
        check(f"it is told: {state['notes']}", any(note.startswith(f"{JOURNAL}:3: refused: ") for note in state["notes"]) and (folder / f"{JOURNAL}.old").exists())
    folder = scratch / "journal link"
    shutil.copytree(PAPER, folder)
    outside.write_text(first)
    (folder / JOURNAL).symlink_to(outside)
    with Editor(folder) as editor:
        editor.do("look")
        editor.do("back")
        check("a link is not written through", outside.read_text() == first and not (folder / JOURNAL).is_symlink())


def hostile(scratch):
    folder = scratch / MARKUP.replace("/", "|")
    schema_alone(folder)
    (folder / "names.txt").write_text(f"0 p\n1 {MARKUP.replace(' ', '')}\n<i>\n2 \x1b[31mred\n")
    with Editor(folder) as editor:
        page = editor.request("GET", editor.secret)[2]
        check("the page has no byte of a record", b"onmouseover" not in page and b"alert(1)" not in page)
        _, headers, body = editor.post({"do": "look", "version": -1})
        same("told as JSON", (headers["Content-Type"], headers["X-Content-Type-Options"]), ("application/json", "nosniff"))
        check("the names are told", b"onmouseover" in body and b"names.txt:2" in body)
        check("no escape code is told", b"\x1b" not in body and b"u001b" not in body and "\x1b" not in editor.words())
        return folder


# ---- beginning and ending


def endings(scratch):
    for name, number in (("Ctrl-C", signal.SIGINT), ("a termination", signal.SIGTERM)):
        with Editor(schema_alone(scratch / name)) as editor:
            editor.do("look")
            editor.row("add", node_lines()[0])
            editor.process.send_signal(number)
            same(f"{name}: status", editor.ended(), 0)
            check(f"{name}: what is kept", f"not saved: 1 node, 0 links, open; the rows are kept in {JOURNAL}" in editor.words() and (editor.folder / JOURNAL).exists())
            check(f"{name}: no trace of Python", "Traceback" not in editor.words())
            same(f"{name}: nobody listens", editor.request("GET", editor.secret)[0], 0)
    with Editor(schema_alone(scratch / "from the page")) as editor:
        same("ended from the page", editor.do("end")["words"], "The program has ended.")
        same("its status", editor.ended(), 0)
        check("its words", editor.words().startswith("editing from the page: 0 nodes, 0 links, open\nopen the address in a browser; Ctrl-C ends it\n") and "not saved" not in editor.words())
    # Without the secret nobody ends it.
    with Editor(schema_alone(scratch / "not ended")) as editor:
        editor.request("POST", "/x/do", b'{"do":"end"}', Content_Type="application/json")
        same("not by a stranger", editor.ended(0.3), None)


def beginnings(scratch):
    folder = schema_alone(scratch / "once")
    with Editor(folder) as editor, Editor(folder) as second:
        same("a second program", second.ended(), 2)
        check("it is told", second.words().startswith("zorambi edit: another 'zorambi edit' has this folder: "))
        same("the first goes on", editor.request("GET", editor.secret)[0], 200)
    refused = zorambi("edit", "--no-browser", ROOT / "records/refused/void_above_least")
    same("a refused record", (refused.returncode, refused.stdout), (1, "answer place nodes links\n14 3 0 0\n"))
    check("why it is", "refused: a void's bound (14) at node 3" in refused.stderr and "Traceback" not in refused.stderr)
    for words in (("edit",), ("edit", scratch / "none"), ("edit", "--nobrowser", folder), ("edit", folder, folder)):
        done = zorambi(*words)
        check(f"{words}: wrong use", done.returncode == 2 and done.stdout == "" and done.stderr.startswith("zorambi edit: "))
    empty = scratch / "empty"
    empty.mkdir()
    done = zorambi("edit", "--no-browser", empty)
    check("no schema", done.returncode == 1 and "schema.txt is missing" in done.stderr)
    # Without Python, or with one that is too old.
    tools = scratch / "tools"
    tools.mkdir()
    for name in ("no python3", "an old python3"):
        done = zorambi("edit", folder, env={"PATH": str(tools)})
        check(f"{name}: {done.stderr}", done.returncode == 2 and "needs Python 3.9 or later" in done.stderr and "'zorambi grow' needs none" in done.stderr)
        (tools / "python3").write_text("#!/bin/sh\nexit 1\n")
        (tools / "python3").chmod(0o755)
    # A folder that cannot be written.
    if os.geteuid() != 0:
        folder.chmod(0o500)
        with Editor(folder) as editor:
            editor.do("look")
            told = editor.row("add", node_lines()[0])
            check("a journal that cannot be written is told", any("save soon" in note for note in told["state"]["notes"]))
        folder.chmod(0o700)
    same("no compiled files", [str(path) for path in (ROOT / "tools/zorambi/edit").glob("__pycache__")], [])


def browser_opened(scratch):
    """With a screen the browser is started, with an address that is good once."""
    opener, given = scratch / "opener", scratch / "given"
    opener.write_text(f'#!/bin/sh\nprintf %s "$1" >"{given}.part"\nmv "{given}.part" "{given}"\n')
    opener.chmod(0o755)
    with Editor(schema_alone(scratch / "screen"), True, DISPLAY=":9", BROWSER=f"{opener} %s") as editor:
        end = time.monotonic() + 10
        while not given.exists() and time.monotonic() < end:
            time.sleep(0.05)
        address = given.read_text() if given.exists() else ""
        path = address.removeprefix(f"http://127.0.0.1:{editor.port}")
        check("the browser is started, without the secret", path.startswith("/") and editor.secret not in address)
        same("from another host", editor.request("GET", path, Host="evil.example")[0], 403)
        status, headers, _ = editor.request("GET", path)
        same("it leads to the page", (status, headers["Location"]), (303, editor.secret))
        same("once", editor.request("GET", path)[0], 403)
    given.unlink(missing_ok=True)
    with Editor(schema_alone(scratch / "no screen"), True, BROWSER=f"{opener} %s") as editor:
        time.sleep(0.3)
        check("without a screen none is", not given.exists() and editor.address)


# ---- in Chromium


class Page:
    """The editor's page in a window."""

    def __init__(self, window, address):
        self.window = window
        window.post("/url", {"url": address})
        self.settle()

    def run(self, script, *given):
        return self.window.run(script, *given)

    def settle(self):
        idle = self.window.wait(lambda: self.run("return typeof editor !== 'undefined' && editor.isIdle()"), bool, 10)
        if not idle:
            raise RuntimeError("the page does not come to rest")

    def click(self, selector):
        self.window.click(selector)
        self.settle()

    def keys(self, *keys):
        self.window.keys(*keys)
        self.settle()

    def text(self, selector):
        return self.run("return document.querySelector(arguments[0])?.textContent ?? null", selector)

    def line(self):
        return self.text("#line")

    def colour(self):
        return self.run("return document.querySelector('#judged').className")

    def rule(self, number):
        self.click(f"#rule{number}")

    def tick(self, row):
        self.click(f"#set input[value='{row}']")

    def by(self, value):
        """Writes a number over what stands there."""
        self.run("document.querySelector('#by').focus(); document.querySelector('#by').select()")
        self.keys(*str(value))

    def write_rows(self):
        while self.run("return document.querySelector('.write') !== null"):
            self.click(".write")


def by_clicks(window, scratch):
    folder = schema_alone(scratch / "clicks")
    with Editor(folder) as editor:
        page = Page(window, editor.address)
        same("the first node", (page.text("#below"), page.text("#verdict"), page.text("#saved")), ("The first node", "0 nodes, 0 links, open", "saved"))
        same("rules that can apply", page.run("return [...document.querySelectorAll('#rules .can .name')].map((name) => name.textContent)"), ["and", "split"])
        same("one that cannot", page.text("#rules .cannot .not"), "no row that it may have is an or (kind 5)")
        check("nothing to add yet", page.run("return document.querySelector('#add').disabled"))
        check("open is not coloured as closed", not page.run("return document.querySelector('#verdict').classList.contains('accepted')"))
        page.rule(1)
        same("a rule that cannot is refused", page.colour(), "refused")
        page.rule(0)
        same("the first row", (page.line(), page.colour()), ("-1 0 4 -1 -1 -1 0 4", "good"))
        page.click("#add")
        same("added", (page.text("#verdict"), page.text("#below"), page.text("#saved")), ("1 node, 0 links, open", "Below node 0", "not saved"))
        page.rule(2)
        page.click("#add")
        page.rule(7)
        page.click("#add")
        same("three nodes, and back at the open one", (page.text("#verdict"), page.text("#below")), ("3 nodes, 0 links, open", "Below node 1"))
        # Formula rows, in the paper's order.
        page.rule(4)
        same("an unfolding without its rows", (page.colour(), page.run("return document.querySelectorAll('.write').length")), ("refused", 2))
        check("what it needs is shown", "⋁ i=2..n-1: p0(i)" in page.text("#needed"))
        page.write_rows()
        same("with them", (page.colour(), page.line()), ("good", "1 4 2 5 6 -1 0 2 3"))
        page.rule(3)
        page.write_rows()
        same("and the other unfolding", (page.colour(), page.line()), ("good", "1 3 3 7 8 -1 0 2 3"))
        page.click("#add")
        page.rule(4)
        same("its rows are there", (page.colour(), page.line()), ("good", "3 4 2 5 6 -1 0 2 7 8"))
        page.click("[data-field=with] input[value='2']")
        same("another row for with is refused", (page.colour(), page.line()), ("refused", "3 4 2 2 6 -1 0 2 7 8"))
        page.click("[data-field=with] input[value='5']")
        page.click("#add")
        same("open leaves are marked", page.run("return [...document.querySelectorAll('#tableau .node.open')].map((node) => node.id)"), ["n4"])
        # The wrong link.
        page.rule(8)
        page.click("#unwrite")
        check("a formula row that a node names stays", "refused" in page.text("#said") and "row 8" in page.text("#unwrite"))
        page.rule(8)
        page.click("#n1")
        page.tick(8)
        page.by(2)
        same("the wrong link", (page.line(), page.colour()), (WRONG_LINK, "refused"))
        words = page.text("#answer")
        check(f"it is explained: {words}", "(14) at node 5" in words and "node 5 knows n ≥ 2, so n - 2 may be 0; its target, node 1, knows n ≥ 1" in words and "To mend: " in words)
        same("it is coloured in the drawing", page.run("return [...document.querySelectorAll('#tableau .node.refused')].map((node) => node.id)"), ["n5"])
        drawn_as = lambda: page.run("return ['good', 'refused'].filter((name) => document.querySelector('#n5').classList.contains(name))")
        same("as refused alone", drawn_as(), ["refused"])
        check("with a note beside it", "n - 2 may be 0" in page.text("#tableau .note").replace("  ", " ") or "may be 0" in page.text("#tableau .note"))
        check("it cannot be added", page.run("return document.querySelector('#add').disabled"))
        same("the counts are what is held", page.text("#verdict"), "5 nodes, 0 links, open")
        page.by(1)
        same("the right link", (page.line(), page.colour(), drawn_as()), ("4 8 -1 -1 -1 1 1 5 7", "good", ["good"]))
        page.click("#add")
        same("a link", page.text("#verdict"), "6 nodes, 1 link, open")
        page.click("#back")
        same("taken back", (page.text("#verdict"), page.text("#below")), ("5 nodes, 0 links, open", "Below node 4"))
        page.rule(8)
        page.click("#n1")
        page.tick(8)
        page.click("#add")
        page.rule(6)
        page.tick(8)
        same("each tick is asked about", (page.line(), page.colour()), ("4 6 6 8 -1 -1 0 6 7", "refused"))
        page.tick(8)
        page.tick(7)
        same("and again", (page.line(), page.colour()), ("4 6 6 8 -1 -1 0 6 8", "good"))
        check("it would be closed", page.text("#answer").endswith("then 7 nodes, 1 link, closed."))
        check("and is not yet", "closed" not in page.text("#verdict"))
        page.click("#add")
        same("closed", (page.text("#verdict"), page.run("return document.querySelector('#verdict').classList.contains('accepted')")), ("7 nodes, 1 link, closed", True))
        same("no leaf is open", (page.text("#below"), page.run("return document.querySelector('#judged').hidden")), ("The tableau is closed", True))
        # A reload, and a program that is killed and begun again.
        page = Page(window, editor.address)
        same("after a reload", (page.text("#verdict"), page.text("#saved")), ("7 nodes, 1 link, closed", "not saved"))
        editor.process.kill()
        editor.process.wait()
        said = window.wait(lambda: page.text("#said") or "", lambda said: "does not answer" in said)
        check(f"a program that is gone is told: {said}", "does not answer" in said and "takes them up again" in said)
    with Editor(folder) as editor:
        page = Page(window, editor.address)
        same("begun again", page.text("#verdict"), "7 nodes, 1 link, closed")
        page.click("#save")
        same("saved", page.text("#saved"), "saved")
        same("the paper's bytes", (folder / "proof.txt").read_bytes(), (PAPER / "proof.txt").read_bytes())
        same("check", zorambi("check", folder).stdout, "answer place nodes links\n0 0 7 1\n")
        # Changed underneath, and ended from the page.
        page.click("#back")
        (folder / "proof.txt").write_text("x\n")
        page.click("#save")
        check("a changed file is told", "changed by another program" in page.text("#said") and (folder / "proof.txt").read_text() == "x\n")
        page.click("#said button")
        same("saved over it", (page.text("#saved"), (folder / "proof.txt.bak").read_text()), ("saved", "x\n"))
        page.click("#back")
        page.click("#end")
        check("unsaved rows are told before the end", "not saved" in page.text("#said") and editor.process.poll() is None)
        page.window.click("#said .really")
        same("ended from the page", editor.ended(), 0)


def by_keys(window, scratch):
    """The whole record again without the mouse, with four formula rows there."""
    folder = schema_alone(scratch / "keys")
    with Editor(folder) as editor:
        editor.do("look")
        editor.do("formula", rows=FORMULAS)
        page = Page(window, editor.address)

        def rule(number):
            page.keys("r")
            focused = lambda: int(page.run("return document.activeElement.value"))
            if not page.run("return document.activeElement.checked"):
                page.keys(" ")
            while focused() != number:
                page.keys(browser.DOWN if focused() < number else browser.UP)

        def tick(row):
            """By Tab to the row's tick, then the blank key."""
            for _ in range(40):
                if page.run("return document.activeElement.name === 'set' && document.activeElement.value === arguments[0]", str(row)):
                    break
                page.keys("\ue004")
            page.keys(" ")

        def keys_until(key, script):
            for _ in range(20):
                if page.run(script):
                    return
                page.keys(key)

        for number in (0, 2, 7, 3, 4):
            rule(number)
            page.keys("a")
        same("five nodes", page.text("#verdict"), "5 nodes, 0 links, open")
        rule(8)
        page.keys("t")
        keys_until(browser.UP, "return document.activeElement.id === 'n1'")
        page.keys(browser.ENTER)
        same("a target by keys", page.line(), "4 8 -1 -1 -1 1 1 5 7 8")
        keys_until("\ue004", "return document.activeElement.id === 'by'")
        page.keys(browser.BACKSPACE, "2")
        same("refused by keys", (page.line(), page.colour()), ("4 8 -1 -1 -1 1 2 5 7 8", "refused"))
        page.keys(browser.BACKSPACE, "1")
        tick(8)
        page.keys(browser.ENTER)
        same("a link by keys", page.text("#verdict"), "6 nodes, 1 link, open")
        page.keys("b")
        same("back by keys", page.text("#verdict"), "5 nodes, 0 links, open")
        rule(8)
        page.keys("t")
        keys_until(browser.UP, "return document.activeElement.id === 'n1'")
        page.keys(browser.ENTER)
        tick(8)
        page.keys("a")
        rule(6)
        tick(7)
        page.keys("a")
        same("closed by keys", page.text("#verdict"), "7 nodes, 1 link, closed")
        page.keys("s")
        same("saved by keys", (page.text("#saved"), (folder / "proof.txt").read_bytes()), ("saved", (PAPER / "proof.txt").read_bytes()))
        # The first leaf and the next by a key.
        page.keys("b")
        page.keys("b")
        page.keys("b")
        page.keys("b")
        page.keys("b")
        same("two rows are left", (page.text("#verdict"), page.text("#below")), ("2 nodes, 0 links, open", "Below node 1"))
        # What names that row is refused without it: so nothing of the form is lost by another's answer.
        rule(2)
        page.run("document.querySelector('#by').value = ''")
        same("an empty number changes nothing", page.line(), "1 2 -1 -1 -1 -1 0 2 3")


def two_windows(window, scratch):
    folder = schema_alone(scratch / "windows")
    with Editor(folder) as editor:
        page = Page(window, editor.address)
        editor.do("look")
        editor.row("add", node_lines()[0])
        seen = window.wait(lambda: page.text("#verdict"), lambda words: words.startswith("1 node"), 6)
        same("the other page's row is seen", seen, "1 node, 0 links, open")
        page.settle()
        editor.row("add", node_lines()[1])
        # At once, before it is seen.
        page.run("document.querySelector('#rule2').click()")
        page.settle()
        check("what was not seen is told", page.text("#verdict") == "2 nodes, 0 links, open")
        handle = window.post("/window/new", {"type": "tab"})["handle"]
        first = window.call("GET", window.session + "/window")
        window.post("/window", {"handle": handle})
        other = Page(window, editor.address)
        other.rule(7)
        other.click("#add")
        same("two windows, the one", other.text("#verdict"), "3 nodes, 0 links, open")
        window.call("DELETE", window.session + "/window")
        window.post("/window", {"handle": first})
        seen = window.wait(lambda: page.text("#verdict"), lambda words: words.startswith("3 nodes"), 6)
        same("two windows, the other", seen, "3 nodes, 0 links, open")


def looks(window, scratch, markup):
    with Editor(markup) as editor:
        page = Page(window, editor.address)
        page.rule(0)
        page.click("#add")
        check("names are text", MARKUP.replace("/", "|") in page.text("h1"))
        same("no markup from a record", page.run("return [...document.querySelectorAll('[onmouseover], header b, header i, script:not(body > script)')].length"), 0)
        same("one script", page.run("return document.scripts.length"), 1)
    folder = scratch / "large"
    shutil.copytree(LARGE, folder)
    with Editor(folder) as editor:
        page = Page(window, editor.address)
        same("a larger record", page.text("#verdict"), "65 nodes, 3 links, closed")
        page.click("#back")
        same("its last row back", (page.text("#verdict").split(",")[0], page.text("#below")), ("64 nodes", f"Below node {node_lines(LARGE)[-1].split()[0]}"))
        begin = time.monotonic()
        page.rule(2)
        check("a row of it is judged soon", time.monotonic() - begin < 3)
        light = page.run("return getComputedStyle(document.body).backgroundColor")
        window.scheme("dark")
        dark = page.run("return getComputedStyle(document.body).backgroundColor")
        window.scheme("light")
        check(f"light and dark: {light} {dark}", light != dark)
        window.size(1280, 800)
        same("it fits a screen", page.run("return document.documentElement.scrollHeight <= innerHeight && document.documentElement.scrollWidth <= innerWidth"), True)
        # A row that was never asked about is not closed by the page's own word.
        same("only what the program says", page.text("#verdict").split(", ")[2], "open")


def attempt(group, *given):
    """A group of tests; one that breaks off has failed, and the others are tried all the same."""
    try:
        return group(*given)
    except Exception as error:
        check(f"{group.__name__} breaks off: {error!r}", False)
        return None


def in_chromium(scratch, markup):
    programs = browser.programs()
    if programs is None:
        print("not tried: chromium and chromedriver are not installed; the same was tried through requests")
        return
    with browser.Browser(*programs) as window:
        window.size(1280, 800)
        for group in (by_clicks, by_keys, two_windows):
            attempt(group, window, scratch)
        attempt(looks, window, scratch, markup)
        # A program that is gone cannot be asked.
        logged = [line for line in window.logged() if "ERR_CONNECTION" not in line]
        same("nothing is wrong in the console", logged, [])


def main():
    with tempfile.TemporaryDirectory(prefix="zorambi-editor-") as name:
        scratch = pathlib.Path(name)
        markup = attempt(hostile, scratch)
        for group in (turned_away, paper_by_requests, two_pages, crash, changed_underneath, no_journal, strange_journals, endings, beginnings, browser_opened):
            attempt(group, scratch)
        attempt(in_chromium, scratch, markup)
    print(f"{passed} passed, {failed} failed")
    return 1 if failed else 0


if __name__ == "__main__":
    sys.exit(main())
