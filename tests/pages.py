#!/usr/bin/env python3
"""The drawings and pages of records and of a catalogue, as their users meet them: the files by themselves, then in Chromium without a
window. Where Chromium or chromedriver is not installed, what needs them is not tried, and said to be. PROGRAM is the built program."""

import json
import os
import pathlib
import re
import shutil
import subprocess
import sys
import tempfile
import time
import xml.etree.ElementTree

sys.dont_write_bytecode = True
import browser

ROOT = pathlib.Path(__file__).resolve().parent.parent
PROGRAM = os.environ.get("PROGRAM", str(ROOT / "build/release/zorambi"))
RECORDS = ROOT / "records"
PAPER = RECORDS / "paper/some_and_none"
SVG = "{http://www.w3.org/2000/svg}"
passed = 0
failed = 0


def check(what, holds):
    global passed, failed
    if holds:
        passed += 1
    else:
        failed += 1
        print(f"failed: {what}", flush=True)


def same(what, found, expected):
    check(f"{what}: {str(found)[:300]!r}, not {str(expected)[:300]!r}", found == expected)


def run(*words):
    return subprocess.run([PROGRAM, *map(str, words)], capture_output=True, text=True, check=False)


# ---- records, and what the paper says of them


def node_rows(record):
    """How many node rows the proof has."""
    return (record / "proof.txt").read_bytes().split(b"up rule on with other to by set\n")[1].count(b"\n")


def write_record(folder, root, least, rows, proof_rows, nodes):
    folder.mkdir(parents=True)
    text = lambda rows: "".join(" ".join(map(str, row)) + "\n" for row in rows)
    (folder / "schema.txt").write_text(f"root least\n{root} {least}\nkind a b c\n{text(rows)}")
    (folder / "proof.txt").write_text(f"kind a b c\n{text(proof_rows)}up rule on with other to by set\n{text(nodes)}")
    return folder


def large(folder):
    """1,024 nodes and 128 links: an or of 128 copies of the paper's schema, and true."""
    rows = [(2, 0, 2, 0), (3, 0, 2, 0), (7, 0, 2, 0), (6, 1, 2, 0), (4, 2, 3, 0), (0, 0, 0, 0)]
    ors = [4]
    for _ in range(7):
        rows.append((5, ors[-1], ors[-1], 0))
        ors.append(len(rows) - 1)
    rows.append((4, ors[-1], 5, 0))
    root, p = len(rows) - 1, len(rows)
    nodes = [(-1, 0, root, -1, -1, -1, 0, root)]

    def below(up, level):
        at = len(nodes)
        if level > 0:
            nodes.append((up, 1, ors[level], -1, -1, -1, 0, ors[level]))
            below(at, level - 1)
            below(at, level - 1)
            return
        nodes.append((up, 0, 4, -1, -1, -1, 0, 4))
        nodes.append((at, 2, -1, -1, -1, -1, 0, 2, 3))
        nodes.append((at + 1, 7, 2, -1, -1, -1, 0, 2, 3))
        nodes.append((at + 1, 3, 3, p + 2, p + 3, -1, 0, 2, 3))
        nodes.append((at + 3, 4, 2, p, p + 1, -1, 0, 2, p + 2, p + 3))
        nodes.append((at + 4, 8, -1, -1, -1, at + 1, 1, p, p + 2))
        nodes.append((at + 4, 6, p + 1, p + 3, -1, -1, 0, p + 1, p + 3))

    below(0, 7)
    proof_rows = [(7, 0, 2, 1), (2, 0, 1, 0), (6, 1, 2, 1), (3, 0, 1, 0)]
    return write_record(folder, root, 1, rows, proof_rows, nodes)


MARKUP = "<b onmouseover=alert(1)>&amp;</b>'\"</script><script>alert(1)</script>"


def hostile(folder):
    """A record whose folder, names and line at fault have markup in them."""
    folder = folder / MARKUP.replace("/", "|")
    shutil.copytree(PAPER, folder)
    # Two words a line, of which the second is no name; and lines that name nothing at all.
    (folder / "names.txt").write_text(f"0 p\n1 {MARKUP.replace(' ', '')}\n<i>\n2 </title>\n")
    proof = (folder / "proof.txt").read_text()
    (folder / "proof.txt").write_text(proof.replace("4 6 6 8 -1 -1 0 6 8\n", f"{MARKUP}\n"))
    return folder


def torn(folder):
    """Nodes that hang nowhere, in circles, with rules and links that there are not."""
    nodes = [(-1, 0, 2, -1, -1, -1, 0, 2), (5, 9, 9, 9, 9, 9, 9), (2, -3, 0, 0, 0, 0, 0, 99), (0, 8, -1, -1, -1, 77, 1, -5), (3, 8, -1, -1, -1, 3, -4), (-7, 2, 0, 0, 0, 0, 99999)]
    return write_record(folder, 2, 1, [(2, 0, 1, 0), (3, 0, 1, 0), (4, 0, 1, 0)], [], nodes)


# ---- the files by themselves


def files(scratch):
    page, drawing = scratch / "paper.html", scratch / "paper.svg"
    done = run("show", PAPER, "--html", page, "--svg", drawing)
    same("show --html --svg", (done.returncode, done.stdout, done.stderr), (0, "", ""))
    text = page.read_text()
    check("a page starts as one", text.startswith("<!DOCTYPE html>\n"))
    same("nodes in the page", len(re.findall(r'<g class="node', text)), 7)
    check("nothing is fetched", not re.search(r"(?:src|href)=\"(?!data:)", text) and "@import" not in text and "url(" not in text)
    same("scripts in the page", (text.count("<script"), text.count("</script")), (2, 2))
    tree = xml.etree.ElementTree.parse(drawing)
    nodes = [group for group in tree.iter(f"{SVG}g") if group.get("class", "").startswith("node")]
    same("nodes of the drawing", sorted(group.get("id") for group in nodes), [f"n{number}" for number in range(7)])
    links = [group for group in tree.iter(f"{SVG}g") if group.get("class") == "link"]
    same("links of the drawing", [(link.get("data-from"), link.get("data-to")) for link in links], [("5", "1")])
    check("the drawing has a title", "some_and_none" in tree.find(f"{SVG}title").text)
    # Again over one's own, never over another's.
    same("written over its own", run("show", PAPER, "--html", page).returncode, 0)
    for option, file in (("--html", drawing), ("--svg", page), ("--html", PAPER / "proof.txt")):
        before = file.read_bytes()
        done = run("show", PAPER, option, file)
        check(f"{option} over another's file", done.returncode == 2 and "it is not written over" in done.stderr and file.read_bytes() == before)
    for option, file in (("--html", scratch / "no/such/file.html"), ("--svg", scratch)):
        done = run("show", PAPER, option, file)
        check(f"{option} {file}", done.returncode == 2 and done.stderr.count("\n") == 1)
    done = run("show", PAPER, "--html", scratch / "one", "--svg", scratch / "one")
    check("the same file twice", done.returncode == 2 and not (scratch / "one").exists())
    same("nothing half written", [file.name for file in scratch.iterdir() if ".part" in file.name], [])
    # Every shipped record as a drawing: as many nodes, one of them refused where a node is.
    for record in sorted(folder.parent for folder in RECORDS.glob("*/*/proof.txt")):
        verdict = run("check", record).stdout.split("\n")[1].split()
        run("show", record, "--svg", drawing)
        tree = xml.etree.ElementTree.parse(drawing)
        classes = {group.get("id"): group.get("class") for group in tree.iter(f"{SVG}g") if group.get("class", "").startswith("node")}
        answer, place = int(verdict[0]), int(verdict[1])
        in_reading = answer in range(1, 5) or answer == 5 and place != -1
        same(f"nodes of {record.name}", len(classes), 0 if in_reading else node_rows(record))
        refused = [number for number, words in classes.items() if words.endswith(" refused")]
        of_node = answer in range(9, 18) and place != -1
        same(f"refused node of {record.name}", refused, [f"n{place}"] if of_node else [])
    # Texts that cannot be read.
    empty = scratch / "empty"
    empty.mkdir()
    done = run("show", empty, "--html", scratch / "empty.html")
    check("a folder without texts", done.returncode == 1 and "schema.txt is missing" in (scratch / "empty.html").read_text())


def catalogue_files(scratch):
    page, pages = scratch / "list.html", scratch / "pages of records"
    done = run("catalogue", RECORDS, "--html", page, "--pages", pages)
    same("catalogue --html --pages", (done.returncode, done.stderr), (1, ""))
    rows = json.loads(re.search(r'id="rows">\n(.*?)\n</script>', page.read_text(), re.S)[1])
    names = sorted(str(folder.relative_to(RECORDS)) for folder in {file.parent for name in ("schema", "proof") for file in RECORDS.glob(f"**/{name}.txt")})
    same("the records listed", sorted(row[0] for row in rows), names)
    same("a page for each", sorted(os.listdir(pages)), sorted(name.replace("/", "~") + ".html" for name in names))
    for row in rows:
        verdict = run("check", *(["--older"] if (RECORDS / row[0] / "older").exists() else []), RECORDS / row[0]).stdout.split("\n")[1].split()
        counts = [int(verdict[2]), int(verdict[3])] if verdict[0] == "0" else [None, None]
        same(f"the line of {row[0]}", row[2:5], [*counts, int(verdict[0]) or None])
    foreign = pages / "accepted~rca_zero.html"
    foreign.write_text("mine")
    done = run("catalogue", RECORDS, "--html", page, "--pages", pages)
    check("a page over another's file", done.returncode == 2 and "it is not written over" in done.stderr and foreign.read_text() == "mine")
    done = run("catalogue", RECORDS, "--pages", pages)
    check("--pages without --html", done.returncode == 2 and "--html" in done.stderr)
    done = run("catalogue", RECORDS, "--html", scratch / "t", "--csv", scratch / "t")
    check("--html and --csv of one name", done.returncode == 2 and not (scratch / "t").exists())
    done = run("catalogue", RECORDS, "--html", RECORDS / "README.md")
    check("--html over another's file", done.returncode == 2 and "it is not written over" in done.stderr)


# ---- in the browser

DRAWN = """
  const text = (element) => element.textContent.replace(/\\s+/g, " ").trim();
  const drawn = (svg) => [...svg.querySelectorAll(".node, .edge, .arc, .head, .note line, .note rect, .note text")].map((one) =>
    [one.tagName, one.getAttribute("class"), one.id, ["transform", "d", "x", "y", "x1", "y2", "width", "height"].map((name) => one.getAttribute(name)).join(), text(one)].join(" ").replace(" selected", ""));
"""


def click_link(page, number):
    """Clicks on the middle of a node's link."""
    x, y = page.run(
        """const path = document.querySelector(`.link[data-from="${arguments[0]}"] .hit`);
        const point = path.getPointAtLength(path.getTotalLength() * 0.4).matrixTransform(path.getScreenCTM());
        return [Math.round(point.x), Math.round(point.y)];""",
        number,
    )
    page.mouse([("pointerMove", x, y), ("pointerDown",), ("pointerUp",)])


def selected(page):
    return page.run("return [...document.querySelectorAll('.node.selected')].map((node) => node.id)")


def panel(page):
    return page.run("return document.getElementById('selected').innerText")


def scale(page):
    return page.run("return new DOMMatrix(getComputedStyle(document.getElementById('view')).transform).a")


def record_page(page, scratch, record, name=None):
    """Opens the page of a record."""
    file = scratch / f"{name or record.name}.html"
    run("show", record, "--html", file)
    page.open(file)
    return file


def every_page(page, what, file):
    """What holds of the page of any record that was just opened."""
    same(f"{what}: logged", page.logged(), [])
    same(f"{what}: loaded", page.run("return performance.getEntriesByType('resource').map((one) => one.name)"), [])
    same(f"{what}: pages of paper", len(re.findall(rb"/Type\s*/Page\b", page.printed())), 1)
    found = page.run(
        DRAWN
        + """const still = new DOMParser().parseFromString(arguments[0], "text/html").getElementById("tableau");
        const [one, other] = [drawn(still), drawn(document.getElementById("tableau"))];
        return [one.length, one.filter((part, at) => part !== other[at]).concat(other.slice(one.length))];""",
        file.read_text(),
    )
    check(f"{what}: without its script it has another picture: {found[1][:3]}", found[0] > 1 and found[1] == [])
    overlapping = page.run(
        """const boxes = [...document.querySelectorAll(".node .box")].map((box) => box.getBoundingClientRect());
        const area = document.getElementById("drawing").getBoundingClientRect();
        return [boxes.length, boxes.filter((one, at) => boxes.slice(at + 1).some((other) => one.left < other.right - .5 && other.left < one.right - .5 && one.top < other.bottom - .5 && other.top < one.bottom - .5)).length];"""
    )
    same(f"{what}: nodes that overlap", overlapping[1], 0)
    return overlapping[0]


def paper_page(page, scratch):
    file = record_page(page, scratch, PAPER)
    same("the paper's nodes", every_page(page, "the paper's record", file), 7)
    same("nothing is refused", page.run("return document.querySelectorAll('.refused').length"), 0)
    same("the title", page.run("return document.title"), f"{PAPER}: accepted: 7 nodes, 1 link")
    same("the schema", page.run("return document.getElementById('schema').textContent"), "(⋁ i=2..n: p(i)) ∧ ⋀ i=2..n: ¬p(i)")
    page.click("#n5 .box")
    same("a click on a node", selected(page), ["n5"])
    shown = panel(page)
    check(f"its set: {shown!r}", all(words in shown for words in ("Node 5: loop", "n ≥ 2", "5\n⋁ i=2..n-1: p(i)", "7\n⋀ i=2..n-1: ¬p(i)")))
    click_link(page, 5)
    same("a click on a link", selected(page), ["n1"])
    check("its target is told", "Node 1: split" in panel(page) and re.search(r"Links from\s+node 5", panel(page)))
    page.click("#selected .goto")
    check("a click on a row", "Row 2" in panel(page) and "7 0 2 0 in the schema" in panel(page) and "node 4" in panel(page))
    # Keys: arrows along the tree, Enter, the search.
    page.click("#n4 .box")
    for key, expected in ((browser.DOWN, "n5"), (browser.RIGHT, "n6"), (browser.LEFT, "n5"), (browser.UP, "n4"), (browser.DOWN, "n5"), (browser.ENTER, "n1")):
        page.keys(key)
        same(f"key {ord(key):x}", selected(page), [expected])
    page.keys("/")
    same("the search has the focus", page.run("return document.activeElement.id"), "query")
    page.keys(browser.ESCAPE)
    for words, expected in (("6", "Node 6: clash"), ("row 8", "Row 8"), ("void", "Node 2: void"), ("¬p(n)", "Row 8")):
        page.keys("/", *words, browser.ENTER)
        check(f"the search for {words}: {panel(page)[:40]!r}", panel(page).startswith(expected))
        page.run("document.activeElement.blur()")
    page.keys("/", *"nothing at all")
    same("a search in vain", page.run("return document.getElementById('found').innerText"), "Nothing has that.")
    page.keys(browser.ESCAPE)
    # Zoom and pan.
    page.run("document.getElementById('fit').click()")
    fitted = scale(page)
    page.keys("+")
    check("+ makes it larger", scale(page) > fitted)
    page.keys("-", "-")
    check("- makes it smaller", scale(page) < fitted)
    page.keys("0")
    same("0 shows the whole", scale(page), fitted)
    page.click("#in")
    check("the button makes it larger", scale(page) > fitted)
    page.click("#fit")
    page.wheel(400, 400, -300)
    check("the wheel makes it larger", scale(page) > fitted)
    before = page.run("return document.getElementById('n0').getBoundingClientRect().x")
    page.mouse([("pointerMove", 60, 560), ("pointerDown",), ("pointerMove", 110, 580), ("pointerMove", 160, 600), ("pointerUp",)])
    moved = page.run("return document.getElementById('n0').getBoundingClientRect().x") - before
    check(f"dragging moves it by {moved}", abs(moved - 100) < 2)
    page.click("#fit")
    inside = """const area = document.getElementById("drawing").getBoundingClientRect();
        return [...document.querySelectorAll(".node .box")].every((box) => { const one = box.getBoundingClientRect();
          return one.left >= area.left && one.right <= area.right && one.top >= area.top && one.bottom <= area.bottom; })"""
    check("the whole is seen", page.run(inside))
    # Rules: one of them alone.
    page.click('.rule[data-rule="6"]')
    same("one rule alone", page.run("return [...document.querySelectorAll('.node.lit')].map((node) => node.id)"), ["n6"])
    page.click('.rule[data-rule="6"]')
    # Names for those who do not see it.
    same("a node's name", page.run("return document.getElementById('n2').getAttribute('aria-label')"), "node 2: void, n = 1")
    same("one node is in the order of keys", page.run("return document.querySelectorAll('.node[tabindex=\"0\"]').length"), 1)
    unnamed = page.run("return [...document.querySelectorAll('button, input')].filter((one) => !(one.getAttribute('aria-label') || one.textContent.trim())).length")
    same("buttons without a name", unnamed, 0)
    same("logged after all that", page.logged(), [])


def refused_pages(page, scratch):
    file = record_page(page, scratch, RECORDS / "refused/void_above_least")
    every_page(page, "a refused node", file)
    same("the refused node", page.run("return [...document.querySelectorAll('.node.refused')].map((node) => node.id)"), ["n3"])
    same("it is selected", selected(page), ["n3"])
    note = page.run("return document.querySelector('.note').textContent")
    check(f"its note: {note!r}", "refused" in note and "(14)" in note and "node 3" in note)
    beside = page.run(
        """const [note, node] = [".note rect", "#n3 .box"].map((one) => document.querySelector(one).getBoundingClientRect());
        return note.top < node.bottom && note.bottom > node.top && (note.left > node.right || note.right < node.left)"""
    )
    check("the note stands beside it", beside)
    check("the panel says why", "refused" in panel(page) and "(14)" in panel(page))
    file = record_page(page, scratch, RECORDS / "refused/size_4097")
    every_page(page, "a refused row", file)
    check("the refused row is shown", panel(page).startswith("Row 12") and "(8)" in panel(page))
    record_page(page, scratch, torn(scratch / "torn"))
    same("nodes that hang nowhere", page.run("return document.querySelectorAll('.node').length"), 6)
    same("torn: logged", page.logged(), [])


def hostile_pages(page, scratch):
    folder = hostile(scratch / "hostile")
    file = record_page(page, scratch, folder, "hostile")
    count = "return document.querySelectorAll('body b, body i, body img, header script').length"
    same("markup of a record", page.run(count), 0)
    same("its name", page.run("return document.querySelector('h1').textContent"), str(folder))
    said = page.run("return document.getElementById('said').textContent")
    check(f"its line and its names: {said!r}", MARKUP in said and "names.txt:3: <i>" in said and "names.txt:4: 2 </title>" in said)
    same("hostile: logged", page.logged(), [])
    listed, pages = scratch / "hostile list.html", scratch / "hostile pages"
    run("catalogue", folder.parent, "--html", listed, "--pages", pages)
    page.open(listed)
    same("markup in a list", page.run(count), 0)
    same("its name in a list", page.run("return document.querySelector('#lines td').textContent"), folder.name)
    page.click("#lines a")
    same("its page by the list", page.run("return document.querySelector('h1').textContent"), folder.name)
    same("hostile list: logged", page.logged(), [])
    check("scripts are two", file.read_text().count("<script") == 2)


def large_page(page, scratch):
    record = large(scratch / "large")
    same("1,024 nodes", run("check", record).stdout.split("\n")[1], "0 0 1024 128")
    file = scratch / "large.html"
    run("show", record, "--html", file)
    check(f"the size of its page, {file.stat().st_size} bytes", file.stat().st_size < 1_500_000)
    before = time.monotonic()
    page.open(file)
    opened = time.monotonic() - before
    check(f"it opens in {opened:.1f} s", opened < 8)
    same("its nodes", every_page(page, "1,024 nodes", file), 1024)
    shape = page.run("const box = document.getElementById('tableau').viewBox.baseVal; return box.width / box.height")
    check(f"its shape, {shape:.2f}, fits a screen", 0.4 < shape < 4)
    slowest = page.run(
        """const body = document.body; let slowest = 0;
        for (const key of ["ArrowDown", "ArrowDown", "ArrowRight", "+", "+", "-", "0"]) {
          const before = performance.now();
          body.dispatchEvent(new KeyboardEvent("keydown", { key, bubbles: true }));
          document.getElementById("n0").getBoundingClientRect();
          slowest = Math.max(slowest, performance.now() - before);
        }
        return slowest"""
    )
    check(f"a key takes {slowest:.0f} ms", slowest < 1000)
    page.keys("/", *"node 1023", browser.ENTER)
    same("a node that is far off", selected(page), ["n1023"])
    check("large enough to be read", page.run("return document.querySelector('#n1023 .box').getBoundingClientRect().height") > 20)


def light_and_dark(page, scratch):
    colours = {}
    for name, open_page in (("record", lambda: page.open(scratch / "void_above_least.html")), ("list", lambda: page.open(scratch / "list.html"))):
        for scheme in ("light", "dark"):
            page.scheme(scheme)
            open_page()
            pairs = page.run(
                """const level = (colour) => { const [r, g, b] = colour.match(/[\\d.]+/g).map((part) => { part /= 255; return part <= .04045 ? part / 12.92 : ((part + .055) / 1.055) ** 2.4; });
                  return .2126 * r + .7152 * g + .0722 * b; };
                const paper = (element) => { for (let one = element; one; one = one.parentElement) { const colour = getComputedStyle(one).backgroundColor;
                  if (!colour.startsWith("rgba(0, 0, 0, 0")) return colour; } return "rgb(255, 255, 255)"; };
                const seen = [...document.querySelectorAll("h1, p, td, th button, .verdict, .rule, .count, #selected *")].filter((one) => one.textContent.trim() && one.offsetParent);
                return [level(paper(document.body)), Math.min(...seen.map((one) => { const [a, b] = [level(getComputedStyle(one).color), level(paper(one))]; return (Math.max(a, b) + .05) / (Math.min(a, b) + .05); }))]"""
            )
            colours[name, scheme] = pairs[0]
            check(f"{name}, {scheme}: the least contrast of words is {pairs[1]:.1f}", pairs[1] >= 4.5)
        check(f"{name}: dark is dark", colours[name, "dark"] < 0.05 < 0.8 < colours[name, "light"])
    page.scheme("light")


def list_page(page, scratch):
    listed, pages = scratch / "list.html", scratch / "list pages"
    printed = run("catalogue", RECORDS, "--html", listed, "--pages", pages).stdout.splitlines()
    page.open(listed)
    counts = page.run("return [...document.querySelectorAll('.counts li')].map((one) => one.innerText.replace(/\\s+/g, ' '))")
    total, accepted, refused = re.match(r"(\d+) records: (\d+) accepted, (\d+) refused", printed[-1]).groups()
    same("the totals", counts[:3], [f"{total} records", f"{accepted} accepted", f"{refused} refused"])
    summary = sorted((int(number), int(times)) for line in printed for times, number in re.findall(r"^ +(\d+) refused: .* \((\d+)\)$", line))
    found = page.run("return [...document.querySelectorAll('.refusals tbody tr')].map((row) => [row.cells[0].innerText, row.cells[3].innerText].map(Number))")
    same("the refusals", [tuple(one) for one in found], summary)
    column = lambda at: page.run("return [...document.getElementById('lines').rows].map((row) => row.cells[arguments[0]].textContent)", at)
    same("its lines", len(column(0)), int(total))
    page.click('th button[data-column="2"]')
    nodes = [int(one) for one in column(2) if one]
    check("sorted by nodes", nodes == sorted(nodes) and len(nodes) == int(accepted))
    page.click('th button[data-column="2"]')
    nodes = [int(one) for one in column(2) if one]
    check("sorted the other way", nodes == sorted(nodes, reverse=True) and column(2)[0] != "")
    page.click('th button[data-column="0"]')
    same("sorted by name", column(0), sorted(column(0)))
    page.click("#filter")
    page.keys(*"refused void")
    same("filtered", page.wait(lambda: column(0), lambda found: len(found) < 5), ["refused/void_above_least"])
    same("how many are shown", page.run("return document.getElementById('shown').innerText"), f"1 of {total}")
    page.keys(*[browser.BACKSPACE] * 12)
    page.wait(lambda: column(0), lambda found: len(found) == int(total))
    page.click('.refusal[data-answer="14"]')
    same("one refusal alone", set(column(4)), {"14"})
    same("the list's pages: logged", page.logged(), [])
    page.click("#lines a")
    check("a record's page", page.run("return document.querySelectorAll('.node').length") > 0)
    page.click(".up")
    same("and back", page.run("return document.title"), f"Catalogue of {RECORDS}")
    same("and back: logged", page.logged(), [])


def long_list(page, scratch):
    """3,000 records: the page has lines for what is looked at alone."""
    many = scratch / "many"
    for number in range(3000):
        folder = many / f"{number % 10}" / f"record {number}"
        folder.mkdir(parents=True)
        for text in ("schema.txt", "proof.txt"):
            os.link(scratch / "hard" / text, folder / text)
    run("catalogue", many, "--html", scratch / "many.html", "--quiet")
    page.open(scratch / "many.html")
    lines = "return document.getElementById('lines').rows.length"
    first = page.run(lines)
    check(f"lines at first: {first}", 0 < first <= 400)
    page.run("window.scrollTo(0, document.body.scrollHeight)")
    check("more of them by scrolling", page.wait(lambda: page.run(lines), lambda found: found > first) > first)
    took = page.run("const before = performance.now(); document.querySelector('th button[data-column=\"0\"]').click(); return performance.now() - before")
    check(f"sorting takes {took:.0f} ms", took < 1500)
    same("the long list: logged", page.logged(), [])


def without_script(page, scratch):
    page.devtools("Emulation.setScriptExecutionDisabled", {"value": True})
    page.open(scratch / "some_and_none.html")
    same("nodes without the script", page.count(".node"), 7)
    same("no buttons that do nothing", page.count("#tools:not([hidden])"), 0)
    page.open(scratch / "list.html")
    check("lines without the script", page.count("#lines tr") > 20)
    page.devtools("Emulation.setScriptExecutionDisabled", {"value": False})


def in_the_browser(scratch):
    programs = browser.programs()
    if not programs:
        print("not tried: the pages in a browser (no chromium, or no chromedriver)")
        return
    with browser.Browser(*programs) as page:
        page.size(1280, 800)
        for test in (paper_page, refused_pages, hostile_pages, list_page, light_and_dark, large_page, long_list, without_script):
            test(page, scratch)


def main():
    scratch = pathlib.Path(tempfile.mkdtemp(prefix="zorambi-pages-"))
    try:
        (scratch / "hard").mkdir()
        for text in ("schema.txt", "proof.txt"):
            shutil.copy(PAPER / text, scratch / "hard" / text)
        files(scratch)
        catalogue_files(scratch)
        in_the_browser(scratch)
    finally:
        shutil.rmtree(scratch, ignore_errors=True)
    print(f"{passed} passed, {failed} failed")
    return 1 if failed else 0


if __name__ == "__main__":
    sys.exit(main())
