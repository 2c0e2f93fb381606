"use strict";
// The page of a record. It draws one object, `record`: its nodes with their places, formulas as text, links, the verdict. Whatever comes
// from it is set as text, never as markup. `zorambi.show(record)` draws another one in its place; the editor does so with each change.
const zorambi = (() => {
  const SVG = "http://www.w3.org/2000/svg";
  const find = (id) => document.getElementById(id);
  let record;
  let children; // of each node
  let svg, view; // the drawing, and what moves in it
  let nodes; // the elements of the nodes
  let selected = null; // a node's number
  const at = { x: 0, y: 0, scale: 1 }; // how the drawing is moved; as it is here the whole fits
  let isWhole = true; // the reader has not moved it
  let onNode = () => false; // what else a click on a node or Enter does; true if that is all

  // ---- elements

  function drawn(name, attributes, ...inner) {
    const element = document.createElementNS(SVG, name);
    for (const [key, value] of Object.entries(attributes)) element.setAttribute(key, value);
    element.append(...inner);
    return element;
  }

  function made(name, properties, ...inner) {
    const element = Object.assign(document.createElement(name), properties);
    element.append(...inner);
    return element;
  }

  // ---- the drawing: what the page has as a picture already, from the object

  function draw() {
    view = drawn("g", { id: "view" });
    for (const node of record.nodes) if (node.edge) view.append(drawn("path", { class: "edge", d: node.edge }));
    for (const link of record.links) view.append(drawnLink(link));
    nodes = record.nodes.map(drawnNode);
    view.append(...nodes);
    if (record.note) view.append(drawnNote(record.note));
    svg = drawn("svg", {
      class: "tableau", id: "tableau", viewBox: `0 0 ${record.width} ${record.height}`, role: "tree",
      "aria-label": `${record.name}: ${record.words}`,
    }, view);
  }

  function drawnNode(node) {
    const [width, height] = record.box;
    const refused = record.refused && record.refused.node === node.number;
    const element = drawn("g", {
      class: `node r${node.class}${refused ? " refused" : ""}`, id: `n${node.number}`,
      transform: `translate(${node.x} ${node.y})`, role: "treeitem", tabindex: "-1", "aria-label": node.title,
    },
      drawn("title", {}, node.title),
      drawn("rect", { class: "box", width, height, rx: 7 }),
      drawn("rect", { class: "sign", x: 5, y: 5, width: 26, height: 26, rx: 5 }),
      drawn("text", { class: "glyph", x: 18, y: 23 }, record.glyphs[node.class]),
      drawn("text", { class: "name", x: 38, y: 16 },
        drawn("tspan", { class: "number" }, String(node.number)), drawn("tspan", { class: "rule" }, ` ${ruleWords(node)}`)),
      drawn("text", { class: "bound", x: 38, y: 30 }, node.bound));
    if (node.detail) element.append(drawn("text", { class: "formula", x: 38, y: 46 }, node.detail));
    element.dataset.node = node.number;
    return element;
  }

  function drawnLink(link) {
    return drawn("g", { class: "link", "data-from": link.from, "data-to": link.to },
      drawn("path", { class: "arc", d: link.arc }),
      drawn("path", { class: "head", d: link.head }),
      drawn("text", { x: link.x, y: link.y }, link.label),
      drawn("path", { class: "hit", d: link.arc }, drawn("title", {}, `link from node ${link.from} to node ${link.to}, by ${link.by}`)));
  }

  function drawnNote(note) {
    const [x1, y1, x2, y2] = note.leader;
    const lines = note.lines.map((line, index) =>
      drawn("text", { ...(index < note.firsts && { class: "first" }), x: note.x + 12, y: note.y + 20 + 16 * index }, line));
    return drawn("g", { class: "note" },
      drawn("line", { x1, y1, x2, y2 }),
      drawn("rect", { x: note.x, y: note.y, width: note.width, height: note.height, rx: 7 }),
      ...lines);
  }

  const ruleWords = (node) => record.rules[node.class] ?? `rule ${node.rule}`;

  // ---- moving and zooming

  // Pixels to a unit of the drawing where the whole fits.
  function fitted() {
    const { width, height } = svg.getBoundingClientRect();
    return Math.min(width / record.width, height / record.height) || 1;
  }

  function move() {
    view.style.transform = `translate(${at.x}px, ${at.y}px) scale(${at.scale})`;
    const pixels = fitted() * at.scale;
    svg.classList.toggle("far", pixels < 0.45);
    svg.classList.toggle("farther", pixels < 0.2);
  }

  // The whole, but no larger than it is comfortable to read.
  function fit() {
    const scale = Math.min(1, 1.25 / fitted());
    Object.assign(at, { x: (record.width / 2) * (1 - scale), y: (record.height / 2) * (1 - scale), scale });
    isWhole = true;
    move();
  }

  // Where a node stands from the middle of the window, and how large it is, in pixels.
  function standing(number) {
    const node = record.nodes[number] ?? { x: 0, y: 0 };
    const pixels = fitted();
    return {
      x: (at.x + node.x * at.scale - record.width / 2) * pixels,
      y: (at.y + node.y * at.scale - record.height / 2) * pixels,
      pixels: pixels * at.scale,
    };
  }

  // Moves the drawing so that a node stands where it stood in the one before.
  function stay(number, { x, y, pixels }) {
    const node = record.nodes[number] ?? { x: 0, y: 0 };
    const whole = fitted();
    at.scale = pixels / whole;
    at.x = x / whole + record.width / 2 - node.x * at.scale;
    at.y = y / whole + record.height / 2 - node.y * at.scale;
    move();
  }

  // A place of the window as a place of the drawing where the whole fits.
  function placeOf(event) {
    const box = svg.getBoundingClientRect();
    const pixels = fitted();
    return {
      x: (event.clientX - box.left - box.width / 2) / pixels + record.width / 2,
      y: (event.clientY - box.top - box.height / 2) / pixels + record.height / 2,
    };
  }

  // Zooms so that a place stays where it is.
  function zoom(factor, place = { x: record.width / 2, y: record.height / 2 }) {
    const most = Math.max(1, 4 / fitted());
    const scale = Math.min(most, Math.max(Math.min(1, 1 / fitted()) * 0.7, at.scale * factor));
    at.x = place.x - (place.x - at.x) * (scale / at.scale);
    at.y = place.y - (place.y - at.y) * (scale / at.scale);
    at.scale = scale;
    isWhole = false;
    move();
  }

  // Brings a node into the window, large enough to be read.
  function bring(node, toMiddle) {
    const pixels = fitted();
    const [width, height] = record.box;
    const wanted = 0.8 / pixels;
    const grows = at.scale < wanted && toMiddle;
    if (grows) at.scale = wanted;
    const half = { x: svg.clientWidth / pixels / 2, y: svg.clientHeight / pixels / 2 };
    for (const [axis, start, size, whole] of [["x", node.x, width, record.width], ["y", node.y, height, record.height]]) {
      const middle = at[axis] + (start + size / 2) * at.scale;
      const room = half[axis] - size * at.scale;
      if (!grows && Math.abs(middle - whole / 2) <= room) continue;
      at[axis] = whole / 2 - (start + size / 2) * at.scale;
      isWhole = false;
    }
    move();
  }

  function listenToMoves() {
    let from = null;
    svg.addEventListener("wheel", (event) => {
      event.preventDefault();
      zoom(Math.exp(-event.deltaY * (event.deltaMode === 1 ? 0.05 : 0.0016)), placeOf(event));
    }, { passive: false });
    svg.addEventListener("pointerdown", (event) => {
      if (event.button === 0) from = { start: placeOf(event), x: at.x, y: at.y, moved: false };
    });
    svg.addEventListener("pointermove", (event) => {
      if (!from) return;
      const place = placeOf(event);
      const [right, down] = [place.x - from.start.x, place.y - from.start.y];
      if (!from.moved && Math.hypot(right, down) * fitted() < 4) return;
      if (!from.moved) svg.setPointerCapture(event.pointerId);
      from.moved = true;
      svg.classList.add("dragged");
      Object.assign(at, { x: from.x + right, y: from.y + down });
      isWhole = false;
      move();
    });
    const end = () => {
      svg.classList.remove("dragged");
      from = null;
    };
    svg.addEventListener("pointerup", end);
    svg.addEventListener("pointercancel", end);
    svg.addEventListener("click", (event) => {
      const node = event.target.closest(".node");
      const link = event.target.closest(".link");
      if (node) {
        select(Number(node.dataset.node));
        onNode(Number(node.dataset.node));
      } else if (link) select(Number(link.dataset.to), true);
    });
  }

  // ---- what is selected

  function select(number, toMiddle = false) {
    if (!record.nodes[number]) return;
    mark(number);
    bring(record.nodes[number], toMiddle);
    nodes[number].focus({ preventScroll: true });
  }

  // Shows what is selected without going there.
  function mark(number) {
    unmark();
    selected = number;
    const element = nodes[number];
    element.classList.add("selected");
    element.setAttribute("aria-selected", "true");
    element.setAttribute("tabindex", "0");
    for (const link of svg.querySelectorAll(`.link[data-from="${number}"], .link[data-to="${number}"]`)) link.classList.add("lit");
    find("selected").replaceChildren(...aboutNode(record.nodes[number]));
  }

  function unmark() {
    for (const element of svg.querySelectorAll(".selected, .link.lit")) element.classList.remove("selected", "lit");
    for (const element of nodes) {
      element.removeAttribute("aria-selected");
      element.setAttribute("tabindex", "-1");
    }
  }

  function selectRow(number) {
    if (record.rows[number]) find("selected").replaceChildren(...aboutRow(number));
  }

  function goTo(text, action, label) {
    const button = made("button", { type: "button", className: "goto", textContent: text, onclick: action });
    if (label) button.setAttribute("aria-label", label);
    return button;
  }

  const toNode = (number) => goTo(`node ${number}`, () => select(number, true));
  const toRow = (number) => goTo(String(number), () => selectRow(number), `row ${number}`);

  // A formula, in which the numbers of rows, [12], lead to them.
  function formula(text) {
    const inner = text.split(/(\[\d+\])/).map((part) => {
      const row = /^\[(\d+)\]$/.exec(part);
      return row ? goTo(part, () => selectRow(Number(row[1])), `row ${row[1]}`) : part;
    });
    return made("span", { className: "formula" }, ...inner);
  }

  const formulaOf = (row) => formula(record.rows[row] ? record.rows[row].text : "no such row");

  // Things with commas between.
  const listed = (things) => things.flatMap((thing, index) => (index ? [", ", thing] : [thing]));

  function part(title, ...inner) {
    return [made("h3", { textContent: title }), ...inner];
  }

  function why() {
    const inner = [made("strong", { textContent: record.words })];
    for (const words of [record.why, record.mend]) if (words) inner.push(made("span", { textContent: words }));
    return made("p", { className: "why" }, ...inner);
  }

  function aboutNode(node) {
    const roles = new Map([[node.other, "other"], [node.with, "with"], [node.on, "on"]]);
    const about = [
      made("h2", { textContent: `Node ${node.number}: ${ruleWords(node)}` }),
      made("p", { className: "knows", textContent: `It knows ${node.bound}.` }),
      made("p", { className: "says", textContent: node.says }),
    ];
    if (record.refused && record.refused.node === node.number) about.push(why());
    if (node.class === 8 && record.nodes[node.to]) about.push(...part("Link", made("p", {}, "to ", toNode(node.to), ` by ${node.by}`)));
    const rows = node.set.map((row) => rowLine(row, roles.get(row)));
    about.push(...part(rows.length ? "Set" : "Its set is empty", made("ul", { className: "rows" }, ...rows)));
    const given = [["with", node.with], ["other", node.other]].filter(([, row]) => row >= 0 && !node.set.includes(row));
    if (given.length) about.push(...part("It gives", made("ul", { className: "rows" }, ...given.map(([role, row]) => rowLine(row, role)))));
    if (node.parent !== null) about.push(...part("Parent", made("p", {}, toNode(node.parent))));
    const below = children[node.number];
    if (below.length) about.push(...part(below.length > 1 ? "Children" : "Child", made("p", {}, ...listed(below.map(toNode)))));
    const links = record.links.filter((link) => link.to === node.number);
    if (links.length) about.push(...part("Links from", made("p", {}, ...listed(links.map((link) => toNode(link.from))))));
    return about;
  }

  function rowLine(row, role) {
    const line = made("li", {}, made("span", { className: "of" }, toRow(row)), formulaOf(row));
    if (role) line.append(made("span", { className: "role", textContent: role }));
    return line;
  }

  function aboutRow(number) {
    const MOST = 40;
    const { row } = record.rows[number];
    const text = number < record.schemaRows ? "the schema" : "the proof";
    const holding = record.nodes.filter((node) => node.set.includes(number));
    const about = [
      made("h2", { textContent: `Row ${number}` }),
      made("p", { className: "knows", textContent: `${row.join(" ")} in ${text}${number === record.root ? ", the root" : ""}` }),
      made("p", { className: "says" }, formulaOf(number)),
    ];
    if (record.refused && record.refused.row === number) about.push(why());
    const shown = listed(holding.slice(0, MOST).map((node) => toNode(node.number)));
    if (holding.length > MOST) shown.push(` and ${holding.length - MOST} more`);
    about.push(...part(holding.length ? "In the sets of" : "In no set", made("p", {}, ...shown)));
    return about;
  }

  function aboutNothing() {
    const keys = "Click a node for its set and its formulas, a link for its target. Arrows go along the tree, Enter follows a link, " +
      "/ searches, + and - zoom, 0 shows the whole.";
    return [made("p", { className: "hint", textContent: keys })];
  }

  // ---- search

  function results(words) {
    const MOST = 50;
    const query = words.trim().toLowerCase();
    if (!query) return [];
    const number = /^(?:(node|row|n|r)\s*)?(\d+)$/.exec(query);
    const all = [
      ...record.nodes.map((node) => ({ what: `node ${node.number}`, number: node.number, sort: "n", text: `${ruleWords(node)}, ${node.bound}`, go: () => select(node.number, true) })),
      ...record.rows.map((row, index) => ({ what: `row ${index}`, number: index, sort: "r", text: row.text, go: () => selectRow(index) })),
    ];
    const fits = number
      ? (one) => String(one.number).startsWith(number[2]) && (!number[1] || one.sort === number[1][0])
      : (one) => one.what.startsWith(query) || one.text.toLowerCase().includes(query);
    return all.filter(fits).sort((one, other) => (number ? one.number - other.number : 0)).slice(0, MOST);
  }

  function search() {
    const found = find("found");
    const query = find("query").value;
    const items = results(query).map((one) => made("li", {}, made("button", {
      type: "button",
      onclick: () => {
        closeSearch();
        one.go();
      },
    }, made("span", { className: "what", textContent: one.what }), made("span", { className: "formula", textContent: one.text }))));
    found.replaceChildren(...(items.length ? items : [made("li", { className: "none", textContent: "Nothing has that." })]));
    found.hidden = !query.trim();
  }

  function closeSearch() {
    find("query").value = "";
    find("found").hidden = true;
  }

  function listenToSearch() {
    find("query").addEventListener("input", search);
    find("search").addEventListener("keydown", (event) => {
      const items = [...find("found").querySelectorAll("button")];
      const now = items.indexOf(document.activeElement);
      if (event.key === "Escape") {
        closeSearch();
        if (svg && selected !== null) nodes[selected].focus({ preventScroll: true });
        else find("query").blur();
      } else if (event.key === "Enter" && now < 0 && items.length) items[0].click();
      else if (event.key === "ArrowDown" && now + 1 < items.length) items[now + 1].focus();
      else if (event.key === "ArrowUp" && now >= 0) (items[now - 1] ?? find("query")).focus();
      else return;
      event.preventDefault();
    });
  }

  // ---- keys

  // The child of the same parent before or after a node; if there is none, the next node on the same level.
  function beside(number, way) {
    const node = record.nodes[number];
    const siblings = node.parent === null ? [] : children[node.parent];
    const sibling = siblings[siblings.indexOf(number) + way];
    const level = record.nodes.filter((other) => other.y === node.y && (other.x - node.x) * way > 0);
    return sibling ?? level.sort((one, other) => (one.x - other.x) * way)[0]?.number;
  }

  const KEYS = {
    ArrowUp: (node) => select(node.parent ?? node.number),
    ArrowDown: (node) => select(children[node.number][0] ?? node.number),
    ArrowLeft: (node) => select(beside(node.number, -1) ?? node.number),
    ArrowRight: (node) => select(beside(node.number, 1) ?? node.number),
    Enter: (node) => onNode(node.number) || (node.class === 8 && record.nodes[node.to] ? select(node.to, true) : bring(node, true)),
  };

  function listenToKeys() {
    document.addEventListener("keydown", (event) => {
      const inField = event.target.closest("input, #panel, #tools");
      if (event.ctrlKey || event.metaKey || event.altKey || !svg) return;
      if (event.target.closest("input")) return;
      if (event.key === "/") find("query").focus();
      else if (event.key === "+" || event.key === "=") zoom(1.25);
      else if (event.key === "-") zoom(0.8);
      else if (event.key === "0") fit();
      else if (KEYS[event.key] && !inField) selected === null ? select(record.refused?.node ?? 0) : KEYS[event.key](record.nodes[selected]);
      else return;
      event.preventDefault();
    });
  }

  // ---- rules

  function listenToRules() {
    for (const button of document.querySelectorAll(".rule")) {
      button.addEventListener("click", () => {
        const pressed = button.getAttribute("aria-pressed") !== "true";
        for (const other of document.querySelectorAll(".rule")) other.setAttribute("aria-pressed", String(pressed && other === button));
        svg.classList.toggle("filtered", pressed);
        for (const [number, element] of nodes.entries()) {
          element.classList.toggle("lit", pressed && String(record.nodes[number].class) === button.dataset.rule);
        }
      });
    }
  }

  // ---- all of it

  // With a node to stay at, that node keeps its place where the reader has moved the drawing, and what is selected stays so.
  function show(given, stayAt = null) {
    const before = stayAt !== null && svg && record.nodes.length ? { ...standing(stayAt), selected, isWhole } : null;
    const focused = document.activeElement?.closest?.("#tableau .node")?.dataset.node;
    record = given;
    selected = null;
    children = record.nodes.map(() => []);
    for (const node of record.nodes) if (node.parent !== null) children[node.parent].push(node.number);
    find("selected").replaceChildren(...(record.nodes.length ? aboutNothing() : []));
    const old = find("tableau") ?? document.querySelector("#drawing > .empty");
    find("tools").hidden = !record.nodes.length;
    if (!record.nodes.length && svg) {
      old.replaceWith(made("p", { className: "empty", textContent: "There is no node to draw." }));
      svg = null;
    } else if (record.nodes.length) {
      draw();
      svg.style.setProperty("--box-width", `${record.box[0]}px`);
      svg.style.setProperty("--box-height", `${record.box[1]}px`);
      old.replaceWith(svg);
      nodes[0].setAttribute("tabindex", "0");
      listenToMoves();
      if (before && !before.isWhole) stay(stayAt, before);
      else fit();
    }
    const schema = find("schema");
    if (schema) schema.replaceChildren(formula(schema.textContent));
    if (stayAt !== null) {
      if (before && record.nodes[before.selected]) mark(before.selected);
      if (focused !== undefined && nodes[focused] && svg) nodes[focused].focus({ preventScroll: true });
      return;
    }
    const { node, row } = record.refused ?? {};
    if (node !== undefined) {
      select(node, fitted() < 0.6);
      nodes[node].blur();
    } else if (row !== undefined) selectRow(row);
  }

  if (find("record")) show(JSON.parse(find("record").textContent));
  listenToSearch();
  listenToKeys();
  listenToRules();
  find("in").addEventListener("click", () => zoom(1.25));
  find("out").addEventListener("click", () => zoom(0.8));
  find("fit").addEventListener("click", fit);
  window.addEventListener("resize", () => svg && move());
  return { show, select, bring: (number) => bring(record.nodes[number], fitted() * at.scale < 0.6), listen: (listener) => (onNode = listener), find, made, drawn, formula };
})();
