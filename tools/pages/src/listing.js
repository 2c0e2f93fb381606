"use strict";
// The page of a catalogue: its lines from its data, as many as are looked at, sorted and filtered. All of them are set as text.
(() => {
  const STEP = 200; // lines that are made at a time
  const [NAME, VERDICT, NODES, LINKS, ANSWER, WHY, PLACE, PAGE] = [0, 1, 2, 3, 4, 5, 6, 7];
  const find = (id) => document.getElementById(id);
  const data = (id) => JSON.parse(find(id).textContent);
  const rows = data("rows");
  const pages = data("pages");
  const chosen = { column: null, way: 1, answer: null, query: "" };
  let listed = rows; // those that are chosen, in their order
  let made = 0; // lines that are there

  function cell(className, ...inner) {
    const element = document.createElement("td");
    element.className = className;
    element.append(...inner);
    return element;
  }

  function worded(name, className, text) {
    const element = document.createElement(name);
    element.className = className;
    element.textContent = text;
    return element;
  }

  function nameOf(row) {
    if (!pages || !row[PAGE]) return row[NAME];
    const link = worded("a", "", row[NAME]);
    link.href = `${pages}/${encodeURIComponent(row[PAGE])}`;
    return link;
  }

  function verdictOf(row) {
    const sort = /(accepted|refused)$/.exec(row[VERDICT]);
    return worded("span", `verdict ${sort ? sort[1] : "other"}`, row[VERDICT]);
  }

  function line(row) {
    const element = document.createElement("tr");
    const why = row[PLACE] ? [row[WHY], worded("span", "line", row[PLACE])] : [row[WHY]];
    const number = (at) => cell("number", row[at] === null ? "" : String(row[at]));
    element.append(cell("", nameOf(row)), cell("", verdictOf(row)), number(NODES), number(LINKS), number(ANSWER), cell("", ...why));
    return element;
  }

  function more() {
    find("lines").append(...listed.slice(made, made + STEP).map(line));
    made = Math.min(listed.length, made + STEP);
  }

  function list() {
    const words = chosen.query.toLowerCase().split(/\s+/).filter(Boolean);
    const fits = (row) => {
      if (chosen.answer !== null && row[ANSWER] !== chosen.answer) return false;
      if (!words.length) return true;
      const text = `${row[NAME]} ${row[VERDICT]} ${row[WHY]} ${row[PLACE]}`.toLowerCase();
      return words.every((word) => text.includes(word));
    };
    listed = rows.filter(fits);
    if (chosen.column !== null) listed.sort(order(chosen.column, chosen.way));
    find("lines").replaceChildren();
    made = 0;
    more();
    find("shown").textContent = listed.length === rows.length ? `${rows.length} in all` : `${listed.length} of ${rows.length}`;
  }

  // Numbers by size, words as people order them; what is not there comes last either way.
  function order(column, way) {
    const words = new Intl.Collator("en", { numeric: true });
    return (one, other) => {
      const [a, b] = [one[column], other[column]];
      if (a === null || b === null) return (a === null) - (b === null);
      return way * (typeof a === "number" ? a - b : words.compare(a, b));
    };
  }

  function sortBy(button) {
    const column = Number(button.dataset.column);
    chosen.way = chosen.column === column ? -chosen.way : 1;
    chosen.column = column;
    for (const head of document.querySelectorAll("#records th")) head.setAttribute("aria-sort", "none");
    button.parentElement.setAttribute("aria-sort", chosen.way > 0 ? "ascending" : "descending");
    list();
  }

  function chooseRefusal(button) {
    const answer = Number(button.dataset.answer);
    chosen.answer = chosen.answer === answer ? null : answer;
    for (const other of document.querySelectorAll(".refusal")) {
      other.setAttribute("aria-pressed", String(chosen.answer !== null && other === button));
    }
    list();
  }

  for (const button of document.querySelectorAll("#records th button")) button.addEventListener("click", () => sortBy(button));
  for (const button of document.querySelectorAll(".refusal")) button.addEventListener("click", () => chooseRefusal(button));
  let waiting = 0;
  find("filter").addEventListener("input", () => {
    clearTimeout(waiting);
    waiting = setTimeout(() => {
      chosen.query = find("filter").value;
      list();
    }, rows.length > 5000 ? 120 : 0);
  });
  document.addEventListener("keydown", (event) => {
    if (event.key !== "/" || event.ctrlKey || event.metaKey || event.altKey || event.target.closest("input")) return;
    find("filter").focus();
    event.preventDefault();
  });
  new IntersectionObserver((seen) => {
    if (seen.some((one) => one.isIntersecting) && made < listed.length) more();
  }, { rootMargin: "800px" }).observe(find("more"));
  find("filter").hidden = false;
  list();
})();
