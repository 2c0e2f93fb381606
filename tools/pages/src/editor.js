// The editor's page. What a row comes to, which rules can apply and why not, counts, words and colours are all answers of the program:
// here they are shown, and rows are put together by clicks. Whatever comes from a record is set as text, never as markup.
const editor = (() => {
  const { find, made, drawn, formula } = zorambi;
  const LOOK = 1500; // milliseconds between two looks at what other pages did
  const MOST = 200; // choices of a field that are listed; its number can be written for any other
  let now = null; // how the tableau stands, as it was told last
  let known = -1; // its version
  let offers = null; // what can be done below the parent
  let row = null; // the row that is put together: up, rule, on, with, other, to, by, and its set
  let judged = null; // what the program says of it
  let asked = 0; // questions so far: only the last one's answer is shown
  let ended = false;
  let last = Promise.resolve(); // requests go one after another
  let working = 0; // what was begun and is not done

  // ---- the program

  async function request(what) {
    const answer = await fetch("do", {
      method: "POST",
      headers: { "Content-Type": "application/json" },
      body: JSON.stringify({ version: known, ...what() }),
    });
    const told = await answer.json();
    if (!answer.ok) throw new Error(told.words);
    if (told.state) known = told.state.version;
    return told;
  }

  // What is sent is put together when its turn comes, so that it has the version that the one before it led to.
  function send(what) {
    const answer = last.then(() => (ended ? Promise.reject(new Error("ended")) : request(what)));
    last = answer.catch(() => {});
    return answer.then((told) => {
      if (told.stale) say(told.words);
      return told;
    }, (error) => {
      if (!ended) stop(error instanceof TypeError ? "The program does not answer: it was ended, or it failed." : error.message);
      throw error;
    });
  }

  // Does something; what fails is told by then.
  async function attempt(work) {
    working += 1;
    await Promise.resolve(work()).catch(() => {});
    working -= 1;
  }

  function stop(words) {
    ended = true;
    say(`${words} Rows that were not saved are kept beside the record; 'zorambi edit' takes them up again.`);
    for (const control of document.querySelectorAll("#next input, #next button, #actions button")) control.disabled = true;
  }

  // ---- what is told

  function say(words, ...buttons) {
    find("said").replaceChildren(...(words ? [made("p", {}, words, ...buttons)] : []));
  }

  function button(text, action, properties = {}) {
    return made("button", { type: "button", textContent: text, onclick: action, ...properties });
  }

  function tellState() {
    find("name").textContent = now.name;
    document.title = `${now.name}: ${now.words}`;
    find("verdict").textContent = now.words;
    find("verdict").classList.toggle("accepted", now.closed);
    find("saved").textContent = now.unsaved ? "not saved" : "saved";
    find("saved").classList.toggle("unsaved", now.unsaved);
    [find("least").textContent, find("schema").textContent] = now.schema;
    find("back").disabled = ended || !now.nodes;
    find("notes").replaceChildren(...now.notes.map((note) => made("p", { textContent: note })));
  }

  // ---- the drawing

  function draw(told, stayAt) {
    zorambi.show(told.tableau, stayAt);
    for (const { node, words } of told.open) markOpen(node, words, told.tableau.box);
    if (told.asked !== null && told.asked !== undefined) {
      find(`n${told.asked}`)?.classList.add("asked", told.answer === 0 ? "good" : "refused");
    }
    if (row && row.up >= 0) find(`n${row.up}`)?.classList.add("parent");
  }

  // A leaf that wants children has a sign below it.
  function markOpen(number, words, [width, height]) {
    const node = find(`n${number}`);
    if (!node) return;
    node.classList.add("open");
    node.setAttribute("aria-label", `${node.getAttribute("aria-label")}, ${words}`);
    node.append(drawn("circle", { class: "more", cx: width - 16, cy: height, r: 9 }), drawn("text", { class: "more", x: width - 16, y: height + 4.5 }, "+"));
  }

  // ---- how it stands

  // Takes what was told of the whole tableau, and goes on at the same leaf if it is still open, else at the next one.
  async function take(state, { up = row?.up, keep = false } = {}) {
    const before = row;
    now = state;
    tellState();
    const isOpen = (node) => now.open.some((open) => open.node === node);
    const next = isOpen(up) ? up : now.open.at(-1)?.node ?? (now.nodes ? null : -1);
    if (keep && before && next === before.up) {
      await below(next, before);
    } else await below(next);
  }

  async function below(up, chosen = null) {
    asked += 1;
    judged = null;
    row = up === null ? null : { up, rule: null, on: -1, with: -1, other: -1, to: -1, by: 0, set: new Set() };
    offers = null;
    if (row) {
      const told = await send(() => ({ do: "offers", up }));
      if (told.state) return take(told.state);
      offers = told.offers;
      row.set = new Set(offers.ticked);
      if (chosen) Object.assign(row, chosen);
    }
    draw(now, up ?? 0);
    if (up >= 0 && row) zorambi.bring(up);
    fillForm();
    if (row && row.rule !== null) await ask();
  }

  // ---- the form

  const titleOf = (node) => now.tableau.nodes[node]?.title ?? `node ${node}`;
  const textOf = (number) => now.tableau.rows[number]?.text ?? "no such row";

  function fillForm() {
    const done = now.closed ? "The tableau is closed" : "No leaf is open";
    find("below").textContent = !row ? done : row.up < 0 ? "The first node" : `Below node ${row.up}`;
    find("gives").textContent = offers ? `${offers.gives}.` : now.unsaved ? "Save writes it to proof.txt; Back takes the last row back." : "Back takes the last row back.";
    for (const part of ["rules", "set", "written", "judged", "fields"]) find(part).hidden = !row;
    fillLeaves();
    if (!row) return;
    fillRules();
    fillFields();
    fillSet();
    fillAnswer();
  }

  function fillLeaves() {
    const others = now.open.filter((open) => open.node !== row?.up);
    const leaves = others.slice(0, 12).map(({ node, words }) =>
      button(`node ${node}`, () => attempt(() => below(node)), { className: "leaf", title: `${titleOf(node)}, ${words}` }));
    if (others.length > 12) leaves.push(made("span", { textContent: `and ${others.length - 12} more` }));
    find("leaves").replaceChildren(...(leaves.length ? ["or below ", ...leaves] : []));
  }

  function sign(rule, text) {
    return drawn("svg", { class: "tableau", viewBox: "0 0 26 26", "aria-hidden": "true" }, drawn("g", { class: `r${rule}` },
      drawn("rect", { class: "sign", width: 26, height: 26, rx: 5 }), drawn("text", { class: "glyph", x: 13, y: 18 }, text)));
  }

  function fillRules() {
    const rules = offers.rules.map((offer) => {
      const choice = made("input", { type: "radio", name: "rule", id: `rule${offer.rule}`, value: String(offer.rule), checked: row.rule === offer.rule });
      choice.addEventListener("change", () => attempt(() => chooseRule(offer)));
      const words = made("span", { className: "words" }, made("span", { className: "name", textContent: offer.name }));
      if (offer.whyNot) words.append(made("span", { className: "not", textContent: offer.whyNot }));
      return made("label", { className: offer.whyNot ? "choice cannot" : "choice can" }, choice, sign(offer.rule, offer.sign), words);
    });
    find("rules").replaceChildren(made("legend", { textContent: "Rule" }), ...rules);
  }

  function chooseRule(offer) {
    Object.assign(row, { rule: offer.rule, on: -1, with: -1, other: -1, to: -1, by: 0 });
    for (const { name, first } of offer.fields) row[name] = first;
    fillFields();
    find("fields").scrollIntoView({ block: "nearest" });
    return ask();
  }

  const fieldsNow = () => offers?.rules[row?.rule]?.fields ?? [];

  function fillFields() {
    find("fields").replaceChildren(...fieldsNow().map(field));
  }

  function field({ name, wants, choices }) {
    const number = made("input", { type: "number", id: name, value: String(row[name]), step: "1" });
    number.setAttribute("aria-label", name);
    number.addEventListener("input", () => {
      if (number.value.trim() !== "" && Number.isInteger(Number(number.value))) attempt(() => choose(name, Number(number.value), number));
    });
    const set = made("fieldset", { className: "field" },
      made("legend", {}, made("strong", { textContent: name }), `, ${wants}`), number);
    set.dataset.field = name;
    if (choices.length) set.append(made("div", { className: "choices" }, ...listedChoices(name, choices)));
    if (name === "to") set.append(made("p", { className: "hint", textContent: "or click a node of the drawing" }));
    return set;
  }

  // What is needed stands first, then what may be chosen.
  function listedChoices(name, choices) {
    const needed = (judged?.needed ?? []).filter((need) => need.field === name && need.there !== null).map((need) => need.there);
    const all = [...new Set([...needed, ...(name === "to" ? [...choices].reverse() : choices)])].slice(0, MOST);
    return all.map((value) => {
      const choice = made("input", { type: "radio", name: `${name}-choice`, value: String(value), checked: row[name] === value });
      choice.addEventListener("change", () => attempt(() => choose(name, value, choice)));
      const text = name === "to" ? [titleOf(value)] : [made("span", { className: "of", textContent: String(value) }), made("span", { className: "formula", textContent: textOf(value) })];
      return made("label", { className: "choice" }, choice, ...text);
    });
  }

  function choose(name, value, from = null) {
    row[name] = value;
    showChosen(name, from);
    return ask();
  }

  // The number and the list of a field show the same; what the reader is at is left alone.
  function showChosen(name, from = null) {
    const set = find("fields").querySelector(`[data-field="${name}"]`);
    if (!set) return;
    const number = set.querySelector("input[type=number]");
    if (number !== from) number.value = String(row[name]);
    for (const choice of set.querySelectorAll("input[type=radio]")) choice.checked = Number(choice.value) === row[name];
  }

  function fillSet() {
    const rows = [...new Set([...offers.set, ...offers.given])].sort((one, other) => one - other);
    const lines = rows.map((number) => {
      const tick = made("input", { type: "checkbox", name: "set", value: String(number), checked: row.set.has(number) });
      tick.addEventListener("change", () => {
        if (tick.checked) row.set.add(number);
        else row.set.delete(number);
        attempt(ask);
      });
      const from = offers.given.includes(number) ? made("span", { className: "role", textContent: "given" }) : "";
      return made("label", { className: "choice" }, tick, made("span", { className: "of", textContent: String(number) }),
        made("span", { className: "formula", textContent: textOf(number) }), from);
    });
    find("set").replaceChildren(made("legend", { textContent: "Set" }), ...lines);
    const rowsOfProof = now.tableau.rows.length - now.tableau.schemaRows;
    find("written").hidden = !rowsOfProof;
    find("unwrite").textContent = `Take formula row ${now.tableau.rows.length - 1} back`;
  }

  // ---- the row and what is said of it

  const numbersOf = ({ up, rule, on, with: partner, other, to, by }) => [up, rule, on, partner, other, to, by];
  const setOf = ({ set }) => [...set].sort((one, other) => one - other);

  // Asks about the row as it now is. What it needs and what is there is filled in where nothing was chosen.
  async function ask() {
    if (!row || row.rule === null) return fillAnswer();
    const mine = (asked += 1);
    const about = row;
    const told = await send(() => ({ do: "ask", row: numbersOf(about), set: setOf(about) }));
    if (told.state) return take(told.state, { keep: true });
    if (mine !== asked) return;
    judged = told.answer;
    const empty = judged.needed.filter((need) => need.field && need.there !== null && row[need.field] === -1);
    for (const need of empty) row[need.field] = need.there;
    if (empty.length) {
      empty.forEach((need) => showChosen(need.field));
      return ask();
    }
    refreshChoices();
    draw(judged, Math.max(row.up, 0));
    fillAnswer();
  }

  // Lists of what an unfolding needs change with what it works on.
  function refreshChoices() {
    for (const { name, choices } of fieldsNow()) {
      const list = find("fields").querySelector(`[data-field="${name}"] .choices`);
      if (list && (name === "with" || name === "other") && !list.contains(document.activeElement)) list.replaceChildren(...listedChoices(name, choices));
    }
  }

  function fillAnswer() {
    const isGood = judged !== null && judged.answer === 0;
    find("judged").className = judged === null ? "" : isGood ? "good" : "refused";
    find("line").textContent = row && row.rule !== null ? [...numbersOf(row), ...setOf(row)].join(" ") : "";
    find("answer").replaceChildren(...(judged === null ? [made("p", { className: "hint", textContent: "Choose a rule." })] : isGood ? yes() : no()));
    find("needed").replaceChildren(...(judged?.needed ?? []).filter((need) => need.rows.length).map(needed));
    find("add").disabled = ended || !isGood;
  }

  function yes() {
    return [made("p", { className: "first", textContent: `This row can be added: then ${judged.then.words}.` })];
  }

  function no() {
    const lines = [made("p", { className: "first", textContent: judged.words })];
    if (judged.why) lines.push(made("p", { textContent: judged.why }));
    if (judged.context?.length) lines.push(made("ul", {}, ...judged.context.map((line) => made("li", { textContent: line }))));
    if (judged.mend) lines.push(made("p", { className: "mend", textContent: `To mend: ${judged.mend}` }));
    return lines;
  }

  // A formula row that the step needs and that is not there.
  function needed(need) {
    const write = button(need.rows.length > 1 ? `Write ${need.rows.length} rows` : "Write the row", () => attempt(() => writeRows(need)), { className: "write" });
    return made("p", { className: "need" }, write, ` ${need.field ? `${need.field}: ` : ""}${need.what}, `, made("span", { className: "formula", textContent: need.text }));
  }

  // ---- what changes the tableau

  async function writeRows(need) {
    const told = await send(() => ({ do: "formula", rows: need.rows }));
    if (told.stale || !told.state) return changed(told);
    if (need.field && row) row[need.field] = told.state.tableau.rows.length - 1;
    say("");
    await take(told.state, { keep: true });
    (document.querySelector("#needed .write") ?? find("add")).focus();
  }

  async function add() {
    if (!row || row.rule === null || find("add").disabled) return;
    const about = row;
    const told = await send(() => ({ do: "add", row: numbersOf(about), set: setOf(about) }));
    const added = told.state ? told.state.nodes - 1 : -1;
    await changed(told, added);
    find("below").focus({ preventScroll: true });
  }

  async function changed(told, up = undefined) {
    if (!told.stale) say(told.answer && told.answer.answer !== 0 ? [told.answer.words, told.answer.why].filter(Boolean).join(": ") : "");
    if (told.state) await take(told.state, up === undefined ? {} : { up });
  }

  // It goes on where the row stood.
  async function back() {
    const up = now.tableau.nodes.at(-1)?.up;
    const told = await send(() => ({ do: "back" }));
    await changed(told, up);
  }

  // The last formula row goes if no row names it; that is the program's word.
  async function takeFormulaBack() {
    const told = await send(() => ({ do: "formula back" }));
    await changed(told);
  }

  async function save(over = false) {
    const told = await send(() => ({ do: "save", over }));
    if (told.changed) {
      say(`${told.words} `, button("Save over it", () => attempt(() => save(true))), button("Do not save", () => say("")));
      return;
    }
    if (!told.stale) say(told.saved ? "" : told.words);
    if (told.state) {
      now = told.state;
      tellState();
      if (told.stale) await take(told.state, { keep: true });
    }
  }

  async function end() {
    if (now.unsaved && !find("said").querySelector(".really")) {
      say("Rows are not saved. They are kept beside the record and taken up again next time. ", button("End", () => attempt(finish), { className: "really" }), button("Go on", () => say("")));
      find("said").querySelector(".really").focus();
      return;
    }
    await finish();
  }

  async function finish() {
    const told = await send(() => ({ do: "end" }));
    stop(told.words);
    find("said").replaceChildren(made("p", { textContent: told.words }));
  }

  // What another page did, and what another program did to the files, is seen a little later.
  async function look() {
    if (ended) return;
    const told = await send(() => ({ do: "look" }));
    if (told.state) await take(told.state, { keep: true });
  }

  // ---- keys

  function nextLeaf() {
    const leaves = now.open.map((open) => open.node);
    if (leaves.length) attempt(() => below(leaves[(leaves.indexOf(row?.up) + 1) % leaves.length]));
  }

  function toTableau() {
    if (now.nodes) zorambi.select(row && row.up >= 0 ? row.up : 0);
  }

  const KEYS = {
    n: nextLeaf,
    r: () => (document.querySelector("#rules input:checked") ?? document.querySelector("#rules .can input") ?? document.querySelector("#rules input"))?.focus(),
    a: () => attempt(add),
    b: () => find("back").disabled || attempt(back),
    s: () => attempt(save),
    t: toTableau,
  };

  // A node that is clicked is the target while one is wanted, else the parent if it is open.
  function chooseNode(number) {
    if (ended || number >= now.nodes) return false;
    if (fieldsNow().some(({ name }) => name === "to")) attempt(() => choose("to", number));
    else if (now.open.some((open) => open.node === number) && number !== row?.up) attempt(() => below(number));
    else return false;
    return true;
  }

  function listen() {
    zorambi.listen(chooseNode);
    find("next").addEventListener("submit", (event) => {
      event.preventDefault();
      attempt(add);
    });
    find("back").addEventListener("click", () => attempt(back));
    find("unwrite").addEventListener("click", () => attempt(takeFormulaBack));
    find("save").addEventListener("click", () => attempt(() => save()));
    find("end").addEventListener("click", () => attempt(end));
    document.addEventListener("keydown", (event) => {
      if (event.ctrlKey || event.metaKey || event.altKey || ended || !now) return;
      if (event.target.closest("input[type=number], input[type=search]") || !KEYS[event.key]) return;
      event.preventDefault();
      KEYS[event.key]();
    });
    setInterval(() => attempt(look), LOOK);
  }

  listen();
  attempt(look);
  // Whether all that was asked has been answered and shown.
  return { isIdle: () => now !== null && working === 0 };
})();
