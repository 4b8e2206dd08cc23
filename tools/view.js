// Steps, search and the whole entry, on the page that tools/view makes. All that comes from logs
// is set as text, never as markup.

const run = JSON.parse(document.getElementById("run").textContent);
const [PUT, GOT, ADOPTED] = [0, 1, 2];
const WORDS = ["put", "got", "adopted", "closed"];
const HEAD = ["End", "accepted", "got", "left", "closed by"];
const CHOOSE = "Choose an entry: point at it, tap it, or go to it with the arrow keys.";
const entries = run.entries.map(
  ([word, lane, end, at, line, name, ports, body, partners]) =>
    ({ word, lane, end, at, line, name, ports, body, partners: partners ?? [] }),
);
const byId = (id) => document.getElementById(id);
const [scroller, list, panel] = ["scroller", "entries", "panel"].map(byId);

let chosen = -1;
let shown = -1;
let matches = [];
let addressTimer = 0;
// The finding to which the button led last.
let finding = -1;

const rowOf = (at) => byId(String(at + 1));
const endName = (number) => run.ends[number];

// The whole entry

/** A JSON text with a line for each part. Numbers stay as they are, however great. */
function indented(text) {
  const parts = text.match(/"(?:[^"\\]|\\.)*"|[[\]{},:]|[^"[\]{},:]+/g) ?? [];
  let depth = 0;
  return parts.map((part, at) => {
    const isEmpty = "]}".includes(parts[at + 1]) && "[{".includes(part);
    const line = (by) => `\n${"  ".repeat(Math.min(depth += by, 40))}`;
    if (part === "{" || part === "[") return isEmpty ? (depth += 1, part) : part + line(1);
    if (part === "}" || part === "]") {
      return "[{".includes(parts[at - 1]) ? (depth -= 1, part) : line(-1) + part;
    }
    if (part === ",") return part + line(0);
    return part === ":" ? ": " : part;
  }).join("");
}

/** What was put at an end and not got yet, once the entries up to this one have happened. */
function waitingAt(end, at) {
  const names = new Map();
  for (const entry of entries.slice(0, at + 1)) {
    if (entry.end !== end) continue;
    const name = `${entry.line} ${entry.name}`;
    if (entry.word === PUT) names.set(name, entry.name);
    if (entry.word === GOT) names.delete(name);
  }
  const found = [...names.values()];
  const more = found.length > 8 ? ` and ${found.length - 8} more` : "";
  return found.length === 0 ? "nothing" : found.slice(0, 8).join(", ") + more;
}

function element(name, text, style) {
  const made = document.createElement(name);
  made.textContent = text;
  if (style) made.className = style;
  return made;
}

function listOf(pairs) {
  const made = document.createElement("dl");
  for (const [title, value] of pairs) {
    const text = element("dd", "");
    text.append(value);
    made.append(element("dt", title), text);
  }
  return made;
}

/** Where an entry stands in the input. */
function placeOf(entry) {
  const [which, line] = Array.isArray(entry.at) ? entry.at : [0, entry.at];
  return run.files.length > 1 ? `${run.files[which]}:${line}` : line;
}

function partnerButton(at) {
  const other = entries[at];
  const button = element("button", `${run.agents[other.lane]}: entry ${at + 1}`);
  button.type = "button";
  button.addEventListener("click", () => choose(at));
  return button;
}

function facts(at) {
  const entry = entries[at];
  const found = [
    ["Agent", run.agents[entry.lane]],
    ["End", endName(entry.end)],
  ];
  if (entry.word === ADOPTED) found.push(["Queue", entry.name]);
  if (entry.word <= GOT) {
    found.push(["Line", entry.line], ["Name", entry.name]);
    if (entry.ports?.length) found.push(["Ports", entry.ports.map(endName).join(", ")]);
    const title = entry.word === PUT ? "Got by" : "Put by";
    for (const partner of entry.partners) found.push([title, partnerButton(partner)]);
    if (entry.partners.length === 0) found.push([title, "nobody"]);
  }
  found.push(["Then waiting", waitingAt(entry.end, at)], ["Input line", placeOf(entry)]);
  return found;
}

/** What was found, and what each end accepted, got and left, where no entry is chosen. */
function summarise() {
  const parts = [element("h2", "Summary")];
  for (const finding of run.findings) {
    const button = element("button", finding.title, "wrong");
    button.type = "button";
    button.addEventListener("click", () => choose(finding.row));
    parts.push(button);
  }
  parts.push(table(HEAD, run.summary), element("p", CHOOSE));
  panel.replaceChildren(...parts);
}

function table(head, rows) {
  const made = document.createElement("table");
  const add = (name, cells) => {
    const row = document.createElement("tr");
    row.append(...cells.map((cell) => element(name, cell, Number.isInteger(cell) ? "number" : "")));
    made.append(row);
  };
  add("th", head);
  rows.forEach((cells) => add("td", cells));
  return made;
}

function show(at) {
  if (at === shown && at >= 0) return;
  shown = at;
  if (at < 0) {
    summarise();
    return;
  }
  const entry = entries[at];
  const parts = [element("h2", `Entry ${at + 1}: ${WORDS[entry.word]}`)];
  for (const finding of run.findings.filter((it) => it.row === at)) {
    parts.push(element("p", finding.title, "wrong"), listOf(
      finding.about.map(([title, row]) => [title, partnerButton(row)]),
    ));
    if (finding.around.length > 0) parts.push(element("pre", finding.around.join("\n"), "around"));
    parts.push(...finding.way.map((line) => element("p", line, "way")));
  }
  parts.push(listOf(facts(at)));
  if (entry.word <= GOT) {
    const body = entry.body === null ? "notice: the port at the other side was closed"
      : indented(run.bodies[entry.body]);
    parts.push(element("pre", body));
  }
  panel.replaceChildren(...parts);
}

// Steps

function reveal(at) {
  const head = scroller.querySelector(".heads").offsetHeight;
  const [top, room] = [at * run.row, scroller.clientHeight - head];
  const above = top - scroller.scrollTop;
  if (above < 0 || above > room - run.row) {
    const isNear = above > -2 * run.row && above < room + run.row;
    const share = isNear ? (above < 0 ? 0 : room - run.row) : room / 3;
    scroller.scrollTop = top - share;
  }
}

function arrowsOf(at) {
  const entry = entries[at];
  const gots = entry.word === GOT ? [at] : entry.word === PUT ? entry.partners : [];
  return gots.map((got) => byId(`d${got + 1}`));
}

function mark(at, isMarked) {
  if (at < 0) return;
  const row = rowOf(at);
  if (isMarked) row.setAttribute("aria-selected", "true");
  else row.removeAttribute("aria-selected");
  for (const other of entries[at].partners) rowOf(other).classList.toggle("partner", isMarked);
  for (const arrow of arrowsOf(at)) arrow.classList.toggle("now", isMarked);
}

/** Browsers refuse pages that change their address too often. */
function setAddress() {
  clearTimeout(addressTimer);
  addressTimer = setTimeout(() => history.replaceState(null, "", `#${chosen + 1}`), 400);
}

function choose(at) {
  if (entries.length === 0) return;
  mark(chosen, false);
  chosen = Math.max(0, Math.min(at, entries.length - 1));
  mark(chosen, true);
  list.setAttribute("aria-activedescendant", String(chosen + 1));
  byId("position").textContent = `entry ${chosen + 1} of ${entries.length}`;
  byId("back").disabled = chosen === 0;
  byId("forward").disabled = chosen === entries.length - 1;
  show(chosen);
  showFound();
  reveal(chosen);
  setAddress();
}

/** Goes back to the summary. */
function leave() {
  mark(chosen, false);
  chosen = -1;
  list.removeAttribute("aria-activedescendant");
  byId("position").textContent = `${entries.length} entries`;
  byId("back").disabled = true;
  byId("forward").disabled = entries.length === 0;
  show(chosen);
  showFound();
}

function nextFinding() {
  finding = (finding + 1) % run.findings.length;
  choose(run.findings[finding].row);
}

const page = () => Math.max(1, Math.floor(scroller.clientHeight / run.row) - 3);
const KEYS = {
  ArrowDown: () => choose(chosen + 1),
  ArrowRight: () => choose(chosen + 1),
  ArrowUp: () => choose(chosen - 1),
  ArrowLeft: () => choose(chosen - 1),
  PageDown: () => choose(chosen + page()),
  PageUp: () => choose(chosen - page()),
  Home: () => choose(0),
  End: () => choose(entries.length - 1),
  Enter: () => choose(entries[chosen]?.partners[0] ?? chosen),
  Escape: leave,
};

list.addEventListener("keydown", (event) => {
  const action = KEYS[event.key];
  if (!action || event.ctrlKey || event.altKey || event.metaKey) return;
  event.preventDefault();
  action();
});
list.addEventListener("focus", () => {
  if (chosen < 0 && list.matches(":focus-visible")) choose(0);
});
byId("back").addEventListener("click", () => choose(chosen - 1));
byId("forward").addEventListener("click", () => choose(chosen + 1));
byId("to-finding").addEventListener("click", () => {
  nextFinding();
  list.focus();
});

// Pointing

function pointedAt(target) {
  const found = target.closest(".entry, .delivery");
  return found ? Number(found.id.replace("d", "")) - 1 : -1;
}

scroller.addEventListener("pointerover", (event) => {
  const at = pointedAt(event.target);
  if (event.pointerType !== "touch" && at >= 0) show(at);
});
scroller.addEventListener("pointerleave", () => show(chosen));
scroller.addEventListener("click", (event) => {
  const at = pointedAt(event.target);
  if (at >= 0) choose(at);
});

// Search

/** Whether a name holds the text. A number at its end is a whole one: `end 1` isn't `end 10`. */
function nameHolds(name, text) {
  for (let at = name.indexOf(text); at >= 0; at = name.indexOf(text, at + 1)) {
    const next = name[at + text.length] ?? "";
    if (!(/\d$/.test(text) && /\d/.test(next))) return true;
  }
  return false;
}

function matchesOf(text, where) {
  const ends = new Set(
    Object.keys(run.ends).filter((end) => nameHolds(run.ends[end].toLowerCase(), text)),
  );
  const bodies = run.bodies.map((body) => body.toLowerCase().includes(text));
  return [...entries.keys()].filter((at) => {
    const { end, body } = entries[at];
    const isAtEnd = where !== "body" && ends.has(String(end));
    return isAtEnd || (where !== "end" && (bodies[body] ?? false));
  });
}

function showFound() {
  const place = matches.indexOf(chosen);
  const text = place < 0 ? `${matches.length} found` : `${place + 1} of ${matches.length}`;
  byId("found").textContent = byId("wanted").value === "" ? "" : text;
  for (const id of ["earlier", "later"]) byId(id).disabled = matches.length === 0;
}

function search() {
  for (const at of matches) rowOf(at).classList.remove("match");
  const text = byId("wanted").value.toLowerCase();
  matches = text === "" ? [] : matchesOf(text, byId("where").value);
  for (const at of matches) rowOf(at).classList.add("match");
  if (matches.length > 0) choose(matches.find((at) => at >= chosen) ?? matches[0]);
  showFound();
}

function nextMatch(by) {
  if (matches.length === 0) return;
  const later = matches.findIndex((at) => at > chosen);
  const earlier = matches.findLastIndex((at) => at < chosen);
  const [place, other] = by > 0 ? [later, 0] : [earlier, matches.length - 1];
  choose(matches[place < 0 ? other : place]);
}

byId("wanted").addEventListener("input", search);
byId("where").addEventListener("change", search);
byId("wanted").addEventListener("keydown", (event) => {
  if (event.key === "Enter") nextMatch(event.shiftKey ? -1 : 1);
});
byId("earlier").addEventListener("click", () => nextMatch(-1));
byId("later").addEventListener("click", () => nextMatch(1));

// The beginning

function chooseAddress() {
  const number = /^#(\d+)$/.exec(location.hash)?.[1];
  if (number) choose(Number(number) - 1);
  return Boolean(number);
}

addEventListener("hashchange", chooseAddress);
showFound();
summarise();
byId("back").disabled = true;
byId("forward").disabled = entries.length === 0;
const count = run.findings.length;
byId("to-finding").textContent = count > 1 ? `Next of ${count} findings` : "To the finding";
if (!chooseAddress() && count > 0) nextFinding();
