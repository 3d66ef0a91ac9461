/* The events in order, with a lane for each process, and the details of one of them. */
const ROW = 28;
const HEAD = 34;
const MOST_ROWS = 5000;
const MOST_LINKS = 12;
const list = document.getElementById("list");
const shown = events.slice(0, MOST_ROWS);
const lanes = new Map();
for (const [, , processes] of data.groups) for (const process of processes) lanes.set(process, lanes.size + 1);
const laneWidth = lanes.size > 40 ? 8 : lanes.size > 24 ? 11 : lanes.size > 12 ? 16 : 24;
const laneX = (event) => 18 + laneWidth * (event.p === undefined ? 0 : lanes.get(event.p) || 0);
const rowY = (number) => HEAD + ROW * number + ROW / 2;
let picked = null;

/* The shape of an event: what it does with bytes can be seen without a colour. */
function shapeOf(role, x, y) {
  if (role === "input") return make("rect", { class: "shape full", x: x - 5, y: y - 5, width: 10, height: 10 });
  if (role === "output") {
    return make("polygon", { class: "shape full", points: `${x - 5},${y - 6} ${x + 7},${y} ${x - 5},${y + 6}` });
  }
  if (role === "received") return make("circle", { class: "shape full", cx: x, cy: y, r: 4.5 });
  if (role === "given") return make("circle", { class: "shape", cx: x, cy: y, r: 4.5 });
  return make("line", { class: "shape", x1: x - 4, y1: y, x2: x + 4, y2: y });
}

const SHAPES = {
  input: "came from outside",
  received: "a process received bytes",
  given: "it gave bytes that a process may receive",
  output: "it wrote to the console or a file",
  other: "no bytes",
};

/* Where the lane of each process begins and ends: rows. */
function livesOf() {
  const lives = new Map();
  shown.forEach((event, number) => {
    if (event.w === "boot") lives.set(1, [number, shown.length - 1]);
    if (event.child) lives.set(event.child, [number, shown.length - 1]);
    if (event.p !== undefined && ["exit", "end"].includes(event.w) && lives.has(event.p)) lives.get(event.p)[1] = number;
  });
  return lives;
}

function drawLanes() {
  const width = 34 + laneWidth * (lanes.size + 1);
  const svg = make("svg", { width, height: HEAD + ROW * shown.length, "aria-hidden": "true" });
  for (const [process, [from, end]] of livesOf()) {
    const x = laneX({ p: process });
    svg.append(make("line", { class: "alive", x1: x, y1: rowY(from), x2: x, y2: rowY(end) }));
  }
  shown.forEach((event, number) => {
    if (event.child && lanes.has(event.child)) {
      const [x1, x2, y] = [laneX(event), laneX({ p: event.child }), rowY(number)];
      svg.append(make("path", { class: "fork", d: `M${x1},${y} L${x2},${y}` }));
    }
  });
  svg.append(make("g", { id: "links" }));
  shown.forEach((event, number) => svg.append(shapeOf(event.x, laneX(event), rowY(number))));
  return svg;
}

/* The bytes of an event in one line, as text. */
function preview(number) {
  const event = events[number];
  return event.n && event.b ? textOf(number, 0, event.n, 28) : "";
}

function rowOf(number, columns) {
  const event = events[number];
  const row = make("div", { class: "row", role: "option", id: `row-${number}`, "aria-selected": "false" });
  row.style.gridTemplateColumns = columns;
  row.append(
    make("span"),
    make("span", { class: "number" }, String(number)),
    make("span", { class: "number" }, event.m.toLocaleString("en")),
    make("span", {}, event.p === undefined ? "outside" : `process ${event.p}`),
    make("span", { title: event.a }, make("span", { class: "what" }, whatOf(event)), event.a ? ` ${event.a}` : ""),
    make("span", { class: event.r.startsWith("error") ? "failed" : "" }, event.r),
    make("code", {}, preview(number)),
  );
  row.addEventListener("click", () => pick(number));
  return row;
}

/* The titles of the columns, and the number of each lane's process. */
function headOf(columns) {
  const head = make("div", { class: "row head", role: "presentation" });
  head.style.gridTemplateColumns = columns;
  const processes = [...lanes.keys()].filter((process, index) => laneWidth >= 16 || index % 4 === 0);
  head.append(make("span", { class: "lanes" }, ...processes.map((process) => {
    return make("i", { style: `left: ${laneX({ p: process })}px` }, String(process));
  })));
  for (const title of ["event", "moment"]) head.append(make("span", { class: "number" }, title));
  for (const title of ["process", "what", "result", "bytes"]) head.append(make("span", {}, title));
  return head;
}

function drawTimeline() {
  const width = 34 + laneWidth * (lanes.size + 1);
  const columns = `${width}px 44px 76px 78px minmax(170px, 1.5fr) minmax(110px, 1fr) minmax(100px, 1.2fr)`;
  const rows = make("div", { id: "rows", role: "listbox", tabindex: "0", "aria-label": "Events" });
  rows.style.minWidth = `${width + 690}px`;
  rows.append(headOf(columns), ...shown.map((event, number) => rowOf(number, columns)), drawLanes());
  rows.addEventListener("keydown", moveBy);
  list.append(rows);
  if (events.length > shown.length) {
    list.append(make("p", { class: "note" }, `${plural(events.length - shown.length, "more event")} not listed.`));
  }
  const legend = document.getElementById("shapes");
  for (const [role, text] of Object.entries(SHAPES)) {
    legend.append(make("span", {}, make("svg", { width: 16, height: 16 }, shapeOf(role, 7, 8)), text));
  }
}

/* Picks another event by a key. */
function moveBy(event) {
  const moves = { ArrowDown: 1, ArrowUp: -1, PageDown: 20, PageUp: -20, Home: -Infinity, End: Infinity };
  if (!(event.key in moves) || !shown.length) return;
  event.preventDefault();
  pick(Math.max(0, Math.min(shown.length - 1, (picked || 0) + moves[event.key])));
}

/* Which later events received bytes of each event. */
const receivers = new Map();
events.forEach((event, number) => {
  for (const [origin] of event.o || []) {
    if (!receivers.has(origin)) receivers.set(origin, new Set());
    receivers.get(origin).add(number);
  }
});

const linkTo = (number) => make("a", { href: `#event-${number}` }, `event ${number}`);
const listed = (items) => items.flatMap((item, index) => (index ? [", ", item] : [item]));

/* Bytes as a dump: places, hex and text. */
function dumpOf(number) {
  const event = events[number];
  const lines = [];
  for (let from = 0, isGap = false; from < event.n; from += 8) {
    const bytes = Array.from({ length: Math.min(8, event.n - from) }, (_, index) => byteAt(number, from + index));
    const isHere = bytes.some((byte) => byte !== null);
    const numbers = bytes.map((byte) => (byte === null ? "  " : hex(byte))).join(" ");
    const text = bytes.map((byte) => (byte === null ? " " : isPlain(byte) ? String.fromCharCode(byte) : "\u00b7")).join("");
    if (isHere) lines.push(`${String(from).padStart(6)}  ${numbers.padEnd(23)}  ${text}`);
    else if (!isGap) lines.push("     \u2026  not in this page");
    isGap = !isHere;
  }
  return lines.join("\n");
}

/* A paragraph of links: the first of them, and how many more there are. */
function linksOf(title, items) {
  const more = items.length > MOST_LINKS ? ` and ${items.length - MOST_LINKS} more` : "";
  return items.length ? [make("p", {}, title, ...listed(items.slice(0, MOST_LINKS)), `${more}.`)] : [];
}

/* What is known of an event. */
function factsOf(event) {
  return [
    ["moment", event.m.toLocaleString("en")],
    ["process", event.p === undefined ? "none: it came from outside" : `${event.p}, of group ${event.g}`],
    ["what", `${whatOf(event)}${event.a ? " " + event.a : ""}`],
    ["result", event.r],
    ["called at", event.c],
    ["bytes", event.n.toLocaleString("en")],
  ].filter(([, text]) => text);
}

function drawDetail(number) {
  const event = events[number];
  const facts = factsOf(event).flatMap(([name, text]) => [make("dt", {}, name), make("dd", {}, text)]);
  const origins = (event.o || []).map(([origin, at, length]) => make("span", {}, `${span(at, at + length)} of `, linkTo(origin)));
  const detail = document.getElementById("detail");
  detail.replaceChildren(make("h3", {}, `Event ${number}: ${whatOf(event)}`), make("dl", {}, ...facts));
  if (event.n) detail.append(make("pre", {}, event.b ? dumpOf(number) : "not in this page"));
  detail.append(...linksOf("Received: ", origins), ...linksOf("Received by ", [...(receivers.get(number) || [])].map(linkTo)));
  if (document.getElementById(`card-${number}`)) {
    const text = event.x === "input" ? "What its bytes reached" : "The sources of its bytes";
    detail.append(make("p", {}, make("a", { href: `#${number}` }, text)));
  }
}

/* Arcs from the events whose bytes it received, and to those that received its own. */
function drawLinks(number) {
  const origins = new Set((events[number].o || []).map(([origin]) => origin));
  const pairs = [...origins].map((origin) => [origin, number]);
  for (const later of receivers.get(number) || []) pairs.push([number, later]);
  const seen = pairs.filter(([, to]) => to < shown.length);
  document.getElementById("links").replaceChildren(...seen.map(([from, to]) => {
    const [x1, y1, x2, y2] = [laneX(events[from]), rowY(from), laneX(events[to]), rowY(to)];
    const bend = Math.max(x1, x2) + Math.min(40, 10 + (to - from) * 2);
    return make("path", { class: "link", d: `M${x1},${y1} C${bend},${y1} ${bend},${y2} ${x2},${y2}` });
  }));
}

/* Picks an event of the list, and scrolls the list to it. */
function pick(number) {
  if (picked !== null) document.getElementById(`row-${picked}`)?.setAttribute("aria-selected", "false");
  picked = number;
  const row = document.getElementById(`row-${number}`);
  row?.setAttribute("aria-selected", "true");
  document.getElementById("rows").setAttribute("aria-activedescendant", `row-${number}`);
  if (row) {
    const place = rowY(number) - list.scrollTop;
    if (place < HEAD + ROW || place > list.clientHeight - ROW) list.scrollTop += place - list.clientHeight / 2;
  }
  drawDetail(number);
  drawLinks(number);
}
