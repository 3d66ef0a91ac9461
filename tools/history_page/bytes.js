/* The bytes of inputs and outputs as cells, what is chosen among them, and what is marked for it. */
const MOST_PER_LINE = 32;
const MOST_LINES = 16;
const MOST_STEPS = 300;
const cells = new Map();
const counts = new Map();
const inputColumn = document.getElementById("inputs");
const outputColumn = document.getElementById("outputs");
const isInput = (number) => events[number].x === "input";
let perLine = MOST_PER_LINE;
let chosen = null;
let isKept = false;

/* Which bytes of inputs are sources of an output of the page, by event. */
const live = new Map();
for (const number of data.outputs) {
  for (const [event, ranges] of sourcesOf(number, [[0, events[number].n]])) {
    live.set(event, joined((live.get(event) || []).concat(ranges)));
  }
}
const isIn = (ranges, place) => (ranges || []).some(([from, end]) => from <= place && place < end);

/* What an event is, in a few words. */
function titleOf(number) {
  const event = events[number];
  if (event.w === "type") return "typed";
  if (event.w === "file") return `file ${event.a}`;
  if (event.x === "output") return `process ${event.p} wrote to ${event.a.replace(/^\d+: /, "") || "a file"}`;
  return `process ${event.p}: ${event.w}${event.a ? " " + event.a : ""}`;
}

/* The cell of a byte. */
function cellOf(number, place, isPale) {
  const byte = byteAt(number, place);
  const kind = (isPale ? " pale" : "") + (isPlain(byte) ? "" : " dot");
  const cell = make("span", { class: `b${kind}`, role: "gridcell", tabindex: "-1" }, glyph(byte));
  cell.dataset.h = hex(byte);
  cell.dataset.byte = `${number}.${place}`;
  cell.setAttribute("aria-label", `byte ${place}, hex ${hex(byte)}${isPlain(byte) ? ", " + glyph(byte) : ""}`);
  cells.set(cell.dataset.byte, cell);
  return cell;
}

/* One line of cells, after the place of its first byte. */
function lineOf(number, from, end, has) {
  const line = make("div", { class: "line", role: "row" }, make("i", { "aria-hidden": "true" }, String(from)));
  for (let place = from; place < end; place++) {
    line.append(byteAt(number, place) === null ? make("span", { class: "b" }) : cellOf(number, place, !has(place)));
  }
  return line;
}

/* A line in the place of bytes that aren't shown. */
function gapOf(number, from, end, show) {
  const hidden = isInput(number) ? " that reached no output of this page" : " not shown";
  const gap = make("div", { class: "gap" }, plural(end - from, "byte") + (show ? hidden : " not in this page"));
  if (show) {
    const button = make("button", { type: "button" }, "show");
    button.addEventListener("click", show);
    gap.append(" ", button);
  }
  return gap;
}

/* The bytes of an output that have a source. */
function withSources(number) {
  return joined(runsOf(number).filter((run) => run[2].length).map(([first, count]) => [first, first + count]));
}

/* The lines of an event: those with a byte that counts, or the first ones, or all that this page has. */
function fillLines(grid, number, isAll) {
  const event = events[number];
  const ranges = isInput(number) ? live.get(number) : withSources(number);
  const has = (place) => isIn(ranges, place);
  const lines = Math.ceil(event.n / perLine);
  const isShown = (line) => isAll || (event.w === "file" ? false : line < MOST_LINES);
  const meets = (line, from, end) => from < (line + 1) * perLine && end > line * perLine;
  const isMarked = (line) => isInput(number) && (ranges || []).some(([from, end]) => meets(line, from, end));
  const isHere = (line) => pieces(number).some(([at, bytes]) => meets(line, at, at + bytes.length));
  let gap = null;
  const endGap = (line) => {
    const [from, end] = [gap * perLine, Math.min(event.n, line * perLine)];
    if (gap !== null) grid.append(gapOf(number, from, end, isAll ? null : () => fillAgain(grid, number)));
    gap = null;
  };
  grid.replaceChildren();
  for (let line = 0; line < lines; line++) {
    if (isHere(line) && (isShown(line) || isMarked(line))) {
      endGap(line);
      grid.append(lineOf(number, line * perLine, Math.min(event.n, (line + 1) * perLine), has));
    } else if (gap === null) gap = line;
  }
  endGap(lines);
  const first = grid.querySelector(".b[data-byte]:not(.pale)") || grid.querySelector(".b[data-byte]");
  if (first) first.tabIndex = 0;
}

function fillAgain(grid, number) {
  fillLines(grid, number, true);
  show();
}

/* A card with an event's bytes. */
function cardOf(number) {
  const event = events[number];
  const button = make("button", { type: "button" }, `Event ${number}`);
  const count = make("span", { class: "count" });
  const grid = make("div", { class: "bytes", role: "grid", "aria-label": `Bytes of event ${number}` });
  const head = make("h4", {}, button, `${titleOf(number)}, ${plural(event.n, "byte")}`, count);
  const card = make("div", { class: "card", id: `card-${number}` }, head, grid);
  counts.set(number, count);
  fillLines(grid, number, false);
  for (const kind of ["pointerenter", "focus"]) button.addEventListener(kind, () => isKept || choose(number, 0, event.n));
  button.addEventListener("pointerleave", () => isKept || letGo());
  button.addEventListener("click", () => keep(number, 0, event.n));
  return card;
}

/* Marks of the cells of some places. */
function mark(places, kind) {
  for (const [number, ranges] of places) {
    for (const [from, end] of ranges) {
      for (let place = from; place < end; place++) {
        const cell = cells.get(`${number}.${place}`);
        if (cell) cell.dataset.mark = kind;
      }
    }
    const size = sizeOf(ranges);
    const text = kind === "source" ? plural(size, "source byte") : `${plural(size, "byte")} reached`;
    if (counts.has(number) && kind !== "here") counts.get(number).textContent = text;
  }
}

/* What is related to some bytes: of an output its sources, of an input the bytes of outputs that it reached. */
function relatedTo(number, from, end) {
  if (!isInput(number)) return sourcesOf(number, [[from, end]]);
  const found = new Map();
  for (const output of data.outputs) {
    const ranges = carriersIn(output, new Map([[number, [[from, end]]]]));
    if (ranges.length) found.set(output, ranges);
  }
  return found;
}

const placeText = (number, [from, end]) => `${span(from, end)} of event ${number}`;

/* A sentence on what is chosen. */
function sentence(number, from, end, related) {
  const named = [...related].flatMap(([event, ranges]) => ranges.map((range) => placeText(event, range)));
  const some = named.slice(0, 4).join(", ") + (named.length > 4 ? `, and ${named.length - 4} more places` : "");
  const count = totalOf(related);
  const subject = `${span(from, end)} of event ${number} `.replace(/^b/, "B");
  const verb = isInput(number) ? "reached" : end - from === 1 ? "has" : "have";
  const many = isInput(number) ? `${plural(count, "byte")} of outputs` : plural(count, "source byte");
  const more = { copy: " What was computed from inputs has its sources under data and index.",
    data: " What was looked up in a table has its sources under index." }[data.linkage] || "";
  const none = isInput(number) ? "no output of this page." : `no source (linkage ${data.linkage}).${more}`;
  return [subject, make("code", {}, textOf(number, from, end, 24)), ` ${verb} `, count ? `${many}: ${some}.` : none];
}

/* The bytes of an event on the way; of a fork what it made. */
function stepText(number, ranges) {
  if (!ranges.length) return events[number].r;
  const [from, end] = ranges[0];
  const places = ranges.length === 1 ? span(from, end) : plural(sizeOf(ranges), "byte");
  return make("span", {}, `${places} `, make("code", {}, textOf(number, from, end, 12)));
}

/* An event on the way: an arrow leads to it where it has all from the one before it in the list. */
function stepOf([number, step], previous) {
  const event = events[number];
  const before = [...step.before].sort((a, b) => a - b);
  const isNext = before.length === 1 && before[0] === previous;
  const who = event.p === undefined ? "" : make("small", {}, `process ${event.p}`);
  const link = make("a", { href: `#event-${number}` }, make("b", {}, `${number} `), whatOf(event), " ", who);
  link.append(make("br"), stepText(number, step.ranges));
  link.dataset.step = [number, ...step.ranges.flat()].join(" ");
  if (!isNext && before.length) {
    link.append(make("small", {}, ` from ${before.slice(0, 3).join(", ")}${before.length > 3 ? " and others" : ""}`));
  }
  return make("li", { class: isNext ? "next" : "" }, link);
}

/* The way, as a list of events. */
function stepsOf(way) {
  const items = way.slice(0, MOST_STEPS).map((step, index) => stepOf(step, index ? way[index - 1][0] : null));
  return way.length > items.length ? [...items, make("li", {}, `and ${way.length - items.length} more events`)] : items;
}

/* Shows what is chosen: the marks, the sentence and the way. */
function show() {
  for (const cell of document.querySelectorAll("#bytes .columns [data-mark]")) delete cell.dataset.mark;
  for (const count of counts.values()) count.textContent = "";
  document.getElementById("let-go").hidden = !isKept;
  const said = document.getElementById("said");
  const steps = document.getElementById("steps");
  if (!chosen) {
    said.replaceChildren("Point at a byte of an output to see its sources, or at a byte of an input to see what it reached.");
    steps.replaceChildren();
    return;
  }
  const { number, from, end } = chosen;
  const related = relatedTo(number, from, end);
  mark(related, isInput(number) ? "reached" : "source");
  mark(new Map([[number, [[from, end]]]]), "here");
  said.replaceChildren(...sentence(number, from, end, related));
  const wanted = isInput(number) ? new Map([[number, [[from, end]]]]) : related;
  const ends = isInput(number) ? related : new Map([[number, [[from, end]]]]);
  steps.replaceChildren(...(data.ways && related.size ? stepsOf(wayTo(ends, wanted)) : []));
  reveal(related, isInput(number) ? outputColumn : inputColumn);
}

/* Scrolls a column to the first of some places, where none of them is seen. */
function reveal(places, column) {
  const firsts = [...places].flatMap(([number, ranges]) => ranges.map(([from]) => cells.get(`${number}.${from}`)));
  const boxes = firsts.filter(Boolean).map((cell) => cell.getBoundingClientRect());
  const frame = column.getBoundingClientRect();
  const isSeen = (box) => box.top >= frame.top && box.bottom <= frame.bottom;
  if (boxes.length && !boxes.some(isSeen)) column.scrollTop += boxes[0].top - frame.top - 60;
}

function choose(number, from, end, start = from) {
  chosen = { number, from, end, start };
  show();
}

function letGo() {
  if (isKept) history.replaceState(null, "", location.pathname + location.search);
  chosen = null;
  isKept = false;
  show();
}

/* Keeps what is chosen, and names it in the address. */
function keep(number, from, end) {
  isKept = true;
  choose(number, from, end);
  const event = events[number];
  const part = from === 0 && end === event.n ? "" : end - from === 1 ? `.${from}` : `.${from}-${end - 1}`;
  history.replaceState(null, "", `#${number}${part}`);
}

/* Which byte a cell shows: the event and the place. */
const placeOf = (cell) => cell.dataset.byte.split(".").map(Number);
const chooseCell = (cell, how) => how(...placeOf(cell), placeOf(cell)[1] + 1);
const cellAt = (target) => (target.closest ? target.closest(".columns .b[data-byte]") : null);

/* Chooses up to a cell, from where the choice began. */
function extend(cell) {
  const [number, place] = placeOf(cell);
  const isSame = chosen && chosen.number === number;
  const start = isSame ? chosen.start : place;
  isKept = true;
  choose(number, Math.min(start, place), Math.max(start, place) + 1, start);
}

function focusOn(cell) {
  for (const other of cell.closest(".bytes").querySelectorAll('.b[tabindex="0"]')) other.tabIndex = -1;
  cell.tabIndex = 0;
  cell.focus();
}

/* The cell to which a key leads. */
function cellBy(key, cell) {
  const [number, place] = placeOf(cell);
  const all = [...cell.closest(".bytes").querySelectorAll(".b[data-byte]")];
  const index = all.indexOf(cell);
  const moves = {
    ArrowLeft: all[index - 1],
    ArrowRight: all[index + 1],
    ArrowUp: cells.get(`${number}.${place - perLine}`),
    ArrowDown: cells.get(`${number}.${place + perLine}`),
    Home: all[0],
    End: all[all.length - 1],
  };
  return key in moves ? moves[key] || cell : null;
}

const columns = document.querySelector(".columns");
columns.addEventListener("pointerover", (event) => {
  const cell = cellAt(event.target);
  if (cell && !isKept) chooseCell(cell, choose);
});
columns.addEventListener("pointerleave", () => isKept || letGo());
columns.addEventListener("click", (event) => {
  const cell = cellAt(event.target);
  if (!cell) return;
  const isSame = isKept && cell.dataset.mark === "here" && chosen.end - chosen.from === 1;
  if (event.shiftKey) extend(cell);
  else if (isSame) letGo();
  else chooseCell(cell, keep);
});
columns.addEventListener("focusin", (event) => {
  const cell = cellAt(event.target);
  if (cell && !isKept) chooseCell(cell, choose);
});
columns.addEventListener("keydown", (event) => {
  const cell = cellAt(event.target);
  const next = cell && cellBy(event.key, cell);
  if (next) {
    event.preventDefault();
    if (!event.shiftKey) isKept = false;
    else extend(next);
    focusOn(next);
  } else if (cell && (event.key === "Enter" || event.key === " ")) {
    event.preventDefault();
    chooseCell(cell, keep);
  }
});
document.addEventListener("keydown", (event) => event.key === "Escape" && letGo());
document.getElementById("let-go").addEventListener("click", letGo);

/* Fills the columns, with as many bytes in a line as fit. */
function fillColumns() {
  const most = Math.floor((outputColumn.clientWidth - 70) / 80) * 4;
  perLine = Math.max(8, Math.min(MOST_PER_LINE, most));
  cells.clear();
  const inputs = data.inputs.filter((number) => events[number].n > 0);
  const isFile = (number) => events[number].w === "file";
  const byUse = [...inputs.filter((number) => !isFile(number)), ...inputs.filter(isFile)];
  inputColumn.replaceChildren(...byUse.map(cardOf));
  outputColumn.replaceChildren(...data.outputs.map(cardOf));
  if (!byUse.length) inputColumn.append(make("p", { class: "note" }, "Nothing came in."));
  if (!data.outputs.length) outputColumn.append(make("p", { class: "note" }, "No output was written."));
}
