/* The data of the page: events, their bytes, and which bytes are sources of which. */
const data = JSON.parse(document.getElementById("data").textContent);
const events = data.events;
const plural = (count, word) => `${count.toLocaleString("en")} ${word}${count === 1 ? "" : "s"}`;
const span = (from, end) => (end - from === 1 ? `byte ${from}` : `bytes ${from} to ${end - 1}`);
const hex = (byte) => byte.toString(16).padStart(2, "0");
const whatOf = (event) => (event.w === "type" ? "typed" : event.w);
const isPlain = (byte) => byte >= 32 && byte < 127;
const SIGNS = { 10: "\u21b5", 32: "\u2423" };
const glyph = (byte) => SIGNS[byte] || (isPlain(byte) ? String.fromCharCode(byte) : "\u00b7");

/* An element with attributes and children. */
function make(name, attributes = {}, ...children) {
  const isDrawn = ["svg", "g", "path", "line", "rect", "text", "circle", "polygon", "marker"].includes(name);
  const element = isDrawn ? document.createElementNS("http://www.w3.org/2000/svg", name) : document.createElement(name);
  for (const [key, value] of Object.entries(attributes)) element.setAttribute(key, value);
  element.append(...children);
  return element;
}

/* The pieces of an event's bytes that are in this page: where each begins, and its bytes. */
function pieces(number) {
  const event = events[number];
  if (!event.pieces) {
    event.pieces = (event.b || []).map(([at, text]) => [at, Uint8Array.from(atob(text), (letter) => letter.charCodeAt(0))]);
  }
  return event.pieces;
}

/* A byte of an event, or null where this page doesn't have it. */
function byteAt(number, place) {
  const piece = pieces(number).find(([at, bytes]) => at <= place && place < at + bytes.length);
  return piece ? piece[1][place - piece[0]] : null;
}

/* The bytes from one place to another as text, for a reader. */
function textOf(number, from, end, most = 40) {
  let text = "";
  for (let place = from; place < Math.min(end, from + most); place++) {
    const byte = byteAt(number, place);
    text += byte === null ? "\u2026" : byte === 32 ? " " : glyph(byte);
  }
  return end - from > most ? text + "\u2026" : text;
}

/* Ranges [from, end) in order, joined where they touch. */
function joined(ranges) {
  const found = [];
  for (const [from, end] of ranges.slice().sort((a, b) => a[0] - b[0])) {
    const last = found[found.length - 1];
    if (last && from <= last[1]) last[1] = Math.max(last[1], end);
    else found.push([from, end]);
  }
  return found;
}

const sizeOf = (ranges) => ranges.reduce((sum, [from, end]) => sum + end - from, 0);
const totalOf = (places) => [...places.values()].reduce((sum, ranges) => sum + sizeOf(ranges), 0);

/* The part of a run from byte `from` to byte `end`, moved to `to`; or nothing. */
function cutRun([first, count, ranges], from, end, to) {
  const low = Math.max(first, from);
  const high = Math.min(first + count, end);
  if (low >= high) return [];
  const moved = ranges.map(([event, at, length, step]) => [event, at + step * (low - first), length, step]);
  return [[low - from + to, high - low, moved]];
}

/* The sources of an event's bytes as runs: asked of the program, or of the events from which the bytes were received. */
function runsOf(number) {
  const event = events[number];
  if (event.runs) return event.runs;
  if (event.x === "input") event.runs = [[0, event.n, [[number, 0, 1, 1]]]];
  else if (event.s) event.runs = event.s;
  else {
    event.runs = [];
    let to = 0;
    for (const [origin, at, length] of event.o || []) {
      for (const run of runsOf(origin)) event.runs.push(...cutRun(run, at, at + length, to));
      to += length;
    }
  }
  return event.runs;
}

/* The sources of some bytes of an event: of each input event the ranges of its bytes. */
function sourcesOf(number, ranges) {
  const found = new Map();
  for (const [from, end] of ranges) {
    for (const run of runsOf(number)) {
      for (const [, count, sources] of cutRun(run, from, end, 0)) {
        for (const [event, at, length, step] of sources) {
          if (!found.has(event)) found.set(event, []);
          found.get(event).push([at, at + length + step * (count - 1)]);
        }
      }
    }
  }
  for (const [event, places] of found) found.set(event, joined(places));
  return found;
}

/* Which bytes of an event have one of these as a source. */
function carriersIn(number, wanted) {
  const found = [];
  for (const [first, count, sources] of runsOf(number)) {
    for (const [event, at, length, step] of sources) {
      for (const [from, end] of wanted.get(event) || []) {
        const low = step ? Math.max(0, from - at - length + 1) : at < end && at + length > from ? 0 : count;
        const high = step ? Math.min(count, end - at) : count;
        if (low < high) found.push([first + low, first + high]);
      }
    }
  }
  return joined(found);
}

/* What is in both of two lists of places. */
function common(some, others) {
  const found = new Map();
  for (const [event, ranges] of some) {
    const both = [];
    for (const [from, end] of ranges) {
      for (const [low, high] of others.get(event) || []) {
        if (Math.max(from, low) < Math.min(end, high)) both.push([Math.max(from, low), Math.min(end, high)]);
      }
    }
    if (both.length) found.set(event, joined(both));
  }
  return found;
}

/* Of each group the events that received bytes, and the fork that began it. */
const received = new Map();
const begun = new Map();
events.forEach((event, number) => {
  if (event.x === "received") {
    if (!received.has(event.g)) received.set(event.g, []);
    received.get(event.g).push(number);
  }
  if (event.child && !begun.has(event.child)) begun.set(event.child, number);
});

/* The way to some bytes of events from these sources: each event on it, with its bytes and the events before it. */
function wayTo(ends, wanted) {
  const way = new Map();
  const put = (number, ranges, after) => {
    if (!way.has(number)) way.set(number, { ranges: [], before: new Set() });
    way.get(number).ranges.push(...ranges);
    if (after !== undefined) way.get(after).before.add(number);
  };
  for (const [number, ranges] of ends) put(number, ranges);
  const done = new Set();
  for (;;) {
    const left = [...way.keys()].filter((number) => !done.has(number));
    if (!left.length) break;
    const number = Math.max(...left);
    const step = way.get(number);
    const event = events[number];
    done.add(number);
    step.ranges = joined(step.ranges);
    if (event.x === "input") continue;
    if (event.x === "received") putOrigins(number, step.ranges, wanted, put);
    else putReceived(number, event, step, wanted, put);
  }
  return [...way].sort((a, b) => a[0] - b[0]);
}

/* The events from which a process received bytes that have one of the sources. */
function putOrigins(number, ranges, wanted, put) {
  let to = 0;
  for (const [origin, at, length] of events[number].o || []) {
    for (const [from, end] of ranges) {
      const low = Math.max(from, to);
      const high = Math.min(end, to + length);
      if (low < high) put(origin, [[low - to + at, high - to + at]], number);
    }
    to += length;
  }
}

/* What the group had received by then that has one of the sources, and the fork that began the group. */
function putReceived(number, event, step, wanted, put) {
  const sought = step.ranges.length ? common(sourcesOf(number, step.ranges), wanted) : wanted;
  for (const earlier of received.get(event.g) || []) {
    const ranges = earlier < number ? carriersIn(earlier, sought) : [];
    if (ranges.length) put(earlier, ranges, number);
  }
  const fork = event.g === undefined ? undefined : begun.get(event.g);
  if (fork !== undefined && events[fork].g !== event.g && hadBefore(fork, sought)) put(fork, [], number);
}

/* Whether the parent of a fork, or its own parents, had received one of the sources before. */
function hadBefore(fork, sought) {
  const group = events[fork].g;
  const had = (received.get(group) || []).some((earlier) => earlier < fork && carriersIn(earlier, sought).length);
  return had || (begun.has(group) && events[begun.get(group)].g !== group && hadBefore(begun.get(group), sought));
}
