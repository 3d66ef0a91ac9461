/* The graph of what groups exchanged: what brings bytes on the left, groups, what takes bytes on the right. */
const LEAST_GAP = 90;
const MOST_GAP = 150;
const GAP_Y = 24;
const NODE_HEIGHT = 38;
const LABEL_HEIGHT = 17;

const isGroup = (name) => typeof name === "number";
const nodeTitle = (name) => (isGroup(name) ? `group ${name}` : name.replace(/^to /, ""));
const widthOf = (name) => Math.max(86, 9 * nodeTitle(name).length + 24);
const takes = (name) => /^(console$|to )/.test(name);

/* The layer of each node: a group is to the right of the lower groups from which it has something. */
function layersOf(edges) {
  const layers = new Map();
  for (const name of new Set(edges.flatMap(([from, to]) => [from, to]))) layers.set(name, isGroup(name) ? 1 : 0);
  const groups = [...layers.keys()].filter(isGroup).sort((a, b) => a - b);
  for (const group of groups) {
    for (const [from, to] of edges) {
      if (to === group && isGroup(from) && from < group) layers.set(group, Math.max(layers.get(group), layers.get(from) + 1));
    }
  }
  const last = Math.max(1, ...layers.values()) + 1;
  for (const name of layers.keys()) if (takes(name)) layers.set(name, last);
  return layers;
}

/* Where the points before a point would have it. */
function pullOf({ near, y }) {
  return near.length ? near.reduce((sum, other) => sum + other.y, 0) / near.length : y;
}

/* The nodes and bends of each layer, in order, and of each edge the points that it passes. */
function pointsOf(edges, layers) {
  const columns = [];
  const add = (layer, point) => {
    (columns[layer] = columns[layer] || []).push(point);
    return point;
  };
  const nodeOf = (name, layer) => ({ name, layer, near: [], ends: { left: [], right: [] } });
  const nodes = new Map([...layers].map(([name, layer]) => [name, add(layer, nodeOf(name, layer))]));
  const paths = edges.map((edge) => {
    const [from, to] = [nodes.get(edge[0]), nodes.get(edge[1])];
    const points = [from];
    for (let layer = from.layer + 1; layer < to.layer; layer++) points.push(add(layer, { layer, near: [] }));
    points.push(to);
    for (let index = 1; index < points.length; index++) points[index].near.push(points[index - 1]);
    return { edge, points, isBack: to.layer <= from.layer };
  });
  return { nodes, paths, columns };
}

/* Puts the points of each layer into the order of those before them. */
function putInOrder(columns) {
  columns.forEach((column) => column.forEach((point, index) => (point.y = index)));
  for (let round = 0; round < 3; round++) {
    for (const column of columns) {
      for (const point of column) point.pull = pullOf(point);
      column.sort((a, b) => a.pull - b.pull).forEach((point, index) => (point.y = index));
    }
  }
}

/* Where each edge begins and ends at its nodes, and at which end its label is: at that with fewer others. */
function putEnds(paths) {
  for (const path of paths) {
    const [from, to] = [path.points[0], path.points[path.points.length - 1]];
    path.begin = { path, other: path.points[1] };
    path.end = { path, other: path.points[path.points.length - 2] };
    path.outs = from.ends[path.isBack ? "left" : "right"];
    path.ins = to.ends[path.isBack ? "right" : "left"];
    path.outs.push(path.begin);
    path.ins.push(path.end);
  }
  for (const path of paths) {
    path.labelled = path.outs.length < path.ins.length ? path.begin : path.end;
    path.labelled.isLabelled = true;
  }
}

/* The height of a node, and the places of the ends at its sides. */
function putSides(point) {
  if (point.name === undefined) return (point.height = NODE_HEIGHT / 2);
  const sides = Object.values(point.ends);
  const withLabels = sides.filter((ends) => ends.some((end) => end.isLabelled));
  point.height = Math.max(NODE_HEIGHT, ...withLabels.map((ends) => LABEL_HEIGHT * ends.length + 6));
  for (const ends of sides) {
    ends.sort((a, b) => a.other.y - b.other.y || a.path.isBack - b.path.isBack);
    const step = Math.min(LABEL_HEIGHT, (point.height - 6) / ends.length);
    ends.forEach((end, index) => (end.shift = (index - (ends.length - 1) / 2) * step));
  }
  return point.height;
}

/* The places of all points, below each other in each layer. Returns how high that is. */
function putPlaces(columns) {
  const heights = columns.map((column) => column.reduce((sum, point) => sum + putSides(point) + GAP_Y, 0));
  const most = Math.max(...heights);
  columns.forEach((column, layer) => {
    let top = (most - heights[layer]) / 2;
    for (const point of column) {
      point.y = top + (point.height + GAP_Y) / 2;
      top += point.height + GAP_Y;
    }
  });
  return most;
}

/* The parts of an edge: where each begins and ends. */
function partsOf({ points, begin, end, isBack }, lefts, widths) {
  const spareOf = (point) => (point.name === undefined ? 0 : (widths[point.layer] - widthOf(point.name)) / 2);
  const leftOf = (point) => lefts[point.layer] + spareOf(point);
  const rightOf = (point) => lefts[point.layer] + widths[point.layer] - spareOf(point);
  const last = points.length - 1;
  return points.slice(1).map((to, index) => {
    const from = points[index];
    const arrow = index + 1 === last ? 7 : 0;
    const [x1, x2] = isBack ? [leftOf(from), rightOf(to) + arrow] : [rightOf(from), leftOf(to) - arrow];
    return [x1, from.y + (index ? 0 : begin.shift), x2, to.y + (index + 1 === last ? end.shift : 0)];
  });
}

/* The curve through the parts of an edge. */
function curveOf(parts) {
  return parts.map(([x1, y1, x2, y2], index) => {
    const bend = Math.max(30, Math.abs(x2 - x1) / 2) * Math.sign(x2 - x1 || 1);
    return `${index ? "L" : "M"}${x1},${y1} C${x1 + bend},${y1} ${x2 - bend},${y2} ${x2},${y2}`;
  }).join(" ");
}

/* Where the label of an edge is: above its line, at one of its ends. */
function labelOf(path, parts) {
  const isBegin = path.labelled === path.begin;
  const [x, y] = isBegin ? parts[0].slice(0, 2) : parts[parts.length - 1].slice(2);
  const isRight = isBegin !== path.isBack;
  return { x: x + (isRight ? 8 : -4), y: y - 4, "text-anchor": isRight ? "start" : "end" };
}

function edgeText([, , bytes, forks]) {
  return [bytes ? plural(bytes, "byte") : "", forks ? (forks === 1 ? "fork" : `${forks} forks`) : ""].filter(Boolean).join(", ");
}

const ARROW = { id: "arrow", viewBox: "0 0 8 8", refX: 1, refY: 4, markerWidth: 8, markerHeight: 8, orient: "auto" };

/* An edge and its label. */
function drawEdge(path, lefts, widths) {
  const parts = partsOf(path, lefts, widths);
  const [, , bytes] = path.edge;
  const line = { d: curveOf(parts), class: bytes ? "" : "fork", "stroke-width": bytes ? 1.2 + Math.log10(bytes) * 0.7 : 1.5 };
  const label = make("text", { class: "label", ...labelOf(path, parts) }, edgeText(path.edge));
  return [make("path", { ...line, "marker-end": "url(#arrow)" }), label];
}

function drawNode(name, point, lefts, widths) {
  const width = widthOf(name);
  const x = lefts[point.layer] + (widths[point.layer] - width) / 2;
  const box = { x, y: point.y - point.height / 2, width, height: point.height, rx: isGroup(name) ? 8 : 2 };
  const title = make("text", { x: x + width / 2, y: point.y + 5, "text-anchor": "middle" }, nodeTitle(name));
  return make("g", { class: isGroup(name) ? "" : "outside" }, make("rect", box), title);
}

function drawGraph() {
  const frame = document.getElementById("graph");
  const edges = data.edges.filter(([, , bytes, forks]) => bytes || forks);
  if (!edges.length) {
    frame.append(make("p", { class: "note" }, "Nothing was exchanged."));
    return;
  }
  const { nodes, paths, columns } = pointsOf(edges, layersOf(edges));
  putInOrder(columns);
  putEnds(paths);
  const height = putPlaces(columns);
  const widths = columns.map((column) => Math.max(...column.map((point) => (point.name === undefined ? 60 : widthOf(point.name)))));
  const free = frame.clientWidth - 40 - widths.reduce((sum, width) => sum + width, 0);
  const gap = Math.max(LEAST_GAP, Math.min(MOST_GAP, free / Math.max(1, widths.length - 1)));
  const lefts = [];
  widths.forEach((width, layer) => lefts.push(layer ? lefts[layer - 1] + widths[layer - 1] + gap : 12));
  const width = lefts[lefts.length - 1] + widths[widths.length - 1] + 12;
  const svg = make("svg", { width, height, role: "img", "aria-label": "What groups exchanged" });
  const drawn = paths.map((path) => drawEdge(path, lefts, widths));
  svg.append(make("marker", { ...ARROW, markerUnits: "userSpaceOnUse" }, make("path", { d: "M0,0 L8,4 L0,8 Z" })));
  svg.append(...drawn.map(([line]) => line));
  svg.append(...[...nodes].map(([name, point]) => drawNode(name, point, lefts, widths)));
  svg.append(...drawn.map(([, label]) => label));
  frame.append(svg);
}

function tableOfEdges() {
  const classOf = (column) => (column > 1 ? { class: "number" } : {});
  const rowOf = (kind, ...texts) => make("tr", {}, ...texts.map((text, column) => make(kind, classOf(column), text)));
  const head = make("thead", {}, rowOf("th", "From", "To", "Bytes", "Forks"));
  const rows = data.edges.map(([from, to, bytes, forks]) => {
    return rowOf("td", nodeTitle(from), nodeTitle(to), bytes.toLocaleString("en"), String(forks || ""));
  });
  document.getElementById("edges").append(make("table", {}, head, make("tbody", {}, ...rows)));
}
