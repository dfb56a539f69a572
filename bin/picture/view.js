// What is in view, and how it is drawn: places of the session become pixels.
const LONGEST = requests.begin.reduce((most, begin, number) => (rangeEnd(number) > most ? rangeEnd(number) : most), 0n);
const GUTTER = Math.max(96, 20 + 7.6 * String(LONGEST).length), RIGHT = 16, LEAST = 24;
const FEW = 300;
const view = { from: 0, to: Math.max(data.bytes, 1), width: 1000, selected: 0, offset: null, numbers: null };
const byId = (id) => document.getElementById(id);

const xOf = (place) => GUTTER + ((place - view.from) / (view.to - view.from)) * (view.width - GUTTER - RIGHT);
const placeOf = (x) => view.from + ((x - GUTTER) / (view.width - GUTTER - RIGHT)) * (view.to - view.from);
const clampX = (x) => Math.min(Math.max(x, GUTTER), view.width - RIGHT);

function svg(name, attributes, ...children) {
  const element = document.createElementNS("http://www.w3.org/2000/svg", name);
  for (const key in attributes) element.setAttribute(key, attributes[key]);
  element.append(...children);
  return element;
}

function element(name, attributes, ...children) {
  const made = document.createElement(name);
  for (const key in attributes) made.setAttribute(key, attributes[key]);
  made.append(...children);
  return made;
}

// Sets the size of a chart's canvas and drawing, and gives the canvas's pen.
function prepare(id, height) {
  const box = byId(id), canvas = box.querySelector("canvas"), drawing = box.querySelector("svg");
  const scale = window.devicePixelRatio || 1;
  box.style.height = `${height + 2}px`;
  canvas.width = view.width * scale;
  canvas.height = height * scale;
  canvas.style.width = `${view.width}px`;
  canvas.style.height = `${height}px`;
  drawing.setAttribute("width", view.width);
  drawing.setAttribute("height", height);
  drawing.replaceChildren();
  const pen = canvas.getContext("2d");
  pen.setTransform(scale, 0, 0, scale, 0, 0);
  return { pen, drawing, scale, canvas };
}

// Round numbers that divide a span into about so many steps.
function steps(from, to, most) {
  const rough = (to - from) / most, power = 10 ** Math.floor(Math.log10(Math.max(rough, 1)));
  const step = Math.max(1, power * [1, 2, 5, 10].find((factor) => power * factor >= rough));
  const found = [];
  for (let at = Math.ceil(from / step) * step; at <= to; at += step) found.push(at);
  return found;
}

// The axis of the session's bytes, and its lines down to this height.
function drawAxis(drawing, height) {
  for (const at of steps(view.from, view.to, Math.max(2, Math.floor((view.width - GUTTER) / 110)))) {
    drawing.append(svg("line", { class: "grid", x1: xOf(at), x2: xOf(at), y1: 20, y2: height }));
    const anchor = xOf(at) > view.width - 30 ? "end" : "middle";
    drawing.append(svg("text", { class: "soft", x: xOf(at), y: 14, "text-anchor": anchor }, grouped(at)));
  }
  drawing.append(svg("text", { x: 6, y: 14 }, "byte"));
}

function hatching() {
  const pattern = svg("pattern", { id: "hatch", width: 7, height: 7, patternUnits: "userSpaceOnUse", patternTransform: "rotate(45)" },
    svg("rect", { width: 3, height: 7, fill: "#fff" }));
  const arrow = svg("marker", { id: "arrow", viewBox: "0 0 10 10", refX: 9, refY: 5, markerWidth: 8, markerHeight: 8, orient: "auto" },
    svg("path", { d: "M0 0L10 5L0 10z", fill: "#c40000" }));
  return svg("defs", {}, pattern, arrow);
}

// Shows these places, or the nearest that there are.
function look(from, to) {
  const width = Math.min(Math.max(to - from, LEAST), Math.max(data.bytes, 1));
  const middle = (from + to) / 2;
  view.from = Math.min(Math.max(middle - width / 2, 0), Math.max(data.bytes, 1) - width);
  view.to = view.from + width;
  redraw();
}

function zoom(factor, at = (view.from + view.to) / 2) {
  look(at - (at - view.from) * factor, at + (view.to - at) * factor);
}

function move(share) {
  const step = (view.to - view.from) * share;
  look(view.from + step, view.to + step);
}

function matches(number) {
  if (view.numbers && (number < view.numbers[0] || number > view.numbers[1])) return false;
  return view.offset === null || holds(number, view.offset);
}

// The requests whose bars are in view.
function inView() {
  const from = firstWhere(1, requests.count + 1, (at) => requests.furthest[at] >= view.from);
  const to = firstWhere(1, requests.count + 1, (at) => firstOf(at) - 1 > view.to);
  const found = [];
  for (let number = from; number < to; number++) if (requests.end[number] >= view.from) found.push(number);
  return found;
}

let waiting = false;
function redraw() {
  if (waiting) return;
  waiting = true;
  requestAnimationFrame(() => {
    waiting = false;
    drawAll();
  });
}
