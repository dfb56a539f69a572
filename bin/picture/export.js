// The ranges of the export over the session: which request wrote what stands there.
const EXPORT_TOP = 22, EXPORT_ROWS = 180, EXPORT_HEIGHT = EXPORT_TOP + EXPORT_ROWS + 10;

// The changes and reads in the order in which they are drawn: by the order of service, or without one by their first reply.
const events = [];
function addEvent(entry, number, at, begin, length) {
  events.push({ entry, number, at, begin, end: begin + BigInt(length) });
}
if (hasOrder) {
  services.request.forEach((number, at) => {
    if (number < 1 || number > requests.count) return;
    if (services.begin[at] === null) addEvent(at + 1, number, services.at[at], requests.begin[number], requests.length[number]);
    else addEvent(at + 1, number, services.at[at], services.begin[at], services.length[at]);
  });
} else {
  for (let number = 1; number <= requests.count; number++) {
    const at = replyOf(number) === null ? requests.end[number] : replyOf(number) - 1;
    addEvent("", number, at, requests.begin[number], requests.length[number]);
  }
  events.sort((one, other) => one.at - other.at);
}
const changes = events.filter((event) => isChange(event.number) && event.end > event.begin);
// A BLOCK_STATUS in question called its range zero: it read zeroes there.
const isRead = (number) => requests.command[number] === READ || (requests.command[number] === BLOCK_STATUS && inQuestion.has(number));
const reads = events.filter((event) => isRead(event.number) && event.end > event.begin);

const questioned = () => (view.offset === null ? guiltyOffset : view.offset);

// The offsets that are shown: of the requests in question, of those at the offset, or of all.
function offsetWindow() {
  const offset = questioned();
  let chosen = [...inQuestion, ...(guilt.expected ? [guilt.expected] : [])].filter((number) => requests.length[number] > 0);
  if (offset !== null && !(offset === guiltyOffset && chosen.length)) {
    chosen = events.map((event) => event.number).filter((number) => holds(number, offset));
  } else if (!chosen.length) {
    chosen = events.map((event) => event.number).filter((number) => requests.length[number] > 0);
  }
  let begin = null, end = null;
  for (const number of chosen) {
    if (begin === null || requests.begin[number] < begin) begin = requests.begin[number];
    if (end === null || rangeEnd(number) > end) end = rangeEnd(number);
  }
  if (begin === null) [begin, end] = [offset === null ? 0n : offset, offset === null ? 16n : offset + 1n];
  const margin = (end - begin) / 16n;
  return [begin > margin ? begin - margin : 0n, end + margin];
}

// Of neighbours with one colour one is lighter; a change without success is pale, since what it left is not known.
const lightOf = (number) => (requests.result[number] !== SUCCESS ? 0.6 : number % 2 ? 0 : 0.14);

function rgb(number) {
  const color = colorOf(requests.command[number]), light = lightOf(number);
  return [1, 3, 5].map((at) => parseInt(color.slice(at, at + 2), 16) * (1 - light) + 255 * light);
}

const isLittle = new Uint8Array(new Uint32Array([1]).buffer)[0] === 1;
function pixelOf([red, green, blue]) {
  return (isLittle ? (255 << 24) | (blue << 16) | (green << 8) | red : (red << 24) | (green << 16) | (blue << 8) | 255) >>> 0;
}

// The pixels of the chart: each row keeps its last writer, and the columns up to the next change show it.
function paint(rowOf, width, height, scale) {
  const image = new ImageData(width, height), pixels = new Uint32Array(image.data.buffer), rows = new Int32Array(height);
  const colors = new Map([[0, pixelOf([244, 244, 244])]]);
  let column = 0;
  const fill = (until) => {
    for (let y = 0; y < height; y++) pixels.fill(colors.get(rows[y]), y * width + column, y * width + until);
    column = until;
  };
  for (const change of changes) {
    if (change.at > view.to) break;
    const [top, bottom] = [Math.floor(rowOf(change.begin) * scale), Math.ceil(rowOf(change.end) * scale)];
    if (bottom <= 0 || top >= height) continue;
    const x = Math.max(0, Math.min(width, Math.round((xOf(change.at) - GUTTER) * scale)));
    if (x > column) fill(x);
    if (!colors.has(change.number)) colors.set(change.number, pixelOf(rgb(change.number)));
    rows.fill(change.number, Math.max(top, 0), Math.min(Math.max(bottom, top + 1), height));
  }
  fill(width);
  return image;
}

// Multiples of a power of two, as ranges of disks have them.
function evenOffsets(base, span) {
  let step = 1n;
  while (step * 5n < span) step *= 2n;
  const found = [];
  for (let at = ((base + step - 1n) / step) * step; at <= base + span; at += step) found.push(at);
  return found;
}

function drawOffsets(drawing, base, span, yOf) {
  const named = [...inQuestion, ...(guilt.expected ? [guilt.expected] : [])].filter((number) => requests.length[number] > 0);
  const ends = named.flatMap((number) => [requests.begin[number], rangeEnd(number) - 1n]);
  const even = evenOffsets(base, span);
  const placed = questioned() === null ? [] : [yOf(questioned())];
  for (const offset of [...ends, ...even]) {
    const y = yOf(offset);
    if (y < EXPORT_TOP - 1 || y > EXPORT_TOP + EXPORT_ROWS + 1 || placed.some((other) => Math.abs(other - y) < 14)) continue;
    placed.push(y);
    drawing.append(svg("text", { class: "soft", x: GUTTER - 6, y: y + 4, "text-anchor": "end" }, String(offset)));
  }
}

function drawQuestion(drawing, yOf) {
  const offset = questioned();
  if (offset === null) return;
  const y = yOf(offset);
  drawing.append(svg("line", { class: "redline dash", x1: GUTTER, x2: view.width - RIGHT, y1: y, y2: y }));
  drawing.append(svg("text", { class: "red", x: GUTTER - 6, y: y + 4, "text-anchor": "end" }, String(offset)));
}

// Without an order: from when a change was whole to its first reply it may have been carried out.
function drawEarlier(number, x, top, bottom) {
  const from = xOf(wholeOf(number));
  return [colorOf(requests.command[number]), "url(#hatch)"].map((fill) => rect(from, x, top, bottom - top, fill, { opacity: 0.6 }));
}

// The changes and reads in view, few of them, with their numbers.
function drawNames(drawing, yOf) {
  const isHigh = (event) => yOf(event.end) > EXPORT_TOP && yOf(event.begin) < EXPORT_TOP + EXPORT_ROWS;
  const isShown = (event) => event.at >= view.from && event.at <= view.to && isHigh(event);
  const limit = (y) => Math.min(Math.max(y, EXPORT_TOP), EXPORT_TOP + EXPORT_ROWS);
  const written = changes.filter(isShown), read = reads.filter(isShown);
  const texts = [];
  for (const event of written.length <= FEW ? written : []) {
    const x = xOf(event.at), top = limit(yOf(event.begin)), bottom = limit(yOf(event.end));
    if (!hasOrder) drawing.append(...drawEarlier(event.number, x, top, bottom));
    drawing.append(svg("line", { x1: x, x2: x, y1: top, y2: bottom, stroke: "#fff", "stroke-width": 1.5 }));
    if (written.length <= 60 && bottom - top >= 12) texts.push([x + 10, bottom - 5, `#${event.number}`, "on"]);
  }
  for (const event of read.length <= FEW ? read : read.filter((event) => inQuestion.has(event.number))) {
    const isRed = inQuestion.has(event.number), x = xOf(event.at), top = limit(yOf(event.begin)), bottom = limit(yOf(event.end));
    drawing.append(svg("rect", { x: x - 2.5, y: top, width: 5, height: Math.max(bottom - top, 2), fill: isRed ? "#c40000" : COLORS[READ],
      stroke: isRed ? "#c40000" : "#1a1a1a", "stroke-width": 1 }, svg("title", {}, lineOf(event.number))));
    if (isRed || read.length <= 60) texts.push([x + 6, top + 12, shortName(event.number), isRed ? "red on" : "on"]);
  }
  drawTexts(drawing, texts);
}

// Texts of which none covers another; those in red come first.
function drawTexts(drawing, texts) {
  const placed = [];
  for (const [x, y, text, look] of texts.sort((one, other) => other[3].startsWith("red") - one[3].startsWith("red"))) {
    const isRight = x > view.width - 90, width = text.length * 7.5 + 4, from = isRight ? x - 12 - width : x;
    if (placed.some(([left, right, height]) => from < right && left < from + width && Math.abs(height - y) < 13)) continue;
    placed.push([from, from + width, y]);
    drawing.append(svg("text", { class: look, x: isRight ? x - 12 : x, y, "text-anchor": isRight ? "end" : "start" }, text));
  }
}

function drawExport() {
  const { pen, drawing, scale, canvas } = prepare("export", EXPORT_HEIGHT);
  const [base, end] = offsetWindow(), span = end - base > 0n ? end - base : 1n;
  const rowOf = (offset) => (Number(offset - base) / Number(span)) * EXPORT_ROWS;
  const yOf = (offset) => EXPORT_TOP + rowOf(offset);
  const width = Math.round((view.width - GUTTER - RIGHT) * scale), height = Math.round(EXPORT_ROWS * scale);
  if (width > 0) pen.putImageData(paint(rowOf, width, height, scale), Math.round(GUTTER * scale), Math.round(EXPORT_TOP * scale));
  drawAxis(drawing, EXPORT_TOP - 2);
  drawOffsets(drawing, base, span, yOf);
  drawNames(drawing, yOf);
  drawQuestion(drawing, yOf);
}
