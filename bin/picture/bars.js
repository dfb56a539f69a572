// The requests as bars in lanes, below the messages of both sides.
const CLIENT_ROW = 24, SERVER_ROW = 38, ROW = 11, LANES = 72;
// Where there are few lanes each has a line of text above its bars; with more the request that is selected would be told out of sight.
const TEXT = data.lanes <= 8 ? 16 : 0;
const laneHeight = TEXT ? 15 : Math.max(3, Math.min(14, Math.floor(480 / data.lanes) - 3));
const laneStep = laneHeight + (TEXT ? TEXT + 5 : 3);
const barsHeight = LANES + Math.max(data.lanes, 1) * laneStep + 16;
const laneTop = (number) => LANES + requests.lane[number] * laneStep + TEXT;
const messagesOf = { C: [], S: [] };
for (let at = 0; at < messages.count; at++) messagesOf[messages.sides[at]].push(at);

// Many bars: of each lane what is not yet covered at a pixel.
function drawMany(pen, numbers, color) {
  const covered = new Float64Array(data.lanes);
  for (const number of numbers) {
    const x = Math.round(clampX(xOf(firstOf(number) - 1))), end = Math.max(Math.round(clampX(xOf(requests.end[number]))), x + 1);
    const lane = requests.lane[number];
    if (end <= covered[lane] && !isHatched(number)) continue;
    pen.fillStyle = color || colorOf(requests.command[number]);
    pen.fillRect(x, laneTop(number), end - x, laneHeight);
    if (isHatched(number)) strike(pen, x, end, laneTop(number));
    covered[lane] = end;
  }
}

function strike(pen, x, end, top) {
  pen.fillStyle = "#fff";
  for (let at = x + 1; at < end; at += 4) pen.fillRect(at, top, 1.5, laneHeight);
}

// The messages of a side: dark and light in turn, so that one can be told from the next.
function drawMessages(pen, side, top) {
  const list = messagesOf[side];
  const from = firstWhere(0, list.length, (at) => messages.last[list[at]] >= view.from);
  let covered = 0;
  for (let at = from; at < list.length && messages.first[list[at]] - 1 <= view.to; at++) {
    const x = Math.round(clampX(xOf(messages.first[list[at]] - 1)));
    const end = Math.max(Math.round(clampX(xOf(messages.last[list[at]]))), x + 1);
    if (end <= covered) continue;
    pen.fillStyle = at % 2 ? "#8d8d8d" : "#5f5f5f";
    pen.fillRect(x, top, end - x, ROW);
    covered = end;
  }
}

function rect(x, end, y, height, fill, more) {
  const from = clampX(x), to = clampX(end);
  return svg("rect", { x: from, y, width: Math.max(to - from, 0), height, fill, ...more });
}

// The parts of a bar: the request's own bytes, the wait, and from the first byte of its reply to the last.
function barParts(number) {
  const top = laneTop(number), color = colorOf(requests.command[number]), parts = [];
  const x = xOf(firstOf(number) - 1), end = Math.max(xOf(requests.end[number]), x + 3), reply = replyOf(number);
  parts.push(rect(x, end, top + laneHeight * 0.3, laneHeight * 0.4, color, { opacity: 0.55 }));
  parts.push(rect(x, Math.max(xOf(wholeOf(number)), x + 1.5), top, laneHeight, color));
  if (reply !== null) {
    const begin = xOf(reply - 1), last = xOf(messages.last[requests.lastReply[number]]);
    parts.push(rect(begin, Math.max(last, begin + 1.5), top, laneHeight, color));
  }
  if (isHatched(number)) parts.push(rect(x, end, top, laneHeight, "url(#hatch)"));
  if (reply !== null && reply - 1 >= view.from && reply - 1 <= view.to) {
    const at = xOf(reply - 1);
    parts.push(svg("line", { class: "tick", x1: at, x2: at, y1: top - 3, y2: top + laneHeight + 3 }));
  }
  parts.push(rect(x - 1, end + 1, top - 2, laneHeight + 4, "transparent", { class: "frame" }));
  return parts;
}

function barText(number) {
  const x = clampX(xOf(firstOf(number) - 1)), room = clampX(xOf(requests.end[number])) - x;
  const range = requests.length[number] ? `, ${requests.length[number]} at ${requests.begin[number]}` : "";
  const words = [shortName(number) + range, shortName(number), `#${number}`];
  const fits = TEXT ? words.find((text) => text.length * 7 + 6 < room) : undefined;
  return fits ? [svg("text", { class: inQuestion.has(number) ? "red" : "", x, y: laneTop(number) - 5 }, fits)] : [];
}

function serviceMarks(number) {
  return (services.of.get(number) || []).filter((at) => services.at[at] >= view.from && services.at[at] <= view.to).map((at) => {
    const x = xOf(services.at[at]), y = laneTop(number) + laneHeight / 2, size = Math.min(6, laneHeight / 2 + 1);
    const mark = svg("path", { class: guilt.entry === at + 1 ? "service red" : "service",
      d: `M${x - size} ${y}L${x} ${y - size}L${x + size} ${y}L${x} ${y + size}Z` });
    mark.append(svg("title", {}, `entry ${at + 1} of the order`));
    return mark;
  });
}

function label(number) {
  const role = roleOf(number), line = lineOf(number).slice(2);
  return role ? `${role}: ${line}` : line;
}

function bar(number) {
  const classes = ["bar"];
  if (inQuestion.has(number)) classes.push("guilty");
  if (number === guilt.expected) classes.push("expected");
  if (number === view.selected) classes.push("chosen");
  if (!matches(number)) classes.push("faint");
  const group = svg("g", { class: classes.join(" "), role: "button", tabindex: -1, "data-request": number, "aria-label": label(number),
    "aria-pressed": number === view.selected }, ...barParts(number), ...serviceMarks(number), ...barText(number));
  return group;
}

// The byte in question: a line through both rows and all lanes.
function drawByte(drawing) {
  if (guilt.place === null || guilt.place < view.from || guilt.place - 1 > view.to) return;
  const x = xOf(guilt.place - 0.5), width = Math.max(2, xOf(guilt.place) - xOf(guilt.place - 1));
  drawing.append(svg("rect", { class: "redfill", x: x - width / 2, y: 20, width, height: barsHeight - 20, opacity: 0.75,
    "pointer-events": "none" }));
  const isRight = x > view.width - 160;
  drawing.append(svg("text", { class: "red on", x: isRight ? x - 5 : x + 5, y: LANES - 8, "text-anchor": isRight ? "end" : "start" },
    `byte ${guilt.place}${guilt.fault ? ": " + guilt.fault : ""}`));
}

function drawRefused(drawing) {
  for (const [side, first, last] of guilt.messages) {
    if (last < view.from || first - 1 > view.to) continue;
    const words = `${isCutOff ? "Cut off" : "Refused"}: message of the ${side === "C" ? "client" : "server"}, bytes ${first} to ${last}`;
    const x = xOf(first - 1), part = rect(x, Math.max(xOf(last), x + 3), side === "C" ? CLIENT_ROW - 1 : SERVER_ROW - 1, ROW + 2, "#c40000",
      { role: "img", "aria-label": words });
    drawing.append(part);
  }
}

// A triangle on each message that first breaks a rule.
function drawBreaches(drawing) {
  for (const [at, found] of breachesOf) {
    if (messages.last[at] < view.from || messages.first[at] - 1 > view.to) continue;
    const x = clampX((xOf(messages.first[at] - 1) + xOf(messages.last[at])) / 2), y = messages.sides[at] === "C" ? CLIENT_ROW : SERVER_ROW;
    const isMust = found.some((breach) => breach.level === "must"), line = found.map(breachLine).join("; ");
    const mark = svg("path", { class: `breach ${isMust ? "must" : "should"}`, d: `M${x - 6} ${y}H${x + 6}L${x} ${y + ROW}Z`, role: "img",
      "aria-label": `${isMust ? "must" : "should"}: ${line}` }, svg("title", {}, line));
    drawing.append(mark);
  }
}

// A line from the write that a READ should have returned to the READ.
function drawLink(drawing) {
  const [to] = guilt.requests, from = guilt.expected;
  if (from === null || from === to) return;
  const service = services.at[guilt.wrote - 1], end = guilt.place === null ? firstOf(to) : guilt.place - 0.5;
  const x = clampX(xOf(service)), y = laneTop(from) + laneHeight / 2, x2 = clampX(xOf(end));
  if (x === x2) return;
  if (service < view.from || service > view.to) {
    const isRight = x > x2, words = `to ${shortName(from)}`;
    drawing.append(svg("text", { class: "red on", x: isRight ? x - 4 : x + 4, y: y + 4, "text-anchor": isRight ? "end" : "start" }, words));
  }
  const isAbove = laneTop(from) < laneTop(to), y2 = laneTop(to) + (isAbove ? 0 : laneHeight);
  const turn = requests.lane[from] === requests.lane[to] ? y + 34 : isAbove ? y : y2 + 26;
  drawing.append(svg("path", { class: "redline dash", "marker-end": "url(#arrow)", "pointer-events": "none",
    d: `M${x} ${y}C${x} ${turn} ${x2} ${turn} ${x2} ${y2}` }));
}

function drawRows(drawing) {
  const rows = [["client", CLIENT_ROW + 9], ["server", SERVER_ROW + 9]];
  for (const [text, y] of rows) drawing.append(svg("text", { x: 6, y }, text));
  const every = Math.ceil(14 / laneStep);
  for (let lane = 0; lane < data.lanes; lane += every) {
    const y = LANES + lane * laneStep + TEXT + laneHeight / 2 + 4;
    drawing.append(svg("text", { class: "soft", x: 6, y }, lane === 0 ? "lane 1" : String(lane + 1)));
  }
}

// The bars that are elements of the page: all where they are few, else those that the answer names, or the first, which the tab key
// reaches.
function barsFor(shown) {
  if (shown.length <= FEW) return shown;
  const named = new Set([...inQuestion, guilt.expected, view.selected]);
  const found = shown.filter((number) => named.has(number));
  return found.length ? found : shown.slice(0, 1);
}

// The request whose bar has the focus, 0 where it is the whole chart, or -1.
function focused() {
  const element = document.activeElement;
  return element && byId("bars").contains(element) ? Number(element.dataset.request || 0) : -1;
}

// One bar can be reached with the tab key, or where there is none the chart; what had the focus before it was drawn has it again.
function setFocus(drawing, before) {
  const wanted = [`[data-request="${view.selected}"]`, ".guilty", ".bar"];
  const reached = wanted.map((selector) => drawing.querySelector(selector)).find(Boolean);
  drawing.setAttribute("tabindex", reached ? -1 : 0);
  if (reached) reached.setAttribute("tabindex", 0);
  if (before >= 0) (drawing.querySelector(`[data-request="${before}"]`) || drawing).focus({ preventScroll: true });
}

function drawBars() {
  const before = focused(), { pen, drawing } = prepare("bars", barsHeight), shown = inView();
  drawing.append(hatching());
  drawAxis(drawing, barsHeight);
  drawMessages(pen, "C", CLIENT_ROW);
  drawMessages(pen, "S", SERVER_ROW);
  drawRows(drawing);
  if (shown.length > FEW) {
    const isFiltered = view.offset !== null || view.numbers !== null;
    if (isFiltered) drawMany(pen, shown.filter((number) => !matches(number)), "#dedede");
    drawMany(pen, isFiltered ? shown.filter(matches) : shown);
  }
  const bars = barsFor(shown);
  const order = (number) => (number === view.selected ? 2 : 0) + (inQuestion.has(number) ? 1 : 0);
  drawing.append(...bars.sort((one, other) => order(one) - order(other) || one - other).map(bar));
  drawByte(drawing);
  drawRefused(drawing);
  drawBreaches(drawing);
  drawLink(drawing);
  setFocus(drawing, before);
  byId("shown").textContent = `${grouped(shown.length)} of ${counted(requests.count, "request")} in view` +
    (shown.length > FEW ? "; zoom in to see each with its first reply and its service" : "") +
    (data.unread > 0 ? `; not judged: ${counted(data.unread, "byte")} behind the refusal` : "");
}
