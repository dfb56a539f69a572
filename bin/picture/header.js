// The page's text: the answer, what the marks mean, and what is said of a request.
function fillHeader() {
  byId("name").textContent = `Session ${data.name}`;
  const verdict = byId("verdict");
  verdict.textContent = data.verdict;
  verdict.className = isNo ? "no" : data.verdict.startsWith("yes") ? "yes" : "";
  const order = { given: `the order of ${data.order}`, found: "an order that nbdcheck found" }[data.source] || "no order";
  byId("facts").textContent = [`${counted(data.bytes, "byte")}`, counted(requests.count, "request"), `at most ${data.lanes} outstanding`,
    data.size === null ? "" : `an export of ${counted(data.size, "byte")}`, `start ${data.start}`, order,
    ...levels().map(([level, count]) => `${counted(count, level)} not kept`)].filter(Boolean).join(", ");
  byId("explained").textContent = data.explained.trimEnd() + (data.said ? `\n\n${data.said.trimEnd()}` : "");
  fillLink();
}

// How many musts and shoulds were not kept, where there are some.
function levels() {
  const count = (level) => data.breaches.filter((breach) => breach.level === level).length;
  return ["must", "should"].map((level) => [level, count(level)]).filter(([, found]) => found > 0);
}

const returned = (number) => ` returned ${byteAt.get(number)} for offset ${guilt.offset}, at byte ${guilt.place}`;

function anchor(number) {
  const link = element("a", { href: "#bars" }, shortName(number));
  link.addEventListener("click", (event) => {
    event.preventDefault();
    select(number, true);
    focusBar();
  });
  return link;
}

// The requests that the answer names, with links to their bars.
function fillLink() {
  const link = byId("link");
  if (guilt.kind === "content") {
    const [number] = guilt.requests;
    link.append(anchor(number), `${returned(number)}; it should have been `);
    if (guilt.expected === null) link.append(`the byte of the start: ${startByte()}.`);
    else link.append(`${byteOf(guilt.expected)} of `, anchor(guilt.expected), `, entry ${guilt.wrote} of the order.`);
    return;
  }
  if (guilt.kind === "any") {
    const [number] = guilt.requests;
    link.append(anchor(number), `${returned(number)}; in no order can it.`);
    return;
  }
  const fronts = {
    none: `In each order one of these has a wrong byte for offset ${guilt.offset}: `,
    status: `This calls offset ${guilt.offset} zero, and it is not: `,
  };
  const front = fronts[guilt.kind] || "In question: ";
  for (const number of [...inQuestion].sort((one, other) => one - other)) link.append(link.firstChild ? ", " : front, anchor(number));
}

function legendPart(text, draw) {
  const box = svg("svg", { width: 26, height: 14, "aria-hidden": "true" }, ...draw);
  return element("span", {}, box, text);
}

function fillLegend() {
  const box = (fill) => svg("rect", { x: 0, y: 1, width: 26, height: 12, fill });
  const frame = (more) => svg("rect", { x: 2, y: 2, width: 22, height: 10, fill: "none", "stroke-width": 2, ...more });
  const stripes = svg("path", { d: "M2 14L9 0M10 14L17 0M18 14L25 0", stroke: "#fff", "stroke-width": 3 });
  const diamond = svg("path", { class: "service", d: "M7 7L13 1L19 7L13 13Z" });
  const used = [...new Set(requests.command.slice(1))].sort((one, other) => one - other);
  const parts = used.map((command) => legendPart(nameOf(command), [box(colorOf(command))]));
  const isAny = requests.improper.size > 0 || requests.result.includes(FAILURE, 1);
  if (isAny) parts.push(legendPart("improper or failed", [box("#444"), stripes]));
  const isReplied = requests.reply.some((at) => at >= 0);
  if (requests.count) parts.push(legendPart(isReplied ? "request, wait, reply" : "request, wait", [
    svg("rect", { x: 0, y: 1, width: 6, height: 12, fill: "#777" }), svg("rect", { x: 0, y: 5, width: 26, height: 4, fill: "#bbb" }),
    ...(isReplied ? [svg("rect", { x: 18, y: 1, width: 8, height: 12, fill: "#777" })] : [])]));
  if (isReplied) parts.push(legendPart("first reply", [svg("line", { class: "tick", x1: 13, x2: 13, y1: 0, y2: 14 })]));
  const isServed = services.request.some((number) => number > 0 && number <= requests.count);
  if (isServed) parts.push(legendPart("served: a moment that fits the order", [diamond]));
  if (isMarked) parts.push(legendPart(isWrong ? "wrong" : "in question", [frame({ stroke: "#c40000" })]));
  const triangle = (level) => svg("path", { class: `breach ${level}`, d: "M7 1H19L13 13Z" });
  for (const [level] of levels()) parts.push(legendPart(`a ${level} not kept`, [triangle(level)]));
  if (guilt.expected) parts.push(legendPart("should have been returned", [frame({ stroke: "#1a1a1a", "stroke-dasharray": "5 3" })]));
  byId("legend").append(...parts);
  const isPale = changes.some((change) => requests.result[change.number] !== SUCCESS);
  byId("export-hint").textContent = (hasOrder
    ? "A change is painted from its service on, until another one replaces it; a READ is a thin bar where it was served."
    : "There is no order: a change is painted from its first reply on, and hatched where it may have been carried out before; " +
      "a READ is a thin bar at its first reply.") +
    " Grey: as at the start." + (isPale ? " Pale: it did not succeed, and what it left is not known." : "");
}

// A message's line and its bytes.
const told = (at) => [element("span", { class: "line" }, wordsOf(at)), ` (bytes ${messages.first[at]} to ${messages.last[at]})`];

function showDetail(number) {
  const detail = byId("detail"), replies = [];
  for (let at = requests.reply[number]; at >= 0 && at <= requests.lastReply[number]; at++) {
    if (messages.request[at] === number && messages.sides[at] === "S") replies.push(at);
  }
  const item = (at) => element("li", {}, ...told(at));
  const entries = servedBy(number), role = roleOf(number), parts = [requests.message[number], ...replies.slice(0, 20)].map(item);
  if (replies.length > 20) parts.push(element("li", {}, `${replies.length - 20} more`));
  const more = entries.length > 20 ? ", .." : "";
  if (entries.length) parts.push(element("li", {}, `served by entry ${entries.slice(0, 20).join(", ")}${more}`));
  for (const [side, first, last] of guilt.messages.filter((message) => message[3] === number)) {
    const sender = side === "C" ? "client" : "server", how = isCutOff ? "cut off" : "refused";
    parts.push(element("li", {}, `${how} at byte ${guilt.place}, ${guilt.fault}: bytes ${first} to ${last} of the ${sender}`));
  }
  detail.className = inQuestion.has(number) ? "red" : "";
  detail.replaceChildren(...(role ? [element("strong", {}, role)] : []), element("ul", {}, ...parts));
}

function showMessage(at) {
  const number = messages.request[at];
  if (number) return select(number);
  byId("detail").className = "";
  byId("detail").replaceChildren(...told(at));
}
