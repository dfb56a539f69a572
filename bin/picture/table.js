// The same as tables, a page of rows at a time.
const PAGE = 25;

function cell(value, column) {
  const made = element("td", column.left ? { class: "left" + (column.mono ? " mono" : "") } : {});
  made.append(value);
  return made;
}

// A table of rows that are made when they are shown. `rows` has their keys, `row` the cells of one.
function makeTable(box, caption, columns, row, describe) {
  const table = { rows: [], page: 0 };
  const body = element("tbody", {}), told = element("output", {});
  const head = columns.map((column) => element("th", column.left ? { scope: "col", class: "left" } : { scope: "col" }, column.name));
  const shown = element("table", {}, element("caption", {}, caption), element("thead", {}, element("tr", {}, ...head)), body);
  const turns = [["First", () => 0], ["Previous", () => table.page - 1], ["Next", () => table.page + 1], ["Last", () => table.last()]];
  const buttons = turns.map(([name, to]) => {
    const button = element("button", { type: "button" }, name);
    button.addEventListener("click", () => table.turn(to()));
    return button;
  });
  const pages = element("div", { class: "pages", role: "group", "aria-label": `Pages of the table: ${caption}` }, ...buttons, told);
  table.last = () => Math.max(0, Math.ceil(table.rows.length / PAGE) - 1);
  table.turn = (page) => {
    table.page = Math.min(Math.max(page, 0), table.last());
    table.draw();
  };
  table.draw = () => {
    const from = table.page * PAGE, part = table.rows.slice(from, from + PAGE);
    body.replaceChildren(...part.map((key, at) => {
      const made = element("tr", { "aria-rowindex": from + at + 2, class: describe(key) });
      made.append(...row(key).map((value, column) => cell(value, columns[column])));
      return made;
    }));
    shown.setAttribute("aria-rowcount", table.rows.length + 1);
    told.textContent = table.rows.length ? `rows ${from + 1} to ${from + part.length} of ${table.rows.length}` : "no rows";
    buttons.forEach((button, at) => (button.disabled = at < 2 ? table.page === 0 : table.page === table.last()));
    pages.hidden = table.rows.length <= PAGE;
  };
  table.fill = (rows) => {
    table.rows = rows;
    table.turn(0);
  };
  box.append(element("div", { class: "scroll" }, shown), pages);
  return table;
}

function chooser(number, text = String(number)) {
  const button = element("button", { type: "button", "aria-label": `Select ${shortName(number)}` }, text);
  button.addEventListener("click", () => select(number, true));
  return button;
}

function resultOf(number) {
  const result = requests.result[number];
  const word = result === SUCCESS ? "success" : result === FAILURE ? "failed" : "no finished reply";
  return requests.improper.has(number) ? `${word}, improper` : word;
}

const mark = (number) => (inQuestion.has(number) ? "guilty" : number === view.selected ? "chosen" : "");

function requestRow(number) {
  const note = number === guilt.expected ? "the write that should have been returned" : roleOf(number).toLowerCase();
  const replies = replyOf(number) === null ? ["", ""] : [replyOf(number), messages.last[requests.lastReply[number]]];
  return [chooser(number), nameOf(requests.command[number]), String(requests.begin[number]), requests.length[number],
    `${firstOf(number)} to ${wholeOf(number)}`, ...replies, servedBy(number).join(", "), resultOf(number), note];
}

const requestTable = makeTable(byId("table"), "Requests", [
  { name: "Request" }, { name: "Command", left: true }, { name: "Offset" }, { name: "Length" }, { name: "Its bytes" },
  { name: "First reply" }, { name: "Last reply" }, { name: "Served by entry" }, { name: "Result", left: true },
  { name: "Note", left: true },
], requestRow, mark);

const messageTable = makeTable(byId("messages"), "Messages of both sides", [
  { name: "Message" }, { name: "Bytes" }, { name: "In words", left: true, mono: true },
], (at) => [at + 1, `${messages.first[at]} to ${messages.last[at]}`, wordsOf(at)],
  (at) => (inQuestion.has(messages.request[at]) ? "guilty" : breachesOf.has(at) ? "broken" : ""));
messageTable.fill(Array.from({ length: messages.count }, (_, at) => at));

// Shows the message of a breach, also in the chart.
function placer(breach) {
  const name = `Show the message at byte ${breach.byte}, ${breach.rule}`, at = breach.message;
  const button = element("button", { type: "button", "aria-label": name }, grouped(breach.byte));
  button.addEventListener("click", () => {
    const room = Math.max(400, messages.last[at] - messages.first[at]);
    look(messages.first[at] - room, messages.last[at] + room);
    showMessage(at);
  });
  return button;
}

const breachTable = makeTable(byId("breaches"), "Rules of proto.md that were not kept", [
  { name: "Byte" }, { name: "Level", left: true }, { name: "Who", left: true }, { name: "Rule", left: true }, { name: "What", left: true },
  { name: "Section", left: true },
], (breach) => [placer(breach), breach.level, breach.side, breach.rule,
  breach.text + (breach.more ? ` (${grouped(breach.more)} more)` : ""), breach.section], (breach) => breach.level);
breachTable.fill(data.breaches);
byId("breaches").hidden = data.breaches.length === 0;

// What a change left of the offset in question, or a READ returned.
function byteOf(number) {
  if (requests.command[number] === TRIM || (isChange(number) && requests.result[number] !== SUCCESS)) return "unknown";
  if (requests.command[number] === WRITE_ZEROES) return "00";
  return questioned() === guiltyOffset || view.offset === guiltyOffset ? byteAt.get(number) || "" : "";
}

function historyNote(event) {
  if (inQuestion.has(event.number)) return isWrong ? "wrong" : "in question";
  return event.number === guilt.expected ? "should have been returned" : event.note;
}

function historyRow(event) {
  const isStatus = requests.command[event.number] === BLOCK_STATUS;
  const did = isChange(event.number) ? "left" : isStatus ? "called it zero" : "returned";
  return [event.entry, chooser(event.number, shortName(event.number)), did, byteOf(event.number), historyNote(event)];
}

const historyTable = makeTable(byId("history"), "Who wrote and read the offset in question", [
  { name: "Entry" }, { name: "Request", left: true }, { name: "Did", left: true }, { name: "Byte", left: true, mono: true },
  { name: "Note", left: true },
], historyRow, (event) => mark(event.number));

function fillHistory() {
  const offset = questioned();
  byId("history").hidden = offset === null;
  if (offset === null) return;
  const sorted = hasOrder ? "in the order of service" : "by their first replies";
  byId("history").querySelector("caption").textContent = `Who wrote and read offset ${offset}, ${sorted}; at first it was ${startByte()}`;
  const isStatus = (number) => requests.command[number] === BLOCK_STATUS;
  const isOf = ({ number }) => isChange(number) || (isRead(number) && (!isStatus(number) || offset === guiltyOffset));
  const found = events.filter((event) => event.begin <= offset && offset < event.end && isOf(event));
  let held = { unknown: "unknown", zero: "00" }[data.start] || "";
  for (const event of found) {
    const byte = byteOf(event.number), isKnown = byte && held && held !== "unknown";
    event.note = hasOrder && isKnown && !isChange(event.number) && byte !== held ? `not ${held}, which the last change left` : "";
    if (isChange(event.number)) held = byte;
  }
  historyTable.fill(found);
}

const startByte = () => ({ unknown: "unknown", zero: "00" })[data.start] || `that of ${data.start.slice(data.start.indexOf(":") + 1)}`;

function fillTable() {
  const found = [];
  for (let number = 1; number <= requests.count; number++) if (matches(number)) found.push(number);
  requestTable.fill(found);
  const isFiltered = view.offset !== null || view.numbers !== null;
  byId("count").textContent = `${isFiltered ? `${grouped(found.length)} of ` : ""}${counted(requests.count, "request")}`;
}
