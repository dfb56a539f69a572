// What the mouse, the keyboard and the filter do.

// Selects a request; it comes into view where it is not, or where this is wanted.
function select(number, isLookedFor = false) {
  view.selected = number;
  showDetail(number);
  const from = firstOf(number) - 1, to = requests.end[number], width = view.to - view.from;
  const isSeen = to >= view.from && from <= view.to;
  const isSmall = isLookedFor && inView().length > FEW;
  if (isSmall) look(from - 20 * (wholeOf(number) - from + 100), from + 20 * (wholeOf(number) - from + 100));
  else if (!isSeen) look(from - width / 2, from + width / 2);
  requestTable.draw();
  drawAll();
}

function focusBar() {
  const found = byId("bars").querySelector(`[data-request="${view.selected}"]`);
  if (found) found.focus({ preventScroll: true });
}

// The nearest request in this direction that the filter leaves.
function step(from, direction) {
  for (let number = from + direction; number >= 1 && number <= requests.count; number += direction) if (matches(number)) return number;
  return 0;
}

const keys = {
  ArrowRight: () => step(view.selected, 1),
  ArrowLeft: () => step(view.selected, -1),
  Home: () => step(0, 1),
  End: () => step(requests.count + 1, -1),
};

function press(event) {
  if (event.ctrlKey || event.altKey || event.metaKey) return;
  const reached = Number(event.target.dataset.request || 0);
  if (keys[event.key]) {
    view.selected = view.selected || reached;
    const next = keys[event.key]();
    if (next) select(next);
    focusBar();
  } else if (event.key === "Enter" || event.key === " ") {
    if (reached) select(reached);
  }
  else if (event.key === "+" || event.key === "=") zoom(0.5);
  else if (event.key === "-") zoom(2);
  else if (event.key === "0") look(0, data.bytes);
  else if (event.key === "PageDown" || event.key === "PageUp") move(event.key === "PageDown" ? 0.8 : -0.8);
  else return;
  event.preventDefault();
}

// The keys that do nothing else on a page: they work before a bar has the focus.
const KEYS_ANYWHERE = ["ArrowRight", "ArrowLeft", "+", "=", "-", "0"];

function pressAnywhere(event) {
  const isTaken = event.defaultPrevented || event.target.closest("input, button, a, pre, #bars");
  if (!isTaken && KEYS_ANYWHERE.includes(event.key)) press(event);
}

// What stands at a point of the bars: a request in its lane, or a message in its row.
function pick(x, y) {
  const place = placeOf(x), near = (2 * (view.to - view.from)) / view.width;
  if (y < LANES - 4) {
    const list = messagesOf[y < SERVER_ROW - 1 ? "C" : "S"], at = firstWhere(0, list.length, (at) => messages.last[list[at]] >= place);
    if (at < list.length && messages.first[list[at]] - 1 <= place + near) showMessage(list[at]);
    return;
  }
  const lane = Math.floor((y - LANES + 2) / laneStep);
  const isThere = (number) => firstOf(number) - 1 - near <= place && requests.end[number] + near >= place;
  const found = inView().find((number) => requests.lane[number] === lane && isThere(number));
  if (found) select(found);
}

function watchMouse(box) {
  let held = null;
  box.addEventListener("pointerdown", (event) => (held = { x: event.clientX, from: view.from, to: view.to, isDown: true, isMoved: false }));
  const follow = (event) => {
    if (!held || !held.isDown) return;
    const step = ((held.x - event.clientX) / (view.width - GUTTER - RIGHT)) * (held.to - held.from);
    held.isMoved = held.isMoved || Math.abs(held.x - event.clientX) > 4;
    if (held.isMoved) look(held.from + step, held.to + step);
  };
  window.addEventListener("pointermove", (event) => {
    if (held && !(event.buttons & 1)) held.isDown = false;
    follow(event);
  });
  window.addEventListener("pointerup", (event) => {
    follow(event);
    if (held) held.isDown = false;
  });
  box.addEventListener("click", (event) => {
    const reached = event.target.closest("[data-request]"), edge = box.getBoundingClientRect();
    if (held && held.isMoved) return;
    if (reached) select(Number(reached.dataset.request));
    else if (box.id === "bars") pick(event.clientX - edge.left, event.clientY - edge.top);
  });
  box.addEventListener("wheel", (event) => {
    if (!event.ctrlKey) return;
    event.preventDefault();
    zoom(event.deltaY > 0 ? 1.25 : 0.8, placeOf(event.clientX - box.getBoundingClientRect().left));
  }, { passive: false });
}

const rising = (first, last) => (first <= last ? [first, last] : undefined);
const FIELDS = {
  offset: { form: /^(\d+|0x[0-9a-fA-F]+)$/, read: (found) => BigInt(found[1]), wanted: "an offset is a number of bytes, as 39000 or 0x9858" },
  numbers: {
    form: /^#?(\d+)(?:-(\d+))?$/,
    read: (found) => rising(Number(found[1]), Number(found[2] || found[1])),
    wanted: "requests are a number or a range that rises, as 3 or 2-9",
  },
};

// What a field says: null where it is empty; undefined where it has another form, and then it is marked.
function readField(id) {
  const field = byId(id), text = field.value.trim(), found = FIELDS[id].form.exec(text);
  const value = text === "" ? null : found ? FIELDS[id].read(found) : undefined;
  field.setAttribute("aria-invalid", value === undefined);
  return value;
}

// Shows what the fields name. Where one has another form this is told, and all stays as it was.
function filter() {
  const values = { offset: readField("offset"), numbers: readField("numbers") };
  const wrong = Object.keys(values).filter((id) => values[id] === undefined);
  byId("count").className = wrong.length ? "red" : "";
  if (wrong.length) {
    byId("count").textContent = wrong.map((id) => FIELDS[id].wanted).join("; ");
    return;
  }
  Object.assign(view, values);
  fillTable();
  fillHistory();
  const [first] = requestTable.rows, isFiltered = view.offset !== null || view.numbers !== null;
  if (first && isFiltered && (requestTable.rows.length === 1 || !inView().some(matches))) select(first, true);
  drawAll();
}

function drawAll() {
  view.width = Math.max(byId("bars").clientWidth, GUTTER + RIGHT + 100);
  drawBars();
  drawExport();
}

// A short session is shown whole, of a long one what is in question.
function lookFirst() {
  const [number] = inQuestion;
  if (requests.count <= FEW || (!number && !guilt.messages.length)) return;
  if (!number) return look(guilt.place - 4000, guilt.place);
  const near = [number, guilt.expected || number], width = 40 * (wholeOf(number) - firstOf(number) + 100);
  const from = Math.min(...near.map(firstOf)), to = Math.max(...near.map((at) => requests.end[at]));
  if (to - from < 4 * width) look(from - width / 4, to + width / 4);
  else look(firstOf(number) - width / 2, requests.end[number] + width / 2);
}

function watch() {
  byId("controls").addEventListener("submit", (event) => {
    event.preventDefault();
    filter();
  });
  byId("clear").addEventListener("click", () => {
    byId("offset").value = byId("numbers").value = "";
    filter();
  });
  byId("in").addEventListener("click", () => zoom(0.5));
  byId("out").addEventListener("click", () => zoom(2));
  byId("whole").addEventListener("click", () => look(0, data.bytes));
  byId("guilty").hidden = !isMarked;
  if (isMistake) byId("guilty").className = "red";
  else byId("guilty").textContent = isCutOff ? "Go to where the capture ends" : "Go to where judging ends";
  byId("guilty").addEventListener("click", () => {
    const [number] = inQuestion;
    if (number) select(number, true);
    else look(guilt.place - 400, guilt.place + 20);
    focusBar();
  });
  byId("bars").addEventListener("keydown", press);
  document.addEventListener("keydown", pressAnywhere);
  watchMouse(byId("bars"));
  watchMouse(byId("export"));
  window.addEventListener("resize", redraw);
}

fillHeader();
fillLegend();
fillTable();
fillHistory();
watch();
lookFirst();
drawAll();
if (inQuestion.size) showDetail([...inQuestion][0]);
