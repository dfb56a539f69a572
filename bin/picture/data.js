"use strict";
// The session's data, and what follows from them. Requests are counted from 1, messages from 0.
const data = JSON.parse(document.getElementById("session").textContent);
const guilt = data.guilt;
const PENDING = "0", SUCCESS = "1", FAILURE = "2";
const COMMANDS = ["READ", "WRITE", "DISC", "FLUSH", "TRIM", "CACHE", "WRITE_ZEROES", "BLOCK_STATUS"];
const READ = 0, WRITE = 1, TRIM = 4, WRITE_ZEROES = 6, BLOCK_STATUS = 7;
// By the numbers of the commands; they differ in lightness too.
const COLORS = ["#7cc4f0", "#0b3f80", "#000000", "#f2d95c", "#cf8a33", "#3f8f5b", "#6d3fae", "#b5376e"];
const OTHER = "#6b6b6b";

// The line of each message stands by itself, and is read when it is shown.
const lines = document.getElementById("lines").textContent.trim().split("\n");
const wordsOf = (at) => JSON.parse(lines[at]);

function sums(steps) {
  let sum = 0;
  return Float64Array.from(steps, (step) => (sum += step));
}

const messages = {
  count: data.messages.sides.length,
  first: sums(data.messages.firsts),
  last: null,
  sides: data.messages.sides,
  request: Uint32Array.from(data.messages.requests),
};
messages.last = messages.first.map((first, at) => first + data.messages.spans[at]);

// A length is a number, or the text of one that is too large to be exact.
const requests = {
  count: data.requests.commands.length,
  message: new Int32Array(data.requests.commands.length + 1).fill(-1),
  reply: new Int32Array(data.requests.commands.length + 1).fill(-1),
  lastReply: new Int32Array(data.requests.commands.length + 1).fill(-1),
  command: [-1, ...data.requests.commands],
  begin: [0n, ...data.requests.offsets.map(BigInt)],
  length: [0, ...data.requests.lengths],
  result: "0" + data.requests.results,
  improper: new Set(data.requests.improper),
  lane: [0, ...data.requests.lanes],
  end: new Float64Array(data.requests.commands.length + 1),
  furthest: new Float64Array(data.requests.commands.length + 1),
};

function findReplies() {
  for (let at = 0; at < messages.count; at++) {
    const number = messages.request[at];
    if (number === 0) continue;
    if (messages.sides[at] === "C") requests.message[number] = at;
    else {
      if (requests.reply[number] < 0) requests.reply[number] = at;
      requests.lastReply[number] = at;
    }
  }
}

// The end of each bar, and the furthest of the ends up to it, by which the bars in view are found.
function findEnds() {
  for (let number = 1; number <= requests.count; number++) {
    const isOpen = requests.result[number] === PENDING;
    requests.end[number] = isOpen ? data.bytes : messages.last[requests.lastReply[number]];
    requests.furthest[number] = Math.max(requests.furthest[number - 1], requests.end[number]);
  }
}

findReplies();
findEnds();

const services = {
  request: data.services.requests,
  begin: data.services.offsets.map((offset) => (offset === null ? null : BigInt(offset))),
  length: data.services.lengths,
  at: data.services.at,
  of: new Map(),
};
// One without an entry is an order too: it serves nothing.
const hasOrder = data.source !== null;
services.request.forEach((number, at) => {
  if (!services.of.has(number)) services.of.set(number, []);
  services.of.get(number).push(at);
});

const firstOf = (number) => messages.first[requests.message[number]];
const wholeOf = (number) => messages.last[requests.message[number]];
const replyOf = (number) => (requests.reply[number] < 0 ? null : messages.first[requests.reply[number]]);
const rangeEnd = (number) => requests.begin[number] + BigInt(requests.length[number]);
const holds = (number, offset) => requests.begin[number] <= offset && offset < rangeEnd(number);
const nameOf = (command) => COMMANDS[command] || `command ${command}`;
const colorOf = (command) => COLORS[command] || OTHER;
const isChange = (number) => [WRITE, TRIM, WRITE_ZEROES].includes(requests.command[number]);
const isHatched = (number) => requests.improper.has(number) || requests.result[number] === FAILURE;
const shortName = (number) => `${nameOf(requests.command[number])} #${number}`;
const lineOf = (number) => wordsOf(requests.message[number]);
const guiltyOffset = guilt.offset === null ? null : BigInt(guilt.offset);
const byteAt = new Map(guilt.bytes);
// What a refused message replies to, and what an entry of the order serves, is in question too.
const inQuestion = new Set([
  ...guilt.requests,
  ...guilt.messages.map((message) => message[3]),
  ...(guilt.entry === null ? [] : [services.request[guilt.entry - 1]]),
].filter((number) => number > 0 && number <= requests.count));
// Of one READ the answer says that its byte is wrong, of several that in each order one of them has a wrong one.
const isWrong = guilt.kind === "content" || guilt.kind === "any";
const isNo = data.verdict.startsWith("no ");
// A session that is not followed shows no mistake, nor does one whose capture ends within a message.
const isCutOff = guilt.fault === "Unfinished";
const isMistake = isNo && !isCutOff && !["OutOfProfile", "ExportTooLarge", "NotFixedNewstyle"].includes(guilt.fault);
// Whether the picture has something that is red; an image's size has no place in it, nor an entry whose request there is not.
const isMarked = isNo && (guilt.place !== null || inQuestion.size > 0);

// The rules of proto.md that were not kept, by the messages that first show it.
const breachesOf = new Map();
for (const breach of data.breaches) breachesOf.set(breach.message, [...(breachesOf.get(breach.message) || []), breach]);
const breachLine = (breach) => `${breach.side}: ${breach.rule}: ${breach.text}${breach.more ? ` (${breach.more} more)` : ""}`;

// The first place in a range at which this holds, where it holds from there on.
function firstWhere(from, to, test) {
  while (from < to) {
    const middle = (from + to) >> 1;
    if (test(middle)) to = middle;
    else from = middle + 1;
  }
  return from;
}

// Thousands stand apart, and no line breaks there.
const grouped = (number) => String(number).replace(/\B(?=(\d{3})+$)/g, "\u202f");
const counted = (number, word) => `${grouped(number)} ${word}${Number(number) === 1 ? "" : "s"}`;

// What is said of a request's part in the answer, before its line.
function roleOf(number) {
  if (inQuestion.has(number)) return isWrong ? "Wrong byte" : "In question";
  return number === guilt.expected ? "Expected write" : "";
}

function servedBy(number) {
  return (services.of.get(number) || []).map((at) => {
    if (services.begin[at] === null) return `${at + 1}`;
    return `${at + 1} (${counted(services.length[at], "byte")} at ${services.begin[at]})`;
  });
}
