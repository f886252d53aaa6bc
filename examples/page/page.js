"use strict";
// Shows a run on a canvas. The entries are columns of numbers (page.py says which); a position is an entry's number from 0, and its line
// in the text is the position and 2. `view.from` and `view.to` are the positions at the canvas's left and right edge.

const [SEND, DELIVER, STABLE, CRASH, RESTART, FORGET] = [0, 1, 2, 3, 4, 5];
const NONE = 0xffffffff;
const COLORS = {
  line: "#9a9a9a", mark: "#333333", message: "#8fa3b8", chain: "#e07b00", crash: "#b3261e", up: "#2c7a3d",
  holder: "#1f5fa8", instant: "#7a2a8c",
};
const MARKED_AT_MOST = 4000; // more entries in the window are shown as counts
const LABELS = 86; // width of the column of process names
const FACTS = {
  delivery: "nobody could replay this delivery", cause: "this entry makes the instant fail", unstable: "not in stable storage up to here",
  holder: "has the determinant since here", loss: "had it, and lost it here", crash: "in the crash set", chain: "on the way to the orphan",
  unlisted: "the first delivery after which its receiver lacks it", listed: "no delivery of the chain lacks it",
  orphan: "depends on the delivery, lacks its determinant", down: "down since here",
  closest: "the least number of failures that fails", underway: "it was in transit, and arrives only here",
};

const byId = (id) => document.getElementById(id);
const canvas = byId("run"), overview = byId("overview");
const data = JSON.parse(byId("data").textContent);
const view = { from: 0, to: 1, top: 0, rows: [], rowOf: new Int16Array(256), near: -1, kept: -1 };
let trace; // the columns and what is derived of them, once decoded

// ---- the columns

async function decoded() {
  const text = atob(byId("columns").textContent.trim()), bytes = new Uint8Array(text.length);
  for (let i = 0; i < text.length; i++) bytes[i] = text.charCodeAt(i);
  const stream = new Blob([bytes]).stream().pipeThrough(new DecompressionStream("deflate"));
  const buffer = await new Response(stream).arrayBuffer(), n = data.entries;
  const words = (at, length) => new Uint32Array(buffer, 4 * at, length), tail = 4 * (3 * n + data.listed);
  return {
    n, refers: words(0, n), number: words(n, n), count: words(2 * n, n), listed: words(3 * n, data.listed),
    kind: new Uint8Array(buffer, tail, n), process: new Uint8Array(buffer, tail + n, n),
  };
}

// Adds of each send its first delivery, of each entry where its list begins, and of each process its crashes and restarts.
function indexed(columns) {
  const { n, kind, process, refers, count } = columns;
  const delivery = new Uint32Array(n).fill(NONE), begins = new Uint32Array(n), turns = Array.from({ length: 256 }, () => []);
  let listed = 0;
  for (let i = 0; i < n; i++) {
    begins[i] = listed;
    listed += count[i];
    if (kind[i] === DELIVER && delivery[refers[i]] === NONE) delivery[refers[i]] = i;
    else if (kind[i] === CRASH || kind[i] === RESTART) turns[process[i]].push(i);
  }
  const crashes = turns.reduce((sum, found) => sum + Math.ceil(found.length / 2), 0);
  return { ...columns, delivery, begins, turns, crashes };
}

// ---- the answer: which positions, processes and marks it has

// The position of an entry that a field of a fact names, or -1.
function positionOf(key, value) {
  if (typeof value !== "number") return -1;
  const at = { line: value - 2, send: value - 2, until: value - 2, delivery: value, first: value, second: value, instant: value - 1 }[key];
  return at === undefined || at < 0 || at >= data.entries ? -1 : at;
}

const positionsOf = (fact) => Object.entries(fact).map(([key, value]) => positionOf(key, value)).filter((at) => at >= 0);
const reasons = () => (data.answer && (data.answer.reason || data.answer.ranges)) || [];
const factsOf = (...names) => reasons().filter((fact) => names.includes(fact.fact));

function breachPositions() {
  const answer = data.answer || {}, own = ["instant", "delivery", "first", "second", "line"].map((key) => positionOf(key, answer[key]));
  return [...own, ...reasons().flatMap(positionsOf)].filter((at) => at >= 0);
}

function breachProcesses() {
  const answer = data.answer || {}, found = new Set([...(answer.crash || []), ...(answer.down || []), answer.orphan, answer.process]);
  for (const fact of reasons()) found.add(fact.process).add(fact.orphan);
  for (const at of breachPositions()) found.add(trace.process[at]);
  return [...found].filter((p) => typeof p === "number" && p < data.processes).sort((a, b) => a - b);
}

// ---- geometry

const width = () => canvas.clientWidth, height = () => canvas.clientHeight;
const scale = () => (width() - LABELS) / (view.to - view.from);
const xOf = (at) => LABELS + (at + 0.5 - view.from) * scale();
const atX = (x) => view.from + (x - LABELS) / scale();
const rowHeight = () => Math.max(14, Math.min(64, (height() - 8) / view.rows.length));
const yOf = (p) => (view.rowOf[p] < 0 ? NaN : 4 + (view.rowOf[p] + 0.5) * rowHeight() - view.top);

const isShown = (p) => yOf(p) > -rowHeight() && yOf(p) < height() + rowHeight();

function setRows(rows) {
  view.rows = rows.length ? rows : Array.from({ length: data.processes }, (_, p) => p);
  view.rowOf.fill(-1);
  view.rows.forEach((p, row) => (view.rowOf[p] = row));
  moveRows(0);
}

function moveRows(by) {
  view.top = Math.max(0, Math.min(view.top + by, view.rows.length * rowHeight() + 8 - height()));
  draw();
}

// Shows these positions, at least eight and at most a little more than all.
function show(from, to) {
  const least = 8, most = Math.max(least, trace.n + 2), span = Math.max(least, Math.min(to - from, most)), middle = (from + to) / 2;
  view.from = Math.max(-1, Math.min(middle - span / 2, Math.max(-1, trace.n + 1 - span)));
  view.to = view.from + span;
  draw();
}

function zoom(x, by) {
  const at = atX(Math.max(x, LABELS));
  show(at + (view.from - at) * by, at + (view.to - at) * by);
}

function goTo(at) {
  const span = Math.min(view.to - view.from, 60);
  keep(at);
  if (view.rowOf[trace.process[at]] < 0) (byId("only").checked = false), setRows([]);
  const y = yOf(trace.process[at]);
  if (y < 0 || y > height()) moveRows(y - height() / 2);
  show(at + 0.5 - span / 2, at + 0.5 + span / 2);
}

const showWhole = () => show(-1, trace.n + 1);

function showBreach() {
  const found = breachPositions();
  if (!found.length) return showWhole();
  const least = Math.min(...found), greatest = Math.max(...found), room = 4 + (greatest - least) * 0.06;
  show(least - room, greatest + 1 + room);
}

// ---- drawing

function fitted(on) {
  const ratio = window.devicePixelRatio || 1, w = Math.round(on.clientWidth * ratio), h = Math.round(on.clientHeight * ratio);
  if (on.width !== w || on.height !== h) (on.width = w), (on.height = h);
  const pen = on.getContext("2d");
  pen.setTransform(ratio, 0, 0, ratio, 0, 0);
  pen.clearRect(0, 0, w, h);
  return pen;
}

function path(pen, color, thick, points) {
  pen.strokeStyle = color;
  pen.lineWidth = thick;
  pen.beginPath();
  points.forEach(([x, y], i) => (i ? pen.lineTo(x, y) : pen.moveTo(x, y)));
  pen.stroke();
}

let pending = false;
function draw() {
  if (pending || !trace) return;
  pending = true;
  requestAnimationFrame(() => {
    pending = false;
    drawRun();
    drawOverview();
  });
}

function drawRun() {
  const pen = fitted(canvas), first = Math.max(0, Math.floor(view.from)), last = Math.min(trace.n, Math.ceil(view.to) + 1);
  pen.save();
  pen.beginPath();
  pen.rect(LABELS, 0, width(), height());
  pen.clip();
  drawShades(pen);
  view.rows.forEach((p) => drawLife(pen, p));
  const marked = last - first <= MARKED_AT_MOST;
  if (!marked) drawCounts(pen, first, last);
  drawBands(pen);
  if (marked) drawMarks(pen, first, last);
  drawAnswer(pen);
  for (const at of [view.kept, view.near]) if (at >= 0) drawEntry(pen, at);
  pen.restore();
  drawNames(pen);
  byId("range").textContent = `lines ${first + 2} to ${last + 1} of ${trace.n + 1}`;
}

function drawNames(pen) {
  pen.fillStyle = COLORS.mark;
  pen.textAlign = "right";
  pen.textBaseline = "middle";
  pen.font = "12px system-ui, sans-serif";
  for (const p of view.rows) pen.fillText(`process ${p}`, LABELS - 6, yOf(p));
}

function drawShades(pen) {
  const answer = data.answer || {}, h = rowHeight();
  pen.fillStyle = "rgba(179, 38, 30, 0.09)";
  for (const p of answer.crash || answer.down || []) pen.fillRect(LABELS, yOf(p) - h / 2, width(), h);
}

// A process's line, and a shade while it is down. Crashes and restarts alternate.
function drawLife(pen, p) {
  const y = yOf(p), turns = trace.turns[p], shade = Math.min(8, rowHeight() / 3);
  if (!isShown(p)) return;
  path(pen, COLORS.line, 1, [[LABELS, y], [xOf(trace.n), y]]);
  pen.fillStyle = "rgba(120, 120, 120, 0.28)";
  let painted = 0;
  for (let i = 0; i < turns.length; i += 2) {
    const from = Math.max(xOf(turns[i]), painted), to = i + 1 < turns.length ? xOf(turns[i + 1]) : xOf(trace.n);
    if (to < LABELS || to <= from || from > width()) continue;
    painted = Math.max(to, from + 0.5);
    pen.fillRect(from, y - shade, painted - from, 2 * shade);
  }
}

// How many entries each row has at each pixel, and the crashes and restarts among them.
function drawCounts(pen, first, last) {
  const columns = Math.ceil(width() - LABELS), rows = view.rows.length, counts = new Uint16Array(rows * columns), by = scale();
  const { kind, process } = trace, rowOf = view.rowOf, turned = [];
  for (let i = first; i < last; i++) {
    const row = rowOf[process[i]], x = ((i + 0.5 - view.from) * by) | 0;
    if (row < 0 || x < 0 || x >= columns) continue;
    const cell = row * columns + x;
    if (counts[cell] < 65535) counts[cell]++;
    if (kind[i] === CRASH || kind[i] === RESTART) turned.push(i);
  }
  const most = Math.max(2, (2 * (last - first)) / columns / Math.min(rows, 8)), h = rowHeight(), image = new ImageData(columns, rows);
  const pixels = new Uint32Array(image.data.buffer); // alpha, blue, green, red
  for (let cell = 0; cell < counts.length; cell++) {
    if (counts[cell]) pixels[cell] = ((50 + 205 * Math.min(1, counts[cell] / most)) << 24) | 0x805a3a;
  }
  const small = new OffscreenCanvas(columns, rows);
  small.getContext("2d").putImageData(image, 0, 0);
  pen.imageSmoothingEnabled = false;
  const bar = Math.min(h * 0.6, 24);
  view.rows.forEach((p, row) => isShown(p) && pen.drawImage(small, 0, row, columns, 1, LABELS, yOf(p) - bar / 2, columns, bar));
  for (const at of turned.filter((i) => isShown(process[i]))) {
    pen.fillStyle = kind[at] === CRASH ? COLORS.crash : COLORS.up;
    pen.fillRect(xOf(at) - 0.5, yOf(process[at]) - h * 0.4, 1, h * 0.8);
  }
}

// The messages of which an end is shown, and a mark for each entry.
function drawMarks(pen, first, last) {
  const size = Math.max(1.6, Math.min(4, scale() / 2.4, rowHeight() / 4));
  pen.strokeStyle = COLORS.message;
  pen.lineWidth = 1;
  pen.globalAlpha = Math.max(0.25, Math.min(1, scale() / 4));
  pen.beginPath();
  for (let i = first; i < last; i++) {
    if (trace.kind[i] === DELIVER) message(pen, trace.refers[i], i);
    else if (trace.kind[i] === SEND && trace.delivery[i] !== NONE && trace.delivery[i] >= last) message(pen, i, trace.delivery[i]);
  }
  pen.stroke();
  pen.globalAlpha = 1;
  for (let i = first; i < last; i++) mark(pen, i, size, COLORS.mark);
}

function message(pen, send, delivery) {
  const from = yOf(trace.process[send]), to = yOf(trace.process[delivery]);
  if (Number.isNaN(from + to)) return;
  pen.moveTo(xOf(send), from);
  pen.lineTo(xOf(delivery), to);
}

function mark(pen, at, size, color) {
  const x = xOf(at), y = yOf(trace.process[at]), kind = trace.kind[at], wide = size + 1;
  if (Number.isNaN(y)) return;
  pen.beginPath();
  if (kind === CRASH) return cross(pen, x, y, wide);
  if (kind === FORGET) return path(pen, color, 2, [[x, y - wide], [x, y + wide]]);
  if (kind === STABLE) diamond(pen, x, y, wide);
  else pen.arc(x, y, kind === RESTART ? wide : size, 0, 7);
  pen.closePath();
  pen.lineWidth = kind === RESTART ? 2 : 1;
  pen.strokeStyle = kind === RESTART ? COLORS.up : color;
  pen.fillStyle = kind === DELIVER || kind === STABLE ? color : "#ffffff";
  pen.fill();
  pen.stroke();
}

function cross(pen, x, y, wide) {
  path(pen, COLORS.crash, 2, [[x - wide, y - wide], [x + wide, y + wide]]);
  path(pen, COLORS.crash, 2, [[x - wide, y + wide], [x + wide, y - wide]]);
}

function diamond(pen, x, y, wide) {
  pen.moveTo(x, y - wide);
  for (const [a, b] of [[x + wide, y], [x, y + wide], [x - wide, y]]) pen.lineTo(a, b);
}

// Where the answer's instant is, or the end of the run.
const endOf = (answer) => xOf((typeof answer.instant === "number" ? answer.instant : trace.n) - 0.5);
const pointOf = (at) => [xOf(at), yOf(trace.process[at])];

// What lies below the marks: holders from where they have the determinant, and the chain.
function drawBands(pen) {
  const end = endOf(data.answer || {});
  for (const fact of factsOf("holder")) {
    const y = yOf(fact.process) + 5;
    if (fact.line) path(pen, COLORS.holder, 4, [[xOf(fact.line - 2), y], [end, y]]);
  }
  path(pen, COLORS.chain, 3, factsOf("chain").map((fact) => pointOf(fact.line - 2)).filter(([, y]) => !Number.isNaN(y)));
}

// What lies above them: the entries that the answer names, the instant, the orphan.
function drawAnswer(pen) {
  const answer = data.answer || {}, end = endOf(answer);
  for (const fact of factsOf("delivery", "unlisted", "cause", "loss").filter((fact) => fact.line)) {
    ring(pen, fact.fact === "loss" ? COLORS.crash : COLORS.chain, ...pointOf(fact.line - 2));
  }
  for (const at of ["delivery", "first", "second"].map((key) => positionOf(key, answer[key])).filter((at) => at >= 0)) {
    ring(pen, COLORS.chain, ...pointOf(at));
  }
  if (typeof answer.instant === "number") path(pen, COLORS.instant, 2, [[end, 0], [end, height()]]);
  if (typeof answer.orphan !== "number") return;
  pen.fillStyle = COLORS.crash;
  pen.textAlign = "left";
  pen.textBaseline = "bottom";
  pen.font = "bold 12px system-ui, sans-serif";
  pen.fillText("orphan", end + 4, yOf(answer.orphan) - 2);
}

function ring(pen, color, x, y) {
  pen.beginPath();
  pen.arc(x, y, 8, 0, 7);
  pen.strokeStyle = color;
  pen.lineWidth = 2;
  pen.stroke();
}

// The entry at the pointer, or a kept one, with its message.
function drawEntry(pen, at) {
  const other = otherEnd(at);
  if (other !== NONE) path(pen, COLORS.holder, 2, [pointOf(at), pointOf(other)]);
  mark(pen, at, 5, COLORS.holder);
  ring(pen, COLORS.holder, ...pointOf(at));
}

// All entries in one strip: their number at each pixel, crashes in red, the instant, and what the canvas below shows.
function drawOverview() {
  const pen = fitted(overview), w = overview.clientWidth - LABELS, h = overview.clientHeight;
  const at = (i) => LABELS + (i / Math.max(1, trace.n)) * w;
  pen.fillStyle = "#c9d4e0";
  pen.fillRect(LABELS, h / 2 - 5, w, 10);
  pen.fillStyle = COLORS.crash;
  pen.globalAlpha = Math.max(0.08, Math.min(1, w / trace.crashes / 4));
  for (const turns of trace.turns) for (let i = 0; i < turns.length; i += 2) pen.fillRect(at(turns[i]), 5, 1, h - 10);
  pen.globalAlpha = 1;
  pen.fillStyle = COLORS.chain;
  for (const i of breachPositions()) pen.fillRect(at(i) - 1, 2, 2, h - 4);
  pen.strokeStyle = COLORS.mark;
  pen.lineWidth = 2;
  pen.fillStyle = "rgba(31, 95, 168, 0.15)";
  const left = at(Math.max(0, view.from)), right = Math.max(left + 3, at(Math.min(trace.n, view.to)));
  pen.fillRect(left, 1, right - left, h - 2);
  pen.strokeRect(left, 1, right - left, h - 2);
}

// ---- what an entry says

const lineOf = (at) => at + 2;
const otherEnd = (at) => (trace.kind[at] === DELIVER ? trace.refers[at] : trace.kind[at] === SEND ? trace.delivery[at] : NONE);

// The determinant of the delivery at a position.
function determinant(at) {
  const send = trace.refers[at];
  return `[${trace.process[send]},${trace.number[send]},${trace.process[at]},${trace.number[at]}]`;
}

function sentence(at) {
  const p = trace.process[at], to = trace.refers[at], number = trace.number[at], count = trace.count[at], other = otherEnd(at);
  const listed = `${count} determinant${count === 1 ? "" : "s"}`;
  const delivered = `delivered on line ${lineOf(other)}`, sender = `process ${trace.process[to]}, sent on line ${lineOf(to)}`;
  const texts = [
    () => `process ${p} sends message ${number} to process ${to}, ${other === NONE ? "not delivered" : delivered}`,
    () => `process ${p} delivers message ${trace.number[to]} of ${sender}, as its delivery ${number}; ${listed}`,
    () => `${determinant(to)} of line ${lineOf(to)} is in stable storage`,
    () => `process ${p} crashes`,
    () => `process ${p} restarts with ${listed}`,
    () => `process ${p} forgets ${listed}`,
  ];
  return `line ${lineOf(at)}: ${texts[trace.kind[at]]()}`;
}

function keep(at) {
  view.kept = at;
  const box = byId("entry"), begins = trace.begins[at], shown = Math.min(trace.count[at], 200);
  const lane = trace.turns[trace.process[at]].filter((i) => i <= at && trace.kind[i] === RESTART).length;
  box.replaceChildren(element("p", sentence(at)), element("p", `incarnation ${lane} of process ${trace.process[at]}`));
  if (otherEnd(at) !== NONE) box.append(link(trace.kind[at] === SEND ? "its delivery" : "its send", otherEnd(at)));
  for (const det of trace.listed.subarray(begins, begins + shown)) {
    box.append(element("br"), link(`${determinant(det)} of line ${lineOf(det)}`, det));
  }
  if (trace.count[at] > shown) box.append(element("p", `and ${trace.count[at] - shown} more`));
  draw();
}

function element(name, text) {
  const made = document.createElement(name);
  if (text !== undefined) made.textContent = text;
  return made;
}

function link(text, at) {
  const made = element("button", text);
  made.onclick = () => goTo(at);
  return made;
}

// ---- the entry at the pointer

function entryAt(x, y) {
  const row = Math.floor((y - 4 + view.top) / rowHeight()), p = view.rows[row], middle = Math.round(atX(x) - 0.5);
  const reach = Math.min(20000, Math.ceil(Math.max(1, 10 / scale())));
  if (p === undefined || x < LABELS) return -1;
  for (let by = 0; by <= reach; by++) {
    for (const at of [middle - by, middle + by]) if (at >= 0 && at < trace.n && trace.process[at] === p) return at;
  }
  return -1;
}

function point(event) {
  const at = entryAt(event.offsetX, event.offsetY), tip = byId("tip");
  tip.style.display = at < 0 ? "none" : "block";
  tip.style.left = `${Math.min(event.clientX + 14, window.innerWidth - 430)}px`;
  tip.style.top = `${event.clientY + 18}px`;
  if (at >= 0) tip.textContent = sentence(at);
  if (at !== view.near) (view.near = at), draw();
}

// ---- the side, and what the hands do

const fieldsOf = (object) => Object.entries(object).filter(([key]) => !["fact", "verdict", "reason", "ranges"].includes(key));
const valueOf = (value) => (value === null || value.length === 0 ? "-" : value);
const spelled = (word, object) => [word, ...fieldsOf(object).map(([key, value]) => `${key}=${valueOf(value)}`)].join(" ");

function listFacts() {
  const answer = data.answer, box = byId("facts");
  byId("title").textContent = document.title = data.title;
  const first = answer && answer.verdict ? spelled(answer.verdict, answer) : "for which numbers of failures the run is safe";
  byId("verdict").textContent = answer ? first : "none was given";
  for (const fact of reasons()) {
    const made = element("button", spelled(fact.fact || fact.verdict, fact));
    const places = positionsOf(fact);
    made.className = "fact";
    made.disabled = !places.length;
    if (fact.fact === "chain") made.style.borderColor = COLORS.chain;
    if (FACTS[fact.fact]) made.append(element("small", FACTS[fact.fact]));
    made.onclick = () => goTo(places[0]);
    box.append(made);
  }
}

function listen() {
  let held = null;
  canvas.onmousedown = (event) => {
    held = { x: event.clientX, y: event.clientY, from: view.from, to: view.to, top: view.top, moved: false };
    canvas.classList.add("dragged");
  };
  window.onmouseup = (event) => {
    if (held && !held.moved && event.target === canvas) view.near >= 0 && keep(view.near);
    held = null;
    canvas.classList.remove("dragged");
  };
  canvas.onmousemove = (event) => {
    if (!held) return point(event);
    const by = (event.clientX - held.x) / scale();
    held.moved = held.moved || Math.hypot(event.clientX - held.x, event.clientY - held.y) > 3;
    show(held.from - by, held.to - by);
    moveRows(held.top - (event.clientY - held.y) - view.top);
  };
  canvas.onmouseleave = () => ((byId("tip").style.display = "none"), (view.near = -1), draw());
  canvas.addEventListener("wheel", (event) => {
    event.preventDefault();
    const by = event.deltaY || event.deltaX;
    if (event.shiftKey) moveRows(by / 2);
    else zoom(event.offsetX, Math.exp(by / 500));
  }, { passive: false });
  overview.onmousemove = overview.onmousedown = (event) => {
    if (event.buttons === 1) slide((event.offsetX - LABELS) / (overview.clientWidth - LABELS));
  };
  window.onresize = () => moveRows(0);
}

function slide(part) {
  const span = view.to - view.from, at = part * trace.n;
  show(at - span / 2, at + span / 2);
}

function listenToKeys() {
  const step = () => (view.to - view.from) / 8, middle = () => (width() + LABELS) / 2;
  const slideBy = (by) => show(view.from + by, view.to + by);
  const keys = {
    ArrowLeft: () => slideBy(-step()), ArrowRight: () => slideBy(step()), ArrowUp: () => moveRows(-40), ArrowDown: () => moveRows(40),
    "+": () => zoom(middle(), 0.7), "-": () => zoom(middle(), 1.4), 0: showWhole, b: showBreach,
  };
  canvas.onkeydown = (event) => keys[event.key] && (event.preventDefault(), keys[event.key]());
  byId("whole").onclick = showWhole;
  byId("breach").onclick = showBreach;
  byId("only").onchange = (event) => setRows(event.target.checked ? breachProcesses() : []);
  byId("line").onchange = (event) => {
    const at = positionOf("line", Number(event.target.value));
    if (at >= 0) goTo(at);
  };
}

async function start() {
  trace = indexed(await decoded());
  byId("breach").disabled = byId("only").disabled = !breachProcesses().length;
  byId("line").max = trace.n + 1;
  listFacts();
  listen();
  listenToKeys();
  setRows([]);
  showBreach();
  requestAnimationFrame(() => requestAnimationFrame(() => (document.body.dataset.loaded = Math.round(performance.now()))));
}

start();
