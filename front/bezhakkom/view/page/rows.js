// The rows of the run: where they stand, how they are drawn, and the handles of events on them.
import {$, s, WIRE, FRAMING, changed, columns, hex, measure, number, shown, shownText, what} from "./state.js";
import {CanvasPen, colors, hatching, shade} from "./pen.js";
import {difference} from "./panes.js";
import {isHeld} from "./gestures.js";

export const LEFT = 160, RIGHT = 110, HEAD = 30;
const ROW = 36, FUNCTION = 20, STRIP = 16;
const MOST_FUNCTIONS = 10;                  // that have rows of their own
const LETTERS = "ABCDEFGHIJKLMNOPQRSTUVWXYZ";
export const letter = at => at < 26 ? LETTERS[at] : LETTERS[at / 26 - 1 | 0] + LETTERS[at % 26];

export let rows = [];
let unfolded = false, order = [], palette = colors();
export const unfold = () => { unfolded = !unfolded; };
export const readColors = () => { palette = colors(); };

export const X = step => LEFT + (step - s.view.begin) / (s.view.end - s.view.begin) * columns();
export const S = x => Math.round(s.view.begin + (x - LEFT) / columns() * (s.view.end - s.view.begin));
// The step of what is drawn nearest to a point, or the point's own.
export function near(x, row) {
  const steps = !row ? [] : row.kind === "out" ? s.now.sent[row.line].marks.map(it => it[1]) : row.kind === "word" ? s.now.words[row.word].stores.map(it => it[0])
    : row.kind === "in" || row.kind === "wire" ? s.now.events.filter(it => it[2] === row.line && (it[4] === WIRE) === (row.kind === "wire")).map(it => it[1]) : [];
  const best = steps.reduce((found, it) => Math.abs(X(it) - x) < Math.abs(X(found) - x) ? it : found, -1e12);
  return Math.abs(X(best) - x) <= 4 ? best : S(x);
}
export const rowAt = y => rows.find(it => y >= it.y && y < it.y + it.h);
const beside = () => s.showGhost ? s.ghost : null;

export function layout() {
  measure();
  const now = s.now, ghost = beside(), made = [];
  const lines = new Set(now.lines), wires = new Set([...now.wires, ...(ghost ? ghost.wires : [])]);
  if (ghost) for (const line of ghost.lines) lines.add(line);
  if (!lines.size && !wires.size) lines.add(0);
  if (s.allLines) { for (let line = 0; line < 4; line++) lines.add(line); for (let line = 0; line < 3; line++) wires.add(line); }
  for (let line = 0; line < 4; line++) {
    const sends = now.sent[line].whole || ghost && ghost.sent[line].whole;
    if (lines.has(line) || sends) made.push({kind: "in", line, name: `line ${line} receives`});
    if (sends) made.push({kind: "out", line, name: `line ${line} sends`});
  }
  for (const wire of [...wires].sort()) made.push({kind: "wire", line: wire, name: `external line ${wire}`});
  s.state.words.forEach((name, word) => made.push({kind: "word", word, name}));
  made.push(...functionRows(now.functions, ghost && ghost.functions));
  let y = HEAD;
  for (const row of made) {
    const swept = s.sweep && s.sweep.kind === "step" && (row.kind === "in" || row.kind === "wire") && row.line === s.sweep.line && (row.kind === "wire") === s.sweep.isWire;
    row.y = y; row.h = row.kind === "function" || row.kind === "others" ? FUNCTION : ROW + (swept ? STRIP : 0);
    row.swept = swept; y += row.h;
  }
  rows = made;
  return y + 8;
}

// The functions that matter in view: where the most samples are, and where the pasts differ. The others are one row.
function functionRows(now, ghost) {
  const count = new Map(), differs = new Set();
  for (const [, name] of now.at) count.set(now.names[name], (count.get(now.names[name]) || 0) + 1);
  if (ghost) for (const [, name] of ghost.at) if (!count.has(ghost.names[name])) { count.set(ghost.names[name], 0); differs.add(ghost.names[name]); }
  const weight = name => count.get(name) + (differs.has(name) ? 0.5 : 0);
  if (!isHeld()) order = [];
  const names = [...count.keys()].sort((a, b) => weight(b) - weight(a));
  for (const name of names) if (!order.includes(name)) order.push(name);
  order = order.filter(it => count.has(it));
  const matter = order.filter((name, at) => at < MOST_FUNCTIONS && (differs.has(name) || count.get(name) / now.at.length > 0.005));
  const rest = order.filter(it => !matter.includes(it)), made = [...matter, ...(unfolded ? rest : [])];
  const rows = made.map(name => ({kind: "function", name, share: count.get(name) / now.at.length}));
  if (rest.length) rows.push({kind: "others", name: unfolded ? `fold ${rest.length}` : `${rest.length} others`, names: new Set(rest),
    share: rest.reduce((sum, it) => sum + count.get(it), 0) / now.at.length});
  return rows;
}

export function draw() {
  if (!s.now || !s.state) return;
  const canvas = $("canvas"), height = layout(), ratio = devicePixelRatio || 1, width = canvas.clientWidth, g = canvas.getContext("2d");
  if (canvas.width !== Math.round(width * ratio) || canvas.height !== Math.round(height * ratio)) {
    canvas.width = Math.round(width * ratio); canvas.height = Math.round(height * ratio); canvas.style.height = height + "px";
  }
  g.setTransform(ratio, 0, 0, ratio, 0, 0);
  paint(new CanvasPen(g, palette), width, height);
  names();
  handles();
  canvas.setAttribute("aria-valuemax", s.state.end);
  canvas.setAttribute("aria-valuenow", s.cursor);
  canvas.setAttribute("aria-valuetext", s.at && s.at.position === s.cursor ? `step ${number(s.cursor)}, ${s.at.name || hex(s.at.pc)}` : `step ${number(s.cursor)}`);
}

export function paint(pen, width, height, withNames = false) {
  const right = LEFT + columns(), ghost = beside();
  pen.rect(0, 0, width, height, "paper");
  ruler(pen, height);
  for (const row of rows) {
    if (withNames) pen.text(LEFT - 10, row.y + Math.min(row.h, ROW) / 2, row.name, "ink", "plain", "right");
    pen.rect(LEFT, row.y + row.h - 1, columns(), 1, "rule");
    pen.clip(LEFT - 1, row.y, columns() + 2, row.h);
    if (row.kind === "in") { if (ghost) former(pen, row, ghost); if (row.swept) strip(pen, row); if (withNames) inked(pen, row); }
    if (row.kind === "out") { if (ghost) bytes(pen, row, ghost, true); bytes(pen, row, s.now, false); unlike(pen, row, ghost && sendsUnlike(row)); }
    if (row.kind === "wire") { if (ghost) wire(pen, row, ghost, "ghost", 3, [3, 3]); wire(pen, row, s.now, "in", 1.5, []); if (row.swept) strip(pen, row); }
    if (row.kind === "word") { if (ghost && ghost.words[row.word]) word(pen, row, ghost.words[row.word], true); word(pen, row, s.now.words[row.word], false); unlike(pen, row, ghost && storesUnlike(row, ghost)); }
    if (row.kind === "function" || row.kind === "others") { if (ghost) samples(pen, row, ghost.functions, "ghost", row.y + FUNCTION - 7, 4); samples(pen, row, s.now.functions, "code", row.y + 3, FUNCTION - 11); if (row.kind === "function") entries(pen, row); }
    pen.end();
    pen.text(right + 8, row.y + Math.min(row.h, ROW) / 2, note(row), "faint", "small");
  }
  if (s.now.until < s.view.end) pen.hatch(X(s.now.until), HEAD, right - X(s.now.until), height - HEAD, "rule", false);
  const x = X(s.cursor);
  if (x >= LEFT - 1 && x <= right + 1) {
    pen.rect(Math.round(x), HEAD - 10, 1.5, height - HEAD + 6, "edit");
    pen.path([[x - 4, HEAD - 12], [x + 5, HEAD - 12], [x + .5, HEAD - 5], [x - 4, HEAD - 12]], "edit", 2);
  }
}

function note(row) {
  const at = s.at && s.at.position === s.cursor ? s.at : null;
  if (row.kind === "in") return s.now.thinned ? "some of its events" : "";
  if (row.kind === "out") return s.now.until < s.state.end ? `${number(s.now.sent[row.line].whole)} bytes so far` : `${number(s.now.sent[row.line].whole)} bytes`;
  if (row.kind === "word") return at && at.words[row.word] !== undefined ? hex(at.words[row.word]) : "";
  const visits = row.kind === "function" ? s.now.visits[row.name] : null;
  if (visits && visits[1] && !s.now.functions.exact) return `entered ${visits[0].length === 1 ? "once" : `${visits[0].length} times`}`;
  if (row.kind === "function" || row.kind === "others") return `${row.share === 1 ? 100 : (100 * row.share).toFixed(1)} % of ${s.now.functions.exact ? "steps" : "samples"}`;
  return "";
}

function ruler(pen, height) {
  const raw = (s.view.end - s.view.begin) / 7, power = 10 ** Math.floor(Math.log10(raw));
  const unit = Math.max(1, [1, 2, 5, 10].find(it => it * power >= raw) * power);
  for (let step = Math.ceil(s.view.begin / unit) * unit; step <= s.view.end; step += unit) {
    pen.rect(X(step), HEAD - 10, 1, height - HEAD + 6, "rule");
    pen.text(X(step), 9, number(step), "faint", "small", "center");
  }
}

function former(pen, row, ghost) {
  for (const it of ghost.events) if (it[4] !== WIRE && it[2] === row.line) pen.rect(X(it[1]), row.y + 3, 2, ROW - 6, "ghost");
}

// Events as they are drawn in a picture, where there are no handles.
function inked(pen, row) {
  for (const it of s.now.events) if (it[4] !== WIRE && it[2] === row.line) { pen.rect(X(it[1]), row.y + 6, 3, 20, "in"); pen.text(X(it[1]) + 5, row.y + 17, shown(it[3]), "in", "fixed"); }
}

// The text of places of a line, where it is known.
export function textOf(past, line, first, end) {
  for (const [from, text] of past.text[line]) if (first >= from && end <= from + text.length) return text.slice(first - from, end - from);
  return null;
}

function bytes(pen, row, past, isGhost) {
  const marks = past.sent[row.line].marks, color = isGhost ? "ghost" : "out", top = isGhost ? row.y + 1 : row.y + 14, tick = isGhost ? row.y + 11 : row.y + ROW - 10;
  let run = null, last = -1e9;
  const flush = until => {
    if (!run) return;
    const room = Math.floor((until - run.x - 3) / 6.7), text = textOf(past, row.line, run.from, run.to);
    if (room > 1 && text !== null) { const all = shownText(text); pen.text(run.x, top + 5, all.length > room ? all.slice(0, room - 1) + "…" : all, color, "fixed"); }
    run = null;
  };
  marks.forEach(([place, step], at) => {
    const x = X(step), next = at + 1 < marks.length ? marks[at + 1][0] : place + 1;
    pen.rect(x, tick, next - place > 1 ? Math.max(1.5, X(marks[at + 1][1]) - x) : 1.5, isGhost ? 3 : 7, color);
    if (run && x - last > 24) flush(x);
    if (!run) run = {x, from: place};
    run.to = next; last = x;
  });
  flush(LEFT + columns());
}

function wire(pen, row, past, color, width, dash) {
  const y = level => row.y + (level ? 8 : ROW - 9);
  let level = past.levels[row.line] || 0;
  const points = [[LEFT, y(level)]];
  for (const it of past.events) if (it[4] === WIRE && it[2] === row.line) { points.push([X(it[1]), y(level)]); level = it[3]; points.push([X(it[1]), y(level)]); }
  points.push([LEFT + columns(), y(level)]);
  pen.path(points, color, width, dash);
}

// Where a row is not as in the other past: a line below it, which begins with a sign.
function unlike(pen, row, stretch) {
  if (!stretch) return;
  const [first, last] = stretch.map(X), y = row.y + ROW - 3;
  pen.path([[first, y], [Math.max(last, first + 6), y]], "edit", 2);
  pen.text(Math.max(LEFT, first) - 9, y - 4, "≠", "edit", "fixed");
}
function sendsUnlike(row) {
  const it = difference(row.line), marks = s.now.sent[row.line].marks;
  if (!it || !marks.length) return null;
  const step = place => (marks.filter(mark => mark[0] <= place).pop() || marks[0])[1];
  return [step(it.first), step(Math.max(it.first, it.mine - 1))];
}
function storesUnlike(row, ghost) {
  const one = s.now.words[row.word], two = ghost.words[row.word];
  if (!two || one.exact > s.view.begin || two.exact > s.view.begin) return null;
  const key = it => it.join(), mine = new Set(one.stores.map(key)), theirs = new Set(two.stores.map(key));
  const steps = [...one.stores.filter(it => !theirs.has(key(it))), ...two.stores.filter(it => !mine.has(key(it)))].map(it => it[0]);
  return steps.length ? [Math.min(...steps), Math.max(...steps)] : null;
}

// A word: where its stores are known a line with steps; before that only dots where it was looked at.
function word(pen, row, it, isGhost) {
  if (!it) return;
  const color = isGhost ? "ghost" : "store", values = [...it.samples, ...it.stores].map(([, value]) => value);
  const low = Math.min(...values.map(signed)), high = Math.max(...values.map(signed));
  const y = value => row.y + ROW - 7 - (high > low ? (signed(value) - low) / (high - low) : 0) * (ROW - 20) + (isGhost ? 2 : 0);
  let before = null, seen = null, free = -1e9;
  const label = (x, value) => {
    if (isGhost || x <= free) return;
    const text = brief(value);
    pen.text(x + 3, row.y + 7, text, color, "fixed"); free = x + 7 * text.length + 8;
  };
  for (const [at, value] of it.samples) if (at <= it.exact) {
    if (seen !== null) pen.path([[X(seen[0]), y(seen[1])], [X(at), y(value)]], color, 1, [1, 3]);
    pen.rect(X(at) - 1, y(value) - 1, 3, 3, color);
    if (seen !== null && seen[1] !== value) label(X(at), value);
    seen = [at, value]; before = value;
  }
  // What the word held before its first store in view stands in the samples, or is what the first sample says.
  if (!isGhost && it.exact > s.view.begin && !s.live) pen.hatch(LEFT, row.y + ROW - 8, X(Math.min(it.exact, s.view.end)) - LEFT, 5, "rule", false);
  if (it.exact >= s.view.end) return;
  const points = [];
  let x = X(it.exact), value = before === null ? null : before;
  for (const [step, held] of it.stores) {
    if (value !== null) points.push([x, y(value)], [X(step), y(value)]);
    x = X(step); value = held;
    points.push([x, y(value)]);
    pen.rect(x, y(value) - 3, 1.5, 6, color);
    label(x, value);
  }
  if (value === null) value = it.samples.length ? it.samples[it.samples.length - 1][1] : 0;
  points.push([x, y(value)], [LEFT + columns(), y(value)]);
  pen.path(points, color, isGhost ? 1 : 1.5, isGhost ? [4, 2] : []);
}
const signed = value => value | 0;
const brief = value => value < 4096 ? String(value) : (value | 0) < 0 && (value | 0) > -4096 ? String(value | 0) : value.toString(16).padStart(8, "0");

// Samples are drawn as samples: only where each step was looked at they make bars.
function samples(pen, row, functions, color, top, height) {
  const wanted = functions.names.map(it => row.kind === "others" ? row.names.has(it) : it === row.name);
  const width = functions.exact ? Math.max(1, columns() / (s.view.end - s.view.begin)) : 1.5;
  let begin = null, end = null;
  for (const [at, name] of functions.at) {
    if (!wanted[name]) continue;
    const x = X(at);
    if (begin !== null && functions.exact && x - end < 0.01) end = x + width;
    else { if (begin !== null) pen.rect(begin, top, end - begin, height, color); begin = x; end = x + width; }
  }
  if (begin !== null) pen.rect(begin, top, end - begin, height, color);
}

// Where a function is entered: those marks are exact.
function entries(pen, row) {
  const visits = s.now.visits[row.name];
  if (visits) for (const at of visits[0]) pen.rect(X(at), row.y + FUNCTION - 9, 1, 5, "ink");
}

function strip(pen, row) {
  const sweep = s.sweep, top = row.y + ROW - 1;
  let first = 0;
  for (let at = 1; at <= sweep.done.length; at++) {
    if (at < sweep.done.length && sweep.done[at][1] === sweep.done[first][1]) continue;
    const [step, outcome] = sweep.done[first], x = X(step), end = at < sweep.done.length ? X(sweep.done[at][0]) : X(sweep.done[at - 1][0]) + sweep.width;
    pen.rect(x, top, Math.max(1, end - x), STRIP - 2, shade(outcome));
    for (const turned of [false, true]) if (hatching(outcome) & 1 + turned) pen.hatch(x, top, Math.max(1, end - x), STRIP - 2, "paper", turned);
    if (end - x > 9) { pen.rect(x + 1, top + 1, 9, STRIP - 4, "paper"); pen.text(x + 2, top + 7, letter(outcome), "ink", "small"); }
    first = at;
  }
}

// The names of rows, with buttons that go to what is next in them.
let named = "";
let onRow = () => {};
export const onRowButton = handler => { onRow = handler; };
function names() {
  const key = rows.map(it => `${it.name} ${it.y}`).join("|");
  if (key === named) return;
  named = key;
  const focused = document.activeElement && document.activeElement.dataset && document.activeElement.dataset.key;
  $("names").textContent = "";
  for (const row of rows) {
    const box = document.createElement("div");
    box.className = "row"; box.style.top = row.y + "px"; box.style.height = Math.min(row.h, ROW) + "px";
    const goes = row.kind === "word" ? "store" : row.kind === "out" ? "send" : row.kind === "function" ? "visit" : row.kind === "in" || row.kind === "wire" ? "event" : null;
    const label = document.createElement(row.kind === "others" ? "button" : "span");
    label.textContent = label.title = row.name;
    if (row.kind === "others") label.onclick = () => onRow(row, "fold");
    const button = (forward, mark) => {
      const made = document.createElement("button");
      made.textContent = mark; made.dataset.key = `${row.name} ${forward}`;
      made.setAttribute("aria-label", `${forward ? "next" : "previous"} ${goes} of ${row.name}`);
      made.title = `${forward ? "next" : "previous"} ${goes}`;
      made.onclick = () => onRow(row, goes, forward);
      return made;
    };
    box.append(label, ...(goes ? [button(false, "‹"), button(true, "›")] : []), ...(row.kind === "word" || row.kind === "out" ? [whyButton(row)] : []));
    $("names").append(box);
  }
  if (focused) { const again = $("names").querySelector(`[data-key="${CSS.escape(focused)}"]`); if (again) again.focus(); }
}

function whyButton(row) {
  const made = document.createElement("button"), what = row.kind === "word" ? row.name : `the last byte before the cursor that line ${row.line} sent`;
  made.textContent = "?"; made.dataset.key = `${row.name} why`;
  made.title = "where that comes from";
  made.setAttribute("aria-label", `why ${what}`);
  made.onclick = () => onRow(row, "why");
  return made;
}

// Handles of events: real elements, which have focus, names and values. Those of one step fan out.
// As long as no reply has come they alone move, once in a frame.
const handleOf = new Map();
let frame = 0;
export const handlesSoon = () => { frame = frame || requestAnimationFrame(handles); };
export function handles() {
  cancelAnimationFrame(frame); frame = 0;
  const box = $("events"), live = new Set();
  for (const row of rows) {
    if (row.kind !== "in" && row.kind !== "wire") continue;
    const mine = s.now.events.filter(it => it[2] === row.line && (it[4] === WIRE) === (row.kind === "wire"))
      .map(it => s.pending.has(it[0]) ? changed(it, s.pending.get(it[0])) : it)
      .sort((a, b) => a[1] - b[1]);
    for (let at = 0; at < mine.length;) {
      let end = at + 1;
      while (end < mine.length && mine[end][1] === mine[at][1]) end++;
      const x = X(mine[at][1]), next = end < mine.length ? X(mine[end][1]) : LEFT + columns() + 16;
      const each = Math.max(3, Math.min(20, (next - x - 1) / (end - at)));
      for (let k = at; k < end; k++) { place(box, row, mine[k], x + (k - at) * each, each, end - at); live.add(mine[k][0]); }
      at = end;
    }
  }
  for (const [id, element] of handleOf) if (!live.has(id)) { element.remove(); handleOf.delete(id); }
  inOrder(box);
}

function place(box, row, event, x, width, together) {
  const [id, time, , byte, kind] = event;
  let element = handleOf.get(id);
  if (!element) {
    element = document.createElement("div");
    element.setAttribute("role", "slider"); element.tabIndex = 0; element.dataset.id = id; element.setAttribute("aria-valuemin", "0");
    handleOf.set(id, element);
    box.append(element);
  }
  const wide = width >= 11, mark = kind === WIRE ? (byte ? "↑" : "↓") : shown(byte);
  const key = `${x.toFixed(1)} ${width.toFixed(1)} ${row.y} ${time} ${byte} ${kind} ${together} ${s.selected.has(id)} ${s.causes.has(id)} ${s.state.end}`;
  if (element.dataset.key === key) return;
  element.dataset.key = key;
  element.className = `event${wide ? "" : " narrow"}${kind === FRAMING ? " framing" : ""}${s.selected.has(id) ? " selected" : ""}${s.causes.has(id) ? " cause" : ""}`;
  element.textContent = mark;
  element.style.left = `${x}px`; element.style.top = `${row.y + 7}px`; element.style.width = `${width}px`;
  element.setAttribute("aria-valuemax", s.state.end);
  element.setAttribute("aria-valuenow", time);
  element.setAttribute("aria-valuetext", `step ${number(time)}, ${what(event)}`);
  element.setAttribute("aria-label", `event on ${kind === WIRE ? "external line" : "line"} ${event[2]}${together > 1 ? `, one of ${together} in this step` : ""}${s.selected.has(id) ? ", selected" : ""}`);
  element.title = `step ${number(time)}: ${what(event)}`;
}

// Tab goes through events in the order of time.
let orderKey = "";
function inOrder(box) {
  if (isHeld()) return;
  const sorted = [...handleOf.values()].sort((a, b) => a.getAttribute("aria-valuenow") - b.getAttribute("aria-valuenow"));
  const key = sorted.map(it => it.dataset.id).join();
  if (key === orderKey) return;
  orderKey = key;
  // The focused handle stays in the page, and the others move around it: thus it keeps the focus.
  const at = sorted.indexOf(document.activeElement);
  if (at < 0) return box.append(...sorted);
  sorted[at].before(...sorted.slice(0, at));
  sorted[at].after(...sorted.slice(at + 1));
}
export const handle = id => handleOf.get(id);
