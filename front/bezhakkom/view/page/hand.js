// Mouse and keys: events are dragged, changed, typed, deleted and inserted; the cursor and the view move. The states of a gesture of the
// pointer are in gestures.js; this module has the gestures themselves.
import {$, s, FRAMING, WIRE, bytesOf, changed, find, number, perPixel, say, shown, what} from "./state.js";
import {ask, edit, onRefused} from "./ask.js";
import {HEAD, S, draw, handle, handlesSoon, near, rowAt, rows} from "./rows.js";
import {panes} from "./panes.js";
import {BURST, isHeld, lastInput, onIdle, press, refuse, turn as turnWheel} from "./gestures.js";
import * as sweeps from "./sweep.js";

const FAR = 100000;                         // steps of a pixel from which on a drag would be blind
const GAP = 1000;                           // steps between bytes that are typed
const TURN = 0.01;                          // of a drag with Shift
const NOTCH = 40;                           // pixels of the value wheel that change a value by 1: a notch is 100 or more, a trackpad sends fewer at a time
const LINE = 40, SHEET = 800;               // pixels of a wheel that counts in lines or pages
let gestures = Date.now(), burst = {key: "", time: 0}, lastByte = 0x41;
let wanted = null;                          // the event that takes the focus as soon as it is there, whether a key asked for it, and the selection before
let isTyped = false;                        // whether the focused event takes characters: a key gave it the focus

export const gesture = () => ++gestures;
sweeps.withGestures(gesture);
const present = id => { const it = find(id), ahead = s.pending.get(id); return it && ahead ? changed(it, ahead) : it; };
const inBurst = (key, time) => { if (burst.key !== key || time - burst.time > BURST) burst = {key, gesture: gesture()}; burst.time = time; return burst.gesture; };

// Edits

// The past that stood before a gesture is the ghost from then on, as it was drawn last.
let begun = 0;
function begin(of) {
  if (of === begun) return;
  begun = of;
  sweeps.end(); s.causes.clear();
  if (s.state && s.state.against === null && s.now) s.ghost = s.now;
}

// Gives event `id` the step or the value of `part`. The other one is not sent: an undo may be under way that changes it.
function change(id, part, of, name, began) {
  begin(of);
  s.pending.set(id, {...s.pending.get(id), ...part});
  edit({do: "change", id, ...part, gesture: of, name}, began);
}

// Takes back what the gesture with number `of` did to events. The desk makes the log as it was before, and the gesture no step of undo.
function takeBack(ids, of) {
  for (const id of ids) s.pending.delete(id);
  begun = 0;
  edit({do: "cancel", gesture: of}, performance.now());
  handlesSoon();
}

// Deletes events. If one of them has the focus, the next event gets it; else nothing is selected.
function remove(ids, began) {
  const of = gesture(), first = find(ids[0]), isFocused = ids.some(id => handle(id) && handle(id) === document.activeElement);
  begin(of);
  const rest = s.now.events.filter(it => !ids.includes(it[0])), near = isFocused && (rest.find(it => first && it[1] >= first[1]) || rest[rest.length - 1]);
  for (const id of ids) { s.selected.delete(id); edit({do: "delete", id, gesture: of, name: ids.length > 1 ? `take ${ids.length} events out` : `take out ${what(find(id) || [0, 0, 0, 0, 0])}`}, began); }
  if (near) { s.selected = new Set([near[0]]); const element = handle(near[0]); if (element) element.focus(); } else canvas.focus();
}

let named = Math.floor(Math.random() * 2 ** 40) + 2 ** 40;
export function add(time, line, byte, kind = 0, of = gesture(), name = "") {
  const id = ++named;
  begin(of);
  edit({do: "add", id, time: Math.max(0, time), line, byte, kind, gesture: of, name: name || `put in ${what([0, time, line, byte, kind])}`}, performance.now());
  selectSoon(id, of);
  return id;
}
// Selects an event, which gets the focus as soon as it has a handle. If gesture `of` is refused, the selection is as before.
function selectSoon(id, of) {
  wanted = {id, isTyped: lastInput() === "key", of, before: wanted && wanted.of === of ? wanted.before : s.selected};
  s.selected = new Set([id]);
}
export function focusWanted() {
  const element = wanted && handle(wanted.id);
  if (!element) return;
  focusOn(element, wanted.isTyped);
  wanted = null;
}

export function undo(name) {
  sweeps.end();
  s.pending.clear();
  begun = 0;
  if (s.state && s.state.against === null) s.ghost = s.now;
  edit({do: name}, performance.now());
}

// Gestures on events

function tip(event, text) {
  $("tip").hidden = false; $("tip").textContent = text;
  $("tip").style.left = Math.min(event.clientX + 12, innerWidth - 220) + "px"; $("tip").style.top = event.clientY + 18 + "px";
}
const noTip = () => { $("tip").hidden = true; };
onIdle(() => { noTip(); handlesSoon(); });      // while a button is held, handles keep their order
onRefused(of => {
  refuse(of);
  if (wanted && wanted.of === of) { s.selected = wanted.before; wanted = null; }
});

const canvas = $("canvas"), events = $("events");
const eventOf = event => { const element = event.target.closest(".event"); return element && present(+element.dataset.id); };

function letType(typed) { isTyped = typed; events.toggleAttribute("data-typed", typed); }
// Gives a handle the focus. `typed` says whether characters are values from now on.
function focusOn(element, typed) { element.focus({preventScroll: true}); letType(typed); }

events.addEventListener("pointerdown", event => {
  const it = eventOf(event);
  if (!it || event.button) return;
  wanted = null;
  event.preventDefault();
  const id = it[0];
  if (event.ctrlKey || event.metaKey) s.selected.has(id) ? s.selected.delete(id) : s.selected.add(id);
  else if (press(event, events, dragOf(event, id))) s.selected.has(id) || (s.selected = new Set([id]));
  const chosen = s.selected;
  focusOn(event.target.closest(".event"), false);
  s.selected = chosen;                      // the focus selects, but Ctrl+click has taken out
  draw(); panes();
});

// The gesture that moves the selected events along time. All of them stay in the run, and keep their distances.
function dragOf(event, id) {
  const of = gesture();
  let x = event.clientX, steps = 0, last = 0, from = null;
  return {
    id: of, isRaw: true,
    drag(event) {
      from = from || new Map([...s.selected].map(it => [it, present(it)]).filter(([, it]) => it));
      const it = from.get(id), dx = event.clientX - x;
      x = event.clientX;
      if (!it) return;                      // it was deleted before it moved
      if (perPixel() >= FAR && !event.shiftKey) return tip(event, "A pixel is too many steps here: zoom in, or hold Shift to move by hundredths.");
      steps += dx * perPixel() * (event.shiftKey ? TURN : 1);
      const times = [...from.values()].map(one => one[1]), by = within(times, Math.round(steps));
      if (by === last) return;
      last = by;
      const name = from.size > 1 ? `move ${from.size} events` : `move ${what(it)}`;
      for (const [one, was] of from) change(one, {time: was[1] + by}, of, name, event.timeStamp);
      tip(event, `step ${number(it[1] + by)} (${by >= 0 ? "+" : ""}${number(by)})`);
      handlesSoon();
    },
    // Letters are commands again.
    finish() { if (from) canvas.focus({preventScroll: true}); },
    cancel() { if (begun === of) takeBack(from.keys(), of); canvas.focus({preventScroll: true}); },
  };
}

// The part of `by` that leaves events at `times` in the run. An event that is out of the run already may only come nearer.
const within = (times, by) => Math.max(-Math.min(...times), Math.min(Math.max(0, s.state.end - 1 - Math.max(...times)), by));

events.addEventListener("focusin", event => {
  const element = event.target.closest(".event");
  if (!element) return;
  letType(lastInput() === "key");
  const id = +element.dataset.id;
  if (!s.selected.has(id)) { s.selected = new Set([id]); draw(); panes(); }
});

// Changes the value of event `it` by `by`, as far as it goes, in the gesture with number `of`.
function turn(it, by, of, began) {
  const most = it[4] === WIRE ? 1 : 255, byte = Math.max(0, Math.min(most, it[3] + by));
  if (byte !== it[3]) change(it[0], {byte}, of, `turn ${what(it)}`, began);
  handlesSoon();
  return byte;
}

// The value wheel. Without Alt, and across, the wheel does over an event what it does elsewhere.
const pixels = event => event.deltaY * (event.deltaMode === 1 ? LINE : event.deltaMode === 2 ? SHEET : 1);
events.addEventListener("wheel", event => {
  const it = event.altKey && Math.abs(event.deltaY) > Math.abs(event.deltaX) && eventOf(event);
  if (!it) return;
  event.preventDefault(); event.stopPropagation();
  const wheel = turnWheel(it[0], () => { const of = gesture(); return {id: of, left: 0, cancel() { if (begun === of) takeBack([it[0]], of); }}; });
  if (!wheel) return;
  wheel.left += pixels(event);
  const by = Math.abs(wheel.left) < NOTCH ? 0 : -Math.sign(wheel.left), byte = turn(it, by, wheel.id, event.timeStamp);
  if (by) wheel.left = 0;
  tip(event, it[4] === WIRE ? `level ${byte}` : `'${shown(byte)}' 0x${byte.toString(16).padStart(2, "0")}`);
}, {passive: false});

// Gestures on the canvas: the cursor, the view, strips of sweeps, and stretches that select events

const xOn = event => event.clientX - canvas.getBoundingClientRect().left;
const yOn = event => event.clientY - canvas.getBoundingClientRect().top;
const inStrip = (event, row) => s.sweep && row && row.swept && yOn(event) >= row.y + row.h - 17;

canvas.addEventListener("pointerdown", event => {
  if (event.button > 1) return;
  wanted = null;
  canvas.focus({preventScroll: true}); event.preventDefault();
  const row = rowAt(yOn(event));
  if (event.button === 1 || yOn(event) < HEAD - 4) press(event, canvas, panOf(event));
  else if (inStrip(event, row)) press(event, canvas, {click: () => sweeps.choose(Math.max(0, Math.min(s.state.end - 1, S(xOn(event)))))});
  else if (event.shiftKey && row && (row.kind === "in" || row.kind === "wire")) press(event, canvas, stretchOf(event, row));
  else {
    const before = s.cursor;
    if (press(event, canvas, {drag: moved => seek(S(xOn(moved)), moved.timeStamp), cancel: () => seek(before)})) seek(near(xOn(event), row), event.timeStamp);
  }
});
canvas.addEventListener("pointermove", event => { if (!isHeld()) overStrip(event); });

// The step under the pointer stays there.
function panOf(event) {
  const step = S(xOn(event)), before = s.view;
  return {
    drag(moved) { const by = step - S(xOn(moved)); look(s.view.begin + by, s.view.end + by, moved.timeStamp); },
    cancel() { look(before.begin, before.end); },
  };
}

function stretchOf(event, row) {
  const from = S(xOn(event)), before = s.selected;
  const show = () => { draw(); panes(); };
  return {
    drag(moved) {
      const to = S(xOn(moved)), low = Math.min(from, to), high = Math.max(from, to);
      s.selected = new Set(s.now.events.filter(it => it[2] === row.line && (it[4] === WIRE) === (row.kind === "wire") && it[1] >= low && it[1] <= high).map(it => it[0]));
      tip(moved, `${s.selected.size} selected`);
      show();
    },
    finish() { const first = [...s.selected][0], element = first !== undefined && handle(first); if (element) focusOn(element, false); },
    cancel() { s.selected = before; show(); },
  };
}

function overStrip(event) {
  if (!s.sweep) return;
  if (!inStrip(event, rowAt(yOn(event)))) return noTip();
  const step = S(xOn(event));
  let at = s.sweep.done.findIndex(it => it[0] > step);
  at = (at < 0 ? s.sweep.done.length : at) - 1;
  if (at >= 0) tip(event, `step ${number(s.sweep.done[at][0])}: ${s.sweep.texts[s.sweep.done[at][1]].slice(-160)}`);
}
canvas.addEventListener("dblclick", event => {
  const row = rowAt(yOn(event));
  if (!row || row.kind !== "in" && row.kind !== "wire" || inStrip(event, row)) return;
  const time = Math.max(0, Math.min(s.state.end - 1, S(xOn(event))));
  if (row.kind === "in") return add(time, row.line, lastByte, event.altKey ? FRAMING : 0);
  const before = s.now.events.filter(it => it[4] === WIRE && it[2] === row.line && it[1] <= time).pop();
  add(time, row.line, 1 - (before ? before[3] : s.now.levels[row.line] || 0), WIRE);
});
$("stage").addEventListener("wheel", event => {
  event.preventDefault();
  if (event.shiftKey || Math.abs(event.deltaX) > Math.abs(event.deltaY)) { const by = (event.deltaX || event.deltaY) * perPixel(); look(s.view.begin + by, s.view.end + by, event.timeStamp); }
  else zoom(event.deltaY > 0 ? 1.25 : 0.8, S(xOn(event)), event.timeStamp);
}, {passive: false});

export function zoom(by, around, began) { look(around - (around - s.view.begin) * by, around + (s.view.end - around) * by, began); }
export function look(begin, end, began) {
  const span = Math.max(32, Math.min(s.state.end, end - begin)), from = Math.max(0, Math.min(s.state.end - span, begin));
  s.view = {begin: Math.floor(from), end: Math.floor(from) + Math.ceil(span)};
  if (s.view.end > s.state.end) s.view.end = s.state.end;
  draw();
  ask({draw: true, live: true, ghost: true}, began);
}
export function seek(step, began) {
  s.cursor = Math.max(0, Math.min(s.state.end, step));
  draw();
  ask({draw: true, live: true}, began);
}
export function goTo(step) { seek(step); inSight(); }
// Selects an event, and brings it into view.
export function select(id, step) {
  const half = (s.view.end - s.view.begin) / 2;
  selectSoon(id);
  if (step < s.view.begin || step > s.view.end) return look(step - half, step + half);
  draw(); panes(); focusWanted();
}
function inSight() {
  if (s.cursor >= s.view.begin && s.cursor <= s.view.end) return;
  const half = (s.view.end - s.view.begin) / 2;
  look(s.cursor - half, s.cursor + half);
}

// Going somewhere: the position comes with the reply.
export async function go(part) {
  const reply = await ask({...part, draw: true, live: true}, performance.now());
  if (reply.jump === undefined) return;
  if (reply.jump === null) return say("There is none.");
  s.cursor = reply.cursor_at;
  if (reply.event !== undefined) s.selected = new Set([reply.event]);
  draw(); panes(); inSight();
  say(`Step ${number(reply.jump)}${s.at && s.at.name && s.at.position === s.cursor ? `, ${s.at.name}` : ""}.`);
}
export const who = () => s.at && s.at.accessed !== null && go({jump: {to: "store", address: s.at.accessed}});

// A button of a row
export function onRow(row, goes, forward) {
  if (goes === "store") return go({jump: {to: "store", word: row.word, forward}});
  if (goes === "send") return go({jump: {to: "send", line: row.line, forward}});
  if (goes === "visit") return go({jump: {to: "visit", function: row.name, forward}});
  if (goes === "event") return go({jump: {to: "event", line: row.line, wire: row.kind === "wire", forward}});
}

// A line that is typed: a text at an event or at the cursor, a name, or a question.
let onLine = null, backTo = null;
export function type(label, text, then) {
  $("line").hidden = false; $("line-label").textContent = label; $("line-text").value = text; onLine = then;
  backTo = document.activeElement;
  $("line-text").focus(); $("line-text").select();
}
function closeLine() { $("line").hidden = true; onLine = null; if (backTo && backTo.isConnected) backTo.focus(); else canvas.focus(); }
$("line").addEventListener("submit", event => { event.preventDefault(); const then = onLine, text = $("line-text").value; closeLine(); if (then) then(text); });
$("line-text").addEventListener("keydown", event => { if (event.key === "Escape") { event.stopPropagation(); closeLine(); } });

// Runs on, if a step that was typed at is after the run's end.
function runUpTo(step) { if (step >= s.state.end) ask({end: step + 1, draw: true}); }

function typeAt(it) {
  if (it) {
    type(`Text from step ${number(it[1])} on, in place of this event (\\r, \\b, \\x1b):`, shown(it[3]), text => {
      const bytes = bytesOf(text), of = gesture();
      if (!bytes.length) return;
      change(it[0], {byte: bytes[0]}, of, `type '${text}'`);
      bytes.slice(1).forEach((byte, at) => add(it[1] + (at + 1) * GAP, it[2], byte, 0, of, `type '${text}'`));
      runUpTo(it[1] + (bytes.length - 1) * GAP);
      lastByte = bytes[bytes.length - 1];
    });
  } else {
    const row = rows.find(other => other.kind === "in");
    type(`Text for line ${row ? row.line : 0} from step ${number(s.cursor)} on (\\r, \\b, \\x1b):`, "", text => {
      const of = gesture(), bytes = bytesOf(text), from = s.cursor;
      bytes.forEach((byte, at) => add(from + at * GAP, row ? row.line : 0, byte, 0, of, `type '${text}'`));
      if (bytes.length) runUpTo(from + (bytes.length - 1) * GAP);
    });
  }
}

// Keys. Characters are values on an event that a key gave the focus, and commands elsewhere.
export const commands = {};
document.addEventListener("keydown", event => {
  const element = document.activeElement, key = event.key;
  const isText = element && (element.tagName === "INPUT" && element.type !== "checkbox" || element.tagName === "SELECT");
  if (event.ctrlKey || event.metaKey) {
    if (isText && key.toLowerCase() === "z") return;
    if (key.toLowerCase() === "z") { event.preventDefault(); return undo(event.shiftKey ? "redo" : "undo"); }
    if (key.toLowerCase() === "y") { event.preventDefault(); return undo("redo"); }
    if (key.toLowerCase() === "s") { event.preventDefault(); return commands.save(); }
    return;
  }
  if (isText || event.altKey) return;
  if (key === "Escape" && s.sweep) return sweeps.end("The sweep has ended.");
  if (key === "Escape" && element && element.closest("#why")) return $("why-end").click();
  const it = element && element.classList.contains("event") ? present(+element.dataset.id) : null;
  if (it && onEvent(it, event)) return;
  const isButton = element && (element.tagName === "BUTTON" || element.tagName === "SUMMARY");
  if (isButton && (key === "Enter" || key === " ")) return;
  const far = event.shiftKey ? 10 * Math.max(1, Math.round(perPixel())) : 1;
  const run = key === "ArrowLeft" ? () => { seek(s.cursor - far, event.timeStamp); inSight(); } : key === "ArrowRight" ? () => { seek(s.cursor + far, event.timeStamp); inSight(); }
    : key === "Home" ? () => { seek(0); inSight(); } : key === "End" ? () => { seek(s.state.end); inSight(); }
    : key === "Enter" && element === canvas ? () => typeAt(null)
    : key === "Delete" && element === canvas && s.selected.size ? () => remove([...s.selected].filter(find), event.timeStamp)
    : key === "Escape" && s.selected.size ? () => { s.selected.clear(); draw(); panes(); } : commands[key];
  if (run) { event.preventDefault(); run(); }
});

// Does what a key does on event `it`. Returns whether it does anything there.
function onEvent(it, event) {
  const key = event.key, isWire = it[4] === WIRE, all = [...s.selected].map(present).filter(Boolean);
  if (key === "ArrowLeft" || key === "ArrowRight") {
    const by = within(all.map(one => one[1]), (key === "ArrowRight" ? 1 : -1) * (event.shiftKey ? 10 * Math.max(1, Math.round(perPixel())) : 1));
    const of = inBurst(`move ${[...s.selected]}`, event.timeStamp);
    if (by) for (const one of all) change(one[0], {time: one[1] + by}, of, all.length > 1 ? `move ${all.length} events` : `move ${what(one)}`, event.timeStamp);
    handlesSoon();
  } else if (key === "ArrowUp" || key === "ArrowDown") {
    turn(it, (key === "ArrowUp" ? 1 : -1) * (event.shiftKey ? 16 : 1), inBurst(`value ${it[0]}`, event.timeStamp), event.timeStamp);
  } else if (key === "Delete" || key === "Backspace") remove(s.selected.has(it[0]) ? [...s.selected] : [it[0]], event.timeStamp);
  else if (key === "Escape") { s.selected.clear(); canvas.focus(); draw(); }
  else if (key === "Enter" && !isWire) typeAt(it);
  else if (isTyped && key.length === 1 && key.charCodeAt(0) < 256) {
    const byte = isWire ? "01".indexOf(key) : key.charCodeAt(0);
    if (!isWire) lastByte = byte;
    if (byte >= 0) { change(it[0], {byte}, gesture(), `set ${what(it)} to '${key}'`, event.timeStamp); handlesSoon(); }
  } else return false;
  event.preventDefault();
  return true;
}
