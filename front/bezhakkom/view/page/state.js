// What the page knows. All modules share it.
export const $ = id => document.getElementById(id);

export const s = {
  view: {begin: 0, end: 65536}, cursor: 0,
  now: null, ghost: null, at: null,         // rows of both pasts, and the machine at the cursor
  state: null,                              // what the desk says of itself
  showGhost: true, allLines: false, samples: 96,
  selected: new Set(), pending: new Map(),  // events under the hand, before the program has answered
  causes: new Set(), sweep: null,
  width: null,                              // of a picture that is made
};

// Values and numbers as people read them.
const ESCAPES = {8: "\\b", 9: "\\t", 10: "\\n", 13: "\\r", 27: "\\e", 92: "\\\\"};
export const shown = byte => ESCAPES[byte] || (byte >= 32 && byte < 127 ? String.fromCharCode(byte) : "\\x" + byte.toString(16).padStart(2, "0"));
export const shownText = text => Array.from(text, it => shown(it.charCodeAt(0))).join("");
const FORMAT = new Intl.NumberFormat("en");
export const number = value => FORMAT.format(value);
export const hex = (word, digits = 8) => "0x" + (word >>> 0).toString(16).padStart(digits, "0");
export const WIRE = 2, FRAMING = 1;
export const MODIFIERS = new Set(["Shift", "Control", "Alt", "AltGraph", "Meta", "CapsLock"]);  // keys that alone are no input

export function bytesOf(text) {
  const bytes = [], single = {b: 8, t: 9, n: 10, r: 13, e: 27, 0: 0};
  for (const [all, plain, escape] of text.matchAll(/([^\\])|\\(x[0-9a-fA-F]{2}|.)/gs)) {
    const code = plain !== undefined ? plain.codePointAt(0) : escape.length === 3 ? parseInt(escape.slice(1), 16)
      : escape in single ? single[escape] : escape.codePointAt(0);
    if (code < 256) bytes.push(code);
  }
  return bytes;
}

export function what(event) {
  const [, , line, byte, kind] = event;
  return kind === WIRE ? `external line ${line}, level ${byte}` : `line ${line}, '${shown(byte)}' ${hex(byte, 2)}${kind === FRAMING ? " with a framing error" : ""}`;
}

// An event with another step or value.
export const changed = (event, {time = event[1], byte = event[3]}) => Object.assign([...event], {1: time, 3: byte});

// An event in view, or a selected one that is not shown.
export const find = id => s.now && (s.now.events.find(it => it[0] === id) || s.now.held.find(it => it[0] === id));
// The room for steps is measured once for all that is drawn: to ask for a width amid changes lays the page out anew.
let room = 16;
export const measure = () => room = Math.max(16, (s.width || $("canvas").clientWidth) - 270);
export const columns = () => room;
export const perPixel = () => (s.view.end - s.view.begin) / columns();
export const say = text => { if ($("said").textContent !== text) $("said").textContent = text; };
// Shows why something was refused, until the next input. It has a place of its own, as what comes of an edit is said right after it.
const refusals = new Set();
export function warn(text) { refusals.add(text); $("problem").textContent = [...refusals].join(" "); }
const dismiss = () => { refusals.clear(); $("problem").textContent = ""; };
addEventListener("pointerdown", event => { if (event.target !== $("problem")) dismiss(); }, true);
addEventListener("keydown", event => { if (!MODIFIERS.has(event.key)) dismiss(); }, true);
