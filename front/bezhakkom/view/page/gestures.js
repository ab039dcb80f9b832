// The state machine of pointer gestures. At most one gesture is under way, and every gesture on the timeline is one of these:
//
//   idle --press--> pressed --moved THRESHOLD pixels--> dragging
//   idle --turn---> turning (the value wheel)
//
// A gesture leaves its state in one of three ways, and the machine is idle before it calls the gesture:
//
//   click   the button was released in the state pressed
//   finish  the button was released after a drag; a move came without the button (its release was lost); the pointer's capture was
//           lost; pointercancel; the window lost the focus; another gesture began; a key other than Escape was pressed; or BURST
//           milliseconds passed without a turn of the wheel. What the gesture did stays.
//   cancel  Escape. The gesture takes back what it did.
//
// A gesture is an object with `drag(event)` for each move in the state dragging, and any of `click()`, `finish()` and `cancel()`.
// If `isRaw` is set, `drag` receives moves as they come and not once in a frame. `id` is the gesture's number, if it edits.
import {MODIFIERS} from "./state.js";

export const THRESHOLD = 4;                 // pixels along time before a press becomes a drag
export const BURST = 800;                   // milliseconds in which turns of the wheel, or of arrow keys, are one gesture
const RAW = "onpointerrawupdate" in window ? "pointerrawupdate" : "pointermove";
const BUTTONS = [1, 4, 2];                  // the bit of each button in `event.buttons`

let state = "idle", current = null;
let holder = null, pointer = 0, button = 0, from = 0;  // of a press: the captured element, the pointer, its button, and where it began
let timer = 0, last = "key", idle = () => {};

export const stateNow = () => state;
export const isHeld = () => state === "pressed" || state === "dragging";
// `handler` is called after every gesture, however it ended.
export const onIdle = handler => { idle = handler; };
// The kind of the last input, "key" or "pointer": it decides whether a focused event takes characters.
export const lastInput = () => last;

// Begins a gesture that lasts while the button is held. `element` receives the pointer's events from now on, so it must be one that
// stays in the page: a handle may be removed under the drag. Returns whether the gesture began.
export function press(event, element, gesture) {
  if (!event.isPrimary || !(event.buttons & BUTTONS[event.button])) return false;
  finish();                                 // the release of the gesture before was lost
  state = "pressed"; current = gesture; holder = element; pointer = event.pointerId; button = BUTTONS[event.button]; from = event.clientX;
  holder.addEventListener(RAW, moved);
  try { holder.setPointerCapture(pointer); } catch { finish(); }  // the pointer is gone already
  return isHeld();
}

// Begins or continues a gesture of the wheel with the number `key`. `make` makes the gesture if it begins. Returns the gesture, or
// null while a button is held.
export function turn(key, make) {
  if (isHeld()) return null;
  if (state !== "turning" || current.key !== key) {
    finish();
    state = "turning"; current = {...make(), key};
  }
  clearTimeout(timer);
  timer = setTimeout(finish, BURST);
  return current;
}

// Ends the gesture with number `id`, if it is under way: its edits are refused.
export function refuse(id) { if (current && current.id === id) finish(); }

const finish = () => leave("finish");

function leave(how) {
  if (state === "idle") return;
  const left = current, captured = holder;
  state = "idle"; current = holder = null;
  clearTimeout(timer);
  if (captured) {
    captured.removeEventListener(RAW, moved);
    if (captured.hasPointerCapture(pointer)) captured.releasePointerCapture(pointer);
  }
  if (left[how]) left[how]();
  idle();
}

function moved(event) {
  if (!isHeld() || event.pointerId !== pointer) return;
  if (!(event.buttons & button)) return finish();
  if (state === "pressed" && Math.abs(event.clientX - from) < THRESHOLD) return;
  state = "dragging";
  if (event.type === (current.isRaw ? RAW : "pointermove")) current.drag(event);
}

const ofPress = event => isHeld() && event.pointerId === pointer;
addEventListener("pointermove", moved);
addEventListener("pointerup", event => { if (ofPress(event)) leave(state === "pressed" ? "click" : "finish"); });
addEventListener("pointercancel", event => { if (ofPress(event)) finish(); });
addEventListener("lostpointercapture", event => { if (ofPress(event) && event.target === holder) finish(); });
addEventListener("blur", finish);
addEventListener("pointerdown", () => { last = "pointer"; }, true);
addEventListener("keydown", event => {
  last = "key";
  if (state === "idle" || MODIFIERS.has(event.key)) return;
  if (event.key !== "Escape") return finish();
  event.preventDefault(); event.stopImmediatePropagation();
  leave("cancel");
}, true);
