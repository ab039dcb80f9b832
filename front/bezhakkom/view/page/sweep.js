// A sweep: what comes of one event in many steps, or with all its values. Borders between outcomes are halved until they are exact.
import {$, s, WIRE, columns, find, number, say, shown, shownText, what} from "./state.js";
import {ask, edit} from "./ask.js";
import {draw, letter} from "./rows.js";
import {hatching, shade} from "./pen.js";

const SPAN = 65536;                         // at its multiples nothing is run for a question
const FAR = 1 << 24;                        // steps of a run of which a sweep looks only up to the end of the view
const TOGETHER = 64, MOST = 400;
const MOST_BORDERS = 40;                    // that are made exact
let gesture = () => 0;
export const withGestures = maker => { gesture = maker; };

export function end(text) {
  if (!s.sweep) return;
  s.sweep = null;
  $("outcomes").textContent = ""; $("stop").hidden = true;
  if (text) say(text);
}

export async function start(kind) {
  const event = s.selected.size === 1 && find([...s.selected][0]);
  if (!event) return say("Select one event first.");
  const isWire = event[4] === WIRE;
  const many = kind === "step" ? Math.min(MOST, columns() >> 1, Math.floor(s.view.end - s.view.begin)) : isWire ? 2 : 256;
  const tried = [...Array(many).keys()].map(at => kind === "step" ? Math.floor(s.view.begin + (s.view.end - s.view.begin) * at / many) : at);
  if (kind === "step" && tried[tried.length - 1] < s.view.end - 1) tried.push(Math.floor(s.view.end) - 1);
  const sweep = s.sweep = {id: event[0], line: event[2], isWire, kind, event, done: [], texts: [], present: 0, rest: tried, begin: Math.floor(Math.min(s.view.begin, event[1])),
    at: s.state.end <= FAR ? s.state.end : Math.min(s.state.end, Math.ceil(Math.max(s.view.end, event[1] + 1) / SPAN) * SPAN),
    wanted: $("wanted").value, width: columns() / many, begun: performance.now(), exact: false};
  $("stop").hidden = false;
  while (s.sweep === sweep) {
    if (!sweep.rest.length && !borders(sweep)) break;
    const part = sweep.rest.splice(0, TOGETHER);
    const reply = await ask({sweep: {id: sweep.id, begin: sweep.begin, at: sweep.at, wanted: sweep.wanted, [kind === "step" ? "steps" : "values"]: part}});
    if (s.sweep !== sweep) return;
    if (reply.problem) return end();
    if (!reply.sweep) { sweep.rest.unshift(...part); continue; }  // it made way for the hand
    const found = reply.sweep;
    // After an edit the desk counts outcomes from the first again.
    if (found.serial !== (sweep.serial ??= found.serial)) {
      if (sweep.isChosen) break;
      return end("The sweep has ended: another page has edited the log, or sweeps too.");
    }
    sweep.texts = found.outcomes; sweep.present = found.present;
    found.tried.forEach((outcome, at) => sweep.done.push([part[at], outcome]));
    sweep.rest.unshift(...part.slice(found.tried.length));
    sweep.done.sort((a, b) => a[0] - b[0]);
    if (!sweep.rest.length && !sweep.whole) { sweep.whole = performance.now() - sweep.begun; }
    draw(); show(sweep);
  }
  if (s.sweep !== sweep) return;
  sweep.took = performance.now() - sweep.begun;
  $("stop").hidden = true;
  show(sweep);
  const found = reached(sweep);
  say(`${sweep.done.length} pasts up to step ${number(sweep.at)}, ${found.length} ${found.length === 1 ? "outcome" : "outcomes"}. ` + found.map(([, outcome]) => `${letter(outcome)}: ${ranges(sweep, outcome)}`).slice(0, 6).join("; "));
}

function borders(sweep) {
  if (sweep.kind !== "step" || sweep.exact) return false;
  let few = 0;
  for (let at = 0; at + 1 < sweep.done.length && few < MOST_BORDERS; at++) {
    const [low, one] = sweep.done[at], [high, two] = sweep.done[at + 1];
    if (one === two) continue;
    few++;
    if (high - low > 1) sweep.rest.push(Math.floor((low + high) / 2));
  }
  sweep.exact = !sweep.rest.length;
  return sweep.rest.length > 0;
}

// The stretches of steps, or the values, that lead to an outcome.
function stretches(sweep, outcome) {
  const found = [];
  sweep.done.forEach(([at, it], k) => {
    if (it !== outcome) return;
    const before = k && sweep.done[k - 1][1] === outcome && (sweep.kind === "step" || sweep.done[k - 1][0] === at - 1);
    if (before) found[found.length - 1][1] = at; else found.push([at, at]);
  });
  return found;
}
const named = (sweep, at) => sweep.kind === "step" ? number(at) : sweep.isWire ? String(at) : at > 32 && at < 127 ? `'${shown(at)}'` : "0x" + at.toString(16).padStart(2, "0");
function ranges(sweep, outcome) {
  const found = stretches(sweep, outcome);
  return (sweep.kind === "step" ? "steps " : "") + found.slice(0, 8).map(([low, high]) => low === high ? named(sweep, low) : `${named(sweep, low)} to ${named(sweep, high)}`).join(", ") + (found.length > 8 ? ", …" : "");
}

// The outcomes of what was tried, with their numbers: the present one may be none of them.
const reached = sweep => sweep.texts.map((text, outcome) => [text, outcome]).filter(([, outcome]) => sweep.done.some(it => it[1] === outcome));

// The outcomes in a line each, for a picture.
export function legend() {
  return reached(s.sweep).map(([text, outcome]) => `${letter(outcome)}  ${ranges(s.sweep, outcome)}: ${text.length > 70 ? "…" : ""}${shownText(text.slice(-70))}`).slice(0, 12);
}

// A click makes it so: the event comes in the step, or has the value.
export function choose(at) {
  const sweep = s.sweep, event = sweep && find(sweep.id);
  const time = sweep.kind === "step" ? at : sweep.event[1], byte = sweep.kind === "step" ? sweep.event[3] : at;
  edit({do: "change", id: sweep.id, ...(sweep.kind === "step" ? {time} : {byte}), gesture: gesture(), name: event ? `${what(event)}: ${sweep.kind} ${named(sweep, at)}` : "sweep"}, performance.now());
  sweep.event = [sweep.event[0], time, sweep.event[2], byte, sweep.event[4]];
  sweep.isChosen = true;
  show(sweep);
}

// An outcome as the strip shows it.
function swatch(outcome) {
  const made = document.createElement("i");
  made.className = "swatch"; made.dataset.hatching = hatching(outcome);
  made.style.backgroundColor = `var(--${shade(outcome)})`;
  return made;
}

function show(sweep) {
  const box = $("outcomes"), focused = document.activeElement && document.activeElement.dataset ? document.activeElement.dataset.at : undefined;
  box.textContent = "";
  if (sweep.kind !== "step") {
    const grid = document.createElement("div");
    grid.id = "values";
    for (const [value, outcome] of sweep.done) {
      const button = document.createElement("button");
      button.textContent = `${sweep.isWire ? value : value > 32 && value < 127 ? shown(value) : value.toString(16).padStart(2, "0")}`;
      button.append(swatch(outcome));
      button.title = `${letter(outcome)}: ${sweep.texts[outcome]}`;
      button.setAttribute("aria-label", `value ${named(sweep, value)}, outcome ${letter(outcome)}`);
      button.setAttribute("aria-pressed", String(sweep.event[3] === value));
      button.dataset.at = value;
      button.onclick = () => choose(value);
      grid.append(button);
    }
    box.append(grid);
  }
  const counts = sweep.texts.map(() => 0);
  for (const [, outcome] of sweep.done) counts[outcome]++;
  reached(sweep).sort((a, b) => counts[b[1]] - counts[a[1]]).slice(0, 24).forEach(([text, outcome]) => {
    const button = document.createElement("button"), found = stretches(sweep, outcome);
    const longest = found.reduce((best, it) => it[1] - it[0] > best[1] - best[0] ? it : best, found[0]);
    button.className = "outcome";
    const clean = text.replace(/\r/g, "").replace(/[^\n\x20-\x7e]/g, it => shown(it.charCodeAt(0)));
    button.textContent = `${letter(outcome)} ${outcome === sweep.present ? "(as now) " : ""}${ranges(sweep, outcome)}\n${clean.slice(-200)}`;
    button.prepend(swatch(outcome));
    button.title = "make it so";
    button.dataset.at = `o${outcome}`;
    button.onclick = () => choose(sweep.kind === "step" ? Math.floor((longest[0] + longest[1]) / 2) : longest[0]);
    box.append(button);
  });
  if (focused !== undefined) { const again = box.querySelector(`[data-at="${focused}"]`); if (again) again.focus(); }
}
