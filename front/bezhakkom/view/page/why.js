// Why something holds what it does: the steps that it comes from, from the last one back. It is gone with the next edit.
import {$, s, number, say} from "./state.js";
import {ask, lastPast} from "./ask.js";
import {draw} from "./rows.js";

let seek = () => {}, select = () => {}, asked = 0;
export const onWhy = (toStep, toEvent) => { seek = toStep; select = toEvent; };

export async function why(what) {
  const past = lastPast();
  say("Going back through the steps…");
  $("stop").hidden = false;
  const reply = await ask({why: {what}});
  $("stop").hidden = true;
  if (!reply.why) return say("");
  if (lastPast() !== past) return say("An edit came in between.");
  asked = past;
  show(reply.why);
}

export function end() {
  $("why").hidden = true;
  $("why-steps").textContent = "";
  s.causes.clear();
  draw();
}

// After each reply: the row of the step at the cursor is marked.
export function mark() {
  if ($("why").hidden) return;
  if (lastPast() !== asked) return end();
  for (const row of $("why-steps").querySelectorAll("[data-step]")) {
    const here = +row.dataset.step === s.cursor;
    row.firstChild.textContent = here ? "▸" : "";
    if (here) row.setAttribute("aria-current", "step"); else row.removeAttribute("aria-current");
  }
}

function show(found) {
  const events = found.events.length, count = (many, name) => `${many ? number(many) : "no"} ${name}${many > 1 ? "s" : ""}`;
  $("why-name").textContent = `${found.what} at step ${number(found.position)}: ${found.value}`;
  const table = document.createElement("table"), head = table.createTHead().insertRow();
  for (const name of ["", "Step", "What it does", "Comes from"]) { const it = document.createElement("th"); it.scope = "col"; it.textContent = name; head.append(it); }
  const body = table.createTBody();
  const add = (step, first, text, sources) => {
    const row = body.insertRow();
    if (step !== null) row.dataset.step = step;
    row.insertCell();
    row.insertCell().append(first);
    row.insertCell().textContent = text;
    row.insertCell().append(...linked(sources));
  };
  add(null, "", "", found.from);
  for (const {step, text, from} of found.rows) add(step ?? null, step === undefined ? "" : link({step}), text, from || []);
  $("why-steps").textContent = "";
  $("why-steps").append(table);
  $("why").hidden = false;
  s.causes = new Set(found.events);
  draw(); mark();
  ($("why-steps").querySelector("button") || $("why-end")).focus();
  say(`${$("why-name").textContent}. It comes from ${count(found.steps, "step")} and ${count(events, "event")}.`);
}

// `from 40,021, 40,010; decided by 40,017`
function linked(sources) {
  return sources.flatMap(([how, those], at) => [`${at ? "; " : ""}${how} `, ...those.flatMap((it, place) => [...(place ? [", "] : []), it.step === undefined ? it.text : link(it)])]);
}

function link({step, text, event}) {
  const button = document.createElement("button");
  button.textContent = text || number(step);
  if (event === undefined) button.setAttribute("aria-label", `go to step ${number(step)}`);
  button.onclick = () => event === undefined ? seek(step) : select(event, step);
  return button;
}
