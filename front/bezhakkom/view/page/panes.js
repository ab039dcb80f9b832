// What stands beside the run: the consoles up to the cursor, the source, the instructions, the registers, and the table.
import {$, s, WIRE, find, hex, number, shown, warn} from "./state.js";

let go = () => {}, goStep = () => {};
export const onGo = (handler, toStep) => { go = handler; goStep = toStep; };
const NAMES = "zero at v0 v1 a0 a1 a2 a3 t0 t1 t2 t3 t4 t5 t6 t7 s0 s1 s2 s3 s4 s5 s6 s7 t8 t9 k0 k1 gp sp fp ra".split(" ");
const TABLED = 400;                         // events in the table

const made = (name, text, className) => {
  const element = document.createElement(name);
  if (text !== undefined) element.textContent = text;
  if (className) element.className = className;
  return element;
};
const write = (element, text) => { if (element.textContent !== text) element.textContent = text; };

// The first and the last place at which two texts of a line differ, as far as both are known.
export function difference(line) {
  const ghost = s.showGhost ? s.ghost : null;
  if (!ghost) return null;
  const [from, mine] = s.now.text[line][0], [other, theirs] = ghost.text[line][0];
  if (from !== other) return null;
  let one = mine, two = theirs;
  // While the far part is not known yet, both are looked at up to the same step.
  if (s.now.until !== ghost.until) {
    const [low, high] = s.now.until < ghost.until ? [s.now, ghost] : [ghost, s.now], most = Math.max(0, high.sent[line].high - from);
    if (low === s.now) two = theirs.slice(0, most); else one = mine.slice(0, most);
  }
  if (one === two) return null;
  let first = 0, last = 0;
  while (first < one.length && first < two.length && one[first] === two[first]) first++;
  while (last < Math.min(one.length, two.length) - first && one[one.length - 1 - last] === two[two.length - 1 - last]) last++;
  return {from, first: from + first, mine: from + one.length - last, theirs: from + two.length - last, one, two};
}

function fill(pre, line, from, text, marks, marked, cursor) {
  pre.textContent = "";
  const cuts = [...new Set([0, text.length, ...(marks ? [marks[0] - from, marks[1] - from] : []), ...(cursor === null ? [] : [cursor - from])])]
    .filter(it => it >= 0 && it <= text.length).sort((a, b) => a - b);
  for (let at = 0; at + 1 < cuts.length; at++) {
    const inside = marks && cuts[at] >= marks[0] - from && cuts[at] < marks[1] - from;
    const box = made(inside ? marked : "span");
    if (cursor !== null && cuts[at] >= cursor - from) box.className = "after";
    for (const found of text.slice(cuts[at], cuts[at + 1]).matchAll(/[\n\t\x20-\x7e]+|[^\n\t\x20-\x7e]/g)) {
      const byte = found[0].charCodeAt(0), plain = found[0].length > 1 || byte === 10 || byte === 9 || byte >= 32 && byte < 127;
      const part = made("span", plain ? found[0] : byte === 13 ? "" : shown(byte), plain ? "" : "special");
      part.dataset.line = line; part.dataset.place = from + cuts[at] + found.index;
      box.append(part);
    }
    pre.append(box);
  }
}

const boxes = new Map(), filled = new Map();
function consoles() {
  for (let line = 0; line < 4; line++) {
    const used = s.now.sent[line].whole || s.now.lines.includes(line) || s.ghost && s.ghost.sent[line].whole;
    let box = boxes.get(line);
    if (!used) { if (box) { box.remove(); boxes.delete(line); filled.delete(line); } continue; }
    if (!box) {
      box = made("section");
      box.append(made("h2"), made("pre", "", "console"), made("pre", "", "console former"));
      box.dataset.line = line;
      box.children[1].tabIndex = 0;
      box.children[1].addEventListener("click", event => toByte(event));
      boxes.set(line, box);
      const after = [...$("consoles").children].find(it => +it.dataset.line > line);
      $("consoles").insertBefore(box, after || null);
    }
    pane(line, box);
  }
}

function pane(line, box) {
  const [from, text] = s.now.text[line][0], differs = difference(line);
  const cursor = s.at && s.at.position === s.cursor ? s.at.sent[line] : null;
  const key = JSON.stringify([from, text, cursor, differs && [differs.first, differs.mine, differs.two]]);
  const [title, pre, old] = box.children;
  const ghost = s.showGhost && s.ghost;
  const whole = s.now.sent[line].whole;
  write(title, `Line ${line}: ${cursor === null ? "" : `${number(cursor)} of `}${number(whole)} bytes${cursor === null ? "" : " before the cursor"}`
    + (s.now.until < s.state.end ? `, up to step ${number(s.now.until)} so far` : "")
    + (from ? `, from byte ${number(from)} on` : "") + (ghost ? differs ? "; not as in the other past" : "; as in the other past" : ""));
  if (filled.get(line) === key) return;
  filled.set(line, key);
  fill(pre, line, from, text, differs && [differs.first, differs.mine], "ins", cursor);
  pre.setAttribute("aria-label", `What line ${line} sent`);
  old.hidden = !differs;
  if (differs) { fill(old, line, from, differs.two, [differs.first, differs.theirs], "del", null); old.setAttribute("aria-label", `What line ${line} sent in the other past`); }
  const mark = pre.querySelector(differs ? "ins" : ".after");
  if (mark) pre.scrollTop = mark.offsetTop - pre.offsetTop - 60;
  else if (cursor !== null) pre.scrollTop = pre.scrollHeight;  // the cursor is after all of the text
  const gone = differs && old.querySelector("del");
  if (gone) old.scrollTop = gone.offsetTop - old.offsetTop - 60;
}

// A click on a byte goes to the step that sent it.
function toByte(event) {
  const part = event.target.closest("[data-place]");
  if (!part) return;
  const at = document.caretRangeFromPoint ? document.caretRangeFromPoint(event.clientX, event.clientY) : null;
  const into = at && part.contains(at.startContainer) && part.className !== "special" ? Math.min(at.startOffset, part.textContent.length - 1) : 0;
  go({jump: {to: "byte", line: +part.dataset.line, place: +part.dataset.place + into}});
}

function machine() {
  const at = s.at;
  if (!at) return;
  write($("where"), `Step ${number(at.position)}${at.name ? `, ${at.name}` : ""}${at.delay ? " (delay slot)" : ""}`);
  const source = at.source;
  write($("source-name"), source ? `Source, ${source.file}:${source.line}${source.text.length ? "" : " (not found: --sources names its folder)"}` : "No source");
  const key = source ? `${source.file} ${source.line}` : "";
  if ($("source").dataset.key !== key) {
    $("source").dataset.key = key; $("source").textContent = "";
    (source ? source.text : []).forEach((text, k) => $("source").append(made("span", `${source.first + k === source.line ? "▸" : " "}${String(source.first + k).padStart(4)}  ${text}\n`, source.first + k === source.line ? "here" : "")));
  }
  const list = JSON.stringify(at.listed);
  if ($("listed").dataset.key !== list) {
    $("listed").dataset.key = list; $("listed").textContent = "";
    for (const [address, name, text, here] of at.listed) {
      const row = made("span", `${here ? "▸" : " "}${hex(address).slice(2)} ${name && !name.includes("+") ? `<${name}> ` : ""}${text}\n`, here ? "here" : "spot");
      row.dataset.address = address;
      $("listed").append(row);
    }
  }
  registers(at);
}

// A register is asked for by a click on it.
function registers(at) {
  const box = $("registers"), values = [...at.registers, at.hi, at.lo];
  if (!box.children.length) {
    for (const name of [...NAMES, "hi", "lo"]) { const it = made("span"); it.dataset.register = name; it.title = `why ${name}`; box.append(it); }
    box.append(made("span"));
  }
  values.forEach((value, k) => write(box.children[k], `${box.children[k].dataset.register.padStart(4)} ${hex(value).slice(2)}${k % 4 === 3 ? "\n" : ""}`));
  let text = "\n" + ["status", "cause", "epc", "badvaddr"].map(it => `${it} ${hex(at.control[it]).slice(2)}`).join(" ");
  if (at.load) text += `\non its way: ${NAMES[at.load[0]]} = ${hex(at.load[1])}`;
  write(box.lastChild, text);
}

function stepButton(text) {
  const button = made("button", text);
  button.setAttribute("aria-label", `go to step ${text}`);
  button.onclick = () => goStep(+text.replace(/,/g, ""));
  return button;
}

// Only where it is open, and when the hand rests: it may be long.
export function table() {
  if (!$("facts").open || !s.now) return;
  const rows = [["", "Fact", "Value", "Step"]];
  const events = s.now.events.slice(0, TABLED);
  for (const it of events) rows.push(["event", it[4] === WIRE ? `external line ${it[2]}` : `line ${it[2]} receives`, it[4] === WIRE ? `level ${it[3]}` : `'${shown(it[3])}' ${hex(it[3], 2)}`, number(it[1])]);
  if (events.length < s.state.events) rows.push(["events", `${number(s.state.events - events.length)} more are not in view or not in this table`, "", ""]);
  s.now.sent.forEach((it, line) => { if (it.whole) rows.push(["sent", `line ${line}`, `${number(it.high - it.low)} of ${number(it.whole)} bytes in view`, ""]); });
  s.state.words.forEach((name, word) => {
    const it = s.now.words[word];
    for (const [step, value] of it.stores) rows.push(["store", name, hex(value), number(step)]);
    if (it.exact > s.view.begin) rows.push(["stores", name, "some are not followed yet", `before ${number(it.exact)}`]);
  });
  const count = new Map();
  for (const [, name] of s.now.functions.at) count.set(name, (count.get(name) || 0) + 1);
  for (const [name, share] of [...count].sort((a, b) => b[1] - a[1])) rows.push(["function", s.now.functions.names[name], `${(100 * share / s.now.functions.at.length).toFixed(1)} % of ${s.now.functions.exact ? "steps" : "samples"}`, ""]);
  for (const [name, [steps, all]] of Object.entries(s.now.visits)) {
    rows.push(["entries", name, all ? `entered ${steps.length} times` : `entered ${steps.length} times or more`, steps.length ? number(steps[0]) : ""]);
  }
  const shownTable = made("table"), caption = made("caption", `Steps ${number(Math.round(s.view.begin))} to ${number(Math.round(s.view.end))}`);
  shownTable.append(caption);
  rows.forEach((cells, at) => { const row = made("tr"); cells.forEach((cell, column) => { const it = made(at ? "td" : "th", at && column === 3 && /^[\d,]+$/.test(cell) ? undefined : cell); if (!at) it.scope = "col"; else if (!it.textContent && cell) it.append(stepButton(cell)); row.append(it); }); shownTable.append(row); });
  $("table").textContent = ""; $("table").append(shownTable);
}

// What came of the last change, in words.
export function outcome() {
  if (!s.showGhost || !s.ghost) return "";
  const told = [];
  for (let line = 0; line < 4; line++) {
    const it = difference(line);
    if (!it) continue;
    const show = (text, first, end) => { const part = text.slice(first - it.from, Math.min(end, first + 60) - it.from); return part ? `'${Array.from(part, c => shown(c.charCodeAt(0))).join("")}${end > first + 60 ? "…" : ""}'` : "nothing"; };
    told.push(`Line ${line} sends ${show(it.one, it.first, it.mine)} where the other past sends ${show(it.two, it.first, it.theirs)}, at byte ${number(it.first)}.`);
  }
  return told.join(" ") || "The lines send the same as in the other past.";
}

export function panes() {
  if (!s.now || !s.state) return;
  consoles();
  machine();
  const state = s.state, name = state.image;
  write($("name"), state.changed.length ? `${name} (as opened; changed on disk)` : name);
  const hint = state.changed.map(it => `${it} has changed on disk, and this is a run of what it was: save the log, and start bin/wb view with it again.`).join(" ");
  if ($("name").title !== hint) { $("name").title = hint; if (hint) warn(hint); }
  const title = `${state.unsaved ? "* " : ""}${name}`;
  if (document.title !== title) document.title = title;
  const set = (id, disabled, hint) => { const it = $(id); if (it.disabled !== disabled) it.disabled = disabled; if (hint !== undefined && it.title !== hint) it.title = hint; };
  set("undo", state.undo === null, state.undo || ""); set("redo", state.redo === null, state.redo || "");
  set("difference", !s.ghost); set("back", state.against === null);
  set("who", !s.at || s.at.accessed === null, s.at && s.at.accessed !== null ? `the word at ${s.at.accessed_name}` : "");
  const one = s.selected.size === 1 && find([...s.selected][0]);
  set("sweep-time", !one); set("sweep-value", !one);
  const names = JSON.stringify([state.kept, state.against]);
  if ($("against").dataset.key !== names) {
    $("against").dataset.key = names;
    $("against").textContent = "";
    for (const it of ["", ...state.kept]) { const option = made("option", it || "the former past"); option.value = it; option.selected = it === (state.against || ""); $("against").append(option); }
  }
}
