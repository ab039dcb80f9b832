// The page: its buttons, and what is drawn after each reply.
import {$, s, find, number, say} from "./state.js";
import {ask, edit, isBusy, leave, onReply, rest, stop, timings, lastEdit, unconfirmed} from "./ask.js";
import {X, draw, handle, onRowButton, readColors, rows, unfold} from "./rows.js";
import {onGo, outcome, panes, table} from "./panes.js";
import {stateNow} from "./gestures.js";
import * as hand from "./hand.js";
import * as sweeps from "./sweep.js";
import * as whys from "./why.js";
import {picture, save} from "./save.js";

let told = 0;
onReply(
  () => { draw(); panes(); whys.mark(); hand.focusWanted(); },
  // The hand rests: what came of the last edit is said once.
  () => {
    table();
    if (lastEdit() > told && !s.sweep) { told = lastEdit(); const text = outcome(); if (text) say(text); }
  });
onGo(hand.go, hand.goTo);
whys.onWhy(hand.goTo, hand.select);
onRowButton((row, goes, forward) => {
  if (goes === "fold") { unfold(); draw(); } else if (goes === "why") whyRow(row); else hand.onRow(row, goes, forward);
});

// Why a word holds what it does, or a line sent the last byte before the cursor.
function whyRow(row) {
  const sent = row.kind === "out" && s.at && s.at.position === s.cursor ? s.at.sent[row.line] : 0;
  if (row.kind === "word") whys.why(s.state.words[row.word]);
  else if (sent) whys.why(`sent ${row.line} ${sent - 1}`);
  else say(`Line ${row.line} sent nothing before the cursor.`);
}

async function causes(what) {
  say("Trying other pasts…");
  $("stop").hidden = false;
  const reply = await ask({causes: {what}});
  $("stop").hidden = true;
  if (!reply.causes) return say("");
  const found = reply.causes, named = ids => ids.length ? ids.map(id => { const it = find(id); return it ? `step ${number(it[1])}` : "one out of view"; }).slice(0, 12).join(", ") + (ids.length > 12 ? ", …" : "") : "none";
  s.causes = new Set([...found.by_value, ...found.by_being_there]);
  say(`${found.what} at step ${number(s.cursor)}: decided by the value of ${found.by_value.length} of ${found.events} events (${named(found.by_value)}), and by being there of ${found.by_being_there.length} (${named(found.by_being_there)}).`);
  draw();
}

async function shrink() {
  const until = $("wanted").value;
  if (!until) { $("wanted").focus(); return say("What is to come true? A text in quotes that line 0 sends, or a condition such as `word session+32 == 3`."); }
  say("Taking events out…");
  $("stop").hidden = false;
  const before = s.state.events, reply = await edit({do: "shrink", until}, performance.now());
  $("stop").hidden = true;
  say(reply.problem ? "" : `${s.state.events} of ${before} events are left.`);
}

function against(name) { edit({do: "against", ...(name ? {name} : {})}).then(() => ask({draw: true, ghost: true})); }
const keep = () => hand.type("Keep this past as:", `past ${s.state.kept.length + 1}`, name => edit({do: "keep", name}).then(() => say(`This past is kept as ${name}.`)));
const middle = () => s.cursor >= s.view.begin && s.cursor <= s.view.end ? s.cursor : (s.view.begin + s.view.end) / 2;
const all = () => hand.look(0, s.state.end);

$("undo").onclick = () => hand.undo("undo");
$("redo").onclick = () => hand.undo("redo");
$("all").onclick = all;
$("closer").onclick = () => hand.zoom(0.5, middle());
$("wider").onclick = () => hand.zoom(2, middle());
$("longer").onclick = () => ask({end: 2 * s.state.end}).then(() => hand.look(s.view.begin, s.state.end));
$("line-back").onclick = () => hand.go({jump: {to: "line"}});
$("line-on").onclick = () => hand.go({jump: {to: "line", forward: true}});
$("who").onclick = hand.who;
$("whence").onclick = () => hand.type("Why (a register, a word, `sent 0 5`; then `control`, `address`, `to input`):", s.state.words[0] || "v0", whys.why);
$("why-end").onclick = () => { whys.end(); $("canvas").focus(); };
$("difference").onclick = () => hand.go({jump: {to: "difference"}});
$("show-ghost").onchange = () => { s.showGhost = $("show-ghost").checked; draw(); panes(); ask({draw: true, ghost: true}); };
$("all-lines").onchange = () => { s.allLines = $("all-lines").checked; draw(); };
$("against").onchange = () => against($("against").value);
$("keep").onclick = keep;
$("back").onclick = () => edit({do: "back", name: s.state.against});
$("sweep-time").onclick = () => sweeps.start("step");
$("sweep-value").onclick = () => sweeps.start("value");
$("stop").onclick = () => { stop(); sweeps.end("Stopped."); };
$("causes").onclick = () => hand.type("Causes of (a register, a word, `sent 0 5`, `console`):", s.state.words[0] || "console", causes);
$("shrink").onclick = shrink;
$("add-word").onclick = () => hand.type("Words that have rows:", s.state.words.join(", "), text =>
  ask({words: text.split(",").map(it => ({name: it.trim()})).filter(it => it.name), draw: true}).then(() => ask({draw: true, ghost: true})));
$("save").onclick = () => save($("save-kind").value);
$("facts").addEventListener("toggle", table);
$("listed").addEventListener("click", event => { const row = event.target.closest("[data-address]"); if (row) hand.go({jump: {to: "visit", function: (+row.dataset.address).toString(16), forward: true}}); });
$("registers").addEventListener("click", event => { const name = event.target.dataset.register; if (name) whys.why(`$${name}`); });

Object.assign(hand.commands, {
  save: () => save("log"), f: all, "+": $("closer").onclick, "-": $("wider").onclick, ",": $("line-back").onclick, ".": $("line-on").onclick,
  w: hand.who, y: $("whence").onclick, d: $("difference").onclick, k: keep, g: () => $("show-ghost").click(), t: $("sweep-time").onclick, v: $("sweep-value").onclick,
});

matchMedia("(prefers-color-scheme: dark)").addEventListener("change", () => { readColors(); draw(); });
addEventListener("resize", () => { draw(); ask({draw: true, live: true, ghost: true}); });
addEventListener("beforeunload", event => { if (s.state && s.state.unsaved || unconfirmed()) event.preventDefault(); });
addEventListener("focus", () => { if (s.now) ask({draw: true, live: true, ghost: true}); });  // another page may have edited since
addEventListener("pagehide", leave);
addEventListener("pageshow", event => { if (event.persisted) ask({draw: true}); });

// For tests and measures.
window.bezhakkom = {s, rows: () => rows, X, handle, timings, isBusy, rest, picture, ask, gesture: stateNow};

(async () => {
  await ask({});
  s.view = {begin: 0, end: s.state.end};
  s.cursor = Math.min(s.state.cursor, s.state.end);
  told = lastEdit();
  await ask({draw: true, live: true});
})();
