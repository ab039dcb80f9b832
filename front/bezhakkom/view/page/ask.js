// Requests: one is under way at most. What is wanted meanwhile is put together, and of a drag only the latest place is kept.
import {$, s, measure, warn} from "./state.js";

const SLOW = 10, QUICK = 5;                 // milliseconds of an answer after which the next one looks at fewer places, or at more
const SAMPLES = 96, LEAST = 12;             // places that are looked at, at rest and at least while the hand moves
const MOST_EDITS = 2000;                    // of one request
const MOST_NAME = 200;                      // characters of the name of an edit
const MOST_HELD = 4000;                     // selected events that the page knows wherever they are
const NOTE = 500;                           // milliseconds without an answer after which the page shows that it waits
const PAUSE = 150;                          // milliseconds without input after which the hand rests
const FIRST_RETRY = 1000, LAST_RETRY = 15000;  // milliseconds before the link is tried again: they double with each refusal
let want = null, busy = false, resting = 0, retrying = 0, failures = 0;
let numbers = 0, edits = 0, pasts = 0;
const page = `${Math.random()}`;            // tells this page from others of the same desk: each numbers its own edits
let unsent = [], sent = [];                 // edits that no reply has confirmed
let draw = () => {}, settled = () => {}, refused = () => {};
export const timings = [];                  // of each answered hand movement, for the measures

export function onReply(drawn, rested) { draw = drawn; settled = rested; }
// `handler` receives the number of each gesture of which an edit was refused.
export const onRefused = handler => { refused = handler; };
export const isBusy = () => busy || want !== null || unconfirmed() > 0 || resting !== 0 || retrying !== 0;
export const unconfirmed = () => unsent.length + sent.length;
export const lastEdit = () => edits;
export const lastPast = () => pasts;        // of those that edits made

// An edit has a number, and is made once, however often it is sent.
export function edit(one, began) {
  if (one.name) one.name = one.name.replace(/[^\x20-\x7e]/g, "?").slice(0, MOST_NAME);
  if (one.do !== "keep" && one.do !== "against") pasts++;
  const last = unsent.findIndex(it => one.do === "change" && it.do === "change" && it.id === one.id && it.gesture === one.gesture);
  if (last >= 0) Object.assign(unsent[last], one, {name: unsent[last].name});
  else unsent.push({...one, number: ++edits});
  return ask({draw: true, live: true}, began);
}

export function ask(part, began) {
  clearTimeout(resting); clearTimeout(retrying); resting = retrying = 0;
  want = want || {waiting: []};
  const {draw, ...rest} = part;
  // What is only asked at rest makes way for the hand.
  if (part.live) { delete want.rest; delete want.sweep; }
  Object.assign(want, rest);
  want.draw = want.draw || draw;
  want.live = !!part.live;
  if (began && !want.began) want.began = began;
  const answered = new Promise(resolve => want.waiting.push(resolve));
  if (!busy) pump();
  return answered;
}

function body(wanted) {
  const {waiting, began, draw, ghost, ...made} = wanted;
  made.page = page;
  made.number = ++numbers;
  made.edits = sent = [...sent, ...unsent.splice(0, Math.max(0, MOST_EDITS - sent.length))];
  made.cursor = s.cursor;
  if (draw) {
    made.view = {begin: Math.round(s.view.begin), end: Math.round(s.view.end), columns: measure(), samples: made.live ? s.samples : SAMPLES};
    made.held = [...s.selected].slice(0, MOST_HELD);
    made.ghost = s.showGhost && (!!ghost || !made.live);
  }
  return made;
}

async function post(name, content) {
  const reply = await fetch(name, {method: "POST", headers: {"Content-Type": "application/json"}, body: JSON.stringify(content), keepalive: name === "left"});
  if (!reply.ok) throw new Error(`the server refuses: ${reply.status}`);
  return name === "ask" ? reply.json() : null;
}

// Over a link an answer takes some milliseconds less. While there is no link, requests are posted, and the link is tried again.
let link = null, underWay = null, retry = FIRST_RETRY;
function connect() {
  const made = new WebSocket(new URL("link", location.href).href.replace("http", "ws"));
  made.onopen = () => { link = made; };
  made.onmessage = event => { retry = FIRST_RETRY; underWay.resolve(JSON.parse(event.data)); };
  made.onclose = () => {
    if (link === made) {
      link = null;
      if (underWay) underWay.reject(new Error("the link is broken"));
    }
    setTimeout(connect, retry);
    retry = Math.min(LAST_RETRY, 2 * retry);
  };
}
connect();
const asked = content => link ? new Promise((resolve, reject) => { underWay = {resolve, reject}; link.send(JSON.stringify(content)); }) : post("ask", content);
export const stop = () => post("stop", {}).catch(() => {});
export const leave = () => post("left", {page}).catch(() => {});

// While a request is under way, the page shows how long it waits already.
let watch = 0;
const note = text => { $("busy").textContent = text; };
function waits(begun) {
  watch = setInterval(() => {
    const seconds = Math.floor((performance.now() - begun) / 1000);
    note(seconds ? `No answer from the server for ${seconds} s.` : "Waiting for the server…");
  }, NOTE);
}

// Says who has the edits while the server does not answer.
function kept(count) {
  const here = count ? `${count === 1 ? "1 edit is" : `${count} edits are`} in this tab alone and will be sent again.` : "The page asks again.";
  return `${here} If the server has ended, its terminal names the session with the other unsaved edits.`;
}

async function pump() {
  busy = true;
  const wanted = want, begun = performance.now();
  want = null;
  const made = body(wanted);
  let reply;
  waits(begun);
  try {
    reply = await asked(made);
    failures = 0; note("");
  } catch (error) {
    busy = false;
    note(`The server does not answer (${error.message}). ${kept(unconfirmed())}`);
    // What was wanted is wanted again, after what came meanwhile.
    const newer = want;
    want = {...wanted, ...(newer || {}), waiting: [...wanted.waiting, ...(newer ? newer.waiting : [])]};
    retrying = setTimeout(() => { retrying = 0; if (!busy && want) pump(); }, Math.min(5000, 200 << Math.min(failures++, 5)));
    return;
  } finally { clearInterval(watch); }
  const got = performance.now();
  if (reply.edit !== undefined) {
    sent = sent.filter(it => it.number > reply.edit);
    edits = Math.max(edits, reply.edit);
  }
  take(reply, made);
  // What is wanted next is under way while this is drawn.
  busy = false;
  if (unsent.length) ask({draw: true, live: true}); else if (want) pump();
  if (!reply.more || reply.now) draw();
  if (wanted.began) {
    const timing = {live: made.live, edits: made.edits.length, wait: begun - wanted.began, net: got - begun, draw: performance.now() - got, ...reply.cost};
    timings.push(timing);
    requestAnimationFrame(() => { const after = new MessageChannel(); after.port1.onmessage = () => timing.paint = performance.now() - wanted.began; after.port2.postMessage(0); });
  }
  for (const resolve of wanted.waiting) resolve(reply);
  if (busy || want) return;
  if (made.view && (made.live || reply.more || !made.rest)) resting = setTimeout(rest, made.live ? PAUSE : 0);
  else if (made.rest) settled();
}

// Asks for what is only asked while the hand rests.
export function rest() {
  if (resting && !busy) ask({draw: true, rest: true, ghost: true});
  resting = 0;
}

function take(reply, made) {
  if (reply.state) s.state = reply.state;
  if (reply.now) {
    s.now = reply.now;
    s.live = made.live;
    // What the hand has moved on since stays under the hand.
    const ahead = new Set([...unsent, ...sent].map(it => it.id));
    for (const id of [...s.pending.keys()]) if (!ahead.has(id)) s.pending.delete(id);
  }
  if (reply.ghost) s.ghost = reply.ghost;
  if (reply.has_ghost === false) s.ghost = null;
  if (reply.cursor && reply.cursor_at !== undefined) s.at = reply.cursor;
  // A guest that is slow is looked at in fewer places, as the hand comes first.
  if (made.live && made.edits.length && reply.cost)
    s.samples = reply.cost.milliseconds > SLOW ? Math.max(LEAST, s.samples >> 1) : reply.cost.milliseconds < QUICK ? Math.min(SAMPLES, s.samples * 2) : s.samples;
  for (const id of reply.refused || []) refused(id);
  if (reply.problem) warn(reply.problem);
}
