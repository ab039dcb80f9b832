// Files that the page makes: what the desk gives, the picture as SVG, and a page that needs no server.
import {$, s, number, say} from "./state.js";
import {ask} from "./ask.js";
import {SvgPen} from "./pen.js";
import {layout, paint} from "./rows.js";
import {outcome, table} from "./panes.js";
import {legend} from "./sweep.js";

const LIGHT = {paper: "#ffffff", ink: "#1b1f24", faint: "#59636e", rule: "#d8dee4", in: "#0969da", out: "#1a7f37", store: "#8250df", code: "#9a6700", edit: "#cf222e", ghost: "#8c959f",
  "outcome-0": "#9198a1", "outcome-1": "#e69f00", "outcome-2": "#332288", "outcome-3": "#228833", "outcome-4": "#000000", "outcome-5": "#56b4e9", "outcome-6": "#882255"};
const DARK = {paper: "#0d1117", ink: "#e6edf3", faint: "#9198a1", rule: "#30363d", in: "#58a6ff", out: "#3fb950", store: "#bc8cff", code: "#d29922", edit: "#ff7b72", ghost: "#6e7681",
  "outcome-0": "#6e7781", "outcome-1": "#f0e442", "outcome-2": "#56b4e9", "outcome-3": "#117733", "outcome-4": "#e6edf3", "outcome-5": "#0969da", "outcome-6": "#7ee787"};
const KINDS = {log: [".log", "application/octet-stream"], image: [".img", "application/octet-stream"], session: [".session", "text/plain"], text: [".txt", "text/plain"],
  svg: [".svg", "image/svg+xml"], page: [".html", "text/html"]};
const WIDTH = 1100;

// The picture of what is in view, at a width of its own, with what came of the last change below it.
export async function picture() {
  s.width = WIDTH;
  try {
    while ((await ask({draw: true, rest: true, ghost: true})).more);
    const pen = new SvgPen(), told = outcome(), rows = layout(), lines = [...(s.sweep ? legend() : []), ...(told ? [told] : [])];
    paint(pen, WIDTH, rows, true);
    lines.forEach((it, at) => pen.text(24, rows + 12 + 18 * at, it, "ink", "fixed"));
    return pen.svg(WIDTH, rows + 18 * lines.length + 8, LIGHT, DARK);
  } finally {
    s.width = null;
    ask({draw: true, rest: true, ghost: true});
  }
}

const escaped = text => text.replace(/[&<>]/g, it => `&#${it.charCodeAt(0)};`);
async function page() {
  const open = $("facts").open;
  $("facts").open = true; table();
  const facts = $("table").innerHTML;
  $("facts").open = open;
  const log = new TextDecoder().decode(bytes((await ask({save: {kind: "text"}})).save.content));
  const consoles = s.now.text.map((parts, line) => parts[0][1] ? `<h2>Line ${line}</h2><pre>${escaped(parts[0][1].replace(/\r/g, ""))}</pre>` : "").join("\n");
  return `<!doctype html>\n<html lang="en"><head><meta charset="utf-8"><title>${escaped(s.state.image)}</title><style>:root{color-scheme:light dark}body{font:13px system-ui,sans-serif}pre{font:12px ui-monospace,monospace;white-space:pre-wrap}td,th{border:1px solid;padding:1px 6px;text-align:left}table{border-collapse:collapse}</style></head><body>\n`
    + `<h1>${escaped(s.state.image)}, steps ${number(s.view.begin)} to ${number(s.view.end)}</h1>\n${await picture()}\n${consoles}\n<h2>Log</h2><pre>${escaped(log)}</pre>\n<h2>Facts</h2>${facts}\n</body></html>\n`;
}

const bytes = digits => Uint8Array.from(digits.match(/../g) || [], it => parseInt(it, 16));

export async function save(kind) {
  let content, changed = [], confirmed = {};
  if (kind === "svg") content = await picture();
  else if (kind === "page") content = await page();
  else {
    const reply = await ask({save: {kind}});
    if (!reply.save) return;
    content = bytes(reply.save.content); changed = reply.save.changed;
    if (reply.save.saved !== undefined) confirmed = {saved: reply.save.saved};
  }
  const [ending, type] = KINDS[kind], link = document.createElement("a");
  link.href = URL.createObjectURL(new Blob([content], {type}));
  link.download = s.state.image.replace(/\.\w+$/, "") + ending;
  link.click();
  setTimeout(() => URL.revokeObjectURL(link.href), 10000);
  say(`The browser got ${link.download} for its downloads; if the name is taken, it adds a number. `
    + ("saved" in confirmed ? "All edits are in it" : "It has no edit that can be opened again: a log or a session has them")
    + ". The files that the page opened are unchanged by it."
    + changed.map(it => ` ${it} was changed by another program since the page opened it: the saved file has nothing of that change.`).join(""));
  ask({draw: true, ...confirmed});
}
