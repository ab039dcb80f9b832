// Two pens with the same strokes: one draws on the canvas, the other writes SVG.
const FONT = {plain: "12px system-ui, sans-serif", small: "11px system-ui, sans-serif", fixed: "11px ui-monospace, monospace", bold: "bold 12px system-ui, sans-serif"};

// The look of an outcome of a sweep: a color and a hatching (1 for `/`, 2 for `\`, 3 for both). As 7 and 4 have no common divisor, the
// first 28 outcomes look different, and neighbors differ in both.
export const SHADES = 7;
export const shade = outcome => `outcome-${outcome % SHADES}`;
export const hatching = outcome => outcome % 4;
const OUTCOMES = [...Array(SHADES).keys()].map(shade);

export const colors = () => {
  const style = getComputedStyle(document.documentElement), made = {};
  for (const name of ["paper", "ink", "faint", "rule", "in", "out", "store", "code", "edit", "ghost", ...OUTCOMES]) made[name] = style.getPropertyValue("--" + name).trim();
  return made;
};

export class CanvasPen {
  constructor(context, palette) { this.g = context; this.palette = palette; this.hatches = {}; }
  clip(x, y, w, h) { this.g.save(); this.g.beginPath(); this.g.rect(x, y, w, h); this.g.clip(); }
  end() { this.g.restore(); }
  rect(x, y, w, h, color) { this.g.fillStyle = this.palette[color]; this.g.fillRect(x, y, w, h); }
  hatch(x, y, w, h, color, turned) {
    const key = color + turned;
    if (!this.hatches[key]) {
      const tile = new OffscreenCanvas(6, 6), g = tile.getContext("2d");
      g.strokeStyle = this.palette[color]; g.beginPath();
      for (const at of [-6, 0, 6]) { g.moveTo(at, turned ? 0 : 6); g.lineTo(at + 6, turned ? 6 : 0); }
      g.stroke();
      this.hatches[key] = this.g.createPattern(tile, "repeat");
    }
    this.g.fillStyle = this.hatches[key]; this.g.fillRect(x, y, w, h);
  }
  path(points, color, width = 1, dash = []) {
    const g = this.g;
    g.strokeStyle = this.palette[color]; g.lineWidth = width; g.setLineDash(dash); g.beginPath();
    points.forEach(([x, y], at) => at ? g.lineTo(x, y) : g.moveTo(x, y));
    g.stroke(); g.setLineDash([]);
  }
  text(x, y, text, color, font = "plain", align = "left") {
    const g = this.g;
    g.fillStyle = this.palette[color]; g.font = FONT[font]; g.textAlign = align; g.textBaseline = "middle"; g.fillText(text, x, y);
  }
}

const escaped = text => text.replace(/[&<>"]/g, it => `&#${it.charCodeAt(0)};`).replace(/[^\x20-\uffff]/g, "?");
const n = value => +value.toFixed(1);

export class SvgPen {
  constructor() { this.parts = []; this.used = new Set(); this.edge = null; this.run = null; }
  // A stroke that is wholly outside is left out, and a rectangle is cut.
  clip(x, y, w, h) { this.edge = [x, x + w]; }
  end() { this.edge = null; }
  rect(x, y, w, h, color) {
    if (this.edge) { const end = Math.min(x + w, this.edge[1]); x = Math.max(x, this.edge[0]); w = end - x; if (w <= 0) return; }
    // Rectangles of one color that follow one another are one path.
    const one = `M${n(x)} ${n(y)}h${n(w)}v${n(h)}h${n(-w)}z`, last = this.parts.length - 1;
    if (last >= 0 && this.run === color) this.parts[last] = this.parts[last].slice(0, -3) + one + '"/>';
    else this.push(`<path class="${color}" d="${one}"/>`);
    this.run = color;
  }
  push(part) { this.parts.push(part); this.run = null; }
  hatch(x, y, w, h, color, turned) {
    const name = color + (turned ? "-turned" : "");
    this.used.add(`<pattern id="${name}" width="6" height="6" patternUnits="userSpaceOnUse"><path d="${turned ? "M0 0L6 6" : "M0 6L6 0"}" class="${color}-line" fill="none"/></pattern>`);
    this.push(`<rect x="${n(x)}" y="${n(y)}" width="${n(w)}" height="${n(h)}" fill="url(#${name})"/>`);
  }
  path(points, color, width = 1, dash = []) {
    if (this.edge) points = points.map(([x, y]) => [Math.max(this.edge[0], Math.min(this.edge[1], x)), y]);
    this.push(`<path d="${points.map(([x, y], at) => `${at ? "L" : "M"}${n(x)} ${n(y)}`).join("")}" class="${color}-line" fill="none" stroke-width="${width}"${dash.length ? ` stroke-dasharray="${dash}"` : ""}/>`);
  }
  text(x, y, text, color, font = "plain", align = "left") {
    if (this.edge && (x < this.edge[0] - 200 || x > this.edge[1])) return;
    this.push(`<text x="${n(x)}" y="${n(y + 4)}" class="${color} ${font}"${align === "left" ? "" : ` text-anchor="${align === "right" ? "end" : "middle"}"`}>${escaped(text)}</text>`);
  }
  svg(width, height, light, dark) {
    const rules = palette => Object.entries(palette).map(([name, color]) => `.${name}{fill:${color}}.${name}-line{stroke:${color}}`).join("");
    return `<svg xmlns="http://www.w3.org/2000/svg" width="${width}" height="${height}" viewBox="0 0 ${width} ${height}">\n<style>text{font:12px system-ui,sans-serif;white-space:pre}.small{font-size:11px}.bold{font-weight:bold}.fixed{font:11px ui-monospace,monospace}${rules(light)}@media(prefers-color-scheme:dark){${rules(dark)}}</style>\n`
      + `<defs>${[...this.used].join("")}</defs>\n<rect width="${width}" height="${height}" class="paper"/>\n${this.parts.join("\n")}\n</svg>\n`;
  }
}
