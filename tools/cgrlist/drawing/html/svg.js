// Paper that keeps what is painted as an SVG: it takes the calls of a canvas that the picture makes.

const STATE = ["fillStyle", "strokeStyle", "lineWidth", "globalAlpha", "lineCap", "lineJoin", "font", "textAlign"];
const ANCHORS = { left: "start", center: "middle", right: "end" };
const SIGNS = { "&": "&amp;", "<": "&lt;", ">": "&gt;", '"': "&quot;" };
const xmlText = (text) => text.replace(/[&<>"]/g, (sign) => SIGNS[sign]);
const rounded = (...numbers) => numbers.map((number) => Math.round(number * 100) / 100).join(" ");
const ruler = document.createElement("canvas").getContext("2d");

class SvgPaper {
  static clips = 0; // that have a name of their own in the document

  constructor(width, height) {
    const lines = { lineWidth: 1, lineDashOffset: 0, lineCap: "butt", lineJoin: "miter" };
    const start = { globalAlpha: 1, ...lines, font: SMALL, textAlign: "left" };
    Object.assign(this, start, { width, height, parts: [], path: "", dash: "", saved: [], open: 0 });
  }

  // The whole text.
  text(title) {
    const box = `viewBox="0 0 ${this.width} ${this.height}" width="${this.width}" height="${this.height}"`;
    const root = `<svg xmlns="http://www.w3.org/2000/svg" ${box} role="img" font-family="${FAMILY}">`;
    return [root, `<title>${xmlText(title)}</title>`, ...this.parts, "</svg>", ""].join("\n");
  }

  add(tag, about, inside = "") {
    const told = Object.entries(about).filter(([, value]) => value !== "").map(([key, value]) => ` ${key}="${value}"`);
    this.parts.push(`<${tag}${told.join("")}${inside ? `>${inside}</${tag}>` : "/>"}`);
  }

  save() {
    this.saved.push(Object.fromEntries([...STATE, "open"].map((name) => [name, this[name]])));
    this.open = 0;
  }

  restore() {
    this.parts.push("</g>".repeat(this.open));
    Object.assign(this, this.saved.pop());
  }

  clip() {
    const name = `clip${++SvgPaper.clips}`;
    this.parts.push(`<clipPath id="${name}"><path d="${this.path}"/></clipPath>`, `<g clip-path="url(#${name})">`);
    this.open++;
  }

  // ---- Paths ----

  beginPath() {
    this.path = "";
  }

  moveTo(x, y) {
    this.path += `M${rounded(x, y)}`;
  }

  lineTo(x, y) {
    this.path += `L${rounded(x, y)}`;
  }

  quadraticCurveTo(...places) {
    this.path += `Q${rounded(...places)}`;
  }

  rect(x, y, width, height) {
    this.path += `M${rounded(x, y)}h${rounded(width)}v${rounded(height)}h${rounded(-width)}z`;
  }

  roundRect(x, y, width, height, radius) {
    const across = rounded(width - 2 * radius), down = rounded(height - 2 * radius);
    const corner = (right, below) => `a${rounded(radius, radius)} 0 0 1 ${rounded(right * radius, below * radius)}`;
    this.path += `M${rounded(x + radius, y)}h${across}${corner(1, 1)}v${down}${corner(-1, 1)}`;
    this.path += `h-${across}${corner(-1, -1)}v-${down}${corner(1, -1)}z`;
  }

  // A whole circle.
  arc(x, y, radius) {
    const half = (across) => `a${rounded(radius, radius)} 0 0 1 ${rounded(across, 0)}`;
    this.path += `M${rounded(x - radius, y)}${half(2 * radius)}${half(-2 * radius)}z`;
  }

  setLineDash(lengths) {
    this.dash = lengths.join(" ");
  }

  fill() {
    this.add("path", { d: this.path, fill: this.fillStyle, ...this.seen() });
  }

  stroke() {
    this.add("path", { d: this.path, fill: "none", ...this.pen() });
  }

  fillRect(x, y, width, height) {
    const [left, top, wide, high] = [x, y, Math.max(width, 0), height].map((it) => rounded(it));
    this.add("rect", { x: left, y: top, width: wide, height: high, fill: this.fillStyle, ...this.seen() });
  }

  seen() {
    return { opacity: this.globalAlpha === 1 ? "" : this.globalAlpha };
  }

  pen() {
    const ends = { "stroke-linecap": this.lineCap, "stroke-linejoin": this.lineJoin };
    const dashes = { "stroke-dasharray": this.dash, "stroke-dashoffset": this.lineDashOffset || "" };
    return { stroke: this.strokeStyle, "stroke-width": this.lineWidth, ...dashes, ...ends, ...this.seen() };
  }

  // ---- Text ----

  measureText(text) {
    ruler.font = this.font;
    return ruler.measureText(text);
  }

  fillText(text, x, y, most = Infinity) {
    this.addText(text, x, y, { fill: this.fillStyle, textLength: this.measureText(text).width > most ? most : "" });
  }

  strokeText(text, x, y) {
    this.addText(text, x, y, { fill: "none", ...this.pen() });
  }

  addText(text, x, y, more) {
    const [, weight, high] = this.font.match(/^(bold )?([\d.]+)px/);
    const lower = this.textBaseline === "middle" ? 0.35 * high : 0; // not each program knows other baselines
    const font = { "font-size": high, "font-weight": weight ? "bold" : "", "text-anchor": ANCHORS[this.textAlign] };
    const place = { x: rounded(x), y: rounded(y + lower) };
    const squeezed = more.textLength ? { lengthAdjust: "spacingAndGlyphs" } : {};
    this.add("text", { ...place, ...font, ...more, ...squeezed, ...this.seen() }, xmlText(text));
  }
}
