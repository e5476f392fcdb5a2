// A drawing as SVG (W3C, "Scalable Vector Graphics 2"), by the calls of a canvas that the page's pictures use: so a
// picture of the page is painted once, by one function, on the screen, as SVG or into a PNG.
const rounded = (value) => String(+value.toFixed(2));
const escape = (text) => String(text).replace(/[&<>"]/g, (it) => (
  { "&": "&amp;", "<": "&lt;", ">": "&gt;", '"': "&quot;" }[it]
));

export class SvgDrawing {
  /** Of so many pixels; `words` says what it shows, for readers of the screen. */
  constructor(width, height, words) {
    Object.assign(this, { width, height, words, parts: [], path: [], dashes: [] });
    Object.assign(this, { fillStyle: "#000", strokeStyle: "#000", lineWidth: 1, globalAlpha: 1 });
    this.font = "10px sans-serif";
    this.groups = 0;
  }

  add(name, attributes, text) {
    const faint = this.globalAlpha < 1 ? { opacity: rounded(this.globalAlpha) } : {};
    const told = Object.entries({ ...attributes, ...faint }).map(([key, value]) => (
      ` ${key}="${typeof value === "number" ? rounded(value) : escape(value)}"`
    )).join("");
    this.parts.push(text === undefined ? `<${name}${told}/>` : `<${name}${told}>${escape(text)}</${name}>`);
  }

  /** What is drawn from now on stands so far to the right, and so far down. */
  move(x, y) {
    this.parts.push(`<g transform="translate(${rounded(x)} ${rounded(y)})">`);
    this.groups++;
  }

  /** How a line is drawn. */
  get line() {
    const { strokeStyle: stroke, lineWidth, dashes } = this;
    const dashed = dashes.length ? { "stroke-dasharray": dashes.join(" ") } : {};
    return { fill: "none", stroke, "stroke-width": lineWidth, ...dashed };
  }

  fillRect(x, y, width, height) { this.add("rect", { x, y, width, height, fill: this.fillStyle }); }
  strokeRect(x, y, width, height) { this.add("rect", { x, y, width, height, ...this.line }); }
  setLineDash(dashes) { this.dashes = dashes; }
  beginPath() { this.path = []; }
  moveTo(x, y) { this.path.push(`M${rounded(x)} ${rounded(y)}`); }
  lineTo(x, y) { this.path.push(`L${rounded(x)} ${rounded(y)}`); }
  stroke() { this.add("path", { d: this.path.join(""), ...this.line }); }
  fill() { this.add("path", { d: `${this.path.join("")}Z`, fill: this.fillStyle }); }

  fillText(text, x, y) {
    const [, weight, size, family] = /^(bold )?([\d.]+px) (.*)$/.exec(this.font);
    const bold = weight ? { "font-weight": "bold" } : {};
    const how = { "font-size": size, "font-family": family, ...bold, "xml:space": "preserve" };
    this.add("text", { x, y, fill: this.fillStyle, ...how }, text);
  }

  /** The drawing as a text of its own. */
  text() {
    const { width, height, words } = this;
    const size = `width="${width}" height="${height}" viewBox="0 0 ${width} ${height}"`;
    const head = `<svg xmlns="http://www.w3.org/2000/svg" ${size} role="img"><title>${escape(words)}</title>`;
    return `${head}\n${this.parts.join("\n")}${"</g>".repeat(this.groups)}\n</svg>\n`;
  }
}
