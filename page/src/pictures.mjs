// Pictures of what is shown, for a page of paper or a slide: the turns, the processes' tree, the page table, the
// descriptors. Each is painted by one function, into SVG or into a PNG, in the colours of the theme; it is copied, or
// saved as a file.
import { $, app, color_of, element, program_name, say, style_of } from "./app.mjs";
import { bytes_words, grouped, hex } from "../../anywhere/machine/number_words.mjs";
import { SvgDrawing } from "./svg_drawing.mjs";
import { rights_of } from "./descriptors.mjs";
import { paint_turns, state_of, tree_of } from "./processes.mjs";
import { BITS, address_of, notes_of, pages_words, root_of, tables_of } from "./pages.mjs";
import { range } from "./time.mjs";
import { save } from "./programs.mjs";

const MARGIN = 16, HEAD = 46, ROW = 20; // pixels
const LETTER = 7.25; // pixels: the width of one of the letters in which rows are written, 12 pixels high
const SHARP = 2; // pixels of a PNG for each of the picture's
const MOST_PAGES = 160, MOST_PIXELS = 16000; // pages, and the height in pixels that a browser's canvas may have
const MONO = "12px ui-monospace, DejaVu Sans Mono, Menlo, Consolas, monospace";

/** Writes a text in a colour of the theme; `kind`: "bold " or nothing. */
function write_at(draw, text, x, y, color = "--ink", kind = "") {
  draw.font = kind + MONO;
  draw.fillStyle = style_of(color);
  draw.fillText(text, x, y);
}

/** A box with a frame of a colour. */
function box(draw, x, y, width, height, color) {
  draw.fillStyle = style_of("--soft");
  draw.fillRect(x, y, width, height);
  draw.strokeStyle = color;
  draw.lineWidth = 1.5;
  draw.strokeRect(x, y, width, height);
}

/** A line through places, [x, y] each. */
function line(draw, places, color) {
  draw.strokeStyle = color;
  draw.lineWidth = 1.5;
  draw.beginPath();
  places.forEach(([x, y], k) => (k ? draw.lineTo(x, y) : draw.moveTo(x, y)));
  draw.stroke();
}

const shorter = (text, most) => (text.length > most ? `${text.slice(0, most - 2)}..` : text);
const name_of = ({ pid, program }) => `${pid} ${program_name(program) || "?"}`;

// ---- the turns

function turns() {
  const { from, to } = range(), width = 900, height = Math.min(400, 26 * app.line.lives.within(from, to).length + 30);
  const words = `turns, events ${grouped(from)} to ${grouped(to)}`;
  return { words, width, height, paint: (draw) => { paint_turns(draw, width, height); } };
}

// ---- the processes' tree

function tree() {
  const made = tree_of(app.view.processes), { current } = app.view, x_of = (depth) => 10 + depth * 34;
  const deepest = Math.max(0, ...made.map((it) => it.depth)), left = x_of(deepest) + 150;
  const paint_one = (draw, { process, depth }, k) => {
    const x = x_of(depth), y = k * 30, [, words] = state_of(process, current), { lives } = process;
    const parent = made.slice(0, k).findLastIndex((it) => it.depth === depth - 1);
    if (depth > 0) line(draw, [[x - 20, parent * 30 + 24], [x - 20, y + 12], [x, y + 12]], style_of("--dim"));
    box(draw, x, y, 130, 24, color_of(process.pid));
    write_at(draw, shorter(name_of(process), 16), x + 8, y + 16, "--ink", lives ? "bold " : "");
    write_at(draw, shorter(words, 52), left, y + 16, lives ? "--ink" : "--bad");
    const more = `${grouped(process.made)} instructions${lives ? `, ${bytes_words(process.size)}` : ""}`;
    write_at(draw, more, left + 390, y + 16, "--dim");
  };
  return {
    words: "processes by parents", width: left + 620, height: 30 * Math.max(1, made.length),
    paint: (draw) => made.forEach((it, k) => paint_one(draw, it, k)),
  };
}

// ---- the page table

const in_frame = (frame) => (frame === null ? "" : `frame ${frame}, ${address_of(frame)}`);
const [ROOT, MIDDLE, LAST, PAGES] = [0, 250, 500, 750], WIDE = 210; // pixels: the columns, and how wide a box is

/** The boxes of the tables with the rows that they take: {x, from, rows, lines}, and the pages' rows. */
function laid_out() {
  const { view } = app, tables = [], leaves = [];
  let row = 0, left = MOST_PAGES;
  const table = (x, from, lines, parent) => { tables.push({ x, from, lines, parent }); return tables.length - 1; };
  const root = table(ROOT, 0, ["root table", in_frame(root_of(view)), "satp points here"], -1);
  for (const middle of tables_of(view)) {
    const upper = table(MIDDLE, row, [`entry ${middle.place}: middle table`, in_frame(middle.frame)], root);
    for (const last of middle.below) {
      const from = row, shown = last.below.slice(0, Math.max(0, left));
      const lower = table(LAST, from, [`entry ${last.place % 512}: last table`, in_frame(last.frame)], upper);
      for (const it of shown) leaves.push({ ...it, row: row++, table: lower });
      left -= shown.length;
      const more = last.below.length - shown.length;
      if (more) leaves.push({ more, row: row++, table: lower });
      row = Math.max(row, from + 3);
    }
  }
  return { tables, leaves, rows: Math.max(row, 3) };
}

function paint_page(draw, it, from) {
  const y = it.row * ROW + 14, at = from * ROW + 12;
  line(draw, [[LAST + WIDE, at], [PAGES - 20, at], [PAGES - 20, y - 4], [PAGES, y - 4]], style_of("--line"));
  if (it.more) { write_at(draw, `and ${it.more} pages more`, PAGES + 6, y, "--dim"); return; }
  const rights = BITS.map(([bit, letter]) => (it.rights & bit ? letter : "-")).join("");
  const notes = notes_of(it, app.view).join(", "), to = it.frame === null ? "" : `frame ${it.frame}`;
  write_at(draw, `entry ${String(it.page % 512).padEnd(4)}`, PAGES + 6, y, "--dim");
  write_at(draw, hex(BigInt(it.page) * 4096n).padEnd(12), PAGES + 90, y, "--ink", notes ? "bold " : "");
  write_at(draw, `${rights}  ${to.padEnd(12)}${notes}`, PAGES + 190, y);
}

function page_table() {
  const { view } = app;
  if (!view.pages) return null;
  const { tables, leaves, rows } = laid_out(), color = color_of(view.pid);
  const paint = (draw) => {
    for (const { x, from, lines, parent } of tables) {
      const y = from * ROW, at = parent < 0 ? 0 : tables[parent].from * ROW + 12;
      if (parent >= 0) line(draw, [[x - 40, at], [x - 20, at], [x - 20, y + 12], [x, y + 12]], style_of("--dim"));
      box(draw, x, y, WIDE, 18 * lines.length + 4, color);
      write_at(draw, lines[0], x + 8, y + 15, "--ink", "bold ");
      lines.slice(1).forEach((words, k) => write_at(draw, words, x + 8, y + 33 + 18 * k, "--dim"));
    }
    for (const it of leaves) paint_page(draw, it, tables[it.table].from);
  };
  const words = `page table of process ${view.pid}, ${pages_words(view)}`;
  return { words, width: PAGES + 470, height: rows * ROW + 4, paint };
}

// ---- the descriptors

/** What a descriptor names, as one of the boxes at the right: its key, and its lines. */
function target_of({ kind, program, frame }, { pipes }) {
  if (kind === 1) return ["console", ["the console"]];
  if (kind === 2) return [`file ${program}`, [`the file ${program_name(program)}`]];
  const { bytes } = pipes.find((it) => it.frame === frame);
  return [`pipe ${frame}`, [`the pipe in frame ${frame}`, `${bytes} of 2048 bytes`]];
}

const ENDS = { 3: "read end", 4: "write end" };
const words_of = (it) => [
  String(it.fd).padStart(2), rights_of(it),
  it.kind === 2 ? `next byte ${it.offset}` : ENDS[it.kind] ?? "",
].join("  ");

/** Where the boxes stand: of processes with their descriptors, and of what these name. */
function descriptors_laid_out({ processes, files }) {
  const owners = [], targets = new Map();
  let y = 0, below = 0;
  for (const process of processes.filter((it) => it.lives)) {
    const own = files.descriptors.filter((it) => it.pid === process.pid), height = 26 + ROW * Math.max(1, own.length);
    owners.push({ process, own, y, height });
    y += height + 14;
    for (const it of own) {
      const [key, lines] = target_of(it, files);
      if (targets.has(key)) continue;
      targets.set(key, { lines, y: below, height: 18 * lines.length + 8 });
      below += 18 * lines.length + 30;
    }
  }
  return { owners, targets, height: Math.max(y, below, 30) };
}

function descriptors() {
  const { view } = app, wide = 230, to_x = 420;
  if (!view.files) return null;
  const { owners, targets, height } = descriptors_laid_out(view);
  const paint_owner = (draw, { process, own, y, height: high }) => {
    const color = color_of(process.pid);
    box(draw, 0, y, wide, high, color);
    write_at(draw, name_of(process), 8, y + 17, "--ink", "bold ");
    if (!own.length) write_at(draw, "no descriptor is open", 8, y + 36, "--dim");
    own.forEach((it, k) => {
      const at = y + 36 + ROW * k, to = targets.get(target_of(it, view.files)[0]);
      write_at(draw, words_of(it), 8, at);
      line(draw, [[wide, at - 4], [to_x, to.y + 14]], color);
    });
  };
  const paint = (draw) => {
    for (const it of owners) paint_owner(draw, it);
    for (const { lines, y, height: high } of targets.values()) {
      box(draw, to_x, y, 260, high, style_of("--ink"));
      lines.forEach((words, k) => write_at(draw, shorter(words, 34), to_x + 8, y + 17 + 18 * k));
    }
  };
  return { words: "descriptors, and what they name", width: to_x + 270, height, paint };
}

// ---- a picture in its frame, as SVG and as a PNG

const MADE = { turns, tree, pages: page_table, opened: descriptors };

/** A picture with its title: {words, width, height, paint}; null if there is nothing to show. */
export function picture_of(name) {
  const inner = app.view ? MADE[name]() : null;
  if (!inner) return null;
  const { view, booted } = app, title = `${booted.work}: ${inner.words}`;
  const place = `after event ${grouped(view.at)} of ${grouped(view.end)}, tick ${grouped(view.facts.clock)}`;
  const least = Math.ceil(LETTER * Math.max(title.length, place.length));
  const width = Math.max(least, inner.width) + 2 * MARGIN, height = inner.height + HEAD + 2 * MARGIN;
  const paint = (draw, move) => {
    draw.fillStyle = style_of("--card");
    draw.fillRect(0, 0, width, height);
    write_at(draw, title, MARGIN, MARGIN + 12, "--ink", "bold ");
    write_at(draw, place, MARGIN, MARGIN + 30, "--dim");
    move(MARGIN, MARGIN + HEAD);
    inner.paint(draw);
  };
  return { words: `${title}, ${place}`, name: `${name}-${view.at}`, width, height, paint };
}

/** A picture as SVG. */
export function as_svg({ words, width, height, paint }) {
  const draw = new SvgDrawing(width, height, words);
  paint(draw, (x, y) => draw.move(x, y));
  return draw.text();
}

/** A picture as the bytes of a PNG; one that is very high is less sharp. */
export function as_png({ width, height, paint }) {
  const canvas = document.createElement("canvas"), sharp = Math.min(SHARP, MOST_PIXELS / Math.max(width, height));
  Object.assign(canvas, { width: Math.round(width * sharp), height: Math.round(height * sharp) });
  const draw = canvas.getContext("2d");
  draw.scale(sharp, sharp);
  paint(draw, (x, y) => draw.translate(x, y));
  return new Promise((done, fail) => {
    canvas.toBlob((it) => (it ? done(it) : fail(new Error("the browser makes no PNG of it"))), "image/png");
  });
}

// ---- the dialog

/** Hands something to the clipboard; if the browser refuses, that is said, and what to do. */
async function copy(kind, content, words) {
  try {
    await navigator.clipboard.write([new ClipboardItem({ [kind]: content })]);
    $("picture-told").textContent = `${words} is in the clipboard.`;
  } catch (error) {
    const is_plain = !navigator.clipboard, what = is_plain ? "it does so by https alone" : error.message;
    const why = `The browser doesn't let the page copy (${what})`;
    $("picture-told").textContent = `${why}: save the picture as a file in its place.`;
  }
}

/** Saves a picture as a PNG; if the browser makes none, that is said. */
async function save_png(picture) {
  try {
    save(`${picture.name}.png`, await as_png(picture));
  } catch (error) {
    $("picture-told").textContent = `It isn't saved: ${error.message}. Save SVG does without.`;
  }
}

const button = (id, words, action) => element("button", { id, onclick: action }, words);

/** Shows a picture, with what can be done with it. */
export function show_picture(name) {
  const picture = picture_of(name);
  if (!picture) { say("There is no machine to make a picture of."); return; }
  const svg = as_svg(picture), dialog = $("dialog"), address = `data:image/svg+xml,${encodeURIComponent(svg)}`;
  const text = () => new Blob([svg], { type: "text/plain" });
  const first = button("copy-png", "Copy as PNG", () => copy("image/png", as_png(picture), "The picture"));
  first.className = "main";
  dialog.querySelector("div").replaceChildren(
    element("h2", {}, "Copy picture"), element("img", { id: "picture", alt: picture.words, src: address }),
    element(
      "p", { class: "bar" }, first, button("copy-svg", "Copy as SVG", () => copy("text/plain", text(), "The SVG text")),
      button("save-png", "Save PNG", () => save_png(picture)),
      button("save-svg", "Save SVG", () => save(`${picture.name}.svg`, svg))
    ),
    element("p", { id: "picture-told", role: "status" }, "It has the colours of the theme: ◐ turns light and dark.")
  );
  if (!dialog.open) dialog.showModal();
  first.focus();
}

export function start() {
  for (const it of document.querySelectorAll("[data-picture]")) {
    it.addEventListener("click", () => show_picture(it.dataset.picture));
  }
}
