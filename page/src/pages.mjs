// The page table of a process, three levels as a tree (RISC-V Privileged ISA, "Sv39"), and the map of all frames of
// RAM.
import { $, app, ask, color_of, element, fresh, on, style_of, tell, write } from "./app.mjs";
import { PAGE } from "../../anywhere/machine/memory.mjs";
import { hex } from "../../anywhere/machine/number_words.mjs";

const RAM = 0x80000000n, MOST_ROWS = 600; // rows of a last table
export const BITS = [[2, "R", "read"], [4, "W", "write"], [8, "X", "execute"], [16, "U", "user code may use it"]];
let before = null, changed = new Set(), new_pages = new Set(), last_pages = null, point = 0, opened = new Map();

function bits(rights) {
  return element(
    "span", { class: "bits", title: BITS.filter(([bit]) => rights & bit).map(([, , words]) => words).join(", ") },
    ...BITS.map(([bit, letter]) => element("span", { class: rights & bit ? "on" : "" }, rights & bit ? letter : "-"))
  );
}

export const address_of = (frame) => hex(RAM + BigInt(frame) * BigInt(PAGE));

/** What a page is, as far as its rights tell: the guard page is there, and user code may not use it. */
function use_of(rights) {
  if (!(rights & 16)) return "guard";
  return "";
}

/** The sign of what the last step changed, beside its colour. */
const sign = () => (
  element("span", { class: "changed", role: "img", "aria-label": "changed", title: "the last step changed it" }, "✱")
);

/** The frame of a table: the root of a process, or that of a level with this place. */
function table_frame(kind, pid, place) {
  const { frames } = app.view;
  for (let frame = 0; frame < frames.count; frame++) {
    if (frames.kinds[frame] === kind && frames.pids[frame] === pid && (kind === 3 || frames.places[frame] === place)) {
      return frame;
    }
  }
  return null;
}

function branch(key, is_open, words, is_new, ...children) {
  const made = element(
    "details", { open: opened.has(key) ? opened.get(key) : is_open },
    element("summary", { class: is_new ? "new" : "" }, is_new ? sign() : null, ...words), ...children
  );
  made.addEventListener("toggle", () => opened.set(key, made.open));
  return made;
}

/**
 * The tables of the process that is looked at, below its root: {place, frame, below} each, of middle tables, whose
 * `below` are last tables, whose `below` are pages.
 */
export function tables_of({ pid, pages: { found } }) {
  const uppers = new Map();
  for (const it of found) {
    const two = Math.floor(it.page / 262144), one = Math.floor(it.page / 512);
    if (!uppers.has(two)) uppers.set(two, new Map());
    if (!uppers.get(two).has(one)) uppers.get(two).set(one, []);
    uppers.get(two).get(one).push(it);
  }
  const last = ([place, below]) => ({ place, below, frame: table_frame(5, pid, place) });
  return [...uppers].map(([place, lowers]) => (
    { place, below: [...lowers].map(last), frame: table_frame(4, pid, place) }
  ));
}
export const root_of = ({ pid }) => table_frame(3, pid, 0);

/** What is said beside a page: whether it is the pc's, the stack pointer's, that of what is next, the guard's. */
export function notes_of({ page, rights }, { registers, next }) {
  const is_of = (address) => address !== null && address !== undefined && Number(address / 4096n) === page;
  const told = [
    [is_of(registers?.[0]), "pc"], [is_of(registers?.[2]), "sp"], [is_of(next), "next load or store"],
    [use_of(rights), use_of(rights)],
  ];
  return told.flatMap(([is_so, words]) => (is_so ? words : []));
}

/** The row of a page in its last table. */
function leaf_of(it) {
  const { view } = app, notes = notes_of(it, view), is_new = new_pages.has(it.page), is_at = notes.includes("pc");
  const address = hex(BigInt(it.page) * 4096n);
  const translate = () => tell("translate", { text: address, access: "load" });
  return element(
    "div",
    {
      class: `leaf mono${is_new ? " new" : ""}${is_at ? " at" : ""}`,
      title: `page ${it.page}: entry ${it.page % 512} of its last table`,
    },
    element("span", {}, is_new ? sign() : null, element("span", { class: "dim" }, `entry ${it.page % 512}`)),
    element("button", { class: "slight mono", title: "Translate this address", onclick: translate }, address),
    bits(it.rights),
    element(
      "span", {}, it.frame === null ? "" : `frame ${it.frame}`,
      notes.length ? element("span", { class: "dim" }, ` ${notes.join(", ")}`) : ""
    )
  );
}

const in_frame = (frame, more = "") => (
  element("span", { class: "dim" }, frame === null ? "" : ` in frame ${frame}, ${address_of(frame)}${more}`)
);

function last_table(two, { place, frame, below }) {
  const { pid } = app.view, leaves = below.slice(0, MOST_ROWS).map(leaf_of), from = hex(BigInt(place) * 512n * 4096n);
  if (below.length > MOST_ROWS) {
    leaves.push(element("div", { class: "leaf dim" }, `and ${below.length - MOST_ROWS} more`));
  }
  const count = element("span", { class: "dim" }, ` · ${below.length} page${below.length > 1 ? "s" : ""} from ${from}`);
  const words = [`entry ${place % 512}: last table`, in_frame(frame), count];
  return branch(`${pid} ${two} ${place}`, true, words, frame !== null && changed.has(frame), ...leaves);
}

function middle_table({ place, frame, below }) {
  const words = [`entry ${place}: middle table`, in_frame(frame)], is_new = frame !== null && changed.has(frame);
  return branch(`${app.view.pid} ${place}`, true, words, is_new, ...below.map((it) => last_table(place, it)));
}

/** How many pages of a process are there, in words. */
export const pages_words = ({ pages: { found, size } }) => (
  `${found.length} pages of ${Math.ceil(size / PAGE)} below the size ${hex(BigInt(size))}`
);

function draw_table() {
  const { view } = app, summary = element("span", { class: "dim" }, ` · ${pages_words(view)}`);
  const words = ["root table", in_frame(root_of(view), ", to which satp points"), summary];
  $("table").replaceChildren(branch(`${view.pid}`, true, words, false, ...tables_of(view).map(middle_table)));
}

// ---- the map of frames

/** What frames are used for, by the numbers of their uses. */
const USES = ["", "free", "trapframe", "root table", "middle table", "last table", "page", "pipe"];

const SHADES = { 2: 22, 3: -14, 4: -7, 5: 0, 6: 12 };

function color_of_frame(kind, pid) {
  if (kind === 1) return style_of("--soft");
  if (kind === 7) return style_of("--warm");
  if (kind === 0) return style_of("--bad");
  return color_of(pid, SHADES[kind] ?? 0);
}

function cells() {
  const { count } = app.view.frames, width = $("frame-map").clientWidth;
  const side = Math.max(2, Math.min(24, Math.floor(Math.sqrt((width * 220) / count))));
  const columns = Math.max(1, Math.floor(width / side));
  return { side, columns, rows: Math.ceil(count / columns) };
}

function draw_map() {
  const { frames } = app.view, canvas = $("frame-map"), { count } = frames;
  const { side, columns, rows } = cells(), colors = new Map();
  if (canvas.style.height !== `${rows * side + 2}px`) canvas.style.height = `${rows * side + 2}px`;
  const { draw, width } = fresh(canvas);
  if (width < 10) return;
  const gap = side > 4 ? 1 : 0;
  for (let frame = 0; frame < count; frame++) {
    const key = frames.kinds[frame] * 65536 + (frames.kinds[frame] === 1 ? 0 : frames.pids[frame] % 10);
    let color = colors.get(key);
    if (!color) colors.set(key, (color = color_of_frame(frames.kinds[frame], frames.pids[frame])));
    draw.fillStyle = color;
    draw.fillRect((frame % columns) * side, Math.floor(frame / columns) * side, side - gap, side - gap);
  }
  draw.strokeStyle = style_of("--ink");
  draw.lineWidth = 1.5;
  if (changed.size < 400) {
    for (const frame of changed) {
      draw.strokeRect((frame % columns) * side + 0.5, Math.floor(frame / columns) * side + 0.5, side - 1, side - 1);
    }
  }
  if (document.activeElement === canvas) {
    draw.strokeStyle = style_of("--bad");
    draw.lineWidth = 2;
    draw.strokeRect((point % columns) * side - 1, Math.floor(point / columns) * side - 1, side + 2, side + 2);
  }
  tell_point();
  const used = new Map();
  for (let frame = 0; frame < count; frame++) used.set(frames.kinds[frame], (used.get(frames.kinds[frame]) || 0) + 1);
  $("frame-key").replaceChildren(
    ...[...used].sort((a, b) => a[0] - b[0]).map(
      ([kind, many]) => element(
        "span", {}, element("i", { style: `background:${color_of_frame(kind, app.view.pid)}` }),
        `${many} ${kind === 1 ? "free" : USES[kind] + (many > 1 ? "s" : "")}`
      )
    )
  );
}

function tell_point() {
  const { frames } = app.view, frame = Math.min(point, frames.count - 1), kind = frames.kinds[frame];
  const pid = frames.pids[frame], place = frames.places[frame];
  const what = {
    1: "free", 2: `the trapframe of process ${pid}`, 3: `the root table of process ${pid}`,
    4: `a middle table of process ${pid}, entry ${place} of its root`,
    5: `a last table of process ${pid}, for pages from ${hex(BigInt(place) * 512n * 4096n)}`,
    6: `page ${hex(BigInt(place) * 4096n)} of process ${pid}`, 7: "a pipe",
  }[kind] || "no frame";
  $("frame-told").textContent =
    `frame ${frame} at ${address_of(frame)}: ${what}${changed.has(frame) ? "; the last step changed it" : ""}`;
}

/** Takes a view: what changed since the last one is marked. */
function show() {
  const { view } = app;
  if ($("pages").hidden || !view.frames) return;
  write($("frames-of"), view.ended ? `Frames of RAM, as process ${view.pid} ended` : "Frames of RAM");
  if (!view.pages) $("table").replaceChildren();
  const now = view.frames, key = `${view.at} ${view.edits}`;
  if (before && before.key !== key && before.frames.count === now.count) {
    changed = new Set();
    for (let frame = 0; frame < now.count; frame++) {
      if (
        now.kinds[frame] !== before.frames.kinds[frame] || now.pids[frame] !== before.frames.pids[frame]
          || now.places[frame] !== before.frames.places[frame]
      ) {
        changed.add(frame);
      }
    }
  }
  if (view.pages) {
    const pages = new Map(view.pages.found.map((it) => [it.page, `${it.rights} ${it.frame}`]));
    if (last_pages && last_pages.pid === view.pid && last_pages.key !== key) {
      new_pages = new Set(
        [...pages].filter(([page, told]) => last_pages.pages.get(page) !== told).map(([page]) => page)
      );
    } else if (last_pages && last_pages.pid !== view.pid) new_pages = new Set();
    last_pages = { pid: view.pid, key, pages };
    draw_table();
  }
  before = { key, frames: now };
  draw_map();
}

export function start() {
  on("panels", show);
  const canvas = $("frame-map");
  const at_pointer = (event) => {
    const box = canvas.getBoundingClientRect(), { side, columns } = cells();
    const column = Math.floor((event.clientX - box.left) / side);
    return column >= columns ? point
      : Math.min(app.view.frames.count - 1, Math.floor((event.clientY - box.top) / side) * columns + column);
  };
  canvas.addEventListener("pointermove", (event) => {
    if (app.view?.frames) { point = at_pointer(event); tell_point(); }
  });
  canvas.addEventListener("click", (event) => {
    if (!app.view?.frames) return;
    point = at_pointer(event);
    const pid = app.view.frames.pids[point];
    if (pid) { app.chosen = pid; $("follow").checked = false; ask("look", { pid, follow: false }); }
    draw_map();
  });
  canvas.addEventListener("keydown", (event) => {
    if (!app.view?.frames) return;
    const by = { ArrowLeft: -1, ArrowRight: 1, ArrowUp: -cells().columns, ArrowDown: cells().columns }[event.key];
    if (!by) return;
    event.preventDefault();
    point = Math.max(0, Math.min(app.view.frames.count - 1, point + by));
    draw_map();
  });
  for (const it of ["focus", "blur"]) canvas.addEventListener(it, () => { if (app.view?.frames) draw_map(); });
  on("booted", () => {
    before = null;
    last_pages = null;
    changed = new Set();
    new_pages = new Set();
    opened = new Map();
    for (const it of ["table", "frame-key", "frame-told"]) $(it).replaceChildren();
    fresh(canvas);
  });
}
