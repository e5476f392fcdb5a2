// The processes: a tree by parents, with what each does, and beside it the picture of turns.
import { $, app, ask, color_of, element, fresh, in_time, on, program_name, style_of } from "./app.mjs";
import { bytes_words, grouped } from "../../anywhere/machine/number_words.mjs";
import { KIND } from "../../anywhere/machine/machine.mjs";
import { range } from "./time.mjs";

/** In which call a process sleeps, and on what: the report's words, without who could wake it. */
// What the lines of the picture of turns mean; in short if that picture is narrower than so many pixels.
const KEY = "solid: it runs · blue: it sleeps · lines: forks · dotted: an end is waited for";
const SHORT_KEY = "solid: runs · blue: sleeps · lines: forks · dotted: an end", WIDTH_OF_KEY = 380;
const sleep_of = ({ wait }) => /sleeps in [^:;]*/.exec(wait ?? "")?.[0] ?? "sleeps";

/** What a process does: the name of its colour, and words. */
export function state_of(process, current) {
  if (!process.lives) return ["zombie", `zombie, ended with ${process.status}`];
  const mark = process.marked ? ", to be killed" : "";
  if (process.asleep) return ["sleeps", `${sleep_of(process)}${mark}`];
  if (process.pid === current) return ["runs", "runs" + mark];
  return ["may", "may run" + mark];
}

/** The processes by parents: each with how deep it stands. */
export function tree_of(processes) {
  const found = [], pids = new Set(processes.map((it) => it.pid)), children = new Map();
  // One whose parent is gone, or is none, stands at the top.
  for (const it of processes) {
    const parent = pids.has(it.parent) ? it.parent : 0;
    children.set(parent, [...(children.get(parent) ?? []), it]);
  }
  const below = (parent, depth) => {
    for (const it of children.get(parent) ?? []) {
      found.push({ process: it, depth });
      below(it.pid, depth + 1);
    }
  };
  below(0, 0);
  return found;
}

export function choose(pid) {
  app.chosen = pid;
  $("follow").checked = false;
  ask("look", { pid, follow: false });
}

/** The row of a process, and what it shows: only what changes is written anew. */
function new_row(pid) {
  const name = element("button", { "aria-label": `Look at process ${pid}` }), state = element("span");
  const words = document.createTextNode("");
  const cells = [0, 1, 2, 3, 4].map((k) => element("td", { class: k > 2 ? "number" : null }));
  const place = document.createTextNode("");
  const swatch = element("span", { class: "swatch" });
  cells[0].append(swatch, place);
  cells[1].append(name);
  cells[2].append(state, words);
  return {
    row: element("tr", { onclick: () => choose(pid) }, ...cells), swatch, place, name, state, words, made: cells[3],
    size: cells[4], told: [],
  };
}

function show(held, told) {
  const [chosen, place, name, kind, words, made, size, color] = told, was = held.told;
  if (chosen !== was[0]) held.row.className = chosen ? "chosen" : "";
  if (place !== was[1]) held.place.data = place;
  if (name !== was[2]) held.name.textContent = name;
  if (kind !== was[3]) held.state.className = `state ${kind}`;
  if (words !== was[4]) held.words.data = words;
  if (made !== was[5]) held.made.textContent = made;
  if (size !== was[6]) held.size.textContent = size;
  if (color !== was[7]) held.swatch.style.background = color;
  held.told = told;
}

let rows = new Map(), order = "";
function draw() {
  const { view } = app, { current } = view, made = tree_of(view.processes);
  const now = made.map(({ process }) => process.pid).join(" ");
  if (now !== order) {
    order = now;
    rows = new Map(made.map(({ process: { pid } }) => [pid, rows.get(pid) || new_row(pid)]));
    $("process-rows").replaceChildren(...[...rows.values()].map((it) => it.row));
  }
  for (const { process: it, depth } of made) {
    const [kind, words] = state_of(it, current);
    show(rows.get(it.pid), [
      it.pid === view.pid, `${depth ? "  ".repeat(depth - 1) + "└ " : ""}${it.pid}`, program_name(it.program) || "?",
      kind, words, grouped(it.made), it.lives ? bytes_words(it.size) : "", color_of(it.pid),
    ]);
  }
}

// ---- the picture of turns

/** So many of these pids at most: those whose lives are nearest to a place of the run, first those that go on there. */
function fitting(all, most, at) {
  if (all.length <= most) return all;
  const { from, reaped } = app.line.lives;
  const distance = (pid) => (from[pid] > at ? from[pid] - at : reaped[pid] < at ? at - reaped[pid] : 0);
  const limit = Float64Array.from(all, distance).sort()[most - 1];
  let room = most - all.filter((it) => distance(it) < limit).length;
  return all.filter((it) => distance(it) < limit || (distance(it) === limit && room-- > 0));
}

/**
 * The last stretch of a bar that begins with a stretch of a process: the next one may begin so many events behind the
 * one before.
 */
function end_of_bar(own, first, apart) {
  const { line } = app;
  for (let last = first; ; ) {
    const next = line.next(own, line.end_of(own[last]) + apart, last + 1);
    // It goes on to the one before `next`, or to `next` itself, if that begins near enough too.
    const is_near = next < own.length && line.at[own[next]] <= line.end_of(own[next - 1]) + apart;
    const further = is_near ? next : next - 1;
    if (further === last) return last;
    last = further;
  }
}

/**
 * The bars of a process, and lines while it sleeps. Stretches that stand less than a pixel apart are one bar: so a long
 * run is drawn as fast as a short one.
 */
function draw_bars(draw, pid, { from, to, scale, x_of, bar }, top) {
  const { line } = app, own = line.work_of.get(pid) ?? [];
  // The stretch before the first one tells whether it sleeps at the beginning of the part that is shown.
  for (let k = Math.max(0, line.next(own, from) - 1); k < own.length && line.at[own[k]] < to; ) {
    const last = end_of_bar(own, k, Math.max(1 / scale, line.apart(line.at[own[k]]))), x = x_of(line.at[own[k]]);
    const end = x_of(line.end_of(own[last]));
    draw.fillStyle = color_of(pid);
    if (line.end_of(own[last]) > from) draw.fillRect(x, top, Math.max(0.8, end - x), bar);
    k = last + 1;
    if (line.kind[own[last]] !== KIND.WAIT) continue;
    draw.fillStyle = "#6d8fce66";
    draw.fillRect(end, top + bar / 2 - 1, x_of(k < own.length ? line.at[own[k]] : line.end) - end, 3);
  }
}

/** The processes that ran one behind another up to a place, the last ones, so many at most. */
function last_that_ran(at, most) {
  const { line } = app, found = [];
  let place = line.find(at - 1);
  for (let looked = 0; place >= 0 && found.length < most && looked < 1000; place--, looked++) {
    if (line.kind[place] <= KIND.FAULT && found[0] !== line.pid[place]) found.unshift(line.pid[place]);
  }
  return found;
}

/** A life of the picture in words. */
function life_words({ pid, parent, from, to, reaped, by }) {
  const name = program_name(app.names.get(pid));
  const words = [parent ? `forked by process ${parent} at event ${grouped(from)}` : "the first"];
  if (to !== Infinity) words.push(`ended at event ${grouped(to)}`);
  if (reaped !== Infinity) words.push(`the wait of process ${by} took it away at event ${grouped(reaped)}`);
  return `process ${pid}${name ? ` (${name})` : ""}: ${words.join(", ")}`;
}

let told_at = 0;
/** The picture in words, for readers of the screen; while the machine plays, once a second. */
function tell_turns(lives_shown) {
  const { view } = app, now = performance.now();
  if (view.playing && now - told_at < 1000) return;
  told_at = now;
  const ran = last_that_ran(view.at, 12), { current } = view.facts;
  const words = [
    current ? `process ${current} runs` : "nobody runs",
    ran.length ? `up to here ran, one behind another: ${ran.join(", ")}` : "no process has run",
  ];
  $("turns-told").replaceChildren(...[...words, ...lives_shown.map(life_words)].map((it) => element("li", {}, it)));
}

/** The name of a life, its line, and the lines of its fork and of the wait for its end. */
function draw_life(draw, it, { view, from, to, x_of, bar, high, top_of }) {
  const y = top_of.get(it.pid), dim = style_of("--dim");
  draw.fillStyle = it.pid === view.pid ? style_of("--ink") : dim;
  draw.fillText(`${it.pid} ${program_name(app.names.get(it.pid))}`.slice(0, 11), 2, y + high / 2 + 2);
  draw.fillStyle = style_of("--line");
  draw.fillRect(x_of(it.from), y + bar / 2, Math.max(1, x_of(Math.min(it.to, to)) - x_of(it.from)), 1);
  if (it.parent && top_of.has(it.parent) && it.from >= from && it.from <= to) {
    // A fork: a line from the parent to the child.
    draw.strokeStyle = color_of(it.pid);
    draw.beginPath();
    draw.moveTo(x_of(it.from) + 0.5, top_of.get(it.parent) + bar / 2);
    draw.lineTo(x_of(it.from) + 0.5, y + bar / 2);
    draw.stroke();
  }
  if (it.reaped !== Infinity && top_of.has(it.by) && it.reaped >= from && it.reaped <= to) {
    // An end that a parent has waited for: a dotted line back.
    draw.strokeStyle = dim;
    draw.setLineDash([2, 2]);
    draw.beginPath();
    draw.moveTo(x_of(it.to), y + bar / 2);
    draw.lineTo(x_of(it.reaped), top_of.get(it.by) + bar / 2);
    draw.stroke();
    draw.setLineDash([]);
  }
}

/** Paints the turns of the part that is shown, so wide and high; tells the lives that it shows. */
export function paint_turns(draw, width, height) {
  const { view } = app, { from, to } = range(), { lives } = app.line;
  const shown = fitting(
    lives.within(from, to), Math.max(2, Math.floor((height - 14) / 7)), view.at
  ).map((pid) => lives.of(pid));
  const left = 74, scale = (width - left - 4) / (to - from);
  const x_of = (at) => left + (Math.max(from, Math.min(to, at)) - from) * scale;
  const high = Math.min(26, (height - 14) / Math.max(1, shown.length)), bar = Math.max(2, high - 6);
  const top_of = new Map(shown.map((it, k) => [it.pid, 4 + k * high]));
  const picture = { view, from, to, scale, x_of, bar, high, top_of };
  draw.font = `${Math.min(11, Math.max(7, high - 2))}px ui-monospace, monospace`;
  for (const it of shown) draw_life(draw, it, picture);
  for (const it of shown) draw_bars(draw, it.pid, picture, top_of.get(it.pid));
  for (const it of shown) {
    if (!it.end || it.to < from || it.to >= to) continue;
    draw.fillStyle = style_of(it.end === KIND.FAULT ? "--bad" : "--ink");
    draw.fillRect(x_of(it.to), top_of.get(it.pid) - 1, 2, bar + 2);
  }
  draw.fillStyle = style_of("--ink");
  draw.fillRect(x_of(view.at) - 0.5, 0, 1, height - 10);
  draw.fillStyle = style_of("--dim");
  draw.font = "10px system-ui, sans-serif";
  draw.fillText(width < WIDTH_OF_KEY ? SHORT_KEY : KEY, width < 480 ? 2 : left, height - 2);
  return shown;
}

function draw_turns() {
  const { draw, width, height } = fresh($("turns"));
  if (app.view && width >= 40) tell_turns(paint_turns(draw, width, height));
}

export function start() {
  const show_turns = in_time(draw_turns);
  on("panels", () => { draw(); show_turns(); });
  on("zoom", () => { if (app.view) show_turns(); });
  on("booted", () => {
    rows = new Map();
    order = "";
    $("process-rows").replaceChildren();
    $("turns-told").replaceChildren();
    fresh($("turns"));
  });
  $("turns").addEventListener("click", (event) => {
    const box = event.currentTarget.getBoundingClientRect(), { from, to } = range(), x = event.clientX - box.left - 74;
    if (x >= 0) ask("go", { place: Math.round(from + (x / (box.width - 78)) * (to - from)) });
  });
  $("follow").addEventListener("change", () => {
    app.chosen = app.view ? app.view.pid : 1;
    ask("look", { pid: app.chosen, follow: $("follow").checked });
  });
}
