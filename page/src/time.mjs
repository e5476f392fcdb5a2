// Time: play and pause, steps forward and back, the slider over the whole run, zoom.
import {
  $, app, ask, color_of, element, fresh, in_time, on, program_name, say, style_of, tell, write,
} from "./app.mjs";
import { grouped } from "../../anywhere/machine/number_words.mjs";
import { KIND } from "../../anywhere/machine/machine.mjs";
import { call_name } from "../../anywhere/machine/calls.mjs";
import { stuck, stuck_words } from "./stuck.mjs";
import { keep, kept } from "./browser_storage.mjs";
import { type } from "./terminal.mjs";
import { step_line } from "./c_source.mjs";

/** The part of the run that the slider and the picture of turns show. */
export const window_ = { from: 0, to: 0, whole: true };
let dragging = false;

export function range() {
  const end = Math.max(1, app.line.end);
  if (window_.whole) return { from: 0, to: end };
  return { from: Math.max(0, window_.from), to: Math.max(window_.from + 1, window_.to) };
}

function zoom(factor) {
  const { from, to } = range(), at = app.view ? app.view.at : 0, middle = at >= from && at <= to ? at : (from + to) / 2;
  const half = Math.max(10, ((to - from) * factor) / 2);
  window_.whole = half * 2 >= app.line.end;
  window_.from = Math.max(0, middle - half);
  window_.to = middle + half;
  tell("zoom");
}

// ---- the slider

const BAND = 9, BELOW = 15; // pixels: how high the band of those that run is, and where it begins above the lower edge

/** Draws a mark for each stretch of a list that stands more than so many pixels behind the last one that is drawn. */
function draw_marks(list, { from, to, scale }, apart, mark) {
  const { line } = app;
  for (let k = line.next(list, from); k < list.length && line.at[list[k]] < to; ) {
    const at = line.at[list[k]];
    mark((at - from) * scale, list[k]);
    k = line.next(list, at + apart / scale, k + 1);
  }
}

/** Draws who runs: one stretch a pixel is enough. */
function draw_band(draw, { from, to, scale }, top) {
  const { line } = app, { work } = line;
  let done = 0;
  for (let k = line.next(work, from); k < work.length && line.at[work[k]] < to; ) {
    const end = line.end_of(work[k]), x = Math.max(done, (line.at[work[k]] - from) * scale);
    done = (end - from) * scale;
    draw.fillStyle = color_of(line.pid[work[k]]);
    draw.fillRect(x, top, Math.max(0.6, done - x), BAND);
    k = line.next(work, end + 1 / scale, k + 1);
  }
}

/** Draws the ticks, calls, ends, keys and faults of a part of the run, each kind above those before it. */
function draw_all_marks(draw, part, top) {
  const { line } = app, { tick, call, end, key, fault } = line.marks;
  const accent = style_of("--accent"), dim = style_of("--dim");
  draw.fillStyle = style_of("--line");
  draw_marks(tick, part, 3, (x) => draw.fillRect(x, 0, 1, top - 2));
  draw_marks(call, part, 1.5, (x, stretch) => {
    draw.fillStyle = line.kind[stretch] === KIND.CALL ? accent : dim;
    draw.fillRect(x, 10, 1, top - 12);
  });
  draw.fillStyle = style_of("--warm");
  draw_marks(end, part, 3, (x) => draw.fillRect(x - 1, 5, 2.5, top - 7));
  draw_marks(key, part, 4, (x) => triangle(draw, x, 8, -6));
  draw.fillStyle = style_of("--bad");
  draw_marks(fault, part, 1, (x) => {
    draw.fillRect(x - 1.5, 0, 3.5, top);
    draw.beginPath();
    draw.arc(x, 4, 4, 0, 7);
    draw.fill();
  });
}

/** A triangle with its point at a place, and its base so far below it. */
function triangle(draw, x, y, base) {
  const half = Math.abs(base) / 2 + (base > 0 ? 1.5 : 0);
  draw.beginPath();
  draw.moveTo(x, y);
  draw.lineTo(x - half, y + base);
  draw.lineTo(x + half, y + base);
  draw.fill();
}

function draw_slider() {
  const { draw, width, height } = fresh($("slider")), { from, to } = range(), { view } = app;
  if (!view || width < 10) return;
  const part = { from, to, scale: width / (to - from) };
  draw_band(draw, part, height - BELOW);
  draw_all_marks(draw, part, height - BELOW);
  const x = Math.min(width - 1, Math.max(1, (view.at - from) * part.scale));
  draw.fillStyle = style_of("--ink");
  draw.globalAlpha = 0.08;
  draw.fillRect(x, 0, width, height);
  draw.globalAlpha = 1;
  draw.fillRect(x - 1, 0, 2, height);
  triangle(draw, x, height - 7, 7);
}

/** What came of the event at a place, in words; none if the page doesn't have it. */
export function event_words(place) {
  const { line } = app, found = line.find(place);
  return found < 0 || !line.has(place, place) ? "" : words_of_event({
    kind: line.kind[found], pid: line.pid[found], number: line.number[found], value: line.value[found],
  });
}

/** An outcome in words. */
export function words_of_event({ kind, pid, number, value }) {
  const who = `process ${pid}`;
  switch (kind) {
    case KIND.STEP: return `${who}: an instruction`;
    case KIND.CALL: return `${who}: ${call_name(number)} answers ${value}`;
    case KIND.WAIT: return `${who} waits in ${call_name(number)}`;
    case KIND.EXIT: return `${who} ends with ${number}`;
    case KIND.FAULT: return `${who} faults (cause ${number})`;
    case KIND.TURN: return `turn of ${who}`;
    case KIND.IDLE: return "nobody may run";
    case KIND.TICK: return "a tick";
    case KIND.KEY: return `the key ${number > 32 && number < 127 ? String.fromCharCode(number) : number}`;
    case KIND.SENT: return `the byte ${number > 32 && number < 127 ? String.fromCharCode(number) : number} is sent`;
    case KIND.NONE: return "no byte waits";
    default: return "process 1 is gone";
  }
}

// While the machine plays, a mark moves by less than a pixel from frame to frame: 20 drawings a second are enough.
const show_slider = in_time(draw_slider, () => (app.view?.playing && !dragging ? 50 : 0));

function go(place) {
  const to = Math.round(Math.max(0, Math.min(place, app.line.end)));
  if (go.wanted === to) return;
  go.wanted = to;
  // One at a time: the last one wins.
  if (go.busy) return;
  go.busy = true;
  ask("go", { place: to });
  go.sent = to;
}
on("view", () => {
  if (!go.busy) return;
  go.busy = false;
  if (go.wanted !== go.sent) { const to = go.wanted; go.wanted = -1; go(to); } else go.wanted = -1;
});

function at_pointer(event) {
  const box = $("slider").getBoundingClientRect(), { from, to } = range();
  return from + ((event.clientX - box.left) / box.width) * (to - from);
}

// ---- play and steps

export function toggle() {
  if (!app.booted) return;
  ask(app.view && app.view.playing ? "pause" : "play");
}
export function step(what, back) {
  if (app.booted) ask("step", { what, back });
}

// ---- what stands beside the slider

const refused = { key: "", words: "" }; // of the call that was answered last, if it was refused
/** Why that call was refused, in words; nothing if it wasn't, or as long as the worker hasn't told. */
function why_refused() {
  const { view, line } = app, place = view.at - 1, k = line.find(place);
  const is_refused = k >= 0 && line.has(place, place) && line.kind[k] === KIND.CALL && line.value[k] === -1;
  const key = is_refused ? `refused ${app.booted.id} ${view.edits} ${view.at}` : "";
  if (key !== refused.key) {
    Object.assign(refused, { key, words: "" });
    if (key) ask("tell_events", { id: 0, key, places: [place] });
  }
  return refused.words;
}

const clock = {
  words: document.createTextNode(""),
  stuck: element("button", {
    id: "stuck", hidden: true, title: "To the call that sleeps, and to its line", onclick: () => tell("see stuck"),
  }),
  last: element("span"), between: document.createTextNode(""), stopped: element("b"),
};

function told() {
  const { view } = app, { facts } = view;
  write($("play"), view.playing ? "❚❚ Pause" : "▶ Play");
  const past = view.at < view.end;
  const state = facts.halted ? `ended with ${facts.status}`
    : facts.current ? `${program_name(view.program)} (${facts.current}) runs` : "nobody runs";
  write(
    clock.words,
    `event ${grouped(view.at)}${past ? ` of ${grouped(view.end)}` : ""} · tick ${grouped(facts.clock)} · ${state}`
  );
  if (view.playing) refused.key = "";
  const last = view.playing || view.at === 0 ? "" : `${event_words(view.at - 1)}${why_refused()}`;
  write(clock.last, last && ` · last: ${last}`);
  const stopped = !view.playing && view.stopped !== "paused" ? view.stopped : "";
  write(clock.between, stopped ? " · " : "");
  write(clock.stopped, stopped);
}

let said_of = "";
/** Tells that nobody can go on, if it is so; once as a message too. */
function tell_stuck() {
  const list = stuck(), words = list ? stuck_words(list) : "";
  write(clock.stuck, words);
  clock.stuck.hidden = !words;
  if (words && words !== said_of) {
    say(`${words[0].toUpperCase()}${words.slice(1)}. The tab Why tells who could wake whom.`);
  }
  said_of = words;
}

let futures = 0;
/** Offers to take back what a key in the past has cut off. */
function tell_futures() {
  const list = app.view.futures, last = list.at(-1), button = $("take-back");
  button.hidden = !last;
  if (last) write(button, `↶ ${grouped(last.count)} events, cut off at ${grouped(last.at)}`);
  if (list.length > futures) {
    say(`The key has cut off the ${grouped(last.count)} events that came here before. The button ↶ takes them back.`);
  }
  futures = list.length;
}

function tell_slider() {
  const { at, end } = app.view, slider = $("slider");
  slider.setAttribute("aria-valuemax", end);
  slider.setAttribute("aria-valuenow", at);
  slider.setAttribute("aria-valuetext", `event ${at} of ${end}`);
}

// ---- keys of the page

const STEPS = { s: "step", e: "event", c: "call", t: "turn" };
const LINE_STEPS = { l: "over", i: "into", o: "out" };
const TAKES_KEYS = "#screen, textarea, input, select, [contenteditable], [role=application], [role=listbox], dialog";
function key(event) {
  const { target } = event;
  if (!$("letters").checked || event.defaultPrevented || event.isComposing) return;
  if (event.ctrlKey || event.metaKey || event.altKey || target.closest?.(TAKES_KEYS)) return;
  if (event.key === " " && !target.closest("button, summary, [role=tab]")) { event.preventDefault(); toggle(); return; }
  const what = STEPS[event.key.toLowerCase()];
  if (what) { event.preventDefault(); step(what, event.shiftKey); }
  const how = LINE_STEPS[event.key.toLowerCase()];
  if (how) { event.preventDefault(); step_line(how, event.shiftKey); }
}

function start_slider() {
  const slider = $("slider");
  slider.addEventListener("pointerdown", (event) => {
    dragging = true;
    slider.setPointerCapture(event.pointerId);
    go(at_pointer(event));
  });
  slider.addEventListener("pointermove", (event) => {
    if (dragging) go(at_pointer(event));
    else slider.title = event_words(Math.floor(at_pointer(event)));
  });
  slider.addEventListener("pointerup", () => { dragging = false; });
  slider.addEventListener("wheel", (event) => { event.preventDefault(); zoom(event.deltaY > 0 ? 1.5 : 0.67); }, {
    passive: false,
  });
  slider.addEventListener("keydown", (event) => {
    const { from, to } = range();
    const by = { ArrowLeft: -1, ArrowRight: 1, PageDown: -(to - from) / 20, PageUp: (to - from) / 20 }[event.key];
    if (event.key === "Home") go(0);
    else if (event.key === "End") go(app.line.end);
    else if (by === -1 || by === 1) step("one", by < 0);
    else if (by) go((app.view?.at ?? 0) + by);
    else if (event.key === "+") zoom(0.25);
    else if (event.key === "-") zoom(4);
    else return;
    event.preventDefault();
    event.stopPropagation();
  });
}

export function start() {
  $("clock").append(...Object.values(clock));
  $("play").addEventListener("click", toggle);
  for (const it of document.querySelectorAll("[data-step]")) {
    it.addEventListener("click", () => step(it.dataset.step, false));
  }
  for (const it of document.querySelectorAll("[data-back]")) {
    it.addEventListener("click", () => step(it.dataset.back, true));
  }
  $("speed").addEventListener("change", () => ask("settings", { speed: Number($("speed").value) }));
  $("take-back").addEventListener("click", () => {
    futures = Infinity;
    ask("take_back");
    say("What the key had cut off is back.");
  });
  $("zoom-in").addEventListener("click", () => zoom(0.25));
  $("zoom-out").addEventListener("click", () => zoom(4));
  $("zoom-all").addEventListener("click", () => { window_.whole = true; tell("zoom"); });
  start_slider();
  addEventListener("keydown", key);
  on("read", () => { $("letters").checked = kept("letters") !== "off"; });
  $("letters").addEventListener("change", () => keep("letters", $("letters").checked ? "on" : "off"));
  on("view", () => {
    const { from, to } = range(), { at } = app.view;
    // The window follows the place.
    if (!window_.whole && (at < from || at > to)) {
      const width = to - from;
      window_.from = Math.max(0, at - width * 0.7);
      window_.to = window_.from + width;
    }
    told();
    show_slider();
  });
  on("events told", ({ key, list: [it] }) => {
    if (key !== refused.key || !it) return;
    refused.words = it.answer.replace(/^-1/, "");
    told();
  });
  on("panels", () => { tell_slider(); tell_stuck(); tell_futures(); });
  on("zoom", () => { if (app.view) show_slider(); });
  on("replayed", () => { futures = Infinity; });
  on("play", () => ask("play"));
  on("booted", () => {
    Object.assign(go, { busy: false, wanted: -1 });
    window_.whole = true;
    futures = 0;
    said_of = "";
  });
  globalThis.type_keys = (text) => type(new TextEncoder().encode(text));
}
