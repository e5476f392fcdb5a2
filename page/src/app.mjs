// What the panels share: the worker, the last view of the machine, the files, and who wants to hear of changes.
import { ThinnedRecord } from "./thinned_record.mjs";
import { RunMarks } from "./run_marks.mjs";
import { LastNames } from "../../anywhere/machine/program_names.mjs";
import { EventsText } from "../../anywhere/machine/events.mjs";

export const $ = (id) => document.getElementById(id);

export const app = {
  worker: null,
  view: null,
  line: new ThinnedRecord(), // what came of the events so far, as far as the page has it
  marks: new RunMarks(), // what came of them, in short
  events: new EventsText(), // the events so far, as a text
  names: new LastNames(), // the program that each process of the run ran last, by its place among the files
  text: new Uint8Array(0), // the bytes that the console has shown
  faults: [], // the faults of the run
  cut_off: [], // the futures that keys have cut off, with their events
  kills: [], // the processes of the run that are gone since they were killed
  work: { name: "", files: [], gone: [], breaks: [] }, // the work that is open (works.mjs)
  get files() { return this.work.files; }, // {name, text} or {name, bytes}
  booted: null, // {files: [{name, bytes, text, from}], config, how, symbols}, of the machine that runs
  chosen: 0, // the process that is looked at; 0: the one that runs
  get symbols() { return this.booted?.symbols ?? []; }, // for each file of the machine, its names of places
};

const listeners = new Map();
let part = ""; // the part of the page that is being started, or that hears: what it listens to then is its own

/**
 * Starts a part of the page: if it fails to hear what is told later, that is its own failure, and the others hear it.
 */
export function start_part(name, start) {
  part = name;
  start();
  part = "";
}
export function on(what, call) {
  if (!listeners.has(what)) listeners.set(what, []);
  call.part ??= part;
  listeners.get(what).push(call);
}
/** Tells those who want to hear of it, one by one. */
export function tell(what, it) {
  for (const call of listeners.get(what) || []) {
    try {
      call(it);
      if (call.has_failed) app.on_mended?.(call.part);
      call.has_failed = false;
    } catch (error) {
      call.has_failed = true;
      app.on_failed?.(call.part, what, error);
    }
  }
}
/** The first of these that is told, as {name, it}. */
export function once(...names) {
  return new Promise((done) => {
    for (const name of names) {
      const call = (it) => {
        for (const other of names) listeners.set(other, listeners.get(other).filter((it) => it.promise !== done));
        done({ name, it });
      };
      call.promise = done;
      on(name, call);
    }
  });
}
export function ask(what, it = {}) {
  app.worker.postMessage({ do: what, ...it });
}

let hushes = 0;
/** Says something, seen and read out, for some seconds. */
export function say(text) {
  clearTimeout(hushes);
  $("status").textContent = text;
  hushes = setTimeout(hush, 4000 + 60 * text.length);
}
/** Takes away what was said. */
export function hush() {
  $("status").textContent = "";
}

export function element(name, attributes = {}, ...children) {
  const made = document.createElement(name);
  for (const [key, value] of Object.entries(attributes)) {
    if (key.startsWith("on")) made.addEventListener(key.slice(2), value);
    else if (value === true) made.setAttribute(key, "");
    else if (value !== false && value !== null && value !== undefined) made.setAttribute(key, value);
  }
  made.append(...children.filter((it) => it !== null && it !== undefined));
  return made;
}

/** Writes a text, if another one stands there: what stays as it is costs the browser nothing. */
export function write(node, text) {
  if (node.textContent !== text) node.textContent = text;
}

export const program_name = (place) => (
  (place === null || place === undefined || !app.booted ? "" : app.booted.files[place]?.name ?? "")
);

const root = document.documentElement;
const styles = new Map(); // those of the theme that were asked for, by their name or number
const style = (name, find) => styles.get(name) ?? styles.set(name, find()).get(name);
export function set_theme(name) {
  root.dataset.theme = name;
  styles.clear();
}

const HUES = [145, 215, 28, 285, 185, 345, 60, 250, 100, 320];
/** The colour of a process. */
export function color_of(pid, light = 0) {
  const hue = HUES[pid % HUES.length], dark = () => root.dataset.theme === "dark";
  return style(1000 * light + hue, () => (
    dark() ? `hsl(${hue} 48% ${56 + light}%)` : `hsl(${hue} 55% ${42 + light}%)`
  ));
}
export const style_of = (name) => style(name, () => getComputedStyle(root).getPropertyValue(name).trim());

const sizes = new Map();
const watch = new ResizeObserver((changes) => {
  for (const { target } of changes) sizes.set(target, null);
  requestAnimationFrame(() => tell("resized"));
});
/**
 * The size of a canvas on the screen. It is asked for when it has changed alone: to tell it, the browser lays out the
 * page.
 */
function size_of(canvas) {
  if (!sizes.has(canvas)) watch.observe(canvas);
  if (!sizes.get(canvas)) sizes.set(canvas, { width: canvas.clientWidth, height: canvas.clientHeight });
  return sizes.get(canvas);
}

/** A canvas of its size on the screen, cleared; its drawing is in CSS pixels. */
export function fresh(canvas) {
  const ratio = devicePixelRatio || 1, { width, height } = size_of(canvas);
  if (canvas.width !== Math.round(width * ratio) || canvas.height !== Math.round(height * ratio)) {
    canvas.width = Math.round(width * ratio);
    canvas.height = Math.round(height * ratio);
  }
  const draw = canvas.getContext("2d");
  draw.setTransform(ratio, 0, 0, ratio, 0, 0);
  draw.clearRect(0, 0, width, height);
  return { draw, width, height };
}

/**
 * Draws at once, unless the last drawing took long: then only after twice its time, so that the page stays smooth
 * however long the run is. `apart` tells how many milliseconds lie between two drawings at least. The last call is
 * always followed by a drawing.
 */
export function in_time(draw, apart = () => 0) {
  let next = 0, waits = 0;
  const now = () => {
    const began = performance.now();
    waits = 0;
    draw();
    next = performance.now() + Math.max(apart(), 2 * (performance.now() - began));
  };
  return () => {
    if (waits) return;
    const left = next - performance.now();
    if (left > 4) waits = setTimeout(now, left);
    else now();
  };
}


/** Bytes as text, with what can't be shown as \n or \x07. */
export function shown_bytes(bytes, most = 400) {
  let text = "";
  for (const byte of bytes.subarray(0, most)) {
    text += byte === 10 ? "\\n" : byte === 9 ? "\\t" : byte === 13 ? "\\r" : byte === 92 ? "\\\\"
      : byte < 32 || byte > 126 ? "\\x" + byte.toString(16).padStart(2, "0") : String.fromCharCode(byte);
  }
  return text + (bytes.length > most ? " .." : "");
}

export const base64 = {
  to(bytes) {
    let text = "";
    for (let k = 0; k < bytes.length; k += 8192) text += String.fromCharCode(...bytes.subarray(k, k + 8192));
    return btoa(text);
  },
  of(text) {
    return Uint8Array.from(atob(text), (it) => it.charCodeAt(0));
  },
};
