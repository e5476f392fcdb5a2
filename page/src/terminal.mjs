// The terminal: what the console shows, and keys for it.
import { $, app, ask, element, on, tell, say, write } from "./app.mjs";
import { send_keys } from "./programs.mjs";

const MOST_LINES = 3000, MOST_HEARD = 30;
const PAUSE = 4000, MOST_AT_ONCE = 8; // ms between what is read out while the machine computes, and lines of it
const MOST_DRAWN = 1500, KEPT_DRAWN = 1000; // lines: so many may stand on the screen, and so many are left then
const shown = { bytes: 0, lines: [""], count: 0, row: [], column: 0 };
const drawn = {
  lines: document.createTextNode(""), left: document.createTextNode(""), caret: element("span", { class: "caret" }),
  right: document.createTextNode(""), from: 0, to: 0,
};
let heard = 0, heard_at = 0; // how many whole lines were told to readers of the screen, and when
const decoder = new TextDecoder();

function clear() {
  shown.bytes = 0;
  shown.lines = [];
  shown.count = 0;
  shown.row = [];
  shown.column = 0;
  shown.drawn = false;
  drawn.lines.data = "";
  drawn.from = drawn.to = 0;
}

/** Takes bytes as a terminal does: a backspace goes left, a carriage return to the front, a line feed down. */
function take(bytes) {
  for (const byte of bytes) {
    if (byte === 10) {
      shown.lines.push(decoder.decode(Uint8Array.from(shown.row)));
      shown.count++;
      if (shown.lines.length > MOST_LINES) shown.lines.splice(0, 500);
      shown.row = [];
      shown.column = 0;
    } else if (byte === 8) shown.column = Math.max(0, shown.column - 1);
    else if (byte === 13) shown.column = 0;
    else if (byte !== 7) shown.row[shown.column++] = byte;
  }
  shown.bytes += bytes.length;
}

/** Draws the whole lines that came: behind those that are there, which the browser needn't lay out anew. */
function draw_lines() {
  const text_from = (first) => (
    shown.lines.slice(Math.max(0, shown.lines.length - (shown.count - first))).map((it) => it + "\n").join("")
  );
  if (shown.count - drawn.from > MOST_DRAWN) {
    drawn.from = shown.count - KEPT_DRAWN;
    drawn.lines.data = text_from(drawn.from);
  } else if (shown.count > drawn.to) drawn.lines.appendData(text_from(drawn.to));
  drawn.to = shown.count;
}

function draw() {
  const { text } = app;
  if (shown.bytes > text.length || shown.edits !== app.view.edits || shown.end > app.view.shown) clear();
  shown.edits = app.view.edits;
  if (shown.bytes === text.length && shown.drawn) return;
  take(text.subarray(shown.bytes));
  shown.end = app.view.shown;
  const screen = $("screen"), row = [...shown.row], left = decoder.decode(Uint8Array.from(row.slice(0, shown.column)));
  const under = row[shown.column] === undefined ? " " : String.fromCharCode(row[shown.column]);
  const right = decoder.decode(Uint8Array.from(row.slice(shown.column + 1)));
  const at_end = screen.scrollHeight - screen.scrollTop - screen.clientHeight < 60;
  draw_lines();
  write(drawn.left, left);
  write(drawn.caret, under);
  write(drawn.right, right);
  if (at_end) screen.scrollTop = screen.scrollHeight;
  shown.drawn = true;
}

/**
 * Tells readers of the screen the whole lines that came, the last ones if they are many: when the machine waits, or
 * stands; and while it computes in pauses, the last ones, and how many were passed over.
 */
function tell_lines() {
  const { view } = app, computes = view.playing && view.facts.current !== 0, now = performance.now();
  // Back in the run there are fewer.
  heard = Math.min(heard, shown.count);
  if (heard === shown.count || (computes && now - heard_at < PAUSE)) return;
  const many = shown.count - heard, told = Math.min(many, computes ? MOST_AT_ONCE : MOST_HEARD), log = $("heard");
  const lines = shown.lines.slice(-Math.min(told, shown.lines.length));
  if (computes && many > told) lines.unshift(`${many - told} lines before:`);
  log.append(...lines.map((it) => element("div", {}, it)));
  while (log.childElementCount > MOST_HEARD) log.firstElementChild.remove();
  heard = shown.count;
  heard_at = now;
}

/** Types bytes into the machine. */
export function type(bytes) {
  if (!app.booted) return;
  send_keys(bytes);
  tell("typed", bytes);
  if (!app.view?.playing) tell("play");
}

function key(event) {
  if (event.key === "Escape") { event.preventDefault(); $("after-terminal").focus(); return; }
  if (event.metaKey || event.altKey) return;
  const selected = String(getSelection()).length > 0;
  if (event.ctrlKey) {
    const letter = event.key.toLowerCase();
    if (letter === "c") {
      if (selected) return;
      event.preventDefault();
      ask("pause");
      say("The machine is stopped. Play goes on.");
      return;
    }
    if (letter === "p") {
      event.preventDefault();
      $("processes").scrollIntoView({ block: "nearest" });
      say(app.view ? app.view.processes.map((it) => it.pid).join(", ") : "");
      return;
    }
    if (letter === "v" || event.shiftKey) return;
    if (/^[a-z]$/.test(letter)) { event.preventDefault(); type([letter.charCodeAt(0) - 96]); }
    return;
  }
  const byte = { Enter: 10, Backspace: 127, Tab: 9 }[event.key];
  if (event.key === "Tab" && event.shiftKey) return;
  if (byte !== undefined) { event.preventDefault(); type([byte]); return; }
  if (event.key.length === 1 || [...event.key].length === 1) {
    event.preventDefault();
    type(new TextEncoder().encode(event.key));
  }
}

export function start() {
  const screen = $("screen"), typed = $("typed");
  screen.firstElementChild.append(drawn.lines, drawn.left, drawn.caret, drawn.right);
  screen.addEventListener("keydown", key);
  typed.addEventListener("keydown", (event) => {
    if (event.key !== "Unidentified" && event.keyCode !== 229) key(event);
  });
  // (A phone's keyboard gives text, not keys.)
  typed.addEventListener("input", () => {
    if (typed.value) type(new TextEncoder().encode(typed.value));
    typed.value = "";
  });
  const paste = (event) => {
    const text = event.clipboardData.getData("text");
    event.preventDefault();
    type(new TextEncoder().encode(text.replace(/\r\n?/g, "\n")));
  };
  screen.addEventListener("paste", paste);
  typed.addEventListener("paste", paste);
  for (const it of [screen, typed]) {
    it.addEventListener("focus", () => screen.classList.add("has-keys"));
    it.addEventListener("blur", () => screen.classList.remove("has-keys"));
  }
  screen.addEventListener("click", () => {
    if (!String(getSelection()) && matchMedia("(pointer: coarse)").matches) typed.focus();
  });
  on("view", () => { draw(); tell_lines(); });
  on("booted", () => {
    clear();
    for (const it of [drawn.left, drawn.caret, drawn.right]) write(it, "");
    heard = 0;
    heard_at = performance.now();
    $("heard").replaceChildren();
  });
}
