// The variables of a program in C: of the call that is chosen its arguments and locals, and those of the program. The
// worker tells them when the machine stands; those that aren't as they were at the last stop of the process are marked.
import { $, app, ask, element, on, program_name, say, tell, write } from "./app.mjs";
import { is_watched, toggle_watch } from "./breaks.mjs";
import { MOST_VARIABLES, TABLES, parts_of, path_of, shown_name } from "../../anywhere/machine/variables.mjs";

/** What the module tells of a value that isn't known, in words. */
const UNKNOWN = {
  "<optimized out>": "kept nowhere here (optimized out)", "<not known here>": "not known here",
  "<not there>": "no memory is there",
};
const HEADS = ["name", "type", "value", ""];
const KINDS = [["c-locals", "locals"], ["c-globals-told", "globals"]]; // where each scope is drawn
const CHANGED = "changed since the last stop";
const MOST_BEFORE = 60; // letters of an earlier value that are read out

const open = new Set(); // the structures and arrays that are open: their scope, function and path
const stops = new Map(); // where each process stood when it was looked at last, {edits, now, before}, by pid
let shown = null; // the call that is shown, as c_source.mjs tells it
let asked = "", told = { key: "" }, drawn = "", is_asking = false;

/** Where a process stood when it was looked at last, before this place; null if it wasn't. */
function stop_before(pid, place) {
  const { edits } = app.view, last = stops.get(pid);
  if (last?.now === place && last.edits === edits) return last.before;
  // After keys have cut off a future, the places behind them are others.
  const before = last && (last.edits === edits || last.now < place) ? last.now : null;
  stops.set(pid, { edits, now: place, before });
  return before;
}

// ---- a variable

/** Shows memory from an address on. */
function show_memory(address) {
  const field = $("address");
  field.value = address;
  field.dispatchEvent(new Event("change"));
  $("memory").scrollIntoView({ block: "nearest" });
  say(`Memory from ${address} on`);
}

/** A value: what isn't known in words, and an address as a button that leads there. */
function value_told(value, path) {
  if (UNKNOWN[value]) return [element("span", { class: "unknown", title: value }, UNKNOWN[value])];
  const [address] = /^0x[0-9a-f]+/.exec(value) ?? [];
  if (!address) return [value];
  const label = `Show the memory at ${address}, to which ${path} points`;
  return [element("button", {
    class: "to-memory mono", "data-of": `${path} memory`, "aria-label": label, title: label,
    onclick: () => show_memory(address),
  }, address), value.slice(address.length)];
}

function stored_button({ address }, path) {
  const label = `Who stored last in ${path}, at ${address}?`;
  return element("button", {
    class: "stored", "data-of": `${path} stored`, "aria-label": label, title: label,
    onclick: () => tell("stored here", BigInt(address)),
  }, "who stored?");
}

/** A switch: it is stopped before each store to the variable, whoever makes it in the program. */
function watch_button({ address }, path) {
  const program = program_name(shown.program), is_on = is_watched(address, program);
  const label = `Watch ${path}, at ${address}: stop before each store to it`;
  return element("button", {
    class: "stored", "data-of": `${path} watch`, "aria-label": label, title: label,
    "aria-pressed": is_on ? "true" : "false",
    onclick: () => {
      toggle_watch(path, address, program);
      say(is_on ? `${path} isn't watched any more` : `${path} is watched: Play stops before the next store to it`);
    },
  }, is_on ? "watched" : "watch");
}

function toggle(key, path, is_open) {
  return element("button", {
    class: "opens", "data-of": `${path} opens`, "aria-label": `Parts of ${path}`,
    "aria-expanded": is_open ? "true" : "false",
    onclick: () => { if (!open.delete(key)) open.add(key); drawn = ""; draw(); },
  }, is_open ? "▾" : "▸");
}

/** Whether a value is another one than at the last stop; one that isn't known is no other. */
const is_changed = ({ value, before }) => (
  typeof before === "string" && before !== value && !UNKNOWN[before] && !UNKNOWN[value]
);

/** The sign before a variable that has changed, and what is read out there. */
function sign_of(it, is_new) {
  const sign = element("span", { class: "sign" }, is_new ? "✱" : "");
  if (!is_new) return sign;
  const was = it.before.length > MOST_BEFORE ? `${it.before.slice(0, MOST_BEFORE)} ..` : it.before;
  sign.append(element("span", { class: "unseen" }, `${CHANGED}: it was ${was}`));
  return sign;
}

/** The row of a variable or of a part of one, with those of its parts if it is open. */
function rows_of(it, scope, path = it.name, depth = 0) {
  const parts = parts_of(it.value), key = `${scope} ${path}`, is_open = parts.length > 0 && open.has(key);
  const is_new = is_changed(it), sign = sign_of(it, is_new);
  const opens = parts.length ? toggle(key, path, is_open) : element("span", { class: "opens" });
  const name = element("th", { scope: "row", class: "mono", style: `padding-left:${depth * 14}px` }, sign, opens,
    element("b", {}, depth ? it.name : shown_name(it)));
  const value = element("td", { class: "mono value", title: is_new ? `${CHANGED}: it was ${it.before}` : null },
    ...(is_open ? [] : parts.length ? [element("span", {}, it.value)] : value_told(it.value, path)));
  const type = element("td", { class: "mono type" }, it.type ?? "");
  const stored = element("td", {}, ...(it.address ? [stored_button(it, path), " ", watch_button(it, path)] : []));
  const row = element("tr", { class: is_new ? "changed" : "" }, name, type, value, stored);
  if (!is_open) return [row];
  const before = typeof it.before === "string" ? parts_of(it.before) : [];
  const value_before = (part) => before.find((other) => other.name === part.name)?.value ?? null;
  return [row, ...parts.flatMap((part) => (
    rows_of({ ...part, before: value_before(part) }, scope, path_of(path, part.name), depth + 1)
  ))];
}

// ---- a table of them

/** What stands in place of a table; nothing if there is one. */
function none_told({ wrong, rows }, kind) {
  if (wrong) return `The tables of variables are refused: ${wrong}.`;
  if (rows.length) return "";
  return kind === "globals" ? "The program has none." : "The function has no arguments and no locals here.";
}

function table_of(of_scope, kind) {
  const none = none_told(of_scope, kind), { rows } = of_scope;
  if (none) return [element("p", { class: of_scope.wrong ? "bad" : "dim" }, none)];
  const is_global = kind === "globals";
  const title = is_global ? null : `Arguments and locals of ${shown.name || "this function"}`;
  const head_of = (it) => element("th", { scope: "col" }, it || element("span", { class: "unseen" }, "stores"));
  const heads = HEADS.map(head_of);
  const most = rows.length < MOST_VARIABLES ? [] : [
    element("p", { class: "dim" }, `These are the first ${MOST_VARIABLES}: no more are told.`),
  ];
  const label = is_global ? "Variables of the program" : null;
  return [element("table", { "aria-label": label }, title ? element("caption", {}, title) : null,
    element("thead", {}, element("tr", {}, ...heads)),
    element("tbody", {}, ...rows.flatMap((it) => rows_of(it, is_global ? kind : shown.name)))), ...most];
}

/** Draws the rows that were told last; the button that had the keys has them again. */
function draw() {
  const is_old = told.key !== asked;
  for (const [id, kind] of KINDS) {
    const focused = $(id).contains(document.activeElement) ? document.activeElement.dataset.of : undefined;
    $(id).setAttribute("aria-busy", is_old ? "true" : "false");
    if (drawn === told.key) continue;
    $(id).replaceChildren(...(told[kind] ? table_of(told[kind], kind) : []));
    if (focused) [...$(id).querySelectorAll("[data-of]")].find((it) => it.dataset.of === focused)?.focus();
  }
  drawn = told.key;
}

/** Why no variables are known; nothing if they are. */
function why_none() {
  const { name, from } = app.booted.files[shown.program] ?? {}, own = from?.name ?? name;
  if (!app.booted.tables[shown.program]) {
    const missing = `there is no ${own}${TABLES} in the list of files`;
    const ways = `gcc -g makes it: drop it, and boot again. A program that is compiled here, of ${own}.c, has its own`;
    return `No variables are known: ${missing}. ${ways}.`;
  }
  return app.view.playing ? "Variables are told when the machine stands." : "";
}

/** Asks the worker for what is to be shown, one question at a time. */
function look() {
  const { key, pid, place, frames, depth, within, is_told } = shown, globals = $("c-globals").open;
  const wanted = `${key} ${depth} ${globals}`;
  if (!is_told || is_asking || wanted === asked) return;
  asked = wanted;
  is_asking = true;
  ask("variables", { key: asked, pid, place, frames, depth, within, globals, before: stop_before(pid, place) });
}

/**
 * Shows the variables of a call: `key` tells one stop from another; `is_told`: whether the calls of this stop are
 * known. The rest is as the worker wants it, and the name of the function.
 */
export function show_variables(call) {
  shown = { ...call, pid: app.view.pid };
  const why = why_none();
  write($("c-variables-none"), why);
  for (const id of ["c-locals", "c-globals"]) $(id).hidden = why !== "";
  if (why) return;
  look();
  draw();
}

/** Forgets what was told of another machine. */
function clear() {
  shown = null;
  asked = drawn = "";
  told = { key: "" };
  stops.clear();
  open.clear();
  for (const [id] of KINDS) $(id).replaceChildren();
}

export function start() {
  on("variables told", (it) => {
    is_asking = false;
    if (it.key !== asked || it.is_left) asked = ""; else told = it;
    if (shown && app.view && !it.is_left && !why_none()) { look(); draw(); }
  });
  on("refused", () => { is_asking = false; });
  on("stops shown", () => { drawn = ""; if (shown && app.view && !why_none()) draw(); });
  on("booted", clear);
  $("c-globals").addEventListener("toggle", () => { if (shown && app.view && !why_none()) { look(); draw(); } });
}
