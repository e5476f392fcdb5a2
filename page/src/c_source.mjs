// The source of a program in C: its text with the line that is next, break points beside the lines, the calls that led
// there, and steps by lines.
import { $, app, ask, element, on, program_name, say, tell, write } from "./app.mjs";
import { function_at, line_at, name_at } from "../../anywhere/machine/source_places.mjs";
import { program_of, symbols_of } from "./instruction.mjs";
import { stops_in, toggle_stop } from "./breaks.mjs";
import { show_variables } from "./c_variables.mjs";

const NO_FILE = "\0"; // no source has this name
const NO_LINES = "No lines are known, and of outer calls no variables.";
const shown = { file: "", program: null, rows: [], line: 0, coded: new Set(), chosen: null };
let asked = 0, calls = { key: "", list: [] };

const key_of = () => `${app.booted.id} ${app.view.edits} ${app.view.at} ${app.view.pid}`;

/** The places in C of the process that is looked at; null if of its program neither lines nor variables are known. */
function places() {
  const symbols = app.view?.registers && symbols_of(app.view.pid);
  if (!symbols?.table) return null;
  return symbols.table.lines.length || app.booted.tables[program_of(app.view.pid)] ? symbols : null;
}

/** Steps by a line: over calls, into them, or out of the function. */
export function step_line(how, back) {
  const symbols = places();
  if (!symbols?.table.lines.length) {
    say("The process that is looked at runs no program whose lines in C are known");
    return;
  }
  ask("line_step", {
    how, back, pid: app.view.pid, lines: symbols.table.lines.map(({ address, line }) => ({ address, line })),
    frames: symbols.table.frames, within: function_at(symbols, app.view.registers[0]),
  });
}

// ---- the text

/** The rows of a source, made once for it. */
function show_file(symbols, file) {
  const texts = symbols.text_of(file), program = program_of(app.view.pid);
  if (shown.file === file && shown.program === program && shown.rows.length) return;
  Object.assign(shown, {
    file, program, line: 0, coded: new Set(symbols.table.lines.filter((it) => it.file === file).map((it) => it.number)),
  });
  shown.rows = texts.map((text, k) => element("div", {
    role: "listitem", "data-line": k + 1, class: shown.coded.has(k + 1) ? "" : "no",
  },
    element(
      "button",
      {
        tabindex: -1, "aria-label": `Break point at line ${k + 1}`, disabled: !shown.coded.has(k + 1),
        onclick: () => toggle(k + 1),
      },
      String(k + 1)
    ), element("span", {}, text || " ")));
  $("c-text").replaceChildren(
    ...(
      texts.length ? shown.rows
        : [element("p", { class: "dim" }, `The page has no text of ${file}. Drop it beside its program.`)]
    )
  );
  show_stops();
}

/** The source of the list of which the program was compiled, if that is shown, and stands as it was then; or null. */
function own_source() {
  const { from, text, is_compiled } = app.booted?.files[shown.program] ?? {};
  return is_compiled && from.name === shown.file && from.text === text ? from : null;
}

/** Sets a break point at a line, or takes it away: one of a source of the list stands with its text. */
function toggle(line) {
  const file = own_source();
  if (!file) { toggle_stop(`${shown.file}:${line}`, program_name(shown.program)); return; }
  const stops = file.stops ?? [], text = file.text.split("\n")[line - 1].trim();
  const is_there = stops.some((it) => it.line === line);
  file.stops = is_there ? stops.filter((it) => it.line !== line) : [...stops, { line, text }];
  tell("stops", file);
}

function show_stops() {
  const stops = new Set(stops_in(program_name(shown.program)));
  for (const { line } of own_source()?.stops ?? []) stops.add(`${shown.file}:${line}`);
  shown.rows.forEach((row, k) => row.classList.toggle("stop", stops.has(`${shown.file}:${k + 1}`)));
}

function show_line(number) {
  if (shown.line === number) return;
  shown.rows[shown.line - 1]?.classList.remove("pc");
  shown.rows[shown.line - 1]?.removeAttribute("aria-current");
  shown.line = number;
  const row = shown.rows[number - 1], box = $("c-text");
  if (!row) return;
  row.classList.add("pc");
  row.setAttribute("aria-current", "true");
  const top = row.offsetTop; // (the box is what it is measured from)
  if (top < box.scrollTop + 20 || top > box.scrollTop + box.clientHeight - 50) {
    box.scrollTop = top - box.clientHeight / 2.6;
  }
}

/** The place for a source of a program of which no line is known. */
function show_no_file() {
  if (shown.file === NO_FILE) return;
  Object.assign(shown, { file: NO_FILE, rows: [], line: 0 });
  const name = app.booted.files[program_of(app.view.pid)].from.name;
  $("c-text").replaceChildren(element("p", { class: "dim" }, `${NO_LINES} Drop ${name}.lines beside ${name}.`));
}

// ---- the calls

/** The calls that led to where the process stands: its own place first. */
function show_calls(told, at) {
  const words = JSON.stringify([told.map((it) => [String(it.pc), it.name]), at]);
  if (words === shown.calls) return;
  shown.calls = words;
  $("c-calls").replaceChildren(...told.map(({ name, line }, k) => element("li", {},
    element(
      "button",
      {
        "aria-pressed": at === k ? "true" : "false", title: "Show its line",
        onclick: () => { shown.chosen = k; draw(); },
      },
      name || "?", line ? element("span", { class: "dim" }, ` ${line.file}:${line.line}`) : ""
    ))));
}

/** The call that is shown: the one that was chosen, or the first whose line stands in a source in C. */
function call_shown(told) {
  return shown.chosen ?? Math.max(0, told.findIndex((it) => it.line?.file.endsWith(".c")));
}

function draw() {
  const symbols = places(), box = $("c-source");
  box.hidden = !symbols;
  if (!symbols || $("instruction").hidden) return;
  const { view } = app, list = calls.key === key_of() && calls.list.length ? calls.list : [view.registers[0]];
  const told = list.map((pc) => ({ pc, name: name_at(symbols, pc).replace(/\+.*/, ""), line: line_at(symbols, pc) }));
  const at = call_shown(told), { name, line } = told[at] ?? told[0];
  write($("c-where"), line ? `${name ? `${name}, ` : ""}${line.file}:${line.line}` : name || "no line is known here");
  if (line) { show_file(symbols, line.file); show_line(line.line); }
  else if (!symbols.table.lines.length) show_no_file();
  show_calls(told, at);
  const { frames } = symbols.table, place = view.ended?.at ?? view.at;
  if (!view.playing && calls.key !== key_of() && asked !== key_of()) {
    asked = key_of();
    ask("calls", { key: asked, pid: view.pid, place, frames });
  }
  const { pc } = told[at] ?? told[0], within = function_at(symbols, pc), program = program_of(view.pid);
  show_variables({ key: key_of(), name, place, frames, depth: at, within, program, is_told: calls.key === key_of() });
}

export function start() {
  let key = "";
  on("panels", () => { if (app.view && key !== key_of()) { key = key_of(); shown.chosen = null; } draw(); });
  on("calls told", (told) => { calls = told; if (app.view?.registers) draw(); });
  on("stops shown", show_stops);
  on("booted", () => {
    Object.assign(shown, { file: "", rows: [], line: 0, chosen: null, calls: "" });
    asked = 0;
    calls = { key: "", list: [] };
    $("c-source").hidden = true;
  });
  for (const it of document.querySelectorAll("[data-line-step]")) {
    it.addEventListener("click", () => step_line(it.dataset.lineStep, it.dataset.way === "back"));
  }
}
