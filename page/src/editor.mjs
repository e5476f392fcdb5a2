// The editor of a source: lines with numbers, words coloured, the refused line marked, the line of the pc, and break
// points beside the lines. Only the lines that are seen are coloured and numbered, so a key costs the same in a long
// source.
import { $, app, ask, on, say, tell } from "./app.mjs";
import { line_at, places_of } from "../../anywhere/machine/source_places.mjs";
import { is_c, is_c_program, is_elf, is_source } from "../../anywhere/machine/file_kinds.mjs";
import { TABLES } from "../../anywhere/machine/variables.mjs";
import { check } from "./c_programs.mjs";
import { coloured_c, lines_in_comments } from "./c_colours.mjs";
import { mistake_words } from "../../anywhere/machine/assembler_mistakes.mjs";
import { changed_back, note } from "./undo.mjs";
import { closing_brace, commented, further_in, further_out, new_line } from "./source_edits.mjs";
import { moved } from "../../anywhere/machine/line_stops.mjs";

const LINE = 18, ABOVE = 8; // pixels: the height of a line, and what is free above the first (style.css has both)
const UNSEEN = 30; // lines that are drawn above and below those that are seen
const WIDER = 32; // columns: by so many the paper grows
const MANY = 1000, HIGHER = 50; // lines: a source of so many grows by so many, so that not each Enter lays it out anew
const MOST_LETTERS = 2000; // of a line: a text with a longer one is shown without colours, as the browser does it
const SETTLE = 120; // ms after the last key, until a source is assembled
const state = {
  file: null, lines: [""], asked: 0, mistakes: [], places: null, coded: null, pc: null, rows: { from: -1, to: -1 },
  seen: { top: 0, height: 400 },
};

const escape = (text) => text.replace(/[&<>]/g, (it) => ({ "&": "&amp;", "<": "&lt;", ">": "&gt;" })[it]);
const REGISTER = /\b(x[12]?\d|x3[01]|zero|ra|sp|gp|tp|t[0-6]|s\d|s1[01]|fp|a[0-7])\b|(-?\b(?:0x[0-9a-fA-F]+|\d+)\b)|("(?:[^"\\]|\\.)*"?)/g;

/** A line's parts: its label, its word and where the comment begins. */
function parts_of(line) {
  let end = line.length, quoted = false;
  for (let k = 0; k < line.length; k++) {
    if (quoted && line[k] === "\\") k++;
    else if (line[k] === '"') quoted = !quoted;
    else if (line[k] === "#" && !quoted) { end = k; break; }
  }
  const [, label = "", word = ""] = /^\s*(?:([A-Za-z_]\w*):)?\s*([\w.]*)/.exec(line.slice(0, end)) || [];
  return { label, word, end };
}

/** A line with its words coloured. */
export function coloured(line) {
  const { label, word, end } = parts_of(line), code = line.slice(0, end), comment = line.slice(end);
  let rest = code, made = "";
  if (label) {
    const at = rest.indexOf(":") + 1;
    made += `<span class="l">${escape(rest.slice(0, at))}</span>`;
    rest = rest.slice(at);
  }
  if (word) {
    const at = rest.indexOf(word);
    made += escape(rest.slice(0, at)) + `<span class="w">${escape(word)}</span>`;
    rest = rest.slice(at + word.length);
  }
  let last = 0;
  for (const found of rest.matchAll(REGISTER)) {
    made += escape(
      rest.slice(last, found.index)
    ) + `<span class="${found[1] ? "r" : found[2] ? "d" : "t"}">${escape(found[0])}</span>`;
    last = found.index + found[0].length;
  }
  return made + escape(rest.slice(last)) + (comment ? `<span class="c">${escape(comment)}</span>` : "");
}

const stops_of = (file) => file?.stops ?? [];

/** How many columns of letters a line takes, at least: those that aren't ASCII may be wide. */
const columns_of = (line) => (
  (/^[ -~]*$/.test(line) ? line.length : [...line].reduce((sum, it) => sum + (it === "\t" ? 4 : it > "~" ? 2 : 1), 0))
);

/** Gives the paper its size: that of all lines. */
function measure() {
  let longest = "";
  for (const line of state.lines) if (line.length > longest.length) longest = line;
  const { style } = $("editor").querySelector(".paper"), is_plain = longest.length > MOST_LETTERS;
    const columns = Math.ceil((is_plain ? longest.length : columns_of(longest)) / WIDER) * WIDER;
  const { length } = state.lines, lines = length < MANY ? length : Math.ceil(length / HIGHER) * HIGHER;
  const height = `${2 * ABOVE + LINE * lines}px`, width = `calc(${columns}ch + ${2 * ABOVE + 2}px)`;
  // (The browser lays out a long text anew for each size that it is given.)
  if (state.size === height + width) return;
  state.size = height + width;
  $("editor").classList.toggle("is-plain", is_plain);
  Object.assign(style, { height, minWidth: width });
}

/**
 * Whether a line may have a break point. Which lines have instructions is known once the source is assembled: until
 * then it is left open.
 */
const may_stop = (line) => (
  (is_source(state.file) || is_c_program(state.file)) && state.mistakes.every((it) => it.is_warning)
    && (state.coded === null || state.coded.has(line))
);

const is_here = (it) => (it.file ?? state.file.name) === state.file.name;
const is_bad = (line) => state.mistakes.some((it) => it.line === line && is_here(it));
const row_class = (line) => `row${line === state.pc ? " pc" : ""}${is_bad(line) ? " bad" : ""}`;

function number_of(line, stops) {
  const name = [
    line === state.pc ? "pc" : "", is_bad(line) ? "bad" : "", may_stop(line) ? "" : "no",
    stops.has(line) ? `stop${stops.get(line) ? " off" : ""}` : "",
  ].join(" ");
  return `<div class="${name}" data-line="${line}">${line}</div>`;
}

/** The lines that are seen, by what the browser told last: to ask it would lay out the text. */
function lines_seen() {
  const { top, height } = state.seen;
  return { first: Math.floor((top - ABOVE) / LINE), last: Math.ceil((top + height) / LINE) };
}

/** Draws the lines that are seen, and some above and below. */
function draw() {
  const box = $("editor"), { lines, file } = state, is_plain = box.classList.contains("is-plain");
  const stops = new Map(stops_of(file).map((it) => [it.line, it.off === true]));
  const { first, last } = lines_seen(), from = Math.max(0, first - UNSEEN), to = Math.min(lines.length, last + UNSEEN);
  const ink = box.querySelector(".ink"), gutter = box.querySelector(".gutter"), numbers = [];
  const in_c = (line, k) => coloured_c(line, state.comments.has(k));
  const shown = is_source(file) ? coloured : is_c(file) ? in_c : escape;
  let rows = "";
  for (let k = from; k < to; k++) {
    if (!is_plain) rows += `<span class="${row_class(k + 1)}">${shown(lines[k], k) || " "}</span>`;
    numbers.push(number_of(k + 1, stops));
  }
  state.rows = { from, to };
  ink.innerHTML = rows;
  gutter.innerHTML = numbers.join("");
  for (const it of [ink, gutter]) it.style.paddingTop = `${ABOVE + LINE * from}px`;
  tell("source drawn");
}

/** The lines of the source, and those that are drawn: {from, to} of their places, and the element of each. */
export function drawn_lines() {
  return { ...state.rows, lines: state.lines, rows: $("editor").querySelector(".ink").children };
}

/** Draws what has come into sight. */
function scrolled() {
  const box = $("editor"), { from, to } = state.rows;
  state.seen = { top: box.scrollTop, height: box.clientHeight || state.seen.height };
  const { first, last } = lines_seen();
  if ((first < from && from > 0) || (last > to && to < state.lines.length)) draw();
}

/** Marks the line of the pc, and no other. */
function mark(pc) {
  for (const of of [".ink", ".gutter"]) {
    const lines = $("editor").querySelector(of).children, { from } = state.rows;
    lines[state.pc - 1 - from]?.classList.remove("pc");
    lines[pc - 1 - from]?.classList.add("pc");
  }
  state.pc = pc;
}

/** Scrolls to a line, if it isn't seen. */
function reveal(line) {
  const box = $("editor"), top = ABOVE + LINE * (line - 1);
  if (top < box.scrollTop || top > box.scrollTop + box.clientHeight - 2 * LINE) {
    box.scrollTop = top - box.clientHeight / 2;
  }
}

function assemble() {
  const { file } = state;
  const asked = ++state.asked; // (what comes of a file that was open before is passed over)
  if (is_c(file)) { check(file, app.files).then((it) => { if (asked === state.asked) told_c(it); }); return; }
  if (!is_source(file)) { take_mistakes([]); said("", ""); return; }
  ask("assemble", { text: file.text, id: state.asked });
}

function said(text, kind) {
  const it = $("mistake");
  it.textContent = text;
  it.className = kind;
}

// ---- mistakes: all of them in a list, each with its line, and with what to write there if that can be told

/** Takes the mistakes of the source, and lists them if the words of the first don't say all. */
function take_mistakes(mistakes) {
  state.mistakes = [...mistakes].sort((one, other) => one.line - other.line);
  const list = $("mistakes"), is_listed = mistakes.length > 1 || mistakes.some((it) => it.written !== null || it.words);
  list.hidden = !is_listed;
  list.replaceChildren(...(is_listed ? state.mistakes.map((it) => row_of_mistake(it, it === mistakes[0])) : []));
}

function button_of(words, act) {
  const it = document.createElement("button");
  it.type = "button";
  it.textContent = words;
  it.addEventListener("click", act);
  return it;
}

/**
 * The row of a mistake: a button that goes to its line, what is wrong, if that isn't told above the list, and a button
 * that writes the line as it is meant.
 */
function row_of_mistake(mistake, is_told) {
  const { line, kind, written, others, words: of_c, file, is_warning } = mistake;
  const row = document.createElement("li"), { lines } = state;
  if (of_c) return row_of_c(row, { line, words: of_c, file, is_warning });
  const [, words] = /^line \d+: (.*)$/s.exec(mistake_words({ line, kind }, state.lines.join("\n")));
  row.append(button_of(`line ${line}`, () => go_to(line)), is_told ? " " : ` ${words} `);
  if (written === null) return row;
  const places = [line, ...others.map(([other]) => other)].map((it) => it - 1);
  const is_as_told = () => places.every((it) => state.lines[it] === lines[it]);
  row.append(button_of(mistake.button, () => { if (is_as_told()) write_lines(mistake); }));
  return row;
}

/** The row of what the compiler of C tells, perhaps of a header. */
function row_of_c(row, { line, words, file, is_warning }) {
  const is_own = is_here({ file }), there = app.files.find((it) => it.name === file);
  const go = () => { if (!is_own && there) open(there); go_to(line); };
  if (line) row.append(button_of(is_own ? `line ${line}` : `${file}, line ${line}`, go));
  row.append(` ${words}`);
  row.className = is_warning ? "warning" : "";
  return row;
}

/** Where a line of the source begins and ends, in letters. */
function letters_of(line) {
  const from = state.lines.slice(0, line - 1).reduce((sum, it) => sum + it.length + 1, 0);
  return { from, to: from + state.lines[line - 1].length };
}

/** Goes to a line, and chooses it. */
function go_to(line) {
  if (line > state.lines.length) return;
  const { from, to } = letters_of(line), source = $("source");
  source.focus({ preventScroll: true });
  source.setSelectionRange(from, to);
  reveal(line);
}

/** Writes a text in the place of what is chosen, as if it were typed: so undo takes it back. */
function write(text) {
  const source = $("source");
  if (document.activeElement === source && document.execCommand(text ? "insertText" : "delete", false, text)) return;
  source.setRangeText(text, source.selectionStart, source.selectionEnd, "end");
  edited();
}

/** Writes what is meant in a line's place, and in those of the lines that change with it, as one edit. */
function write_lines({ line, written, others }) {
  const changed = new Map([...others, [line, written]]), first = Math.min(...changed.keys()), made = [];
  const last = Math.max(...changed.keys());
  for (let k = first; k <= last; k++) made.push(changed.get(k) ?? state.lines[k - 1]);
  go_to(line);
  $("source").setSelectionRange(letters_of(first).from, letters_of(last).to);
  write(made.join("\n"));
}

/** Chooses letters of the source, and scrolls to them. */
export function choose(from, to) {
  $("source").setSelectionRange(from, to);
  reveal(state.lines.length > 1 ? $("source").value.slice(0, from).split("\n").length : 1);
}

/** Makes a change of the source, if there is one, and chooses what it says; whether there was one. */
export function make(change) {
  if (!change || $("source").readOnly) return false;
  const { from, to, text, chosen } = change, source = $("source");
  source.setSelectionRange(from, to);
  if (source.value.slice(from, to) !== text) write(text);
  choose(...chosen);
  return true;
}

/** Takes where the lines of the source lie; null while that isn't known. */
function take_places(places) {
  state.places = places;
  state.coded = places && new Set(places.lines.map((it) => it.line));
}

// ---- break points at lines: each stands with its file, and goes with the text of its line

/**
 * Sets a break point at a line, or takes it away; false if the line has no instruction, or the source isn't assembled.
 */
function toggle_break(line) {
  const { file, lines } = state, stops = stops_of(file);
  const is_there = stops.some((it) => it.line === line);
  if (!is_there && !state.coded?.has(line)) return false;
  file.stops = is_there ? stops.filter((it) => it.line !== line) : [...stops, { line, text: lines[line - 1].trim() }];
  tell("stops", file);
  return true;
}

function break_at_caret() {
  const source = $("source"), line = source.value.slice(0, source.selectionStart).split("\n").length;
  if (!toggle_break(line)) {
    say(
      state.places ? `Line ${line} has no instruction, so no break point`
        : "The source isn't assembled, so it has no break point"
    );
  } else {
    say(
      stops_of(state.file).some((it) => it.line === line) ? `A break point at line ${line}`
        : `No break point at line ${line} any more`
    );
  }
}

// ---- a file

const words_of_tables = (name, bytes) => (
  `${name}: ${bytes.length} bytes, the tables of the variables of ${name.slice(0, -TABLES.length)}.\n\n`
    + "They are shown at the right, below its source, when it runs. This is no file of the machine."
);

const words_of_bytes = ({ name, bytes }) => (
  name.endsWith(TABLES) ? words_of_tables(name, bytes)
    : is_elf(bytes) ? `${name}: a program file of ${bytes.length} bytes, built from C.\n\nIts source is shown at the right when it runs, if ${name}.lines is known (the page has it of its own programs), and its functions and instructions.`
    : `${name}: a file of ${bytes.length} bytes, which are no text.\n\nPrograms open it and read its bytes.`
);

/** Shows a file. */
export function open(file) {
  state.file = file;
  take_mistakes([]);
  const is_text = file && file.text !== undefined, source = $("source");
  source.value = is_text ? file.text : file ? words_of_bytes(file) : "";
  source.readOnly = !is_text;
  state.ends = is_text && file.text.includes("\r\n") ? "\r\n" : "\n";
  state.lines = source.value.split("\n");
  find_comments();
  $("editor").classList.toggle("is-binary", !is_text);
  state.pc = null;
  take_places(null);
  measure();
  $("editor").scrollTop = $("editor").scrollLeft = state.seen.top = 0;
  draw();
  clearTimeout(state.timer);
  assemble();
  tell("shown", file);
}

/** Notes which lines of a source in C begin within a comment. */
function find_comments() {
  state.comments = is_c(state.file) ? lines_in_comments(state.lines) : new Set();
}

export const opened = () => state.file;

/** Takes what was typed: the file's text, and where its break points stand now. */
function edited() {
  const { file, lines: before } = state, source = $("source");
  if (!file || file.text === undefined) return;
  const { value } = source, is_first = !file.changed;
  if (!state.is_undone) note(file, before.join("\n"), value, performance.now());
  state.lines = value.split("\n");
  find_comments();
  file.text = state.ends === "\n" ? value : value.replace(/\n/g, state.ends);
  file.changed = true;
  state.pc = null;
  state.mistakes = []; // (those that are listed stay until the source is assembled: else the list would flicker)
  state.asked++;
  const stops = stops_of(file);
  if (stops.length) file.stops = moved(stops, before, state.lines);
  measure();
  draw();
  tell("edited", file);
  if (is_first) tell("marked", file);
  clearTimeout(state.timer);
  state.timer = setTimeout(() => {
    if (state.file !== file) return;
    if (stops.length) tell("stops", file);
    assemble();
  }, SETTLE);
}

/** Takes the last edit of the file back, or does it again. */
function undo(is_redo) {
  const { file } = state, source = $("source"), made = file && changed_back(file, source.value, is_redo);
  if (!made || source.readOnly) return;
  source.value = made.text;
  source.setSelectionRange(made.from, made.to);
  state.is_undone = true;
  edited();
  state.is_undone = false;
  reveal(made.text.slice(0, made.from).split("\n").length);
}

/** Whether a key means undo or redo: Ctrl Z, and Ctrl Y or Shift Ctrl Z. */
function undo_of_key({ key, ctrlKey, metaKey, shiftKey, altKey }) {
  const letter = key.toLowerCase();
  if (altKey || !(ctrlKey || metaKey) || (letter !== "z" && letter !== "y")) return null;
  return { is_redo: letter === "y" || shiftKey };
}

/** Whether a key means to look for words: Ctrl F. */
const is_search = ({ key, ctrlKey, metaKey, altKey }) => (ctrlKey || metaKey) && !altKey && key.toLowerCase() === "f";

/** What a key changes in the source; null if it is typed as it is. */
function change_of_key({ key, ctrlKey, metaKey, altKey, isComposing }) {
  const { value, selectionStart: from, selectionEnd: to } = $("source"), { file } = state, is_c_text = is_c(file);
  if (isComposing || altKey || !(is_c_text || is_source(file))) return null;
  if (ctrlKey || metaKey) {
    if (key === "]") return further_in(value, from, to);
    if (key === "[") return further_out(value, from, to);
    return key === "/" ? commented(value, from, to, is_c_text ? "//" : "#") : null;
  }
  if (key === "Enter") return new_line(value, from, to, is_c_text);
  return key === "}" && is_c_text ? closing_brace(value, from, to) : null;
}

/** The first mistake in words, and how many more there are. */
function words_of_mistakes({ line, kind, mistakes, more }) {
  const others = mistakes.length - 1, words = mistake_words({ line, kind }, state.lines.join("\n"));
  return others ? `${words}. And ${others} more${more ? ", at least" : ""}` : words;
}

/** Shows what came of compiling the source. */
function told_c({ mistakes, size, symbols, of }) {
  const wrong = mistakes.filter((it) => !it.is_warning), [first] = wrong, others = mistakes.length - wrong.length;
  take_mistakes(mistakes);
  state.places = symbols;
  const own = symbols?.table.lines.filter((it) => it.file === state.file.name);
  state.coded = own || of ? new Set(own?.map((it) => it.number)) : null;
  const warned = others ? `, with ${others} warning${others > 1 ? "s" : ""}` : "";
  if (first) said(wrong.length > 1 ? `${wrong.length} mistakes` : first.line ? "a mistake" : first.words, "bad");
  else if (of) said(`the source of ${of}, which isn't compiled here`, "");
  else said(`compiles: ${size ? `${size} bytes` : "it has no main"}${warned}`, "good");
  draw();
  show_pc();
}

/** Shows what came of assembling the source. */
function told(it) {
  if (it.id !== state.asked) return;
  take_mistakes(it.file ? [] : it.mistakes);
  take_places(it.file ? places_of(state.file.text, it) : null);
  if (it.file) said(`assembles: ${it.file.length} bytes`, "good");
  else said(words_of_mistakes(it), "bad");
  draw();
  show_pc();
}

/** The line of the source at which the process stands that is looked at; null if it runs another one. */
function line_of_pc() {
  const { view, booted } = app, { file, places } = state;
  if (!view?.registers || !booted || !file || !places) return null;
  const place = view.ended ? view.ended.program : view.processes.find((it) => it.pid === view.pid)?.program;
  const running = booted.files[place];
  if (!running || running.from !== file || running.text !== file.text) return null;
  const found = line_at(places, view.registers[0]);
  return found && (found.file ?? file.name) === file.name ? found.line : null;
}

function show_pc() {
  const pc = line_of_pc(), { view } = app;
  if (pc === state.pc || (view?.playing && pc === null)) return;
  mark(pc);
  if (pc !== null && !view.playing) reveal(pc);
}

export function start() {
  const source = $("source"), box = $("editor");
  source.addEventListener("input", edited);
  source.addEventListener("beforeinput", (event) => {
    if (!/^history/.test(event.inputType)) return;
    event.preventDefault();
    undo(event.inputType === "historyRedo");
  });
  source.addEventListener("keydown", (event) => {
    if (event.key === "Enter" && (event.ctrlKey || event.metaKey)) { event.preventDefault(); $("boot").click(); }
    if (event.key === "Escape") $("boot").focus();
    const asked = undo_of_key(event);
    if (asked) { event.preventDefault(); undo(asked.is_redo); }
    if (event.key === "F9") { event.preventDefault(); break_at_caret(); }
    if (is_search(event)) { event.preventDefault(); tell("search"); }
    if (make(change_of_key(event))) event.preventDefault();
  });
  box.addEventListener("scroll", scrolled, { passive: true });
  box.querySelector(".gutter").addEventListener("click", ({ target }) => {
    if (target.dataset.line) toggle_break(Number(target.dataset.line));
  });
  on("assembled", told);
  on("panels", show_pc);
  on("booted", () => mark(null));
  on("stops", (file) => { if (file === state.file) draw(); });
  new ResizeObserver(scrolled).observe(box);
}
