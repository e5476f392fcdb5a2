// The files of the machine: the list of a work's files, examples by name, files that are opened or dropped, the
// machine's settings; boot.
import { $, app, ask, element, on, say, tell } from "./app.mjs";
import { file_of_bytes, file_of_source, name_first } from "../../anywhere/machine/program_files.mjs";
import { is_table } from "../../anywhere/machine/line_tables.mjs";
import { shipped_source, shipped_table } from "./shipped_sources.mjs";
import { is_c, is_c_program, is_elf, is_source } from "../../anywhere/machine/file_kinds.mjs";
import { c_texts, is_compiled, program_of } from "./c_programs.mjs";
import { MOST_BYTES, boot_words, files_refused, too_large } from "../../anywhere/machine/file_refusals.mjs";
import { TABLES, has_tables } from "../../anywhere/machine/variables.mjs";
import {
  add, bring_back, bytes_of_file, example_of, forget_work, is_changed, own_names, put_away, put_beside, ship_anew,
  title_of, touch, work_of,
} from "./works.mjs";
import { counting } from "./breaks.mjs";
import { problem } from "./messages.mjs";
import { keys_of } from "./outside.mjs";
import * as editor from "./editor.mjs";

const DATA = globalThis.PAGE_DATA;
const MOST_BYTES_OF_RECORD = 16 * MOST_BYTES; // a record, or a work that was saved, is no file of the machine
const waiting = new Map(); // who waits for a source to be assembled
const BEGINNINGS = {
  ".s": "  li a0, 0\n  li a7, 2          # exit\n  ecall\n",
  ".c": '#include "user.h"\n\nint main(int count, char *texts[])\n{\n    printf("hi\\n");\n    return 0;\n}\n',
};
const SETTINGS = ["frames", "order", "quantum", "keys"];

// ---- the list of files

function file_button(file, k) {
  const is_opened = file === editor.opened();
  return element(
    "button",
    {
      role: "option", "aria-selected": is_opened ? "true" : "false", class: file.text === undefined ? "plain" : "",
      tabindex: is_opened || (k === 0 && !app.files.includes(editor.opened())) ? 0 : -1,
      title: file.text === undefined ? "a program, or another file of bytes" : "a text",
      onclick: () => { editor.open(file); show_files(); tell("opened", file); },
    },
    file.name + (file.changed ? " *" : "")
  );
}

const named = (button) => button.getAttribute("aria-label") ?? button.textContent.replace(/ \*$/, "");

function show_files() {
  const last = app.work.gone.at(-1);
  const focused = $("files").contains(document.activeElement) ? named(document.activeElement) : null;
  const list = { id: "file-list", role: "listbox", "aria-label": "Files of the machine: arrows choose one" };
  $("files").replaceChildren(element("div", list, ...app.files.map(file_button)),
    element("button", { title: "A new source", "aria-label": "A new source", onclick: add_source }, "+"),
    element(
      "button", { title: "Take this file away", "aria-label": "Take this file away", onclick: remove_opened }, "−"
    ),
    ...(
      last ? [
        element(
          "button",
          {
            id: "bring-back",
            title: `Bring ${last.name} back, as it was before it was taken away or another took its place`,
            "aria-label": `Bring ${last.name} back`, onclick: bring_last_back,
          },
          `↶ ${last.name}`
        ),
      ] : []
    ),
    element(
      "button",
      { id: "save", title: "Save this file on your host", "aria-label": "Save this file", onclick: save_opened }, "Save"
    ),
    ...(
      is_c_program(editor.opened() ?? {}) ? [
        element(
          "button",
          { id: "save-program", title: "Save the program that is compiled of this source", onclick: save_program },
          "Save program"
        ),
      ] : []
    ),
    element(
      "button", { title: "Program files, sources, texts, or the record of a run", onclick: ask_for_files },
      "Open file.."
    ));
  // The button that had the keys has them again.
  if (focused) [...$("files").querySelectorAll("button")].find((it) => named(it) === focused)?.focus();
  const { frames, order, quantum } = app.work.machine;
  $("config-words").textContent =
    `${frames} frames, ${order === "rounds" ? `in rounds of ${quantum} Runs` : "as a terminal"}`;
}

/** In the list of files arrows choose one, which is opened. */
function choose_by_key(event) {
  const all = [...$("files").querySelectorAll("[role=option]")], at = all.indexOf(event.target);
  const by = { ArrowRight: 1, ArrowDown: 1, ArrowLeft: -1, ArrowUp: -1, Home: -at, End: all.length - 1 - at }[event.key];
  if (at < 0 || by === undefined) return;
  event.preventDefault();
  const next = all[(at + by + all.length) % all.length];
  next.focus();
  next.click();
}

/** Asks the host for files, which are taken as if they were dropped. */
function ask_for_files() {
  $("file").click();
}

async function take_asked() {
  const list = [...$("file").files];
  // The same file may be asked for again.
  $("file").value = "";
  if (list.length) await take(list);
  if (document.activeElement === document.body) $("boot").focus();
}

function add_source() {
  let name = "prog.s";
  for (let k = 2; app.files.some((it) => it.name === name); k++) name = `prog${k}.s`;
  const asked = prompt("Name of the source (a program's name and .s, or .c), or of a text", name)?.trim();
  if (!asked) return;
  if (app.files.some((it) => it.name === asked)) {
    say(`There is a file ${asked} already: it stays as it is. Choose another name`);
    return;
  }
  add_and_open({ name: asked, text: BEGINNINGS[/\.[sc]$/.exec(asked)?.[0]] ?? "" });
}

/** A program's source in C takes the program's place. */
function change_source({ file, name, text }) {
  put_away(file);
  add_and_open({ name, text, changed: true });
  say(`${name} takes the place of ${file.name}: the button ↶ ${file.name} brings it back`);
}

function add_and_open(file) {
  add(file);
  editor.open(file);
  show_files();
}

function remove_opened() {
  const file = editor.opened();
  if (!file) return;
  put_away(file);
  touch();
  editor.open(app.files[0] || null);
  show_files();
  say(`${file.name} is taken away: the button ↶ ${file.name} brings it back`);
}

function bring_last_back() {
  const file = bring_back();
  editor.open(file);
  show_files();
  say(`${file.name} is back`);
}

/** Hands a file to the host, which saves it. */
export function save(name, content) {
  const type = typeof content === "string" ? "text/plain" : content.type ?? "application/octet-stream";
  const made = element("a", { href: URL.createObjectURL(new Blob([content], { type })), download: name });
  made.click();
  setTimeout(() => URL.revokeObjectURL(made.href), 60000);
}

function save_opened() {
  const file = editor.opened();
  if (file) save(file.name, file.text ?? bytes_of_file(file));
}

async function save_program() {
  const made = await made_of(editor.opened());
  if (made.mistake) refuse(`${made.from.name}, ${made.mistake}`); else save(made.name, made.bytes);
}

// ---- works

/** Shows the work that is open: its files, and the machine's settings. */
function show_work() {
  const { work } = app;
  for (const it of SETTINGS) $(it).value = work.machine[it];
  editor.open(
    app.files.find((it) => it.name === work.shown)
      || app.files.find((it) => it.text !== undefined && it.name.endsWith(".s")) || app.files[0] || null
  );
  show_files();
  show_works();
  tell("work", work);
}

/**
 * Opens the work of a name, with the file that was shown last; false where there is none. `fresh` tells what it is if
 * nothing of it is kept.
 */
export function open_work(name, fresh, shown) {
  const work = work_of(name, fresh);
  if (!work) return false;
  app.work = work;
  if (shown) work.shown = shown;
  show_work();
  return true;
}

/** Opens an example as it was left, or another work that was kept. */
export const choose = (name) => open_work(name);

/** Opens a work again that was open before. */
export function open_again(work) {
  app.work = work;
  show_work();
}

/** Opens files that are no example, as a work of their own: one that has its name, and was changed, stays beside it. */
export function set_files(files, how = {}, name = "own", breaks = []) {
  app.work = put_beside(name, { files, how, breaks });
  show_work();
}

const words_of_example = (name) => (example_of(name).title ? `${name}: ${example_of(name).title}` : name);

/** Lists the examples, those that were changed with a star, and the works of lessons and links. */
function show_works() {
  const chosen = $("example"), own = own_names(), { name } = app.work;
  if (!example_of(name) && !own.includes(name)) own.push(name);
  const option = (it, words) => element("option", { value: it }, words + (is_changed(it) ? " *" : ""));
  chosen.replaceChildren(
    ...Object.keys(DATA.examples).map((it) => option(it, words_of_example(it))),
    ...(
      own.length
        ? [element("optgroup", { label: "lessons, links, your own" }, ...own.map((it) => option(it, title_of(it))))]
        : []
    )
  );
  chosen.value = name;
  $("as-shipped").hidden = !(app.work.example && app.work.is_touched);
  $("forget").hidden = !(!app.work.example && app.work.is_touched);
}

/** Makes the work as it was shipped: what was changed may be brought back, file by file. */
async function as_shipped() {
  ship_anew();
  show_work();
  say(app.work.gone.length ? "As it was shipped. What you had changed is brought back by ↶" : "As it was shipped");
  await boot();
}

/** Forgets files that are no example's. */
async function forget() {
  if (!confirm("These files are taken away for good. Save what you want to keep first. Forget them?")) return;
  forget_work();
  choose("shell");
  await boot();
}

// ---- boot

function assembled(text) {
  return new Promise((done) => {
    const id = `file ${waiting.size} ${Math.random()}`;
    waiting.set(id, done);
    ask("assemble", { text, id });
  });
}


/** A text of the list by its name; nothing if there is none. */
const text_named = (name) => app.files.find((it) => it.name === name)?.text ?? "";
const table_of = (file) => (file.built_in ? shipped_table(file.name) : text_named(`${file.name}.lines`));
const of_bytes = (name, bytes, from) => {
  const made = file_of_bytes(name, bytes, () => table_of(from), (file) => text_named(file) || shipped_source(file));
  return { ...made, from, text: from.text };
};
/**
 * What belongs to a program and is no file of the machine: the tables of its lines and of its variables, and sources in
 * C without a main.
 */
const stands_beside = (file) => (
  (file.name.endsWith(".lines") && is_table(file.text)) || file.name.endsWith(TABLES)
    || (is_c(file) && !is_c_program(file))
);

const all_bytes_of = (file) => (file.text === undefined ? bytes_of_file(file) : new TextEncoder().encode(file.text));

/**
 * The tables of the variables of a program: those of its compiler here, those that stand beside it, or its own; null if
 * there are none.
 */
function variables_of({ from, bytes, debug }) {
  if (debug) return debug;
  const beside = app.files.find((it) => it.name === from.name + TABLES);
  if (beside) return all_bytes_of(beside);
  return has_tables(bytes) ? bytes : null;
}

/**
 * The file of the machine that a file of the list is: {name, bytes, from, text, symbols}. `mistake`: what is wrong with
 * its source.
 */
export async function made_of(file, list = app.files) {
  if (is_compiled(file, list)) return program_of(file, list);
  if (file.text === undefined) return of_bytes(file.name, bytes_of_file(file), file);
  if (!is_source(file)) return of_bytes(file.name, all_bytes_of(file), file);
  const { text } = file, made = await assembled(text);
  return { ...file_of_source(file.name, text, made), from: file, text };
}

/** Keys go to the machine that was asked for last. */
export function send_keys(bytes) {
  const { sent } = [...bootings.values()].at(-1) ?? app.booted;
  for (const it of bytes) sent.keys.push(it);
  ask("keys", { bytes: [...bytes] });
}

/** The keys that the machine hasn't got yet: those that wait for room, and those that are on their way. */
export function keys_that_wait() {
  const { keys, given } = app.booted.sent, { waits, typed } = app.view;
  return keys.slice(Math.max(0, given + typed - waits));
}

let boots = 0;
const bootings = new Map(); // machines that are to be booted, by the numbers of their boots
export function booting(id) {
  const found = bootings.get(id);
  for (const it of bootings.keys()) if (it <= id) bootings.delete(it);
  return found;
}

/** Tells that something is refused, beside the editor and as a message. */
export function refuse(words) {
  say(words);
  $("mistake").textContent = words;
  $("mistake").className = "bad";
}

/** Asks for a machine of files, to boot it, or to play a record of it; tells the number of this boot. */
export function begin(what, { files, config, how, ...more }) {
  const id = ++boots;
  const keys = more.keys ?? [], sent = { keys: [...keys], given: keys.length };
  const tables = files.map(variables_of), symbols = files.map((it) => it.symbols);
  const booted = { files, config, how, work: app.work.name, symbols, tables, sent };
  bootings.set(id, booted);
  ask(what, {
    id, config, how, files: files.map(({ name, bytes }) => ({ name, bytes })), tables, breaks: counting(booted),
    ...more,
  });
  return id;
}

const replays = new Map(); // who waits for a record to be played, by the numbers of the boots

/** Plays a record; tells the number of its boot, or null if it isn't played. */
export const replay = (asked) => new Promise((done) => { replays.set(begin("replay", asked), done); });

function replay_is_over(id, told) {
  replays.get(id)?.(told);
  replays.delete(id);
}

/** The worker has failed: no record that somebody waits for is played any more. */
export function fail(words) {
  refuse(words);
  for (const id of [...replays.keys()]) replay_is_over(id, null);
}

/** A boot that the kernel refuses: the machine before stays. */
export function refused({ id, refusal }) {
  const { config, sent } = booting(id), words = boot_words(refusal, config);
  // What was typed since goes to the machine that stays.
  app.booted?.sent.keys.push(...sent.keys.slice(sent.given));
  refuse(`boot: ${words}`);
  replay_is_over(id, null);
  tell("refused", words);
}

/** The machine that settings mean: {config, how, keys}. */
export function meant({ frames, order, quantum, keys }) {
  return {
    config: { frames: Number(frames) || 0, trace: 0 },
    how: { rounds: order === "rounds", quantum: Math.max(1, Number(quantum) || 1000) }, keys: [...keys_of(keys)],
  };
}

/** Says which rows of the table of a program's lines, that was dropped, are none. */
function tell_wrong_rows({ from, symbols }) {
  if (from.built_in || !text_named(`${from.name}.lines`)) return;
  const { wrong } = symbols.table;
  if (!wrong.length) return;
  const rows = wrong.length === 1 ? `row ${wrong[0]} is` : `${wrong.length} rows, the first of them ${wrong[0]}, are`;
  problem(`${from.name}.lines: ${rows} none of a table of lines, and passed over.`);
}

/**
 * The files of the machine, of those of the list; null if one is refused, which is told. `beside` has what sources in C
 * may use besides.
 */
export async function made_of_all(list, beside = []) {
  const all = [...list, ...beside];
  const files = await Promise.all(list.filter((it) => !stands_beside(it)).map((it) => made_of(it, all)));
  const wrong = files.find((it) => it.mistake);
  if (wrong) {
    if (app.files.includes(wrong.from)) editor.open(wrong.from);
    show_files();
    refuse(`${wrong.from.name}, ${wrong.mistake}`);
    return null;
  }
  for (const it of files) tell_wrong_rows(it);
  const told = name_first(files), words = files_refused(files);
  if (words) { refuse(`boot: ${words}`); return null; }
  if (told) say(told);
  files.beside = files.some((it) => it.is_compiled) ? c_texts(all.filter(stands_beside)) : [];
  return files;
}

/**
 * Assembles the sources, and boots a machine of all files: of the work's, or of others. Tells whether it was asked for.
 */
export async function boot({ play = true, files = app.files, machine = app.work.machine } = {}) {
  const made = await made_of_all(files);
  if (made) begin("boot", { files: made, ...meant(machine), play });
  else tell("refused", $("mistake").textContent);
  return made !== null;
}

// ---- files that are opened or dropped

/** A file of the host: its bytes, and its text, if they are one, and the same when they are written again. */
function file_of(name, bytes) {
  if (is_elf(bytes)) return { name, bytes };
  try {
    const text = new TextDecoder("utf-8", { fatal: true, ignoreBOM: true }).decode(bytes);
    const is_mixed = /\r(?!\n)/.test(text) || (text.includes("\r") && /(?<!\r)\n/.test(text));
    if (text.includes("\0") || (is_mixed && !name.endsWith(".s"))) return { name, bytes };
    return { name, text };
  } catch {
    return { name, bytes };
  }
}

/** What some files are besides files of the machine, by how they begin: who takes their texts, names and bytes. */
const kinds = new Map();
export const take_texts = (beginning, taker) => kinds.set(beginning, taker);

async function taker_of(it) {
  const head = await it.slice(0, 16).text();
  return [...kinds].find(([beginning]) => head.startsWith(beginning))?.[1] ?? null;
}

/** Says which files were taken, and which weren't, and why. */
function tell_taken(taken, refusals) {
  const many = taken.length > 1, words = taken.length
    ? `${taken.length} file${many ? "s" : ""} taken. Boot runs the machine with ${many ? "them" : "it"}.` : "";
  if (refusals.length) {
    problem(`Not taken: ${refusals.join("; ")}.`);
    refuse([`Not taken: ${refusals.join("; ")}.`, words].join(" ").trim());
  } else if (words) say(words);
}

/** Takes files that were dropped or chosen: programs, sources, texts; then a run, or slides, if there are some. */
export async function take(list) {
  const taken = [], refusals = [], runs = [];
  for (const it of list) {
    try {
      const taker = await taker_of(it), most = taker ? MOST_BYTES_OF_RECORD : MOST_BYTES;
      if (it.size > most) { refusals.push(too_large(it.name, it.size)); continue; }
      const bytes = new Uint8Array(await it.arrayBuffer());
      if (taker) { runs.push({ taker, name: it.name, bytes }); continue; }
      const file = { ...file_of(it.name, bytes), changed: true };
      add(file);
      taken.push(file);
    } catch (error) {
      refusals.push(`${it.name} can't be read (${error.message})`);
    }
  }
  if (taken.length) { editor.open(taken.at(-1)); show_files(); }
  const [run, ...others] = runs;
  tell_taken(taken, [...refusals, ...others.map(({ name }) => `${name}: one run, or slides, can be opened at a time`)]);
  if (run) await run.taker(new TextDecoder().decode(run.bytes), run.name, run.bytes);
  if (run || taken.length) tell("taken");
}

export function start() {
  $("example").addEventListener("change", () => { if (choose($("example").value)) boot(); });
  $("as-shipped").addEventListener("click", as_shipped);
  $("forget").addEventListener("click", forget);
  $("boot").addEventListener("click", () => boot());
  $("open-file").addEventListener("click", ask_for_files);
  $("file").addEventListener("change", take_asked);
  $("files").addEventListener("keydown", choose_by_key);
  for (const it of SETTINGS) {
    $(it).addEventListener("change", () => { app.work.machine[it] = $(it).value; touch(); show_files(); });
  }
  on("touched", show_works);
  on("marked", show_files);
  on("replayed", ({ id }) => replay_is_over(id, id));
  on("opened", (file) => { app.work.shown = file.name; });
  on("change source", change_source);
  on("assembled", (it) => { const done = waiting.get(it.id); if (done) { waiting.delete(it.id); done(it); } });
  let depth = 0;
  const has_files = (event) => [...(event.dataTransfer?.types || [])].includes("Files");
  addEventListener("dragenter", (event) => { if (has_files(event)) { depth++; $("drop").hidden = false; } });
  addEventListener("dragleave", (event) => {
    if (has_files(event) && --depth <= 0) { depth = 0; $("drop").hidden = true; }
  });
  addEventListener("dragover", (event) => { if (has_files(event)) event.preventDefault(); });
  addEventListener("drop", (event) => {
    if (!has_files(event)) return;
    event.preventDefault();
    depth = 0;
    $("drop").hidden = true;
    take([...event.dataTransfer.files]);
  });
}
