// The works: each has the files of an example, of a lesson or of a link, with what was changed of them, the machine's
// settings and break points. Once something of a work is changed, the browser keeps it under its name.
import { app, base64, on, say, tell } from "./app.mjs";
import { forget, keep, kept, names_kept, on_conflict } from "./browser_storage.mjs";
import { problem } from "./messages.mjs";
import { entry, work_of_kept } from "./outside.mjs";

const DATA = globalThis.PAGE_DATA;
const MOST_GONE = 50; // files that were taken away, and may be brought back
const SETTLE = 300; // ms after the last change, until it is kept
const opened = new Map(); // the works that were opened since the page began, by their names

export const bytes_of_file = (file) => file.bytes || (file.bytes = base64.of(file.base64));

/** A file as it is kept: its own text or bytes, or that the page has it. */
export function packed_file(file) {
  const { name, text, built_in, changed, stops } = file;
  const what = text !== undefined ? { text } : built_in ? { built_in }
    : { base64: (file.base64 ??= base64.to(file.bytes)) };
  return { name, ...what, ...(changed ? { changed } : {}), ...(stops?.length ? { stops } : {}) };
}

const packed_break = ({ kind, name, program, ...switched }) => ({ kind, name, program, ...switched });

/** The file of what was kept; null where the page has it no more. */
export function unpacked_file(it) {
  if (!it.built_in) return { ...it };
  const packed = entry(DATA.programs, it.name);
  return packed === null ? null : { ...it, bytes: base64.of(packed) };
}

/** An example of the page, by its name; null if there is none. */
export const example_of = (name) => entry(DATA.examples, name);

/** The files of an example as it was shipped. */
export function shipped_files(example) {
  const { files, programs = [] } = example_of(example);
  return [
    ...files.map((it) => ({ ...it })),
    ...programs.map((name) => ({ name, bytes: base64.of(DATA.programs[name]), built_in: true })),
  ];
}

const shown_keys = (keys) => keys.replace(/\\/g, "\\\\").replace(/\n/g, "\\n").replace(/\x04/g, "\\x04");
/** The machine's settings, as the form has them: the keys are written with \n for Enter. */
export const machine_of = ({ frames, rounds, quantum, keys }) => ({
  frames: frames || 4096, order: rounds ? "rounds" : "live", quantum: quantum || 1000, keys: shown_keys(keys || ""),
});

// ---- opening

const unread = new Set(); // the names of works that are kept and can't be read

/** A work that can't be read stays, under another name, when one of its name is kept: a later page may read it. */
function lay_unread_aside(name) {
  if (!unread.delete(name)) return;
  keep(`unread ${Date.now()} work ${name}`, kept(`work ${name}`));
}

/** The work that was kept under a name; null if there is none, or none that can be read, which is said. */
function unpacked(name) {
  const it = kept(`work ${name}`);
  if (it === null) return null;
  const there = (list) => list.map(unpacked_file).filter((file) => file);
  try {
    const work = work_of_kept(it), example = example_of(work.example) ? work.example : null;
    return { ...work, name, example, files: there(work.files), gone: there(work.gone), is_touched: true };
  } catch (error) {
    unread.add(name);
    problem(`What the browser kept of ${name} can't be read, and stands as it is: ${error.message}.`);
    return null;
  }
}

/** Makes a work, in place of what has its name. */
export function put(name, { title = name, files, how = {}, example = null, breaks = [] }) {
  const work = { name, title, example, how, files, machine: machine_of(how), breaks, gone: [], is_touched: false };
  opened.set(name, work);
  return work;
}

/** All that can be changed of a work, as a text. */
const told_of = ({ files, machine, breaks, gone }) => (
  JSON.stringify([files.map(packed_file), machine, breaks.map(packed_break), gone.map(packed_file)])
);

/** Makes a work of a name; if another one was changed under it, of the first of NAME, 2; NAME, 3; .. that is free. */
export function put_beside(name, { files, how = {}, breaks = [] }) {
  const wanted = told_of({ files, machine: machine_of(how), breaks, gone: [] });
  const is_taken = (it) => {
    const there = work_of(it, null);
    return there ? there.is_touched && told_of(there) !== wanted : unread.has(it);
  };
  let own = name;
  for (let k = 2; is_taken(own); k++) own = `${name}, ${k}`;
  return put(own, { files, how, breaks });
}

const of_example = (name) => () => ({ title: name, files: shipped_files(name), how: example_of(name), example: name });

/** The work of this name: as it was left, or else as `fresh` makes it; null where there is none. */
export function work_of(name, fresh = example_of(name) ? of_example(name) : null) {
  const known = opened.get(name) ?? unpacked(name);
  if (!known) return fresh ? put(name, fresh()) : null;
  opened.set(name, known);
  return known;
}

/** The names of the works that are no examples. */
export function own_names() {
  const names = new Set([
    ...names_kept("work ").map((it) => it.slice(5)),
    ...[...opened.values()].filter((it) => it.is_touched).map((it) => it.name),
  ]);
  return [...names].filter((name) => !example_of(name)).sort();
}
export const is_changed = (name) => opened.get(name)?.is_touched ?? names_kept(`work ${name}`).includes(`work ${name}`);
export function title_of(name) {
  const title = (opened.get(name) ?? kept(`work ${name}`))?.title;
  return typeof title === "string" ? title : name;
}

// ---- changes

let timer = 0;
const waiting = new Set();

/** Keeps at once what was changed. */
export function flush() {
  clearTimeout(timer);
  for (const work of waiting) {
    lay_unread_aside(work.name);
    const { title, example, how, files, machine, breaks, gone } = work;
    keep(`work ${work.name}`, {
      title, example, how: plain(how), files: files.map(packed_file), machine,
      breaks: breaks.map(packed_break), gone: gone.map(packed_file),
    });
  }
  waiting.clear();
}
const plain = ({ frames, rounds, quantum, keys }) => ({ frames, rounds, quantum, keys });

/** Notes that something of the work was changed: a moment later it is kept. */
export function touch(work = app.work) {
  const is_first = !work.is_touched;
  work.is_touched = true;
  waiting.add(work);
  clearTimeout(timer);
  timer = setTimeout(flush, SETTLE);
  if (is_first) tell("touched", work);
}

/** Lays a file aside: it can be brought back. */
export function put_away(file) {
  const { work } = app;
  work.files = work.files.filter((it) => it !== file);
  work.gone = [...work.gone, file].slice(-MOST_GONE);
}

/** Adds a file, in place of that of its name. */
export function add(file) {
  const { work } = app, place = work.files.findIndex((it) => it.name === file.name);
  if (place < 0) work.files = [...work.files, file];
  else {
    const files = work.files.with(place, file);
    put_away(work.files[place]);
    work.files = files;
  }
  touch();
}

/** Brings the file back that was laid aside last. One that has its name now is laid aside for it. */
export function bring_back() {
  const file = app.work.gone.pop();
  if (file) add(file);
  return file;
}

/** Forgets the work that is open, which is no example. */
export function forget_work() {
  const { work } = app;
  opened.delete(work.name);
  waiting.delete(work);
  forget(`work ${work.name}`);
}

/** Makes the work as it was shipped. Files that were changed are laid aside. */
export function ship_anew() {
  const { work } = app, fresh = shipped_files(work.example);
  const is_own = (file) => !file.built_in && !fresh.some((it) => it.name === file.name && it.text === file.text);
  work.gone = [...work.gone, ...work.files.filter(is_own)].slice(-MOST_GONE);
  Object.assign(work, { files: fresh, machine: machine_of(work.how), breaks: [] });
  if (work.gone.length) { touch(work); return; }
  work.is_touched = false;
  waiting.delete(work);
  forget(`work ${work.name}`);
}

/** The first of NAME 2, NAME 3, .. that no work has. */
function free_name(title) {
  const is_there = (it) => opened.has(it) || kept(`work ${it}`) !== null;
  let count = 2;
  while (is_there(`${title} ${count}`)) count++;
  return `${title} ${count}`;
}

/** A work of this page gets another name, and is kept under it. */
function rename(work, name) {
  opened.delete(work.name);
  if (app.booted?.work === work.name) app.booted.work = name;
  tell("renamed", { from: work.name, to: name });
  Object.assign(work, { name, title: name });
  opened.set(name, work);
  waiting.add(work);
  flush();
  tell("touched", work);
}

/**
 * Another tab has changed a work since this page has read it. What this page has changed of it is kept under another
 * name from now on; `value` is that, as it was to be kept.
 */
function part_from_other_tab(kept_name, value) {
  if (!kept_name.startsWith("work ") || value === null) return;
  const name = kept_name.slice(5), work = opened.get(name), other = free_name(work?.title ?? value.title ?? name);
  if (work?.is_touched) rename(work, other);
  else keep(`work ${other}`, { ...value, title: other });
  const words = `Another tab has changed ${name} too. What you have here is now kept as ${other}.`;
  if (app.booted) say(words); else problem(words);
}

export function start() {
  on_conflict(part_from_other_tab);
  on("edited", () => touch());
}
