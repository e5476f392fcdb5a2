// What the page shows is kept, so that a reload, or another day, finds it: each run as a record of its own, with its
// work, keys, place, and the futures that keys have cut off; tabs, speed. The works themselves are kept by works.mjs,
// whenever they are changed. A run in which something was typed is never written over: not by a link, by a reload, or
// by another tab.
import { $, app, ask, on, say, tell } from "./app.mjs";
import { grouped } from "../../anywhere/machine/number_words.mjs";
import {
  all_runs, change_run, delete_run, keep_here, keep_run, kept_here, kept_state, lay_aside, load, new_id, on_again,
  on_state, owner, take_run,
} from "./browser_storage.mjs";
import { flush, title_of, unpacked_file } from "./works.mjs";
import { keys_in } from "../../anywhere/machine/events.mjs";
import { play_again, run_now } from "./sharing.mjs";
import { beside_now, show_beside } from "./beside.mjs";
import * as editor from "./editor.mjs";
import * as lessons from "./lessons.mjs";
import * as programs from "./programs.mjs";
import { is_booted, is_slide } from "./place_links.mjs";
import { KIND } from "../../anywhere/machine/machine.mjs";
import { problem } from "./messages.mjs";
import { MOST_EVENTS, shown_of } from "./outside.mjs";

const SETTLE = 600; // ms after a change, until it is kept
const LATEST = 10000; // ms after a change, until it is kept while the machine computes
const TABS = [
  "tab-programs", "tab-lessons", "tab-instruction", "tab-pages", "tab-translate", "tab-opened", "tab-happened",
  "tab-why",
];
// The run that is shown; is_own: something was typed in it; of_link: a link has led to it.
let current = { id: new_id(), is_own: false, of_link: false };
let timer = 0, is_restored = false;
let openings = 0; // runs that are being opened

/** What is shown, as it is kept: `run` is null if it is too long to be played again; then `length` tells its length. */
function shown_now() {
  const { work } = app.booted, file = work === app.work.name ? editor.opened()?.name : undefined;
  return {
    work, title: title_of(work), file, run: run_now(true), length: app.line.end,
    tabs: TABS.filter((it) => $(it).getAttribute("aria-selected") === "true"), speed: $("speed").value,
    lesson: lessons.kept_lesson(), beside: beside_now(), picture: picture_now(),
  };
}

const COLUMNS = 64; // of the small picture of a run

/** Who runs, in so many parts of the run, and in which of them somebody faults: for a small picture. */
function picture_now() {
  const { line, faults } = app, end = Math.max(1, line.end);
  const ran = Array.from({ length: COLUMNS }, (_, k) => {
    const found = line.find(Math.floor(((k + 0.5) * end) / COLUMNS));
    return found >= 0 && line.kind[found] <= KIND.FAULT ? line.pid[found] : 0;
  });
  return { ran, faults: [...new Set(faults.map((it) => Math.floor((it.at * COLUMNS) / end)))].slice(0, COLUMNS) };
}

/** Whether something was typed into the machine since it was booted, or since its run was taken away. */
const is_typed = () => app.booted.sent.keys.length > Math.max(app.booted.sent.given, current.from ?? 0);

/** The record of the run that is shown. */
function record_now() {
  current.is_own ||= is_typed();
  const { id, is_own, of_link } = current;
  return { ...shown_now(), id, owner, is_own, of_link, when: Date.now() };
}

let keeping = Promise.resolve(); // what is kept is kept one after another

/** Keeps it as it is now. */
function keep_now() {
  clearTimeout(timer);
  timer = changed_at = 0;
  if (is_slide()) return keeping;
  flush();
  if (openings) keep_soon(); else keep_shown();
  return keeping;
}

/** Keeps the run that is shown. */
function keep_shown() {
  if (!is_restored || !app.view || is_slide()) return;
  const run = current, record = record_now();
  keeping = keeping.then(() => keep_record(run, record));
}

/** Keeps a record of a run. If another tab has gone on with the run, what is here is a run of its own from now on. */
async function keep_record(run, record) {
  const { id } = run, kept_as = await keep_run({ ...record, id });
  run.id = kept_as;
  if (run === current) keep_here("run", { id: kept_as, owner });
  if (kept_as !== id) say("Another tab goes on with this run too: each tab keeps its own from here on.");
}

/** The page goes: what the database may have no time for any more is laid aside. */
function keep_as_it_goes() {
  keep_now();
  const is_shown = is_restored && app.view && !is_slide() && !openings;
  // A run that has only just begun is none of the database's yet: a reload shows it all the same.
  if (is_shown) keep_here("run", { id: current.id, owner });
  lay_aside(is_shown ? record_now() : null);
}

let changed_at = 0; // when something was changed that isn't kept yet

/** Keeps it soon: when the machine waits or stands, as a long record takes some milliseconds; or some seconds later. */
function keep_soon() {
  if (timer) return;
  changed_at ||= Date.now();
  timer = setTimeout(() => {
    timer = 0;
    const computes = app.view?.playing && app.view.facts.current;
    if (computes && Date.now() - changed_at < LATEST) keep_soon(); else keep_now();
  }, SETTLE);
}

function show_tabs(tabs) {
  for (const it of tabs) if (TABS.includes(it)) globalThis.show_tab(it.slice(4));
}

// ---- what was here last time

let not_kept_since = 0;

/** Reads what the browser has kept. */
export async function begin() {
  not_kept_since = await load();
  tell("read");
  on_state(show_state);
  on_again(keep_soon);
  show_state(kept_state());
}

/** The records of which one may be shown, in this order: after a reload this tab's own, else the last shown. */
async function candidates() {
  const here = kept_here("run")?.id, all = await all_runs();
  const own = all.filter((it) => it.id === here), shown = all.filter((it) => it.is_own || !it.of_link);
  const is_reload = performance.getEntriesByType("navigation")[0]?.type !== "navigate";
  return is_reload ? [...own, ...shown] : [...shown, ...own];
}

/** Shows what was kept; false if there is nothing, or nothing that can be read. */
export async function restore() {
  for (const record of (await candidates()).slice(0, 3)) {
    try { if (await open_record(record, true)) return true; } catch (error) {
      const words = "A run that the browser has kept can't be read, and stays as it is";
      problem(`${words}: ${error.message}. Your sources stand in the list of examples.`);
    }
  }
  return false;
}

const words_of_place = ({ at, end }) => `event ${grouped(at)} of ${grouped(end)}`;

/** The files that a run has itself. */
const files_in = (run) => (run?.files ?? []).flatMap(({ file }) => (file ? unpacked_file(file) ?? [] : []));

/** Opens the work of a record, and plays its run; false if no machine is booted. */
async function open_record(record, is_first) {
  const told = shown_of(record), { run } = told;
  if (!programs.open_work(told.work, undefined, told.file)) programs.set_files(files_in(run), {}, told.work);
  if ([...$("speed").options].some((it) => it.value === told.speed)) {
    $("speed").value = told.speed;
    ask("settings", { speed: Number(told.speed) });
  }
  if (is_first) {
    show_tabs(told.tabs);
    lessons.open_kept(told.lesson);
  }
  openings++;
  try {
    const played = run && (await play_again(run));
    if (played?.is_left) return true;
    if (played) {
      if (played.differs) go_on_anew(record); else go_on_with(record);
      if (told.beside) show_beside(told.beside.pids, told.beside.memory);
      tell_beginning(told);
      say(`Here is ${not_kept_since ? "what was kept" : "what you had"}: ${words_of_place(run)}.`);
      tell_lost();
      return true;
    }
  } finally {
    openings--;
  }
  if (!is_first) return false;
  if (!(await is_booted(() => programs.boot()))) return false;
  tell_begun_anew(told);
  return true;
}

/** What is typed from now on is of this record's run. */
function go_on_with(record) {
  const { id, is_own, of_link } = record, run = { id, is_own: is_own === true, of_link: of_link === true };
  current = run;
  keep_here("run", { id, owner });
  keeping = keeping.then(async () => {
    run.id = await take_run(record);
    if (run === current) keep_here("run", { id: run.id, owner });
  });
}

/** A run that differs here is one of its own from now on: that which was kept stays as it is. */
function go_on_anew(record) {
  go_on_with({ ...record, id: new_id() });
}

/** Of a run that is too long to be played again the beginning is here, which is said. */
function tell_beginning({ run, length }) {
  if (run.end < MOST_EVENTS || length <= run.end) return;
  const here = `here is its beginning, ${grouped(run.end)} events`;
  problem(`The run has ${grouped(length)} events, more than are kept: ${here}.`);
}

/** If not all of the last time was kept, that is said. */
function tell_lost() {
  if (!not_kept_since) return;
  const since = new Date(not_kept_since).toLocaleTimeString("en");
  const why = "its store was full, or it refused";
  problem(`What you did after ${since} was not kept by the browser: ${why}. What was kept before is here.`);
  not_kept_since = 0;
}

function tell_begun_anew({ run, length }) {
  const begun = "Your sources are here. The run begins anew";
  if (run) say(`${begun}: a file of it is gone, or is refused here. It stays among your runs.`);
  else if (length > 0) say(`${begun}: it was too long to be kept, with ${grouped(length)} events.`);
  tell_lost();
}

// ---- your runs

const MARKS = {
  true: ["✓ kept", "All that you do here is kept by the browser"],
  false: ["⚠ not kept", "Not all is kept: a click says what to do"],
};

/** Whoever leaves while not all is kept is asked first. */
const ask_first = (event) => { if (!is_slide()) event.preventDefault(); };

/** The lasting mark. */
function show_state({ is_kept, why, since }) {
  const [words, title] = MARKS[is_kept], mark = $("kept");
  if (mark.textContent === words) return;
  // (While it isn't needed it is away: some browsers hold no page for the way back that has it.)
  if (is_kept) removeEventListener("beforeunload", ask_first); else addEventListener("beforeunload", ask_first);
  Object.assign(mark, { textContent: words, title });
  mark.classList.toggle("not-kept", !is_kept);
  if (is_kept) return;
  const from = new Date(since).toLocaleTimeString("en");
  const todo = "Take runs away (Your runs), or save all of it by Share, as a file";
  problem(`The browser keeps nothing of what you do here since ${from}: ${why}. ${todo}.`);
}

/** The runs that are listed: those in which something was typed, or that have a name, and the one that is shown. */
export async function listed_runs() {
  await keep_now();
  return (await all_runs()).filter((it) => it.is_own || it.name || it.id === current.id);
}
export const is_current = ({ id }) => id === current.id;

/** Opens a run of the list; that which is left stays in it. */
export async function open_run(record) {
  const before = app.work;
  let why = "a file of it is gone, or is refused here";
  try { if (await open_record(record, false)) return true; } catch (error) { why = error.message; }
  problem(`The run can't be played again: ${why}.`);
  if (app.work !== before) programs.open_again(before);
  return false;
}

/**
 * A run that has a name is kept as one in which something was typed: no other takes its place. Tells whether it has the
 * name now.
 */
export function name_run(record, name) {
  if (is_current(record)) current.is_own = true;
  return change_run(record.id, { name, is_own: true });
}

/** Takes a run away for good. */
export async function take_run_away(record) {
  await delete_run(record);
  const from = app.booted?.sent.keys.length;
  if (is_current(record)) current = { id: new_id(), is_own: false, of_link: current.of_link, from };
  keep_soon();
}

/** Another machine is booted: all of the run that is left is kept, with the keys that came last. */
function leave() {
  keep_shown();
  note_run_before();
}

/** A machine was booted: a run begins. A run in which nothing was typed makes room for it, unless one is opened. */
function new_run() {
  const of_link = document.documentElement.dataset.place === "coming", is_over = current.is_own || openings > 0;
  current = { id: is_over ? new_id() : current.id, is_own: false, of_link };
}

// ---- the run before

let before = null; // the run that the last boot has ended, if keys were typed in it: {work, run}

/** Notes the run that is left, if something was typed in it. */
function note_run_before() {
  if (!is_typed() && !keys_in(app.events.all()).length) return;
  const run = run_now(true);
  if (run) before = { work: app.booted.work, run: { ...run, plays: false }, record: current };
  offer();
}

function offer() {
  const button = $("run-before");
  button.hidden = !before;
  if (before) button.title = `Back to the run before: ${before.work}, ${words_of_place(before.run)}`;
}

/** Goes back to the run before; that which is left is the run before then. */
async function back_to_run_before() {
  const { work, run, record } = before;
  programs.open_work(work);
  openings++;
  const played = await play_again(run);
  openings--;
  if (played?.is_left) return;
  if (played) go_on_with(record); else say("The run before can't be played again.");
}

export function start() {
  $("run-before").addEventListener("click", back_to_run_before);
  on("left", leave);
  on("booted", new_run);
  on("renamed", ({ from, to }) => { if (before?.work === from) before.work = to; });
  on("view", () => { is_restored = true; });
  const changes = ["booted", "typed", "stops", "work", "tab", "touched", "edited", "opened", "lesson"];
  for (const it of changes) on(it, keep_soon);
  let at = -1;
  on("panels", () => { if (!app.view.playing && app.view.at !== at) { at = app.view.at; keep_soon(); } });
  $("speed").addEventListener("change", keep_soon);
  addEventListener("pagehide", keep_as_it_goes);
  document.addEventListener("visibilitychange", () => { if (document.hidden) keep_now(); });
}
