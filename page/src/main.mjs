// The page: begins the worker and the panels, and hands what the worker tells to them.
import { $, app, ask, base64, hush, on, set_theme, start_part, tell } from "./app.mjs";
import { learn_calls } from "../../anywhere/machine/calls.mjs";
import { ThinnedRecord } from "./thinned_record.mjs";
import { RunMarks } from "./run_marks.mjs";
import { LastNames } from "../../anywhere/machine/program_names.mjs";
import { EventsText, with_room } from "../../anywhere/machine/events.mjs";
import * as terminal from "./terminal.mjs";
import * as editor from "./editor.mjs";
import * as source_search from "./source_search.mjs";
import * as works from "./works.mjs";
import * as programs from "./programs.mjs";
import * as sharing from "./sharing.mjs";
import * as time from "./time.mjs";
import * as breaks from "./breaks.mjs";
import * as processes from "./processes.mjs";
import * as instruction from "./instruction.mjs";
import * as c_source from "./c_source.mjs";
import * as c_variables from "./c_variables.mjs";
import * as c_programs from "./c_programs.mjs";
import * as pages from "./pages.mjs";
import * as descriptors from "./descriptors.mjs";
import * as why from "./why.mjs";
import * as lessons from "./lessons.mjs";
import * as session from "./session.mjs";
import * as happened from "./happened.mjs";
import * as messages from "./messages.mjs";
import * as missing_stretches from "./missing_stretches.mjs";
import * as translate from "./translate.mjs";
import * as manual from "./manual.mjs";
import * as slides from "./slides.mjs";
import * as first_minute from "./first_minute.mjs";
import * as your_runs from "./your_runs.mjs";
import * as frame from "./frame.mjs";
import * as beside from "./beside.mjs";
import * as go_to from "./go_to.mjs";
import * as pictures from "./pictures.mjs";
import * as sums from "./sums.mjs";
import { problem } from "./messages.mjs";
import { is_booted, is_embedded, short_place } from "./place_links.mjs";
import { calls_in_words } from "../../anywhere/machine/event_words.mjs";

const DATA = globalThis.PAGE_DATA;
let text_room = new Uint8Array(65536), drawn = 0, waits = false, is_whole = false;

function take_text({ from, bytes }) {
  text_room = with_room(text_room, from, bytes.length);
  text_room.set(bytes, from);
  app.text = text_room.subarray(0, from + bytes.length);
}

/** Draws all anew. */
function redraw() {
  if (!app.view) return;
  tell("view");
  tell("panels");
}

function take_names({ from, list }) {
  if (from === 0) app.names = new LastNames();
  for (const { pid, place } of list) app.names.set(pid, place);
}

function take_view(view) {
  app.line.take(view.line);
  app.marks.take(view.line);
  app.events.take(view.events);
  take_names(view.names);
  take_text(view.text);
  if (view.faults) app.faults = view.faults;
  if (view.kills) app.kills = view.kills;
  if (view.cut_off) app.cut_off = view.cut_off;
  is_whole ||= view.whole !== undefined;
  // What only a whole view has is that of the last one.
  const whole = view.whole ?? app.view?.whole;
  app.view = { ...whole, ...view, whole };
  if (waits) return;
  waits = true;
  // At most a drawing a frame, also where the page isn't seen.
  const draw = () => {
    if (!waits) return;
    waits = false;
    // Behind a boot there is nothing to draw, until its machine is told.
    if (!app.view) return;
    drawn++;
    tell("view");
    if (is_whole) tell("panels");
    is_whole = false;
  };
  if (document.hidden) setTimeout(draw, 100); else requestAnimationFrame(draw);
}

/** Another machine: nothing of the one before is drawn any more. */
function take_boot({ id, took }) {
  if (app.view) tell("left");
  app.booted = { ...programs.booting(id), id, took };
  Object.assign(app, {
    view: null, line: new ThinnedRecord(), marks: new RunMarks(), events: new EventsText(), names: new LastNames(),
    text: text_room.subarray(0, 0), faults: [], kills: [], chosen: 0,
  });
  tell("booted");
  look();
}

function heard({ data }) {
  if (data.view) take_view(data.view);
  else if (data.stretches) { app.line.take(data.stretches); app.marks.take(data.stretches); }
  else if (data.part) { if (missing_stretches.take(data.part)) redraw(); }
  else if (data.booted) take_boot(data.booted);
  else if (data.refused) programs.refused(data.refused);
  else if (data.replayed) tell("replayed", data.replayed);
  else if (data.assembled) tell("assembled", data.assembled);
  else if (data.summed) tell("summed", data.summed);
  else if (data.events_told) tell("events told", data.events_told);
  else if (data.round) tell("round told", data.round);
  else if (data.last_told) tell("last told", data.last_told);
  else if (data.explained) tell("explained", data.explained);
  else if (data.calls_told) tell("calls told", data.calls_told);
  else if (data.variables_told) tell("variables told", data.variables_told);
  else if (data.sought) tell("sought", data.sought);
  else if (data.reached) tell("reached", data.reached);
  else if (data.record) app.on_record?.(data.record);
  else if (data.finished) requestAnimationFrame(() => requestAnimationFrame(() => tell("finished")));
  else if (data.bench) tell("bench", data.bench);
  else if (data.back_bench) tell("back_bench", data.back_bench);
  else if (data.error) worker_failed(data);
  else if (data.ready) { learn_calls(data.ready); tell("ready"); }
}

/** The worker has failed at something: whoever waits for a machine hears of it too. */
function worker_failed({ message, error }) {
  programs.fail(message);
  problem(`The machine's worker has failed: ${message}`);
  console.error(error);
  tell("refused", message);
}

/** Shows a tab, and says to the worker which panels want to be told. */
export function show_tab(tab) {
  const list = tab.closest("[role=tablist]");
  for (const it of list.querySelectorAll("[role=tab]")) {
    const chosen = it === tab;
    it.setAttribute("aria-selected", chosen);
    it.tabIndex = chosen ? 0 : -1;
    $(it.getAttribute("aria-controls")).hidden = !chosen;
  }
  // On a narrow screen the row of tabs is scrolled, so that the chosen one is seen.
  const row = list.getBoundingClientRect(), own = tab.getBoundingClientRect();
  list.scrollLeft += Math.min(0, own.left - row.left) + Math.max(0, own.right - row.right);
  look();
  tell("tab");
}
globalThis.show_tab = (name) => show_tab($("tab-" + name));

function look() {
  ask("look", {
    pid: app.chosen || (app.view ? app.view.pid : 1), follow: $("follow").checked,
    panels: {
      instruction: !$("instruction").hidden, pages: !$("pages").hidden, translate: !$("translate").hidden, files: true,
    },
  });
}

function tabs() {
  for (const list of document.querySelectorAll("[role=tablist]")) {
    const all = [...list.querySelectorAll("[role=tab]")];
    for (const tab of all) tab.addEventListener("click", () => show_tab(tab));
    list.addEventListener("keydown", (event) => {
      const by = { ArrowRight: 1, ArrowLeft: -1 }[event.key];
      if (!by) return;
      const next = all[(all.indexOf(document.activeElement) + by + all.length) % all.length];
      next.focus();
      show_tab(next);
    });
  }
}

function theme() {
  const root = document.documentElement;
  let kept = null;
  try { kept = localStorage.getItem("theme"); } catch { /* a file's page may have no storage */ }
  const set = (name) => { set_theme(name); redraw(); };
  set(kept || (matchMedia("(prefers-color-scheme: dark)").matches ? "dark" : "light"));
  $("theme").addEventListener("click", () => {
    const name = root.dataset.theme === "dark" ? "light" : "dark";
    set(name);
    try { localStorage.setItem("theme", name); } catch { /* it is forgotten with the page */ }
  });
}

/** What is scrolled to doesn't stand below the bar that stays at the top. */
function keep_clear() {
  const bar = $("time"), root = document.documentElement;
  new ResizeObserver(
    () => {
      root.style.scrollPaddingTop = getComputedStyle(bar).position === "sticky" ? `${bar.offsetHeight + 6}px` : "6px";
    }
  ).observe(bar);
}

const EDGE = 8; // pixels that a list which is open keeps from the window's edge

/** A list that opens below its name stands within the window, wherever the name stands. */
function keep_within() {
  for (const menu of document.querySelectorAll(".menu:not(.wide)")) {
    const list = menu.querySelector(":scope > div");
    const place = () => {
      list.style.translate = "";
      if (!menu.open) return;
      const { left, right } = list.getBoundingClientRect(), most = document.documentElement.clientWidth - EDGE;
      list.style.translate = `${left < EDGE ? EDGE - left : Math.min(0, most - right)}px`;
    };
    menu.addEventListener("toggle", place);
    addEventListener("resize", place);
    new ResizeObserver(place).observe(menu.parentElement);
  }
}

/** The ways to the first machine, in their order: where the address leads, what was here last time, the shell. */
const WAYS = [
  () => sharing.follow(location.hash, "Here is what you had, or the shell, in its place."),
  () => !is_embedded() && session.restore(),
  () => { programs.choose("shell"); return is_booted(() => programs.boot()); },
  () => { programs.set_files(works.shipped_files("shell"), {}, "shell, as it was shipped"); return programs.boot(); },
];

let kept_is_read = null; // what the browser has kept is read while the worker begins

/** Boots the first machine, by the first way that leads to one. */
async function first_machine() {
  look();
  await kept_is_read;
  for (const way of WAYS) {
    try { if (await way()) break; } catch (error) { problem(`Something has gone wrong: ${error.message}`); }
  }
  await sharing.first_is_there();
  const is_narrow = matchMedia("(max-width: 820px)").matches;
  if (!is_narrow && !is_embedded() && document.activeElement === document.body) {
    $("screen").focus({ preventScroll: true });
  }
}

const PARTS = {
  messages, terminal, editor, source_search, works, time, breaks, processes, instruction, c_source, c_variables,
  c_programs, pages, descriptors, why, programs, sharing, lessons, session, happened, missing_stretches, translate,
  manual, slides, first_minute, your_runs, frame, pictures, beside, sums, go_to,
};

function begin() {
  const began = performance.now();
  theme();
  if (is_embedded()) document.documentElement.dataset.embed = "yes";
  app.worker = new Worker(URL.createObjectURL(new Blob([DATA.worker], { type: "text/javascript" })));
  app.worker.onmessage = heard;
  app.worker.onerror = (event) => { programs.fail(event.message); console.error(event.message); };
  for (const [name, part] of Object.entries(PARTS)) start_part(name, part.start);
  kept_is_read = session.begin();
  tabs();
  keep_clear();
  keep_within();
  on("ready", first_machine);
  addEventListener("hashchange", () => {
    for (const it of ["dialog", "manual"]) if ($(it).open && location.hash) $(it).close();
    sharing.follow(location.hash, "The programs stay as they are.");
  });
  for (const action of ["keydown", "pointerdown"]) addEventListener(action, hush, true);
  on("taken", () => show_tab($("tab-programs")));
  on("resized", redraw);
  ask("module", { bytes: base64.of(DATA.wasm) });
  on("view", () => {
    if (!globalThis.ready) {
      globalThis.ready = true;
      globalThis.took = { page: began, boot: app.booted?.took, shown: performance.now() };
    }
  });
  globalThis.page = {
    app, ask, problems: messages.problems, on, time, programs, sharing, works, drawn: () => drawn, short_place,
    calls_in_words, manual: manual.pages, pictures, session,
  };
}
begin();
