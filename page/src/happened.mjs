// What happened: the events of the run, round the place, with what was asked and answered, who slept and who woke. The
// worker finds them in its record, with their kinds, processes and answers; the rest is asked of it for the events that
// are shown, once the machine stands.
import { $, app, ask, color_of, element, in_time, on, once, program_name, say, write } from "./app.mjs";
import { grouped } from "../../anywhere/machine/number_words.mjs";
import { KIND } from "../../anywhere/machine/machine.mjs";
import { all_calls, call_name } from "../../anywhere/machine/calls.mjs";
import { address_meant } from "./instruction.mjs";
import { CALL, WHAT } from "../../anywhere/machine/event_search.mjs";
import { words_of_event } from "./time.mjs";

const MOST_ASKED = 48; // events of one question to the worker

const known = new Map(); // what was told of events, by their places
let known_of = "", asked = 0, anchor = null, seeks = 0;

// ---- which events

let found = { key: "", before: [], behind: [], is_cut: false }; // what the worker has told last
let asked_for = "";

/** What is wanted, as the worker is asked. */
const wanted = () => ({
  pid: Number($("event-pid").value), what: $("event-what").value,
  answer: $("event-answer").value.trim().replace(/[−–]/g, "-"),
});

/** Asks the worker for the events round a place, unless that is what it was asked last. */
function ask_round(place) {
  const { view } = app, wants = wanted(), key = JSON.stringify([known_of, place, view.playing, view.end, wants]);
  if (key === asked_for) return;
  asked_for = key;
  ask("round", { key, place, wants });
}

let lasts = 0;
/** The last event before a place that is wanted: {at, kind, pid, number, value}; null if there is none. */
export function last_event(before, wants) {
  const id = ++lasts;
  ask("last_of", { id, before, wants });
  return new Promise((done) => on_last.set(id, done));
}
const on_last = new Map(); // who waits for the answers, by their numbers

// ---- the list

function row(it) {
  const { at } = it, pid = it.kind <= KIND.TURN ? it.pid : 0, told = known.get(at) ?? null;
  const words = told ? told.words
    : words_of_event(it).replace(/^process \d+:? ?/, "").replace(/^turn of process \d+/, "has a turn");
  const woke = told?.woke.length
    ? ` · woke ${told.woke.map((it) => `${it} (${program_name(app.names.get(it))})`).join(", ")}` : "";
  const kind = it.kind === KIND.FAULT ? "bad" : it.kind === KIND.WAIT ? "waits"
    : it.value === -1 && it.kind === KIND.CALL ? "bad" : "";
  const answer = told?.answer ? element("b", {}, ` = ${told.answer}`.replace(/ = (sleeps|ends)/, " $1")) : "";
  const swatch = pid ? { class: "swatch", style: `background:${color_of(pid)}` } : {};
  return element("button", {
    class: `event ${kind}`, "data-at": at, title: "Go there: before this event",
    onclick: () => { anchor = null; ask("go", { place: at }); },
  },
    element("span", { class: "number dim" }, grouped(at)), element("span", swatch), element(
      "span", { class: "dim" }, pid ? String(pid) : ""
    ), element("span", {}, words, answer, woke));
}

let drawn = "";
function draw() {
  const { view } = app;
  if (!view || $("happened").hidden) return;
  const key = `${app.booted.id} ${view.edits}`;
  if (known_of !== key) { known.clear(); known_of = key; anchor = null; }
  fill_filters();
  ask_round(Math.min(anchor ?? view.at, view.end));
  // The answer brings it here again.
  if (found.key !== asked_for && !(view.playing && found.of === key)) return;
  const { before, behind, is_cut } = found, all = [...before, ...behind];
  const told = JSON.stringify([found.key, view.at, all.map(({ at }) => [at, known.has(at)]), app.names.most]);
  if (told === drawn) return;
  drawn = told;
  const here = element("p", { class: "here", role: "separator" }, `event ${grouped(view.at)}: here`);
  const box = $("event-list"), rows = [];
  for (const it of all) {
    if (!here.placed && it.at >= view.at) { rows.push(here); here.placed = true; }
    rows.push(row(it));
  }
  if (!here.placed) rows.push(here);
  const focused = document.activeElement?.dataset?.at;
  const none = (words) => element("p", { class: "dim" }, words);
  if (!before.length) rows.unshift(none(is_cut ? "none among those before that were looked at" : "none before"));
  if (!behind.length) rows.push(none("none after it, as far as the run goes"));
  box.replaceChildren(...rows);
  box.scrollTop = here.offsetTop - 0.6 * box.clientHeight;
  if (focused) box.querySelector(`[data-at="${focused}"]`)?.focus({ preventScroll: true });
  if (!view.playing) ask_for(all);
}

/** Asks the worker for what isn't known of these events, those near the place first. */
function ask_for(all) {
  const { view } = app, places = all.map(({ at }) => at).filter((at) => !known.has(at));
  if (!places.length) return;
  places.sort((a, b) => Math.abs(a - view.at) - Math.abs(b - view.at));
  ask("tell_events", { id: ++asked, key: known_of, places: places.slice(0, MOST_ASKED) });
}

/** Moves the part that is shown, by so many events that are wanted. */
function further(by) {
  const list = by < 0 ? found.before : found.behind;
  if (!list.length || found.key !== asked_for) return;
  anchor = by < 0 ? list[0].at : list.at(-1).at + 1;
  draw();
}

let filled = "";
/** The processes and calls that one may choose from. */
function fill_filters() {
  const pids = app.names.pids(200), told = JSON.stringify([pids, pids.map((pid) => app.names.get(pid)), app.booted.id]);
  if (told === filled) return;
  filled = told;
  const chosen = $("event-pid").value;
  $("event-pid").replaceChildren(
    element("option", { value: "0" }, "all"),
    ...pids.map((pid) => element("option", { value: pid }, `${pid} ${program_name(app.names.get(pid))}`))
  );
  $("event-pid").value = pids.includes(Number(chosen)) ? chosen : "0";
}

// ---- who stored here, who opened this, and back to a break, a store or a fault

/** Tells what a search has found, and goes there. */
function arrive({ place, words }) {
  $("seek-stop").hidden = true;
  if (place < 0) { say(words); return; }
  say(`${words[0].toUpperCase()}${words.slice(1)}: event ${grouped(place)}`);
}

/** Goes back to what is looked for before this place; the worker looks, part by part. */
function look_back(wants) {
  $("seek-stop").hidden = false;
  write($("seek-told"), "looking back ..");
  ask("seek", { id: ++seeks, ...wants });
}

/** Goes back to the last store to an address of the process that is looked at. */
export function last_store(address, pid = app.view?.pid) {
  if (!pid) { say("No process is looked at"); return; }
  app.chosen = pid;
  look_back({ what: "store", pid, address });
}

/** Goes back to the last fault before this place. */
function last_fault() {
  const last = app.faults.findLast((it) => it.at < app.view.at);
  if (last) {
    ask("go", { place: last.at });
    say(`Process ${last.pid} is about to fault: event ${grouped(last.at)}`);
    return;
  }
  say("No process has faulted before this place.");
}

/** What the worker tells of an event: asked for, if it isn't known. */
async function told_at(at) {
  if (!known.has(at)) {
    const id = ++asked;
    ask("tell_events", { id, key: known_of, places: [at] });
    while ((await once("events told")).it.id !== id) { /* that was the answer to another question */ }
  }
  return known.get(at);
}

/** The last of some events before a place. */
const latest = (all) => all.reduce((last, it) => (it && (!last || it.at > last.at) ? it : last), null);

/** The call by which a process got a descriptor, before a place; null if it had it from its birth. */
async function call_that_opened(pid, fd, before) {
  const calls = (name, answer) => last_event(before, { what: CALL + name, pid, answer: String(answer) });
  const own = latest(await Promise.all(["open", "dup"].map((name) => calls(name, fd))));
  for (let place = before; ; ) {
    const pipe = await last_event(place, { what: `${CALL}pipe`, pid, answer: "0" });
    if (!pipe || (own && own.at > pipe.at)) return own;
    if ((await told_at(pipe.at))?.ends.includes(fd)) return pipe;
    place = pipe.at;
  }
}

/** Goes to the call by which a descriptor was opened: by the process, or by one from which it was forked. */
export async function opened_by(pid, fd) {
  const { view } = app, words = [];
  if (view.playing) ask("pause");
  known_of = `${app.booted.id} ${view.edits}`;
  let before = view.at, who = pid;
  for (;;) {
    const call = await call_that_opened(who, fd, before);
    if (call) {
      const told = await told_at(call.at);
      ask("go", { place: call.at });
      say(
        `${[...words, `process ${who} opened descriptor ${fd} by ${told?.words ?? call_name(call.number)}`].join("; ")}: event ${grouped(call.at)}`
      );
      return;
    }
    const { parent, from } = app.line.lives.of(who);
    if (!parent) {
      say([...words, `process ${who} had descriptor ${fd} when the machine was booted`].join("; "));
      return;
    }
    before = from;
    words.push(`process ${who} had it from its parent ${parent}, by the fork at event ${grouped(before)}`);
    who = parent;
  }
}

/** The kind of events that is shown, if it isn't the first one. */
export const events_shown = () => ($("event-what").selectedIndex > 0 ? $("event-what").value : "");

/** Shows the events of a kind: turns, faults, or a call's name as `call read`. */
export function show_events(kind) {
  if ([...$("event-what").options].some((it) => it.value === kind)) $("event-what").value = kind;
  drawn = "";
}

export function start() {
  $("event-what").replaceChildren(
    ...Object.entries(WHAT).map(([value, [words]]) => element("option", { value }, words))
  );
  on(
    "ready", () => $("event-what").append(...all_calls().map((name) => element("option", { value: CALL + name }, name)))
  );
  const show = in_time(draw);
  on("panels", show);
  on("tab", () => { drawn = ""; if (app.view) show(); });
  for (const it of ["event-pid", "event-what", "event-answer"]) {
    $(it).addEventListener("input", () => { anchor = null; if (app.view) draw(); });
  }
  $("earlier").addEventListener("click", () => further(-1));
  $("later").addEventListener("click", () => further(1));
  let at = -1;
  on("view", () => { if (app.view.at !== at) { at = app.view.at; anchor = null; } });
  on("round told", ({ key, ...it }) => {
    if (key !== asked_for) return;
    found = { key, of: known_of, ...it };
    if (app.view) draw();
  });
  on("last told", ({ id, found: it }) => { on_last.get(id)?.(it); on_last.delete(id); });
  on("events told", ({ key, list }) => {
    if (key !== known_of) return;
    for (const it of list) known.set(it.at, it);
    if (app.view && !$("happened").hidden) draw();
  });
  on("sought", (it) => {
    if (it.id === seeks) {
      if (it.left !== undefined) {
        write($("seek-told"), `looking back .. ${grouped(it.left)} events are left`);
      } else {
        arrive(it);
      }
    }
  });
  on("stored here", (address) => last_store(address));
  $("back-break").addEventListener("click", () => look_back({ what: "stop" }));
  $("back-fault").addEventListener("click", last_fault);
  $("back-store").addEventListener("click", () => {
    const address = address_meant($("store-address").value);
    if (address === undefined) {
      say(
        "Write an address, as 0x2fe0, a register or a label: the last store to it, by the process that is looked at, is looked for"
      );
    } else last_store(address);
  });
  $("store-address").addEventListener("keydown", (event) => { if (event.key === "Enter") $("back-store").click(); });
  $("seek-stop").addEventListener("click", () => ask("seek_no_more"));
  on("booted", () => {
    drawn = filled = asked_for = "";
    anchor = null;
    known.clear();
    seeks++;
    $("seek-stop").hidden = true;
    $("event-list").replaceChildren();
  });
}
