// A link to a place: what it names behind its #, the way there, and the link that leads to what is shown now. A place
// is an example, a lesson or a run, an event of it, a process and a panel; `?embed` and `view=lecture` say how it is
// shown.
import { $, app, ask, once } from "./app.mjs";
import { grouped } from "../../anywhere/machine/number_words.mjs";
import { CALL, WHAT } from "../../anywhere/machine/event_search.mjs";
import { problem } from "./messages.mjs";
import { pages } from "./manual.mjs";
import { PANELS, keys_of, link_of } from "./outside.mjs";
import { all_calls } from "../../anywhere/machine/calls.mjs";
import { way_of } from "../../anywhere/machine/named_place.mjs";
import { keys_in } from "../../anywhere/machine/events.mjs";
import { example_of, machine_of, shipped_files } from "./works.mjs";
import { events_shown, show_events } from "./happened.mjs";
import { beside_now, show_beside } from "./beside.mjs";
import { translate } from "./translate.mjs";
import * as programs from "./programs.mjs";
import * as lessons from "./lessons.mjs";

const DATA = globalThis.PAGE_DATA;
const TABS = [...PANELS, "programs", "lessons"];

export const is_embedded = () => new URLSearchParams(location.search).has("embed");
export const is_lecture = () => document.documentElement.dataset.view === "lecture";
/** Whether the page is one slide, and no place of work: then nothing of it is kept. */
export const is_slide = () => is_embedded() || is_lecture();

// ---- the way there

const is_shown = (kind) => Object.hasOwn(WHAT, kind) || all_calls().some((it) => kind === CALL + it);

/** What there is that a link may name. */
const known = () => ({
  examples: Object.keys(DATA.examples), questions: lessons.questions(), tabs: TABS, is_shown,
  is_place: (word) => way_of(word, all_calls()) !== null, pages: () => Object.keys(pages()),
});

/** What a link says, of which what is wrong is told: its words. */
export function read_link(hash) {
  const { words, wrong } = link_of(hash, known());
  for (const it of wrong) problem(it);
  return words;
}

/**
 * The machine's settings that a link names, over those of the example; a place is one in rounds, the same each time.
 */
function how_of(example, { frames, rounds, keys, at }) {
  const how = { ...example_of(example) };
  const typed = keys === undefined ? how.keys : new TextDecoder().decode(keys_of(keys));
  const given = { frames: Number(frames) || how.frames, quantum: Number(rounds) || how.quantum, keys: typed };
  return { ...how, ...given, rounds: how.rounds || rounds !== undefined || at !== undefined };
}

/** Boots the example that a link names: as it was left, if it is all that is named, else as it was shipped. */
function boot_example(words) {
  const { example, at } = words, is_plain = ["at", "frames", "rounds", "keys"].every((it) => words[it] === undefined);
  if (is_plain) programs.choose(example);
  else programs.set_files(shipped_files(example), how_of(example, words), `${example}, as a link has it`);
  return is_booted(() => programs.boot({ play: at === undefined }));
}

/** Does what boots a machine; false if it is refused. */
export async function is_booted(action) {
  const heard = once("booted", "refused");
  await action();
  return (await heard).name === "booted";
}

/** Goes to the event that is named, as a link does: whether there is one. Another boot ends it. */
export async function reach(at) {
  const reached = once("reached", "booted");
  ask("reach", { to: way_of(at, all_calls()) });
  const { name, it } = await reached;
  return name !== "reached" || it.is;
}

/** Goes to the event that a link names. */
async function go_to(at) {
  if (!(await reach(at))) problem(`The run has no such place as at=${at}: here it ends.`);
}

/** Shows the process and the panel that a link names. */
function show({ pid, tab, address, access, show: events, beside, memory }) {
  if (pid !== undefined) look_at(Number(pid));
  if (address !== undefined) translate(address, access ?? "load");
  if (beside !== undefined) look_at_two(beside.split(",").map(Number), memory);
  if (events !== undefined) show_events(events);
  if (tab !== undefined) globalThis.show_tab(tab);
}

/** Whether the run has a process of this number up to here; if not, that is said. */
function is_there(pid) {
  const { lives } = app.line, is = pid <= lives.most && lives.from[pid] <= app.view.at;
  if (!is) problem(`The run has no process ${pid} up to this place: event ${grouped(app.view.at)}.`);
  return is;
}

/** Looks at two processes side by side, if the run has both up to here. */
function look_at_two(pids, memory) {
  if (pids.every(is_there)) show_beside(pids, memory);
}

/** Looks at a process, if the run has one of this number up to here. */
function look_at(pid) {
  if (!is_there(pid)) return;
  app.chosen = pid;
  $("follow").checked = false;
  ask("look", { pid, follow: false });
}

/** How the page is shown: as it is, or as a slide with large letters. */
export function set_view(name) {
  const root = document.documentElement;
  if (name === "lecture") root.dataset.view = "lecture"; else delete root.dataset.view;
  $("lecture").hidden = name !== "lecture";
}

/** Follows a link to an example or a lesson; false if its machine is refused. */
export async function follow_place(words) {
  const { lesson, question } = words;
  document.documentElement.dataset.place = "coming";
  const open = () => lessons.open_lesson(Number(lesson), Number(question) || 0);
  const is_there = await (lesson === undefined ? boot_example(words) : is_booted(open));
  if (is_there) await arrive(words);
  return is_there;
}

/** Goes to the event, the process and the panel of a link whose run is there. */
export async function arrive(words) {
  set_view(words.view);
  if (words.at !== undefined) await go_to(words.at);
  if (!app.view) await once("view");
  show(words);
  document.documentElement.dataset.place = "there";
}

// ---- the link to what is shown now

/** The panel that is shown, as a link names it. */
const panel_now = () => PANELS.find((it) => !$(it).hidden);

/** What names the panel and the process that are shown, behind the words that name the run. */
export function seen_now() {
  const { chosen } = app, words = new URLSearchParams({ tab: panel_now(), ...beside_now() });
  if (chosen && !$("follow").checked) words.set("pid", chosen);
  if (words.get("tab") === "translate") {
    words.set("address", $("translated-address").value || "pc");
    words.set("access", $("translated-access").value);
  }
  if (words.get("tab") === "happened" && events_shown()) words.set("show", events_shown());
  return String(words);
}

/**
 * A short link to what is shown: if its run is one of an example as it was shipped, in rounds, whose keys were typed at
 * the start. Else null.
 */
export function short_place() {
  const { work, booted, view } = app, { example, machine } = work;
  const name = example ?? Object.keys(DATA.examples).find((it) => work.name.startsWith(`${it}, as a link has it`));
  if (!name || !booted?.how.rounds || booted.work !== work.name || !view) return null;
  const shipped = shipped_files(name);
  const is_same = (it, own) => it.name === own.name && (it.text === undefined ? own.built_in : it.text === own.text);
  const is_shipped = work.files.length === shipped.length && shipped.every((it, k) => is_same(it, work.files[k]))
    && booted.files.every((it) => it.text === undefined || it.text === it.from.text);
  const keys = keys_of(machine.keys), is_typed = keys_in(app.events.all()).some((it, k) => it !== keys[k]);
  if (
    !is_shipped || is_typed || booted.config.frames !== Number(machine.frames)
      || booted.how.quantum !== Number(machine.quantum)
  ) {
    return null;
  }
  const words = new URLSearchParams({ example: name }), usual = machine_of({ ...example_of(name), rounds: true });
  if (Number(machine.frames) !== Number(usual.frames)) words.set("frames", machine.frames);
  if (Number(machine.quantum) !== Number(usual.quantum)) words.set("rounds", machine.quantum);
  if (machine.keys !== usual.keys) words.set("keys", machine.keys);
  words.set("at", view.at);
  return `${words}&${seen_now()}`;
}
