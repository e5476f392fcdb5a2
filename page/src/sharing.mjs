// Sharing: a run as a link, as a file that the page opens, and as a record that the terminal plays too.
import { $, app, ask, base64, element, once, say, tell } from "./app.mjs";
import { grouped } from "../../anywhere/machine/number_words.mjs";
import { ENDING_WORDS, RECORD_BEGINNING, record_in, record_text } from "../../anywhere/machine/record_text.mjs";
import { beginning_of, spans_of } from "../../anywhere/machine/events.mjs";
import { bytes_of_file, packed_file, shipped_files, touch, unpacked_file } from "./works.mjs";
import { problem } from "./messages.mjs";
import { sha256 } from "./sums.mjs";
import { copied_words, copy_field } from "./clipboard.mjs";
import { MOST_EVENTS, Refusal, SLIDES_BEGINNING, keys_of, shared_of, unpacked_value } from "./outside.mjs";
import { arrive, follow_place, is_booted, is_slide, read_link, seen_now, short_place } from "./place_links.mjs";
import { event_words } from "./time.mjs";
import { open_manual } from "./manual.mjs";
import { first_slide, listed_slides, note_slide, own_slides, take_slides, words_of_slides } from "./slides.mjs";
import * as programs from "./programs.mjs";
import { sum_for, sum_of_machine } from "./c_programs.mjs";

const DATA = globalThis.PAGE_DATA;
const BEGINNING = "nektavoly 1\n"; // of a file that has what a link has
const MOST_LETTERS = 100000; // of a link that most programs still hand on
const MOST_STRETCHES = 1000000;
const MOST_MARKS = 200000, MARKS_OF_LINK = 64; // of a run, by which another release tells whether it differs

// ---- the run that the page has, as a value that can be kept

/**
 * The run of the machine, up to where its record goes: its files, settings and events, and the place; null if there is
 * none, or it is too long for a link. `is_whole`: with all its files, also those of the list; of a run that is too long
 * to be played again its beginning.
 */
export function run_now(is_whole = false) {
  const { booted, view, events } = app, is_long = view?.end > MOST_EVENTS;
  if (!booted || !view || (!is_whole && (is_long || view.stretches > MOST_STRETCHES))) return null;
  const end = Math.min(view.end, MOST_EVENTS), text = events.all();
  // A file that was edited since is not what the machine has.
  const files = booted.files.map(({ name, from, text }) => {
    const place = app.files.indexOf(from);
    return place >= 0 && from.text === text && !is_whole ? { name, place }
      : { name, file: packed_file(text !== undefined ? { name: from.name, text } : from) };
  });
  return {
    built: DATA.built + sum_of_machine(booted.files), beside: booted.files.beside, files, frames: booted.config.frames,
    how: booted.how, events: is_long ? beginning_of(text, end) : text, end,
    stretches: view.stretches, at: Math.min(view.at, end), keys: is_long ? [] : programs.keys_that_wait(),
    futures: app.cut_off.filter((it) => it.end <= MOST_EVENTS), plays: view.playing && !is_long,
    marks: app.marks.text(is_whole ? MOST_MARKS : MARKS_OF_LINK, end),
  };
}

/** The file of the list that is the same as one that was kept; or else that one. */
function same_file(kept) {
  const is_same = (it) => (kept.text === undefined ? it.built_in && kept.built_in : it.text === kept.text);
  return app.files.find((it) => it.name === kept.name && is_same(it)) ?? unpacked_file(kept);
}

/** The files of the list that a kept run names: {name, from} of each. */
const files_of_run = (run) => run.files.map(({ name, place, file }) => (
  { name, from: file === undefined ? app.files[place] : same_file(file) }
));

/** The sum of the compiler by which a run's sources in C were made; nothing if it has none. */
const compiler_of = ({ built }) => built.slice(built.indexOf("+") >>> 0);

/** Says that a run differs from what came of it in the page that made it; false if it doesn't. */
function tells_difference({ built, marks }) {
  const is_other = !built.startsWith(DATA.built), found = marks ? app.marks.difference(marks) : null;
  const of_other = "This run was made by another release of the page";
  if (found) {
    const { from, to } = found, here = event_words(from);
    const where = from === to ? `at event ${grouped(from)}` : `between event ${grouped(from)} and event ${grouped(to)}`;
    const who = is_other ? of_other : "This run is played again";
    problem(`${who}, and here it differs first ${where}${here && `: ${here}`}.`);
  } else if (is_other && !marks) {
    problem(`${of_other}, and what came of it wasn't kept: whether it differs here can't be told.`);
  }
  return found !== null;
}

/**
 * Plays a kept run again, on the files of the work that is open; null if it can't be played. Else tells whether it
 * differs from what came of it before, which is said, and whether another machine was booted meanwhile.
 */
export async function play_again(run) {
  const named = files_of_run(run);
  if (named.some((it) => !it.from)) return null;
  // By another compiler the run begins anew.
  const compiler = await sum_for(named.map((it) => it.from));
  if (compiler_of(run) !== compiler) return null;
  const files = await programs.made_of_all(named.map((it) => it.from), run.beside);
  if (!files) return null;
  named.forEach((it, k) => { files[k].name = it.name; });
  const spans = spans_of(run.events), config = { frames: run.frames, trace: 0 };
  const { how, at, keys, futures, plays: play } = run;
  const id = await programs.replay({ files, config, how, spans, at, keys, futures, play });
  if (id === null) return null;
  if (!app.view) await once("view");
  return app.booted.id === id ? { differs: tells_difference(run) } : { differs: false, is_left: true };
}

// ---- a link

async function pressed(bytes, stream) {
  return new Uint8Array(await new Response(new Blob([bytes]).stream().pipeThrough(stream)).arrayBuffer());
}

async function packed(value) {
  const bytes = await pressed(new TextEncoder().encode(JSON.stringify(value)), new CompressionStream("deflate-raw"));
  return base64.to(bytes).replace(/\+/g, "-").replace(/\//g, "_").replace(/=+$/, "");
}

/**
 * What a link has: the sources, the names of the built-in programs, the machine, break points, and the run with its
 * keys and its place.
 */
function shared() {
  const { work } = app, { frames, order, quantum, keys } = work.machine;
  const files = work.files.map((file) => (
    file.text !== undefined ? [file.name, file.text] : file.built_in ? [file.name]
      : [file.name, null, base64.to(bytes_of_file(file))]
  ));
  return {
    files, frames: Number(frames), rounds: order === "rounds", quantum: Number(quantum),
    keys: new TextDecoder().decode(keys_of(keys)), stops: work.files.map((it) => it.stops ?? []),
    breaks: work.breaks, run: run_now(),
  };
}

const page_address = () => location.href.split("#")[0].split("?")[0];
const of_packed = (text) => `${page_address()}#run=${text}`;
/** A link that has all that is shared. */
export const link = async () => of_packed(await packed(shared()));

/** A name for the work of what is shared: the same for the same. */
const name_of = async (text) => `link ${(await sha256(new TextEncoder().encode(text.trim()))).slice(0, 6)}`;

/**
 * The files of a work that are those of what was shared; it throws if the page hasn't a program of its own that is
 * named.
 */
function files_of_shared({ files }) {
  const missing = files.find((it) => it.built_in && !unpacked_file(it));
  if (missing) throw new Error(`it wants the program ${missing.name}, which this page hasn't`);
  return files.map((it) => (it.built_in ? unpacked_file(it) : it));
}

/** Opens what a link or a file has, as a work of its own; false if no machine is booted of it. */
async function open(packed_text) {
  const it = shared_of(await unpacked_value(packed_text)), files = files_of_shared(it);
  programs.set_files(files, it, await name_of(packed_text), it.breaks);
  touch();
  if (it.run && (await play_again({ ...it.run, plays: false }))) {
    say(`Here is the run that was shared, at event ${grouped(it.run.at)} of ${grouped(it.run.end)}.`);
    return true;
  }
  const is_there = await is_booted(() => programs.boot());
  if (it.run) {
    problem("The programs are there, and the run begins anew: it can't be played again here.");
  }
  return is_there;
}

/**
 * Does what a link or a file leads to. If it leads nowhere, what was open before is open again, and that is said:
 * false.
 */
async function attempt(what, action, in_its_place) {
  const before = app.work;
  let why = "no machine is booted of it";
  try {
    if (await action()) return true;
    if ($("mistake").className === "bad") why = $("mistake").textContent;
  } catch (error) {
    why = error instanceof Refusal || /^it /.test(error.message) ? error.message : "it isn't whole";
  }
  document.documentElement.dataset.place = "there";
  if (app.work !== before && before.files.length) programs.open_again(before);
  problem(`${what} leads nowhere: ${why}. ${in_its_place}`);
  return false;
}

let for_first = null; // what a link says of a run that it doesn't name: of the first one, once it is there

/** Shows what a link says of the run that is here. */
async function show_here(words) {
  forget_address();
  if (app.booted) await arrive(words); else for_first = words;
}

/** The first machine is there: shows what the link says of it. */
export async function first_is_there() {
  if (for_first) await arrive(for_first);
  for_first = null;
}

/** Takes the slides that a link has, and follows the first of them. */
async function follow_slides(packed_text, in_its_place) {
  let text = null;
  try { text = await unpacked_value(packed_text); } catch { /* it is told below */ }
  const is_whole = typeof text === "string" && text.startsWith(SLIDES_BEGINNING);
  if (!is_whole) problem("The slides of the link aren't shown: it isn't whole.");
  if (!is_whole || !take_slides(text, "The slides of the link")) return false;
  return follow(first_slide(), in_its_place);
}

/** Follows a link: whether it has led to a machine. What is wrong with it is said, and what comes in its place. */
export async function follow(hash, in_its_place) {
  const words = read_link(hash), { run, manual, to, example, lesson, slides } = words;
  if (manual !== undefined) {
    forget_address();
    open_manual(manual, to);
    return false;
  }
  if (slides !== undefined) return follow_slides(slides, in_its_place);
  if (run === undefined && example === undefined && lesson === undefined) {
    if (Object.keys(words).length) await show_here(words);
    return false;
  }
  const action = async () => {
    if (run === undefined) return follow_place(words);
    if (!(await open(run))) return false;
    await arrive(words);
    return true;
  };
  document.documentElement.dataset.place = "coming";
  const is_there = await attempt("The link", action, in_its_place);
  if (is_there) {
    note_slide(hash);
    tell("lecture");
  }
  // (A slide's address stays: a reload shows it again.)
  if (!is_there || !is_slide()) forget_address();
  return is_there;
}

/** The page keeps what a link led to, with what is changed of it: a reload is not to begin anew. */
function forget_address() {
  try { history.replaceState(null, "", location.href.split("#")[0]); } catch { /* the address stays as it is */ }
}

async function take_shared(text, name) {
  await attempt(`The file ${name}`, () => open(text.slice(BEGINNING.length)), "Have it saved once more.");
}

// ---- the dialog

function share_words(length, run) {
  const is_local = location.protocol === "file:";
  const place = run ? `all keys that were typed, and the place: event ${grouped(run.at)} of ${grouped(run.end)}`
    : "the keys that are typed at the start";
  return [`This link has the programs, the machine, its break points, ${place} (${grouped(length)} characters). ${run ? "Who opens it has the same run, and stands at the same place." : "The run is too long to be handed on: who opens it has it from its beginning."}`,
    is_local
      ? "This page was opened from a file of your host: so the link works here alone, and elsewhere only where the page is served or lies at the same path. Hand on the file in its place: it has the same, and is opened by Open file.., or dropped on the page."
      : "",
    length > MOST_LETTERS ? "So long a link is cut off by some programs: hand on the file in its place."
      : ""].filter((it) => it);
}

/** The links that the dialog offers: what each is for, and the link. */
function links_of(packed_run) {
  const seen = seen_now(), short = short_place(), run = short ?? `run=${packed_run}&${seen}`;
  return [["all of it", of_packed(packed_run)], ["this place, with its panel", `${page_address()}#${run}`], [
    "a slide, with large letters", `${page_address()}#${run}&view=lecture`,
  ],
    [
      "an iframe in a page of yours",
      `<iframe src="${page_address()}?embed#${run}" width="1000" height="560"></iframe>`,
    ]];
}

/** The link to all slides of a teacher's own; nothing if they are those of the course. */
async function link_of_slides() {
  const words = own_slides();
  if (!words) return "";
  const value = `${page_address()}#slides=${await packed(words)}`;
  const field = element("input", { id: "slides-link", readonly: true, value });
  return element("p", {}, element("label", {}, "Link to all of these slides ", field));
}

async function share() {
  const dialog = $("dialog"), body = dialog.querySelector("div");
  const text = element("textarea", { readonly: true, "aria-label": "Link" }), it = shared(), of_it = await packed(it);
  const links = links_of(of_it);
  const choice = element(
    "select", { id: "share-what", onchange: () => { text.value = links[choice.value][1]; text.select(); told.textContent = ""; } },
    ...links.map(([words], k) => element("option", { value: k }, words))
  );
  text.value = links[0][1];
  const told = element("span", { id: "share-told", role: "status" });
  const copy = element("button", {
    class: "main", onclick: async () => { told.textContent = ` ${copied_words(await copy_field(text))}`; },
  }, "Copy");
  const file = element(
    "button", { id: "save-shared", onclick: () => programs.save("nektavoly-run.txt", BEGINNING + of_it + "\n") },
    "Save the same as a file"
  );
  const record = element(
    "button", { onclick: async () => programs.save("run.txt", await run_as_record()) }, "Save the run as a record"
  );
  body.replaceChildren(element("h2", {}, "Share"), ...share_words(text.value.length, it.run).map(
    (words) => element("p", {}, words)
  ), element("p", {}, element("label", {}, "a link to ", choice)), text, element("p", {}, copy, " ", file, " ", record, told),
    element(
      "p", {},
      "The record has each event of the run, and the sums of its programs, and no program: the terminal plays it too. Drop it on the page, or choose it by Open file.., to have the run again."
    ),
    element("details", {}, element("summary", {}, words_of_slides()), listed_slides(), await link_of_slides()));
  if (!dialog.open) dialog.showModal();
  text.select();
}

// ---- records: the text of a run that the terminal plays too

/** The text of a record of what the worker has told. */
async function recorded({ config, files, spans }) {
  const told = async ({ name, bytes }) => ({ name, size: bytes.length, sum: await sha256(bytes) });
  return record_text({ frames: config.frames, programs: await Promise.all(files.map(told)), spans });
}

/** The run as a record's text. */
export const run_as_record = () => new Promise((done) => {
  app.on_record = async (record) => done(await recorded(record));
  ask("record");
});

/** A run that was kept with all its files, as a record's text; it throws if a file of it is gone, or is refused. */
export async function kept_as_record({ files, frames, events }) {
  const made = await Promise.all(files.map(async ({ name, file }) => {
    const from = file && unpacked_file(file), it = from ? await programs.made_of(from) : { mistake: "it is gone" };
    if (it.mistake) throw new Error(`${name}: ${it.mistake}`);
    return { ...it, name };
  }));
  return recorded({ config: { frames }, files: made, spans: spans_of(events) });
}

/** Notes files by their sums, and answers whether all that are wanted are noted. */
async function note_by_sum(files, known, wanted) {
  for (const file of files) {
    const made = await programs.made_of(file);
    if (!made.mistake) known.set(await sha256(made.bytes), made);
  }
  return wanted.every(({ sum }) => known.has(sum));
}

/**
 * The files that a record may mean, by their sums: the programs of the page, those of the list, and if one is missing
 * those of the examples as they were shipped.
 */
async function files_by_sum(wanted) {
  const built_in = Object.entries(DATA.programs).map(([name, bytes]) => (
    { name, bytes: base64.of(bytes), built_in: true }
  ));
  const known = new Map(), all = [[...built_in, ...app.files], Object.keys(DATA.examples).flatMap(shipped_files)];
  for (const files of all) if (await note_by_sum(files, known, wanted)) break;
  return known;
}

/** Plays a record, of programs that are here. */
async function play_record(_, name, bytes) {
  try {
    const said = record_in(bytes), known = await files_by_sum(said.programs);
    const missing = said.programs.find(({ sum }) => !known.has(sum));
    const count = said.spans.reduce((sum, [, , many]) => sum + many, 0);
    if (count > MOST_EVENTS) {
      throw new Error(
        `it has ${grouped(count)} events, and the page plays ${grouped(MOST_EVENTS)} at most: the terminal plays it`
      );
    }
    if (missing) throw new Error(`the record wants another file ${missing.name}: add it first`);
    const files = said.programs.map((it) => ({ ...known.get(it.sum), name: it.name }));
    const config = { frames: said.frames, trace: 0 };
    const id = await programs.replay({ files, config, how: {}, spans: said.spans });
    if (id === null) throw new Error($("mistake").textContent);
    const told = ENDING_WORDS[said.ending];
    if (told) problem(`The record ${name}: ${told}.`);
    say(`Here is the record ${name}, after its ${grouped(count)} events. The field "go to" leads to each of them.`);
  } catch (error) {
    programs.refuse(error.message);
    problem(`The record ${name} isn't played: ${error.message}.`);
  }
}

export function start() {
  $("share").addEventListener("click", share);
  programs.take_texts(RECORD_BEGINNING, play_record);
  programs.take_texts(BEGINNING, take_shared);
}
