// What comes from outside, of which nothing is known: links, works and runs that were kept, shared ones, base64. Each
// reader answers a value of its own making, of the types and sizes that are said here, with its own properties only;
// or it throws a Refusal, whose message says what is wrong.
import { MOST_FUTURES, spans_of } from "../../anywhere/machine/events.mjs";
import { condition_of } from "../../anywhere/machine/conditions.mjs";
import { MOST_BYTES, MOST_FRAMES } from "../../anywhere/machine/file_refusals.mjs";

export class Refusal extends Error {}

export const MOST_EVENTS = 500e6; // of a run that is played again: some seconds
const MOST_UNPACKED = 1 << 26; // letters of what a link or a file has
const MOST_FILES = 256, MOST_BREAKS = 1000, MOST_KEYS = 1 << 20, MOST_NAME = 255, MOST_TEXT = 1 << 22;
const MOST_QUANTUM = 1e9;
const KINDS_OF_BREAKS = ["address", "call", "store"];

// ---- the parts of a value

/** A property of its own, and none that all objects have; undefined if it has none. */
const own = (it, name) => (it !== null && typeof it === "object" && Object.hasOwn(it, name) ? it[name] : undefined);

/** The entry of this name in a table; null if it has none of its own. */
export const entry = (table, name) => (typeof name === "string" && Object.hasOwn(table, name) ? table[name] : null);

const refuse = (what, wanted) => { throw new Refusal(`${what} ${wanted}`); };

function text(it, what, most = MOST_TEXT) {
  if (typeof it !== "string") refuse(what, "is no text");
  return it.length <= most ? it : refuse(what, `has more than ${most} letters`);
}

function whole(it, what, least, most) {
  return Number.isInteger(it) && it >= least && it <= most ? it : refuse(what, `is no number from ${least} to ${most}`);
}

function list(it, what, most, each) {
  if (!Array.isArray(it)) refuse(what, "is no list");
  if (it.length > most) refuse(what, `has more than ${most} entries`);
  return Array.from(it, (one, k) => each(one, `${what}, entry ${k + 1},`));
}

/** The value that a reader makes of what is there, or another if nothing is. */
const if_there = (it, otherwise, read) => (it === undefined || it === null ? otherwise : read(it));

export function bytes_of_base64(it, what) {
  const letters = text(it, what, Math.ceil((MOST_BYTES * 4) / 3) + 4);
  try {
    return Uint8Array.from(atob(letters), (letter) => letter.charCodeAt(0));
  } catch {
    return refuse(what, "is no base64");
  }
}

// ---- files, break points, settings

/** What each break point may have: that it is switched off, and a condition. */
function switched(it, what) {
  const read = (words) => text(words, `${what} its condition`, MOST_NAME).trim();
  const condition = if_there(own(it, "condition"), "", read);
  try {
    condition_of(condition);
  } catch (error) {
    refuse(what, `has a condition that can't be read: ${error.message}`);
  }
  return { ...(own(it, "off") === true ? { off: true } : {}), ...(condition ? { condition } : {}) };
}

const stop = (it, what) => ({
  line: whole(own(it, "line"), `${what} its line`, 1, MOST_TEXT), text: text(own(it, "text"), `${what} its text`),
  ...switched(it, what),
});
const stops = (it, what) => if_there(it, [], (all) => list(all, `the break points of ${what}`, MOST_BREAKS, stop));

const break_point = (it, what) => ({
  kind: KINDS_OF_BREAKS.includes(own(it, "kind")) ? own(it, "kind") : refuse(what, "has no kind of a break point"),
  name: text(own(it, "name"), `${what} its name`, MOST_NAME),
  program: if_there(own(it, "program"), null, (name) => text(name, `${what} its program`, MOST_NAME)),
  ...if_there(own(it, "of"), {}, (name) => ({ of: text(name, `${what} its variable`, MOST_NAME) })),
  ...switched(it, what),
});
const breaks = (it) => if_there(it, [], (all) => list(all, "the list of break points", MOST_BREAKS, break_point));

/** A file as it is kept: {name, text | built_in | base64, changed, stops}. */
function packed_file(it, what) {
  const name = text(own(it, "name"), `${what} its name`, MOST_NAME), file = { name };
  if (own(it, "text") !== undefined) file.text = text(own(it, "text"), `the text of ${name}`);
  else if (own(it, "built_in") === true) file.built_in = true;
  else file.bytes = bytes_of_base64(own(it, "base64"), `the bytes of ${name}`);
  if (own(it, "changed") === true) file.changed = true;
  const marked = stops(own(it, "stops"), name);
  return marked.length ? { ...file, stops: marked } : file;
}
const files = (it, what) => list(it, what, MOST_FILES, packed_file);

/** A file as a link has it: [name] of the page's own, [name, text], or [name, null, base64]. */
function shared_file(it, what) {
  if (!Array.isArray(it)) refuse(what, "is no file");
  const name = text(it[0], `${what} its name`, MOST_NAME), [, words, packed] = it;
  if (words !== undefined && words !== null) return { name, text: text(words, `the text of ${name}`) };
  return packed ? { name, bytes: bytes_of_base64(packed, `the bytes of ${name}`) } : { name, built_in: true };
}

const quantum = (it) => if_there(it, 1000, (number) => whole(number, "the number of Runs of a round", 1, MOST_QUANTUM));
const frames = (it) => if_there(it, 4096, (number) => whole(number, "the number of frames", 0, MOST_FRAMES));
const order = (it) => ({ rounds: own(it, "rounds") === true, quantum: quantum(own(it, "quantum")) });

// ---- runs

/** The events of a text, and how many they are. */
function events(it, what) {
  const letters = text(it, what, 1 << 25), spans = spans_of(letters) ?? refuse(what, "is no text of events");
  const count = spans.reduce((sum, [, , many]) => sum + many, 0);
  return count <= MOST_EVENTS ? { text: letters, count } : refuse(what, `has more than ${MOST_EVENTS} events`);
}

/** A file of a run: one of the list, by its place, or one of its own. */
function file_of_run(it, what) {
  const name = text(own(it, "name"), `${what} its name`, MOST_NAME), place = own(it, "place");
  if (place !== undefined) return { name, place: whole(place, `${what} its place`, 0, MOST_FILES) };
  return { name, file: packed_file(own(it, "file"), what) };
}

function future(it, what) {
  const { text: letters, count } = events(own(it, "text"), `${what} its events`);
  const at = whole(own(it, "at"), `${what} its place`, 0, MOST_EVENTS);
  const from = if_there(own(it, "from"), at, (place) => whole(place, `${what} its beginning`, 0, at));
  return { at: Math.min(at, from + count), end: from + count, from, text: letters };
}

/** The marks of a run, by which it is told where it differs. */
function marks(it) {
  const letters = text(it, "the text of the run's marks");
  return /^[\w-]*$/.test(letters) ? letters : refuse("the text of the run's marks", "has other letters than marks have");
}

/** A run that was kept or shared: its files, settings, events, place, keys that wait, and futures that were cut off. */
export function run_of(it) {
  const played = events(own(it, "events"), "the run"), byte = (key, what) => whole(key, what, 0, 255);
  return {
    built: text(own(it, "built"), "the sum of the run's page", MOST_NAME),
    beside: if_there(own(it, "beside"), [], (all) => files(all, "the list of what sources in C include")),
    files: list(own(it, "files"), "the list of the run's files", MOST_FILES, file_of_run),
    frames: frames(own(it, "frames")),
    how: order(own(it, "how")),
    events: played.text,
    end: played.count,
    stretches: if_there(own(it, "stretches"), 0, (count) => whole(count, "the number of stretches", 0, MOST_EVENTS)),
    at: Math.min(whole(own(it, "at"), "the place in the run", 0, MOST_EVENTS), played.count),
    keys: if_there(own(it, "keys"), [], (keys) => list(keys, "the list of keys", MOST_KEYS, byte)),
    futures: if_there(own(it, "futures"), [], (all) => list(all, "the list of futures", MOST_FUTURES, future)),
    plays: own(it, "plays") === true,
    marks: if_there(own(it, "marks"), "", marks),
  };
}

/** What a link or a file shares: files, the machine, break points, and a run if there is one. */
export function shared_of(it) {
  const all = list(own(it, "files"), "the list of files", MOST_FILES, shared_file), marked = own(it, "stops");
  const marks_of = (k) => (Array.isArray(marked) ? stops(marked[k], all[k].name) : []);
  return {
    files: all.map((file, k) => ({ ...file, stops: marks_of(k) })),
    frames: frames(own(it, "frames")),
    ...order(it),
    keys: if_there(own(it, "keys"), "", (keys) => text(keys, "the text of keys", MOST_KEYS)),
    breaks: breaks(own(it, "breaks")),
    run: if_there(own(it, "run"), null, run_of),
  };
}

// ---- what the page around a frame asks for

/** A file of a message: {name, text} or {name, base64}. */
function file_of_message(it, what) {
  const name = text(own(it, "name"), `${what} its name`, MOST_NAME);
  if (own(it, "text") !== undefined) return { name, text: text(own(it, "text"), `the text of ${name}`) };
  return { name, bytes: bytes_of_base64(own(it, "base64"), `the bytes of ${name}`) };
}

const ASKED = {
  boot: (it) => ({
    files: list(own(it, "files"), "the list of files", MOST_FILES, file_of_message),
    frames: frames(own(it, "frames")),
    ...order(it),
    keys: if_there(own(it, "keys"), "", (keys) => text(keys, "the text of keys", MOST_KEYS)),
    play: own(it, "play") !== false,
  }),
  open: (it) => ({ link: text(own(it, "link"), "the link", MOST_TEXT) }),
  go: (it) => ({ at: whole(own(it, "at"), "the place", 0, MOST_EVENTS) }),
  play: () => ({}),
  pause: () => ({}),
};

/** What a message from the page around asks for: {kind, ...}. */
export function asked_by_frame(it) {
  const kind = own(it, "nektavoly"), reader = entry(ASKED, kind);
  if (!reader) refuse(`a message ${typeof kind === "string" ? kind.slice(0, 40) : ""}`, `is none of ${Object.keys(ASKED).join(", ")}`);
  return { kind, ...reader(it) };
}

// ---- what the browser has kept

const setting = (it, what) => text(String(it ?? ""), what, MOST_KEYS);

/** A work that was kept: its files, settings and break points. */
export function work_of_kept(it) {
  const machine = own(it, "machine"), how = own(it, "how");
  return {
    title: if_there(own(it, "title"), undefined, (title) => text(title, "the title", MOST_NAME)),
    example: if_there(own(it, "example"), null, (name) => text(name, "the example", MOST_NAME)),
    how: {
      frames: own(how, "frames"), rounds: own(how, "rounds"), quantum: own(how, "quantum"), keys: own(how, "keys"),
    },
    files: files(own(it, "files"), "the list of files"),
    gone: if_there(own(it, "gone"), [], (all) => files(all, "the list of files that were taken away")),
    machine: {
      frames: setting(own(machine, "frames") ?? 4096, "the number of frames"),
      order: own(machine, "order") === "rounds" ? "rounds" : "live",
      quantum: setting(own(machine, "quantum") ?? 1000, "the number of Runs"),
      keys: setting(own(machine, "keys"), "the keys"),
    },
    breaks: breaks(own(it, "breaks")),
  };
}

const TWO = /^[1-9]\d{0,8},[1-9]\d{0,8}$/; // the numbers of two processes
const name_or = (it) => (typeof it === "string" && it.length <= MOST_NAME ? it : undefined);

/** The two processes that were shown side by side, and the address of their memory; null if none were. */
function two_of(it) {
  const pids = own(it, "beside"), memory = own(it, "memory");
  if (typeof pids !== "string" || !TWO.test(pids)) return null;
  return { pids: pids.split(",").map(Number), memory: name_or(memory) };
}

const MOST_COLUMNS = 256; // of a small picture

/**
 * The small picture of a run that was kept: who ran in each part, and in which somebody faulted; null if it has none.
 */
export function picture_of_run(it) {
  const picture = own(it, "picture"), number = (one, what) => whole(one, what, 0, 4294967295);
  try {
    const [ran, faults] = ["ran", "faults"].map((name) => list(own(picture, name), name, MOST_COLUMNS, number));
    return { ran, faults };
  } catch {
    return null;
  }
}

/** What was shown last time: the work, the file, the tabs, the speed, the lesson with its answers, and the run. */
export function shown_of(it) {
  if (it === null || typeof it !== "object") throw new Refusal("it is no object");
  const lesson = own(it, "lesson"), answers = own(lesson, "answers"), tabs = own(it, "tabs");
  const given = answers !== null && typeof answers === "object" ? Object.entries(answers) : [];
  const told = own(it, "length");
  return {
    work: text(own(it, "work"), "the work's name", MOST_NAME),
    file: name_or(own(it, "file")),
    tabs: Array.isArray(tabs) ? tabs.filter((tab) => typeof tab === "string") : [],
    speed: name_or(own(it, "speed")),
    lesson: {
      number: Number.isInteger(own(lesson, "number")) ? own(lesson, "number") : -1,
      answers: given.filter(([, answer]) => typeof answer === "string" && answer.length <= MOST_NAME),
    },
    length: Number.isFinite(told) && told > 0 ? told : 0,
    beside: two_of(own(it, "beside")),
    run: if_there(own(it, "run"), null, run_of),
  };
}

// ---- keys

/** The keys that are written as text: \n, \t, \\ and \x04 stand for bytes. */
export function keys_of(text) {
  return new TextEncoder().encode(
    text.replace(/\\(x[0-9a-fA-F]{2}|.)/g, (_, it) => (
      it[0] === "x" && it.length === 3 ? String.fromCharCode(parseInt(it.slice(1), 16))
        : { n: "\n", t: "\t", r: "\r" }[it] || it
    ))
  );
}

// ---- links

/** The panels of a machine that a link may name. */
export const PANELS = ["instruction", "pages", "translate", "opened", "happened", "why"];

/** What an address has after its #, by names; nothing if it is a place within the page, as #screen. */
export function words_of(hash) {
  const words = new Map(), told = hash.replace(/^#/, "");
  if (!told.includes("=")) return words;
  for (const [name, value] of new URLSearchParams(told)) words.set(name, value);
  return words;
}

const is_number = (word, least, most) => /^\d{1,15}$/.test(word) && Number(word) >= least && Number(word) <= most;

/** What is to stand in place of each word that a link may have: words for that, and whether what it says is such. */
const LINK = {
  run: ["what Share has packed", (it) => /^[\w-]+$/.test(it)],
  slides: ["what Share has packed", (it) => /^[\w-]+$/.test(it)],
  example: ["the name of an example", (it, known) => known.examples.includes(it)],
  lesson: ["the number of a lesson", (it, known) => is_number(it, 1, known.questions.length)],
  question: [
    "the number of a question of its lesson",
    (it, known, words) => is_number(it, 1, known.questions[Number(words.get("lesson")) - 1] ?? 0),
  ],
  at: ["an event's number, or as fork, fork.2, fault, end, turn.3, asleep, last", (it, known) => known.is_place(it)],
  pid: ["the number of a process", (it) => is_number(it, 1, 4294967295)],
  beside: ["the numbers of two processes, as 2,3", (it) => TWO.test(it)],
  memory: ["an address, a register or a label", (it) => it.length > 0 && it.length <= MOST_NAME],
  tab: [(known) => `one of ${known.tabs.join(", ")}`, (it, known) => known.tabs.includes(it)],
  frames: ["a number of frames from 16 to 32768", (it) => is_number(it, 16, MOST_FRAMES)],
  rounds: ["a number of Runs from 1 on", (it) => is_number(it, 1, MOST_QUANTUM)],
  keys: ["a text", (it) => it.length <= MOST_KEYS],
  address: ["an address, a register or a label", (it) => it.length > 0 && it.length <= MOST_NAME],
  access: ["fetch, load or store", (it) => ["fetch", "load", "store"].includes(it)],
  show: ["a kind of events, or as `call read`", (it, known) => known.is_shown(it)],
  view: ["lecture", (it) => it === "lecture"],
  manual: ["a page of the manual", (it, known) => known.pages().includes(it)],
  to: ["a heading", (it) => it.length <= MOST_NAME],
};

/**
 * What a link says: {words, wrong}; `words` has the words that can be followed, and `wrong` says of each other what is
 * wrong with it. `known` tells which examples, lessons, panels and pages there are.
 */
export function link_of(hash, known) {
  const words = words_of(hash), good = new Map(), wrong = [];
  for (const [name, value] of words) {
    const [wanted, is_good] = entry(LINK, name) ?? [];
    const told = `${name}=${value.length > 40 ? `${value.slice(0, 40)}..` : value}`;
    if (!is_good) wrong.push(`The link has a word that means nothing here: ${told}.`);
    else if (is_good(value, known, words)) good.set(name, value);
    else wrong.push(`The link says ${told}, and that is not ${typeof wanted === "string" ? wanted : wanted(known)}.`);
  }
  return { words: Object.fromEntries(good), wrong };
}

// ---- slides

export const SLIDES_BEGINNING = "nektavoly slides";
const MOST_SLIDES = 500, MOST_WORDS = 4000;
const PARTS_OF_A_SLIDE = ["slide", "link", "question", "answer"];

/**
 * The slides of a text: {title, link, question, answer} each. After its first line a line begins with `slide`, its title;
 * `link`, what stands after the # of a link; `question` or `answer`. Blank lines and those that begin with # are passed over.
 */
export function slides_of(words) {
  const slides = [];
  for (const [place, line] of text(words, "the file").split(/\r?\n/).entries()) {
    if (place === 0 || /^\s*(#|$)/.test(line)) continue;
    const [, name, rest] = /^\s*(\w+)\s*(.*?)\s*$/.exec(line) ?? [], what = `line ${place + 1}`;
    if (!PARTS_OF_A_SLIDE.includes(name)) refuse(what, `begins with none of ${PARTS_OF_A_SLIDE.join(", ")}`);
    if (!rest) refuse(what, `says nothing after ${name}`);
    if (name === "slide") slides.push({ title: text(rest, what, MOST_WORDS), link: "", question: "", answer: "" });
    else if (!slides.length) refuse(what, "comes before the first slide");
    else if (slides.at(-1)[name]) refuse(what, `is the second ${name} of its slide`);
    else slides.at(-1)[name] = text(name === "link" ? rest.replace(/^#/, "") : rest, what, name === "link" ? MOST_TEXT : MOST_WORDS);
    if (slides.length > MOST_SLIDES) refuse("the file", `has more than ${MOST_SLIDES} slides`);
  }
  const without = slides.findIndex((it) => !it.link);
  if (without >= 0) refuse(`slide ${without + 1}`, "has no link");
  return slides.length ? slides : refuse("the file", "has no slide");
}

// ---- packed texts

/** The bytes of a stream, if they are not too many. */
async function all_of(stream, most) {
  const parts = [], reader = stream.getReader();
  let length = 0;
  for (;;) {
    const { done, value } = await reader.read();
    if (done) break;
    length += value.length;
    if (length > most) { await reader.cancel(); throw new Refusal("it is too large"); }
    parts.push(value);
  }
  const bytes = new Uint8Array(length);
  parts.reduce((at, part) => { bytes.set(part, at); return at + part.length; }, 0);
  return bytes;
}

/** The value that was packed into a link: of its JSON, whatever that is. */
export async function unpacked_value(packed) {
  const letters = packed.trim().replace(/-/g, "+").replace(/_/g, "/");
  const bytes = Uint8Array.from(atob(letters), (it) => it.charCodeAt(0));
  const stream = new Blob([bytes]).stream().pipeThrough(new DecompressionStream("deflate-raw"));
  return JSON.parse(new TextDecoder("utf-8", { fatal: true }).decode(await all_of(stream, MOST_UNPACKED)));
}
