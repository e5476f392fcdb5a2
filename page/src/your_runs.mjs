// Your runs: those that the browser has kept, with a small picture, what they are of, how long and from when; to open,
// to name, to save as a record, to take away. And the lasting mark that says whether all is kept.
import { $, color_of, element, style_of } from "./app.mjs";
import { grouped } from "../../anywhere/machine/number_words.mjs";
import { kept_state } from "./browser_storage.mjs";
import { SvgDrawing } from "./svg_drawing.mjs";
import { picture_of_run, shown_of } from "./outside.mjs";
import { kept_as_record } from "./sharing.mjs";
import { problem } from "./messages.mjs";
import { save } from "./programs.mjs";
import { is_current, listed_runs, name_run, open_run, take_run_away } from "./session.mjs";

const MOST_NAME = 80; // letters
const in_words = new Intl.DateTimeFormat("en", { dateStyle: "medium", timeStyle: "short" });
const name_of = ({ name, title, work }) => name || title || work;

function body() { return $("dialog").querySelector("div"); }

/** What is done to a run by a click; the list is drawn anew then. */
const button = (words, run, action) => element("button", {
  "aria-label": `${words} ${name_of(run)}`, onclick: async () => { await action(); await draw(); },
}, words);

async function ask_name(run) {
  const name = prompt("Name of this run", name_of(run))?.trim();
  if (name === undefined || (await name_run(run, name.slice(0, MOST_NAME)))) return;
  problem(`The run ${name_of(run)} has got no name: another tab has taken it away, or the browser hasn't kept it yet.`);
}

function ask_away(run) {
  return confirm(`Take the run ${name_of(run)} away for good?`) ? take_run_away(run) : null;
}

/** Saves a run as a record, which every tool plays. */
async function save_record(run) {
  try {
    save(`${name_of(run).replace(/[^\w.-]+/g, "-")}.txt`, await kept_as_record(shown_of(run).run));
  } catch (error) {
    problem(`The run ${name_of(run)} isn't saved: ${error.message}.`);
    $("dialog").close();
  }
}

async function open(run) {
  $("dialog").close();
  await open_run(run);
}

const WIDE = 128, LANES = 6, LANE = 4; // pixels; processes that have a lane of their own

/** The small picture of a run: who ran when, a lane for each process, and a dot where somebody faulted. */
function small_picture(run) {
  const { ran, faults } = picture_of_run(run) ?? { ran: [], faults: [] }, wide = WIDE / Math.max(1, ran.length);
  const pids = [...new Set(ran.filter((it) => it > 0))].sort((a, b) => a - b), words = `${pids.length} processes ran`;
  const draw = new SvgDrawing(WIDE, LANES * LANE + 4, words);
  draw.fillStyle = style_of("--soft");
  draw.fillRect(0, 0, WIDE, LANES * LANE + 4);
  ran.forEach((pid, k) => {
    if (!pid) return;
    draw.fillStyle = color_of(pid);
    draw.fillRect(k * wide, 2 + LANE * Math.min(pids.indexOf(pid), LANES - 1), wide, LANE);
  });
  draw.fillStyle = style_of("--bad");
  for (const it of faults) draw.fillRect(it * wide, 0, 3, 3);
  return element("img", {
    alt: ran.length ? `Picture: ${words}${faults.length ? ", somebody faulted" : ""}` : "No picture of it is kept",
    src: `data:image/svg+xml,${encodeURIComponent(draw.text())}`, width: WIDE, height: LANES * LANE + 4,
  });
}

function row(run) {
  const { length, when, work } = run, is_here = is_current(run);
  const what = element("td", {}, small_picture(run), element("b", {}, name_of(run)), is_here ? " (shown now)" : "");
  const away = button("Take away", run, () => ask_away(run)), named = button("Name..", run, () => ask_name(run));
  const go = element(
    "button", { class: "main", "aria-label": `Open ${name_of(run)}`, onclick: () => open(run) }, "Open"
  );
  const opens = is_here ? "" : run.run ? go : "too long to be kept";
  const told = [work, in_words.format(when)].map((it) => element("td", {}, it));
  told.splice(1, 0, element("td", { class: "number" }, `${grouped(length)} events`));
  const saved = run.run ? button("Save", run, () => save_record(run)) : "";
  return element("tr", {}, what, ...told, element("td", {}, opens, " ", named, " ", saved, " ", away));
}

const HEADS = ["run", "program", "length", "when", ""];

/** What is kept, in words, and what to do if not all is. */
function state_words() {
  const { is_kept, why } = kept_state();
  const what = "works as you change them, and the last 50 runs, beside those with a name";
  if (is_kept) return `All that you do here is kept by your browser, on this host alone: ${what}.`;
  const todo = "Take runs away, or save your work as a file by Share; then it is tried again";
  return `Not all that you do here is kept: ${why}. ${todo}.`;
}

async function draw() {
  const runs = await listed_runs(), heads = HEADS.map((it) => element("th", { scope: "col" }, it));
  const [head, rows] = [element("thead", {}, element("tr", {}, ...heads)), element("tbody", {}, ...runs.map(row))];
  const state = element("p", { class: kept_state().is_kept ? "dim" : "bad", role: "status" }, state_words());
  const none = kept_state().is_kept ? "No run is kept." : "No run can be read here.";
  const list = runs.length ? element("table", { id: "runs" }, head, rows) : element("p", {}, none);
  const open_record = () => { $("dialog").close(); $("open-file").click(); };
  const other = element("button", { onclick: open_record }, "Open a record..");
  body().replaceChildren(element("h2", {}, "Your runs"), state, list, element("p", {}, other));
}

async function show() {
  await draw();
  if (!$("dialog").open) $("dialog").showModal();
}

export function start() {
  for (const it of ["your-runs", "kept"]) $(it).addEventListener("click", show);
}
