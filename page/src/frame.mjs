// Messages between this page and the one that has it in a frame (`?embed`), as a course's site: what has happened here, and
// what is asked for. docs/manual/page.md has their form.
import { app, ask, on } from "./app.mjs";
import { Refusal, asked_by_frame } from "./outside.mjs";
import { event_words } from "./time.mjs";
import { is_booted, is_embedded } from "./place_links.mjs";
import * as programs from "./programs.mjs";

const is_in_frame = () => is_embedded() && globalThis.parent !== globalThis;

/** Says something to the page around. It may be of any origin: what is said has names of files, events and lessons alone. */
const say_around = (nektavoly, more = {}) => globalThis.parent.postMessage({ nektavoly, ...more }, "*");

const stands_now = () => ({ at: app.view.at, last: app.view.at ? event_words(app.view.at - 1) : "" });

const ACTS = {
  async boot({ files, frames, rounds, quantum, keys, play }) {
    programs.set_files(files, { frames, rounds, quantum, keys }, "frame");
    if (!await is_booted(() => programs.boot({ play }))) throw new Refusal("it isn't booted");
  },
  open({ link }) { location.hash = link; },
  go({ at }) { ask("go", { place: at }); },
  play() { ask("play"); },
  pause() { ask("pause"); },
};

/** Does what the page around asks for, and answers it. */
async function heard({ source, data }) {
  if (source !== globalThis.parent || data === null || typeof data !== "object" || !("nektavoly" in data)) return;
  const id = typeof data.id === "string" || Number.isInteger(data.id) ? data.id : null;
  try {
    const asked = asked_by_frame(data);
    await ACTS[asked.kind](asked);
    say_around("answer", { id, is_done: true, words: "" });
  } catch (error) {
    say_around("answer", { id, is_done: false, words: error.message });
  }
}

export function start() {
  if (!is_in_frame()) return;
  let at = -1;
  addEventListener("message", heard);
  on("booted", () => { at = -1; say_around("booted", { files: app.booted.files.map((it) => it.name) }); });
  on("refused", (words) => say_around("refused", { words }));
  on("answered", (told) => say_around("answered", told));
  on("panels", () => {
    if (app.view.playing || app.view.at === at) return;
    at = app.view.at;
    say_around("stands", stands_now());
  });
  say_around("ready");
}
