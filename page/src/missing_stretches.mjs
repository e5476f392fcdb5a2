// What the page wants of a long record, of which it has only so much: all stretches round the place where the machine
// stands, and of the part that is shown large. The worker has them, or makes them again.
import { app, ask, on } from "./app.mjs";
import { range, window_ } from "./time.mjs";

const asked = { place: "", part: "" }; // what was asked for last

function want(name, from, to) {
  const key = JSON.stringify([app.booted.id, app.view.edits, from, to]);
  if (asked[name] === key || app.line.has(from, to)) return;
  asked[name] = key;
  ask("stretches", { name, key, from, to });
}

function look() {
  const { view, line } = app, { from, to } = range();
  if (!view || view.playing) return;
  want("place", Math.max(0, view.at - 1), view.at);
  if (!window_.whole) want("part", Math.floor(from), Math.min(Math.ceil(to), line.end));
}

/** Takes what the worker has told; whether the page has more now. */
export function take({ name, key, part }) {
  if (!part || asked[name] !== key || part.end > app.line.end) return false;
  app.line.take_part(name, part);
  return true;
}

export function start() {
  on("view", look);
  on("zoom", look);
}
