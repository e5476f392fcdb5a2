// Messages that stay: what went wrong, and what to do. None wipes another; each goes when it is dismissed. Of a panel
// that can't be drawn this is said in its place, and nothing is shown of what stood there before.
import { $, app, element } from "./app.mjs";

const MOST = 100; // messages that are listed
const told = new Map(); // how often each was told

/** Takes messages away. */
function dismiss(words) {
  if (words === undefined) told.clear(); else told.delete(words);
  draw();
}

function draw() {
  const all = [...told], more = all.length - MOST;
  const button = (words) => element("button", {
    class: "slight", "aria-label": `Dismiss: ${words}`, onclick: () => dismiss(words),
  }, "✕");
  const times = (words, count) => (count > 1 ? `${words} (${count} times)` : words);
  const row = ([words, count]) => element("li", {}, element("span", {}, times(words, count)), button(words));
  $("message-list").replaceChildren(...all.slice(-MOST).map(row));
  $("messages-more").textContent = more > 0 ? `and ${more} before these` : "";
  $("messages").hidden = !all.length;
  $("messages-dismiss").hidden = all.length < 2;
}

/** Says what went wrong: it is seen and read out, and stays until it is dismissed. */
export function problem(words) {
  told.set(words, (told.get(words) ?? 0) + 1);
  draw();
  $("message-list").lastElementChild?.scrollIntoView({ block: "nearest" });
}

export const problems = () => [...told.keys()];

// ---- panels that can't be drawn

/** The element of each part of the page that shows something of the machine. */
const SHOWN_BY = {
  terminal: "terminal", processes: "processes", instruction: "instruction", c_source: "c-source", pages: "pages",
  translate: "translate", descriptors: "opened", happened: "happened", why: "why", beside: "beside",
};

const words_of = (error) => String(error?.message ?? error);

/** A part has failed while it took what was told: it says so, and what it showed before is hidden. */
function failed(part, what, error) {
  console.warn(`${part}, ${what}: ${error?.stack ?? error}`);
  const panel = Object.hasOwn(SHOWN_BY, part) ? $(SHOWN_BY[part]) : null, words = words_of(error);
  if (!panel) { problem(`The page's part ${part} has failed: ${words}`); return; }
  let note = panel.querySelector(":scope > .failed-note");
  if (!note) {
    note = element("p", { class: "failed-note", role: "alert" });
    panel.append(note);
  }
  note.textContent = `This can't be shown: ${words}`;
  panel.classList.add("failed");
}

/** A part took what was told: if it had failed at the same before, it is shown again. */
function mended(part) {
  const panel = Object.hasOwn(SHOWN_BY, part) ? $(SHOWN_BY[part]) : null;
  if (!panel?.classList.contains("failed")) return;
  panel.classList.remove("failed");
  panel.querySelector(":scope > .failed-note")?.remove();
}

export function start() {
  $("messages-dismiss").addEventListener("click", () => dismiss());
  Object.assign(app, { on_failed: failed, on_mended: mended });
  addEventListener("error", ({ message, error }) => { if (error) problem(`Something has gone wrong: ${message}`); });
  addEventListener("unhandledrejection", ({ reason }) => problem(`Something has gone wrong: ${words_of(reason)}`));
}
