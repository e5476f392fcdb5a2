// Slides: a place for each idea of the course (docs/COURSE.md), or those of a file of the teacher's, by the link that
// leads there; and the view for a lecture: large letters, arrow keys, a question with its answer, and nothing else.
import { $, app, ask, element, on, write } from "./app.mjs";
import { event_words, step, toggle } from "./time.mjs";
import { is_lecture, set_view } from "./place_links.mjs";
import { SLIDES_BEGINNING, slides_of } from "./outside.mjs";
import { problem } from "./messages.mjs";
import { take_texts } from "./programs.mjs";

const COURSE = slides_of(globalThis.PAGE_DATA.slides); // programs/course/slides.txt, without its answers
const KEPT = "nektavoly slides"; // as long as the tab is open: a reload has the file's slides again
const own = { deck: COURSE, words: "" }; // the slides along which the keys go, and the text of a teacher's own
let here = -1; // the one that is shown

/** Goes to a slide. */
function open(number) {
  if (number < 0 || number >= own.deck.length) return;
  const hash = `#${own.deck[number].link}&view=lecture`;
  here = number;
  if (location.hash === hash) note_slide(hash); else location.hash = hash;
}

/** Takes the slides of a text; if they can't be read, that is said: false, and those of before stay. */
export function take_slides(words, what) {
  try {
    Object.assign(own, { deck: slides_of(words), words });
  } catch (error) {
    problem(`${what} aren't shown: ${error.message}.`);
    return false;
  }
  here = -1;
  try {
    sessionStorage.setItem(KEPT, words);
  } catch {
    problem(`${what} are shown, and a reload forgets them: the browser has no room for them.`);
  }
  return true;
}

/** Has the slides again that a file or a link of this tab had. */
function taken_before() {
  try {
    const words = sessionStorage.getItem(KEPT);
    if (words) Object.assign(own, { deck: slides_of(words), words });
  } catch { /* those of the course */ }
}

/** The link of the first slide, as a lecture shows it. */
export const first_slide = () => `#${own.deck[0].link}&view=lecture`;
/** The text of the teacher's own slides; nothing if they are those of the course. */
export const own_slides = () => own.words;

/** Shows the answer to the slide's question, or hides it. */
function reveal() {
  const answer = $("lecture-answer"), is_shown = !answer.hidden;
  if (!own.deck[here]?.answer) return;
  answer.hidden = is_shown;
  write($("lecture-reveal"), is_shown ? "Answer" : "Hide the answer");
}

function leave() {
  set_view("");
  globalThis.show_tab(
    ["instruction", "pages", "translate", "opened", "happened", "why"].find((it) => !$(it).hidden) ?? "instruction"
  );
}

const KEYS = {
  ArrowRight: () => step(
    "event", false
  ), ArrowLeft: () => step("event", true), ArrowDown: () => step("call", false), ArrowUp: () => step("call", true),
  " ": toggle, Home: () => ask(
    "go", { place: 0 }
  ), PageDown: () => open(here + 1), PageUp: () => open(here - 1), End: reveal, Escape: leave,
  f: full_screen,
};

/** The whole screen, or no more. */
function full_screen() {
  if (!$("letters").checked) return;
  const root = document.documentElement, is_whole = document.fullscreenElement !== null;
  const asked = is_whole ? document.exitFullscreen() : root.requestFullscreen();
  asked.catch(() => problem("The browser doesn't let the page have the whole screen: F11 does the same."));
}

/** The keys of a lecture go before those of the panels. */
function key(event) {
  if (!is_lecture() || event.ctrlKey || event.metaKey || event.altKey || $("dialog").open || $("manual").open) return;
  const action = KEYS[event.key];
  if (!action) return;
  event.preventDefault();
  event.stopPropagation();
  action();
}

function draw() {
  if (!is_lecture() || !app.view) return;
  const { view } = app;
  write(
    $("lecture-place"),
    `event ${view.at.toLocaleString("en")} · tick ${view.facts.clock}${view.at > 0 ? ` · ${event_words(view.at - 1)}` : ""}`
  );
}

/** Notes which slide a link leads to: its title stands above, and its question with the answer hidden. */
export function note_slide(hash) {
  const { deck } = own, link = hash.replace(/^#/, "").replace(/&view=lecture$/, "");
  // (Two slides of one link: that which is shown, if it is one of them.)
  if (deck[here]?.link !== link) here = deck.findIndex((it) => it.link === link);
  const { title = app.work.name, question = "", answer = "" } = deck[here] ?? {};
  write($("lecture-title"), here < 0 ? title : `${here + 1}. ${title}`);
  document.title = `${title} · Nektavoly`;
  write($("lecture-question"), question);
  write($("lecture-answer"), answer);
  write($("lecture-reveal"), "Answer");
  $("lecture-asked").hidden = !question && !answer;
  $("lecture-reveal").hidden = !answer;
  $("lecture-answer").hidden = true;
}

/** The list of all slides, as links. */
export const listed_slides = () => element(
  "ol", {},
  ...own.deck.map(
    ({ title, link }, place) => element(
      "li", {}, element("a", { href: `#${link}` }, title), " ",
      element("a", { class: "dim", href: `#${link}&view=lecture`, onclick: () => { here = place; } }, "as a slide")
    )
  )
);
/** What the list of slides has: those of the course, or of a file. */
export const words_of_slides = () => (
  `${own.deck.length} slides ${own.deck === COURSE ? "for a course" : "of your own"}`
);

export function start() {
  addEventListener("keydown", key, true);
  $("lecture-reveal").addEventListener("click", reveal);
  take_texts(SLIDES_BEGINNING, (words, name) => { if (take_slides(words, `The slides ${name}`)) open(0); });
  on("booted", () => { if (!is_lecture()) document.title = `${app.booted.work} · Nektavoly`; });
  taken_before();
  on("view", draw);
  on("lecture", draw);
}
