// The first minute: three things to type, each a button too, the first program to change, and a tour of five steps that
// can be skipped.
import { $, app, element, on, say } from "./app.mjs";
import { keep, kept } from "./browser_storage.mjs";
import { type } from "./terminal.mjs";
import * as programs from "./programs.mjs";
import { is_slide } from "./place_links.mjs";

const COMMANDS = ["ls", "echo hello | wc", "primes 50"];

const TOUR = [
  [
    "terminal",
    "The terminal: what you type goes to the machine. Type a command and Enter; the shell answers. `help` says what it knows.",
  ],
  [
    "time",
    "Time: pause, go on by an instruction, an event, a call, a turn, or go back. Drag the slider: each place of the run is there.",
  ],
  [
    "processes",
    "Processes: who runs, who sleeps and on what. Choose one to look at it. Below is the picture of turns; click into it to go there.",
  ],
  [
    "right",
    "What the process is at: its next instruction and registers, its page table, its descriptors, what happened up to here, and why somebody faults or sleeps.",
  ],
  [
    "left",
    "Your own: change a program here, and Boot runs it. Lessons, beside it, ask questions, and the machine tells whether you are right.",
  ],
];
const ENOUGH = 3; // lines that were typed: who has typed so many needs no hint
let step = -1, lines = 0;

/** A command, typed as by hand. */
function command(text) {
  return element("button", { class: "mono", onclick: () => {
    if (app.work.name !== "shell") {
      programs.choose("shell");
      programs.boot().then(() => setTimeout(() => type(new TextEncoder().encode(text + "\n")), 300));
    } else type(new TextEncoder().encode(text + "\n"));
    $("screen").focus({ preventScroll: true });
  } }, text);
}

/** Opens the first program, ready to be changed. */
async function edit_hello() {
  if (!programs.choose("hello")) return;
  globalThis.show_tab("programs");
  await programs.boot();
  const source = $("source"), at = source.value.indexOf("hi");
  source.focus();
  if (at >= 0) source.setSelectionRange(at, at + 2);
  $("editor").scrollIntoView({ block: "nearest" });
  say("Change what it says, and press Boot (Ctrl Enter). The list of examples leads back to the shell.");
}

// ---- the tour

function clear_marks() {
  for (const it of document.querySelectorAll(".toured")) it.classList.remove("toured");
}

function show_step(number) {
  step = number;
  clear_marks();
  if (step < 0 || step >= TOUR.length) {
    $("tour").close();
    step = -1;
    $("screen").focus({ preventScroll: true });
    return;
  }
  const [id, words] = TOUR[step], told = $("tour-told");
  told.innerHTML = words.replace(/`([^`]+)`/g, "<code>$1</code>");
  $("tour-step").textContent = `${step + 1} of ${TOUR.length}`;
  $("tour-back").disabled = step === 0;
  $("tour-next").textContent = step === TOUR.length - 1 ? "Done" : "Next";
  $(id).classList.add("toured");
  if (!$("tour").open) $("tour").show();
  $(id).scrollIntoView({ block: "nearest" });
  $("tour-next").focus({ preventScroll: true });
}

// ---- the hint above the terminal

function hide() {
  $("first").hidden = true;
  keep("first", "seen", true);
}

export function start() {
  const first = $("first");
  $("first-commands").append(...COMMANDS.flatMap((it, k) => [k ? " " : "", command(it)]));
  $("edit-hello").addEventListener("click", edit_hello);
  $("begin-tour").addEventListener("click", () => show_step(0));
  $("first-hide").addEventListener("click", hide);
  $("tour-next").addEventListener("click", () => show_step(step + 1));
  $("tour-back").addEventListener("click", () => show_step(step - 1));
  $("tour-skip").addEventListener("click", () => show_step(-1));
  $("tour").addEventListener("keydown", (event) => {
    if (event.key === "Escape") { event.preventDefault(); show_step(-1); }
  });
  on("typed", (bytes) => {
    lines += bytes.filter((it) => it === 10).length;
    if (lines >= ENOUGH && !first.hidden) hide();
  });
  // (It is for the shell: another example has no prompt.)
  on("work", ({ name }) => { first.hidden = is_slide() || name !== "shell" || kept("first") === "seen"; });
}
