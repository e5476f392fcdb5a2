// Lessons: a text, a program, and questions. What is right is not written here: the machine runs the program, and
// tells.
import { $, app, ask, element, on, once, tell } from "./app.mjs";
import { KIND } from "../../anywhere/machine/machine.mjs";
import { keep, kept, on_conflict } from "./browser_storage.mjs";
import { copied_words, copy_field } from "./clipboard.mjs";
import { help_of } from "./manual.mjs";
import { is_changed, machine_of, shipped_files } from "./works.mjs";
import * as programs from "./programs.mjs";

const DATA = globalThis.PAGE_DATA;

// ---- the machine as a judge

/**
 * Boots files, those of the lesson's copy if no others are given, with some of the machine's settings changed; null, or
 * the refusal.
 */
async function boot(changes = {}, files = app.files) {
  const heard = once("booted", "refused");
  await programs.boot({ play: false, files, machine: { ...app.work.machine, ...changes } });
  const { name, it } = await heard;
  if (name === "refused") return it;
  await view_where(() => app.view?.at === 0);
  return null;
}

/**
 * The lesson's program as it was shipped: a question about it is not about what was changed. What wasn't changed is the
 * file of the list.
 */
const shipped = (lesson) => shipped_files(lesson.example).map(
  (it) => app.files.find((own) => own.name === it.name && own.text === it.text) ?? it
);
const boot_shipped = (lesson, changes = {}) => boot({ ...machine_of(lesson.how), ...changes }, shipped(lesson));

function view_where(holds) {
  return new Promise((done) => {
    let is_open = true;
    const look = () => { if (is_open && holds()) { is_open = false; done(app.view); } };
    on("view", look);
    look();
  });
}

async function finish(rounds = 60) {
  const heard = once("finished");
  ask("finish", { rounds });
  await heard;
  await view_where(() => app.line.end === app.view?.end);
  return app.view;
}

async function at(place) {
  ask("go", { place });
  return view_where(() => app.view?.at === place && !app.view.playing);
}

/** The machine at its beginning, with what each frame is used for. */
async function with_frames() {
  await at(0);
  ask("look", {
    panels: { instruction: !$("instruction").hidden, pages: true, translate: !$("translate").hidden, files: true },
  });
  return view_where(() => app.view?.frames && app.view.at === 0);
}

/** The stretches of the record as {kind, pid, number, value, from, count}. */
function stretches() {
  const { line } = app, found = [];
  for (let k = 0; k < line.length; k++) {
    found.push({
      kind: line.kind[k], pid: line.pid[k], number: line.number[k], value: line.value[k], from: line.at[k],
      count: line.end_of(k) - line.at[k],
    });
  }
  return found;
}
const calls = (number) => stretches().filter((it) => it.kind === KIND.CALL && it.number === number);
const ends = (pid) => stretches().find((it) => (it.kind === KIND.EXIT || it.kind === KIND.FAULT) && it.pid === pid);
const forks = () => calls(1).filter((it) => it.value > 0).map((it) => [it.pid, it.value]);

/** How many frames are in use after each event, up to the end of the record. */
async function frames_used() {
  const used = [];
  for (let place = 0; place <= Math.min(app.line.end, 400); place++) {
    used.push(app.booted.config.frames - (await at(place)).facts.free);
  }
  return used;
}

/** The numbers of an answer. A minus may be the sign that a text has, and a thousand may have a comma. */
const numbers = (text) => (
  (text.replace(/[−–]/g, "-").replace(/(\d),(?=\d{3}\b)/g, "$1").match(/-?\d+/g) || []).map(Number)
);
const is_number = (truth) => (given) => numbers(given).length === 1 && numbers(given)[0] === truth;
const is_list = (truth) => (given) => numbers(given).join(" ") === truth.join(" ");

/**
 * A question's `judge` answers {right, words, tried, place}: whether the answer is right, by what the machine did;
 * words that are told only if it is; what came of what was tried, for an answer that isn't; and the event to look at.
 * It is called after the lesson's program has run to its end, unless `alone`.
 */
const LESSONS = [
  {
    name: "A trace", example: "trace", how: { rounds: true, quantum: 6 }, page: "machine.md#events-and-outcomes",
    about: "What a program does to the kernel, event by event.",
    text: `<p>The program makes two calls that answer, a loop, a call that does not exist, and a load. It runs in rounds: 6 Runs, then a tick, then the terminal takes bytes. The first Run of a process that waits for its turn gives it the turn.</p><p>Read the source at the left (tab Programs), and answer before you run it. Then step through it by <b>event ⇥</b> and watch the registers.</p>`,
    questions: [
      {
        ask: "What does <code>uptime</code> (call 14) answer? It tells how many ticks have passed.",
        hint: "Count the ticks in the record before the call: a tick comes after each 6 Runs.",
        judge: (given) => {
          const [it] = calls(14);
          return { right: is_number(it.value)(given), words: `It answers ${it.value}.`, place: it.from + 1 };
        },
      },
      {
        ask: "What does call 99 answer, which the kernel does not have?",
        hint: "The manual's page on the machine says what a number without a call answers.",
        judge: (given) => {
          const [it] = calls(99);
          return {
            right: is_number(it.value)(given), words: `It answers ${it.value}, and the program goes on.`,
            place: it.from + 1,
          };
        },
      },
      {
        ask: "How does the program end?",
        hint: "Look at its last instruction: what is its address, and which addresses may lw have?",
        choices: ["it exits with 0", "it exits with 99", "its load faults", "it never ends"],
        judge: (given) => {
          const it = ends(1);
          return {
            right: given === (
              it ? (it.kind === KIND.FAULT ? "its load faults" : `it exits with ${it.number}`) : "it never ends"
            ),
            words: "sp is a multiple of 16, so sp + 2 is no multiple of 4, and lw wants one. The tab Why says it in words.",
            place: it ? it.from : 0,
          };
        },
      },
      {
        ask: "How many instructions does it make that are no calls and no faults?",
        hint: "Go through it by event ⇥: a loop makes its instructions again in each round, and ecall is a call.",
        judge: (given) => {
          const truth = stretches().filter((it) => it.kind === KIND.STEP).reduce((sum, it) => sum + it.count, 0);
          return {
            right: is_number(truth)(given), words: `${truth}: the loop's two instructions are made three times.`,
          };
        },
      },
    ],
  },
  {
    name: "A tree of forks", example: "tree", how: { rounds: true, quantum: 1000 }, page: "processes.md",
    about: "Who is whose child, when each process forks.",
    text: `<p><code>fork</code> makes a second process with the same memory and registers, but for the answer: 0 in the child, the child's pid in the parent. Both go on behind the call.</p><p>The program calls fork three times in a row, and each child does what is left of that row. Then each waits for all its children, and exits with 1 and the sum of their statuses. Draw the tree on paper first.</p>`,
    questions: [
      {
        ask: "How many processes are there in all, with process 1?",
        hint: "Each fork makes two of one, and both go on to the next fork.",
        judge: (given) => {
          const truth = forks().length + 1;
          return { right: is_number(truth)(given), words: `${truth}: each fork doubles those that go on.` };
        },
      },
      {
        ask: "Who is the parent of process 8?",
        hint: "Pids are given in the order of the forks: step by call ⇥, and write down who forks whom.",
        judge: (given) => {
          const found = forks().find(([, child]) => child === 8);
          return {
            right: found && is_number(found[0])(given),
            words: `Process ${found[0]}. The forks were ${forks().map(([a, b]) => `${a}→${b}`).join(", ")}.`,
          };
        },
      },
      {
        ask: "With which status does process 1 exit?",
        hint: "Each exits with 1 and the sum of what its children exit with: begin at the leaves.",
        judge: (given) => {
          const it = ends(1);
          return { right: is_number(it.number)(given), words: `With ${it.number}: it counts all.`, place: it.from };
        },
      },
      {
        ask: "Now change the program so that it makes a chain of eight processes, each the parent of the next.",
        alone: true, run: true,
        judge: async () => {
          const refusal = await boot();
          if (refusal) return { right: false, tried: refusal };
          await finish(200);
          const made = forks();
          const right = made.length === 7 && made.every(([parent, child], k) => parent === k + 1 && child === k + 2);
          return {
            right, words: "A chain: 1→2, 2→3 up to 7→8.",
            tried: `The forks of your program are ${made.map(([a, b]) => `${a}→${b}`).join(", ") || "none"}.`,
          };
        },
      },
    ],
  },
  {
    name: "A pipe that hangs", example: "hang", how: { rounds: true, quantum: 1000 }, page: "pipes.md",
    about: "Why a reader waits for an end that never comes.",
    text: `<p>A child writes three bytes into a pipe and ends. Its parent reads until the pipe's end, and then exits with the number of bytes. It never does.</p><p>Run it, and look at <b>Descriptors</b> and <b>Why</b>.</p>`,
    questions: [
      {
        ask: "Which process still holds the write end when nobody runs any more?",
        hint: "A fork copies descriptors. Who hasn't closed its copy? The tab Descriptors tells.",
        judge: (given) => {
          const holders = [...new Set(app.view.files.descriptors.filter((it) => it.kind === 4).map((it) => it.pid))];
          return {
            right: is_list(holders)(given),
            words: `Process ${holders.join(" and ")}: the reader itself, so nobody can wake it.`,
          };
        },
      },
      {
        ask: "In which call, by its number, does the parent sleep?",
        hint: "The tab Why says who sleeps in which call; the numbers stand in the manual's page on the machine.",
        judge: (given) => {
          const it = app.view.processes.find((it) => it.pid === 1);
          return { right: is_number(it.call.number)(given), words: `In call ${it.call.number}, read.` };
        },
      },
      {
        ask: "Mend the program: it is to read up to the pipe's end, and to exit with the number of bytes that it has read.",
        alone: true, run: true,
        judge: async () => {
          const refusal = await boot();
          if (refusal) return { right: false, tried: refusal };
          const view = await finish(100), has_end = calls(5).some((it) => it.pid === 1 && it.value === 0);
          const right = view.facts.halted && view.facts.status === 3 && has_end
            && calls(21).some((it) => it.pid === 1 && it.value === 0);
          return {
            right, words: "Process 1 closed its end, read three bytes and the end, and exited with 3.",
            tried: !view.facts.halted ? "It still hangs: look at Why."
              : `It ended with ${view.facts.status}${has_end ? "" : ", and never read the end"}.`,
          };
        },
      },
    ],
  },
  {
    name: "A page table by hand", example: "pages", how: { rounds: true, quantum: 1000 }, page: "address-spaces.md",
    about: "What a program of 192 KiB costs.",
    text: `<p>The program has one page of text and 196,608 bytes of data. A page has 4,096 bytes. Behind the data stand a guard page, which user code may not touch, and a page of stack. The page table has three levels: a root, and below it tables of the middle and of the last level, each a frame with 512 entries. A process has one more frame, its trapframe.</p><p>Count first. Then open <b>Page table</b>.</p>`,
    questions: [
      {
        ask: "How many pages does the process have, with guard and stack?",
        hint: "One for text, as many for data as 196,608 bytes take, one guard, one stack.",
        judge: async (given) => {
          const view = await with_frames(), truth = [...view.frames.kinds].filter((it) => it === 6).length;
          return {
            right: is_number(truth)(given), words: `${truth}: 1 of text, 48 of data, the guard page, the stack.`,
          };
        },
      },
      {
        ask: "How many frames of RAM are in use before the first instruction?",
        hint: "The pages, the tables of three levels that lead to them, and the trapframe.",
        judge: async (given) => {
          const view = await at(0), truth = app.booted.config.frames - view.facts.free;
          return { right: is_number(truth)(given), words: `${truth}: the pages, three tables and the trapframe.` };
        },
      },
      {
        ask: "What is the least number of frames with which it boots? The machine tries your number, and one less.",
        hint: "As many as are in use before the first instruction, if exec takes none beside them: try one less than your answer.",
        alone: true,
        judge: async (given, lesson) => {
          const [wanted] = numbers(given);
          if (!(wanted >= 16 && wanted <= 32768)) {
            return { right: false, tried: "A machine has from 16 to 32,768 frames." };
          }
          const fits = await boot_shipped(lesson, { frames: wanted });
          const less = wanted > 16 ? await boot_shipped(lesson, { frames: wanted - 1 }) : "no machine has so few";
          await boot_shipped(lesson);
          const tried = `With ${wanted} frames: ${fits === null ? "it boots" : fits}. With ${wanted - 1}: ${less === null ? "it boots" : less}.`;
          return { right: fits === null && less !== null, words: tried, tried };
        },
      },
    ],
  },
  {
    name: "Turns", example: "turns", how: { rounds: true, quantum: 500 }, page: "processes.md#ticks-and-turns",
    about: "Who runs when, in rounds of 500 Runs.",
    text: `<p>Three processes count down, 2,000 instructions each, and end. A tick comes after each 500 Runs, and the turn goes on to the next process that may run, round by slots.</p><p>Write down the first six turns before you run it. Then look at the picture of turns under <b>Processes</b>.</p>`,
    questions: [
      {
        ask: "The pids of the first six turns, in order:",
        hint: "Three processes, and the turn goes on by slots after each tick. The picture of turns shows it.",
        judge: (given) => {
          const truth = stretches().filter((it) => it.kind === KIND.TURN).slice(0, 6).map((it) => it.pid);
          return { right: is_list(truth)(given), words: `${truth.join(" ")}: round by slots.` };
        },
      },
      {
        ask: "Which process ends first?", hint: "All have as much to do: who began first?",
        judge: (given) => {
          const it = stretches().find((it) => it.kind === KIND.EXIT);
          return { right: is_number(it.pid)(given), words: `Process ${it.pid}, at event ${it.from}.`, place: it.from };
        },
      },
      {
        ask: "With 3,000 Runs in a round, how many turns are there in all? (Set it, count in your head: each process needs some 2,000.)",
        hint: "2,000 instructions fit into a round of 3,000: what does the rest of the round do?", alone: true,
        judge: async (given, lesson) => {
          await boot_shipped(lesson, { quantum: 3000 });
          await finish(60);
          const truth = stretches().filter((it) => it.kind === KIND.TURN).length;
          return {
            right: is_number(truth)(given),
            words: `${truth}: ${stretches().filter((it) => it.kind === KIND.TURN).map((it) => it.pid).join(" ")}. What happens within the first round?`,
          };
        },
      },
    ],
  },
  {
    name: "Memory that comes when it is touched", example: "lazy course",
    how: { rounds: true, quantum: 20, frames: 64 }, page: "machine.md#absent-pages",
    about: "A gigabyte is promised, five pages are touched.",
    text: `<p><code>sbrklazy</code> (call 22) makes the memory grow, and takes no frame for it. A page comes when it is first touched, with the tables that are missing on the way to it.</p><p>The program is promised a gigabyte, touches five pages that lie far apart, and exits with 5. Step over each touch with <b>Page table</b> open: what is new has the sign ✱.</p>`,
    questions: [
      {
        ask: "How many frames are in use before it grows?", hint: "Text, guard and stack, three tables, the trapframe.",
        judge: async (given) => {
          const [truth] = await frames_used();
          return { right: is_number(truth)(given), words: `${truth}: three pages, three tables, the trapframe.` };
        },
      },
      {
        ask: "What does each of the five touches cost, in frames? Five numbers:",
        hint: "Each costs its page, and each table on the way that isn't there yet.",
        judge: async (given) => {
          const used = await frames_used(), truth = [];
          for (let k = 1; k < used.length; k++) if (used[k] > used[k - 1]) truth.push(used[k] - used[k - 1]);
          return {
            right: is_list(truth)(given), words: `${truth.join(" ")}: the page, and each table that was not there.`,
          };
        },
      },
      {
        ask: "With how many frames at least does it exit with 5? The machine tries your number, and one less.",
        hint: "What is in use before, and the sum of what the touches cost.", alone: true,
        judge: async (given, lesson) => {
          const [wanted] = numbers(given);
          if (!(wanted >= 16 && wanted <= 32768)) {
            return { right: false, tried: "A machine has from 16 to 32,768 frames." };
          }
          const ends_with = async (frames) => {
            const refusal = await boot_shipped(lesson, { frames });
            if (refusal) return refusal;
            const view = await finish(60);
            return view.facts.halted ? view.facts.status : "no end";
          };
          const fits = await ends_with(wanted);
          const less = wanted > 16 ? await ends_with(wanted - 1) : "nothing: no machine has so few";
          const tried = `With ${wanted} frames it ends with ${fits}, with ${wanted - 1} with ${less}.`;
          return { right: fits === 5 && less !== 5, words: tried, tried };
        },
      },
    ],
  },
];

// ---- the panel

let chosen = null;
const answers = new Map(); // what was answered, by the numbers of the lesson and the question

// ---- what was solved

const SOLVED = "lessons solved"; // its name among what the browser keeps
const solved = new Set(); // questions, as "2.3": lesson 2, question 3

/** Takes what the browser has kept of it, of which nothing is known. */
function take_solved(list) {
  const is_one = (it) => {
    const [, lesson, question] = /^([1-9])\.([1-9])$/.exec(it) ?? [];
    return Number(question) <= LESSONS[Number(lesson) - 1]?.questions.length;
  };
  if (Array.isArray(list)) for (const it of list) if (typeof it === "string" && is_one(it)) solved.add(it);
}

/** Notes that a question was answered rightly. */
function note_solved(lesson, question) {
  const name = `${LESSONS.indexOf(lesson) + 1}.${lesson.questions.indexOf(question) + 1}`;
  if (solved.has(name)) return;
  solved.add(name);
  keep(SOLVED, [...solved]);
}

/** Another tab has solved something too: both count. */
function join_solved(name, own) {
  if (name !== SOLVED) return;
  for (const it of [kept(SOLVED), own]) take_solved(it);
  keep(SOLVED, [...solved]);
}

/** The questions of a lesson that were solved, by their numbers. */
const solved_of = (place) => (
  LESSONS[place].questions.flatMap((_, k) => (solved.has(`${place + 1}.${k + 1}`) ? k + 1 : []))
);

/** What was solved, as a line to hand in. */
export function solved_line(name = "") {
  const all = LESSONS.reduce((sum, it) => sum + it.questions.length, 0);
  const of_lesson = (it, k) => {
    const own = solved_of(k), count = it.questions.length;
    return `${k + 1}: ${own.length === count ? "all" : own.length ? own.join(" ") : "none"} of ${count}`;
  };
  const who = name.trim().replace(/\s+/g, " ").slice(0, 80), day = new Date().toISOString().slice(0, 10);
  return [
    "nektavoly lessons", ...(who ? [who] : []), day, `solved ${solved.size} of ${all}`, ...LESSONS.map(of_lesson),
  ].join("; ");
}

/** The line that is handed in, with a name, below the list of lessons. */
function hand_in() {
  const line = element("input", {
    id: "solved-line", class: "mono", readonly: true, "aria-label": "The line to hand in",
  });
  const name = element("input", {
    id: "solved-name", autocomplete: "name", maxlength: 80, oninput: () => { line.value = solved_line(name.value); },
  });
  const told = element("span", { role: "status" });
  const copy = async () => { told.textContent = ` ${copied_words(await copy_field(line))}`; };
  line.value = solved_line();
  return element(
    "div", { class: "ask" }, element("p", {}, "What you have solved, as a line to hand in:"),
    element(
      "p", {}, element("label", {}, "your name ", name), " ", element("button", { onclick: copy }, "Copy the line"), told
    ),
    line
  );
}

/** The lesson's copy of its program: it is kept beside the example, so that neither changes the other. */
const name_of = (lesson) => `lesson ${LESSONS.indexOf(lesson) + 1}`;
const copy_of = (lesson) => () => ({
  title: `${name_of(lesson)}: ${lesson.name}`, files: shipped_files(lesson.example), how: lesson.how,
  example: lesson.example,
});

/** Opens the lesson's copy, as it was left, and boots it. */
function load(lesson) {
  if (app.work.name !== name_of(lesson)) programs.open_work(name_of(lesson), copy_of(lesson));
  return boot();
}

async function judge(lesson, question, given, told) {
  if (!question.run && !given.trim()) {
    told.className = "empty";
    told.textContent = question.choices ? "Choose an answer first." : "Write an answer first.";
    return;
  }
  told.replaceChildren("the machine runs it ..");
  told.className = "";
  try {
    if (app.work.name !== name_of(lesson)) programs.open_work(name_of(lesson), copy_of(lesson));
    if (!question.alone) {
      const refusal = await boot_shipped(lesson);
      if (refusal) throw new Error(refusal);
      await finish();
    }
    const { right, words, tried, place } = await question.judge(given, lesson);
    told.className = right ? "right" : "wrong";
    told.replaceChildren(
      right ? "Right. " : "Not so. ", (right ? words : [tried, question.hint].filter((it) => it).join(" ")) || "",
      place === undefined ? "" : " "
    );
    if (place !== undefined) told.append(element("button", { onclick: () => ask("go", { place }) }, "See it"));
    question.done = right || question.done;
    if (right) note_solved(lesson, question);
    tell("answered", {
      lesson: LESSONS.indexOf(lesson) + 1, question: lesson.questions.indexOf(question) + 1, is_right: right,
      is_solved: lesson.questions.every((it) => it.done),
    });
  } catch (error) {
    told.className = "wrong";
    told.textContent = String(error.message || error);
  }
}

function asked(lesson, question, number) {
  const told = element("p", { role: "status", "aria-live": "polite" }), name = `question-${number}`;
  const words = element("p", { id: name });
  words.innerHTML = question.ask;
  if (question.run) {
    return element(
      "div", { class: "ask" }, words,
      element("button", { class: "main", onclick: () => judge(lesson, question, "", told) }, "Try my program"), told
    );
  }
  const place = `${LESSONS.indexOf(lesson)} ${number}`;
  const note = (given) => { answers.set(place, given); tell("lesson"); };
  if (question.choices) {
    const choice = (it) => element("label", { style: "display:block" }, element("input", {
      type: "radio", name, value: it, checked: answers.get(place) === it, onchange: () => note(it),
    }), ` ${it}`);
    const chosen_in = (box) => box.querySelector("input:checked")?.value || "";
    const check = (event) => judge(lesson, question, chosen_in(event.target.parentElement), told);
    return element(
      "div", { class: "ask", role: "radiogroup", "aria-labelledby": name }, words, ...question.choices.map(choice),
      element("button", { class: "main", onclick: check }, "Check"), told
    );
  }
  const input = element("input", {
    "aria-labelledby": name, size: 14, autocomplete: "off", value: answers.get(place) ?? "",
    oninput: () => note(input.value),
  });
  const check = () => judge(lesson, question, input.value, told);
  input.addEventListener("keydown", (event) => { if (event.key === "Enter") check(); });
  return element(
    "div", { class: "ask" }, words, input, " ", element("button", { class: "main", onclick: check }, "Check"), told
  );
}

function open(lesson) {
  chosen = lesson;
  draw();
  tell("lesson");
  for (const question of lesson.questions) question.done = false;
  return load(lesson);
}

/** What is kept of the lessons: which one is open, and what was answered. */
export function kept_lesson() {
  return { number: LESSONS.indexOf(chosen), answers: Object.fromEntries(answers) };
}

/** Shows the lesson that was kept, and what was answered. */
export function open_kept(it) {
  for (const [name, given] of it.answers) answers.set(name, given);
  chosen = LESSONS[it.number] ?? null;
  draw();
}

/** Shows the lesson's copy in the editor. */
function edit(lesson) {
  if (app.work.name !== name_of(lesson)) load(lesson);
  globalThis.show_tab("programs");
}

function draw() {
  const panel = $("lessons");
  if (!chosen) {
    panel.replaceChildren(
      element("h2", {}, element("span", {}, "Six lessons"), help_button()),
      element(
        "p", { class: "dim" },
        "Each has a program and questions. Answer first; then the machine runs the program and tells whether you were right."
      ),
      element(
        "div", { class: "list" },
        ...LESSONS.map(
          (it, k) => element(
            "button", { onclick: () => open(it) }, `${k + 1}. ${it.name}`,
            solved_of(k).length ? ` · ${solved_of(k).length} of ${it.questions.length} solved` : "",
            element("small", {}, it.about)
          )
        )
      ),
      hand_in()
    );
    return;
  }
  const text = element("div"), at = LESSONS.indexOf(chosen);
  text.innerHTML = chosen.text;
  const to_all = element("button", { onclick: () => { chosen = null; draw(); } }, "← all lessons");
  panel.replaceChildren(
    element("h2", {}, to_all, help_button()), element("h3", {}, `${at + 1}. ${chosen.name}`), text,
    element("pre", {}, DATA.examples[chosen.example].files[0].text.trimEnd()),
    element(
      "div", { class: "bar" }, element("button", { onclick: () => load(chosen) }, "Boot it anew"),
      element("button", { onclick: () => edit(chosen) }, "Edit it")
    ),
    is_changed(name_of(chosen)) ? element(
      "p", { class: "dim" },
      "You have changed your copy of the program. The questions about it are about the program as it stands here."
    ) : "",
    ...chosen.questions.map((it, k) => asked(chosen, it, k)),
    element("p", {}, element("a", { href: manual_link(chosen.page) }, "The rules, in the manual")),
    at + 1 < LESSONS.length
      ? element("button", { onclick: () => open(LESSONS[at + 1]) }, `Next: ${LESSONS[at + 1].name} →`)
      : element("p", {}, "That was the last one. The course has more exercises."));
}

/** The link within the page to a page of the manual, as pipes.md or machine.md#rounds. */
const manual_link = (page) => `#manual=${page.replace(".md", "").replace("#", "&to=")}`;

/** How many questions each lesson has. */
export const questions = () => LESSONS.map((it) => it.questions.length);

/** Opens the lesson of a number, from 1 on, at one of its questions if that isn't 0. */
export async function open_lesson(number, question = 0) {
  globalThis.show_tab("lessons");
  await open(LESSONS[number - 1]);
  const asked = $("lessons").querySelectorAll(".ask")[question - 1];
  if (!asked) return;
  asked.scrollIntoView({ block: "center" });
  asked.querySelector("input, button")?.focus({ preventScroll: true });
}

function help_button() {
  return element(
    "button",
    {
      class: "help", "aria-label": "Help: lessons",
      onclick: () => {
        const body = $("dialog").querySelector("div");
        body.innerHTML = help_of("Lessons");
        $("dialog").showModal();
      },
    },
    "?"
  );
}

export function start() {
  draw();
  on("read", () => { take_solved(kept(SOLVED)); if (!chosen) draw(); });
  on_conflict(join_solved);
  on("touched", (work) => { if (chosen && work.name === name_of(chosen)) draw(); });
  globalThis.open_lesson = (number) => open_lesson(number + 1);
}
