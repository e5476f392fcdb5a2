// c_exercises.mjs PAGE.html FOLDER [NUMBER..]: exercises 5, 15 and 16 of the course, done on the page alone, from nothing,
// as a student without gcc does them: a new source is written, three mistakes are met and mended one by one, it is
// booted and tried, stepped through by lines of C, forth and back, and its source and its program are saved. What was
// saved is graded then (anywhere/grade.mjs), and has all points; `xv --check` finds nothing that is missing. The answers
// are those of checks/grading/answers. nektavoly-c.js has to lie beside the page (page/build_c.sh). It takes pictures.
// The status is 1 if something isn't as it should be. With BROWSER=firefox in Firefox.
import { spawnSync } from "node:child_process";
import { mkdirSync, mkdtempSync, readFileSync, rmSync, writeFileSync } from "node:fs";
import { tmpdir } from "node:os";
import { join } from "node:path";
import { fileURLToPath, pathToFileURL } from "node:url";
import { boot, comes, drop, edit, example, pause, source, text_of, type } from "./hand.mjs";
const { open } = await import(process.env.BROWSER === "firefox" ? "./firefox.mjs" : "./browser.mjs");

const [page_file, folder, ...numbers] = process.argv.slice(2), url = pathToFileURL(page_file).href;
const TOP = fileURLToPath(new URL("../../", import.meta.url)), read = (path) => readFileSync(join(TOP, path), "utf8");
mkdirSync(folder, { recursive: true });
let bad = 0;
const holds = (is, what) => { console.log(`${is ? "  " : "NOT"} ${what}`); if (!is) bad++; };
const where = (page) => text_of(page, "c-where");
const at = (page) => page.eval("page.app.view?.at");
const shows = (page, text, ms = 30000) => comes(page, `document.getElementById('screen').textContent.replace(/\\u00a0/g, ' ').includes(${JSON.stringify(text)})`, ms);
const mistakes = (page) => page.eval("[...document.querySelectorAll('#mistakes li')].map((it) => it.textContent)");
const button = (page, words) => page.eval(`[...document.querySelectorAll('#files button')].find((it) => it.textContent.replace(/ \\*$/, '') === ${JSON.stringify(words)}).click()`);
const take_away = async (page, name) => { await button(page, name); await page.click("[aria-label='Take this file away']"); };

// By number: the folder of its answer, the name of what is written, the files beside it, what is planted and the text in
// its place that mends it, what is typed, what shows then, and a line at which it is looked at.
const EXERCISES = {
  5: {
    sheet: "5-uptime", name: "uptime",
    planted: [['printf("%ld\\n"', 'printf("%ld\\n)'], ["return 0;", "return 0"], ["uptime()", "uptme()"]].map(([right, wrong]) => ({ right, wrong })),
    prepare: () => {}, typed: "sleep 3 ; uptime\n", shown: /^\d+\s*$/m, line: 6, next: 7,
  },
  15: {
    sheet: "15-shell", name: "sh",
    planted: [["close(from);\n}", "close(form);\n}"], ["int pids[PARTS],", "int pids[PARTS]"], ["input = ends[0];", "input = ends[0]"]].map(([right, wrong]) => ({ right, wrong })),
    prepare: async (page) => {
      await take_away(page, "sh");
      await drop(page, [["words", JSON.stringify("alpha\nbeta\ngamma\n")], ["rc", JSON.stringify("wc < words\ncat < words | grep a | wc\necho hi\n")]]);
    },
    typed: "", shown: /3 3 17\s+\[0\]\s+3 3 17\s+\[0 0 0\]\s+hi\s+\[0\]/, line: 116, next: 118,
  },
  16: {
    sheet: "16-heap", name: "heap",
    planted: [["piece->next = *place;\n    *place = piece;\n    if", "piece->nxt = *place;\n    *place = piece;\n    if"], ["return NULL;\n}", "return NULL\n}"], ["case GIVE:\n        give(", "case GIVE:\n        giv("]].map(([right, wrong]) => ({ right, wrong })),
    prepare: async (page) => {
      await page.eval("page.programs.set_files([])");
      const init = [...readFileSync(join(TOP, "programs/course/heap/init"))];
      await drop(page, [["init", `new Uint8Array(${JSON.stringify(init)})`], ["heap.h", JSON.stringify(read("programs/course/heap/heap.h"))], ["plan", JSON.stringify("1 17 20 140000\n")]]);
    },
    typed: "", ended: 0, line: 92, next: 93,
  },
};

/** A new source of this name, with this text. */
async function write_new(page, name, text) {
  await page.eval(`(() => { const old = globalThis.prompt; globalThis.prompt = () => ${JSON.stringify(name)}; document.querySelector('[aria-label="A new source"]').click(); globalThis.prompt = old; })()`);
  await page.eval(`(() => { const it = document.getElementById('source'); it.value = ${JSON.stringify(text)}; it.dispatchEvent(new Event('input')); })()`);
}

/** The three mistakes are told at once, or as those before them are mended, each with its line; mended one by one. */
async function mend(page, { planted, name }, right) {
  for (let left = planted.length; left > 0; left--) {
    await comes(page, "document.querySelectorAll('#mistakes button').length > 0", 15000);
    const told = await mistakes(page), place = /line (\d+)/.exec(told.find((it) => /^line/.test(it)) ?? "")?.[1];
    holds(place !== undefined, `${name}.c with ${left} mistakes: ${told.slice(0, 4).join(" | ")}`);
    await page.click("#mistakes button");
    const caret = await page.eval("document.getElementById('source').value.slice(0, document.getElementById('source').selectionStart).split('\\n').length");
    holds(String(caret) === place, `a click goes to line ${place}`);
    // The one that stands nearest to where it is told.
    const text = await source(page), line_of = ({ wrong }) => text.slice(0, text.indexOf(wrong)).split("\n").length;
    const there = planted.filter((it) => text.includes(it.wrong) && !text.includes(it.right));
    const first = there.sort((a, b) => Math.abs(line_of(a) - caret) - Math.abs(line_of(b) - caret))[0];
    await edit(page, first.wrong, first.right);
    await page.sleep(700);
  }
  holds(await comes(page, "document.getElementById('mistake').textContent.startsWith('compiles') && document.querySelectorAll('#mistakes li').length === 0", 15000), `mended: ${await text_of(page, "mistake")}`);
  holds((await source(page)) === right, "it is what was meant");
}

/** Steps by lines, forth and back, from a break point beside a line. */
async function steps(page, { name, line, next, typed }) {
  await page.eval(`[...document.querySelectorAll('#editor .gutter div')].find((it) => it.dataset.line === '${line}').click()`);
  await boot(page);
  if (typed) { await page.until("document.getElementById('screen').textContent.includes('$ ')"); await type(page, typed); }
  await comes(page, "page.app.view?.playing === false && page.app.view.stopped.startsWith('at ')", 20000);
  await page.sleep(300);
  holds((await where(page)) === `main, ${name}.c:${line}`, `a break point beside line ${line}: ${await where(page)}`);
  const step = async (selector) => {
    const before = await at(page), drawn = await page.eval("page.drawn()");
    await page.click(selector);
    await comes(page, `page.app.view?.at !== ${before} && page.drawn() > ${drawn}`, 20000);
    await page.sleep(200);
    return where(page);
  };
  const from = await at(page), there = await step('[data-line-step="over"]:not([data-way])');
  holds(there === `main, ${name}.c:${next}`, `a line on: ${there}`);
  await page.picture(`${folder}/c-exercise-${name}.png`);
  const back = await step('[data-line-step="over"][data-way]');
  holds(back === `main, ${name}.c:${line}` && (await at(page)) <= from, `a line back: ${back}`);
  await page.eval(`[...document.querySelectorAll('#editor .gutter div')].find((it) => it.dataset.line === '${line}').click()`);
}

/** What the buttons save: {name: bytes}. */
async function saved(page, { name }) {
  await page.eval("globalThis.saved = []; HTMLAnchorElement.prototype.click = function () { const { download, href } = this; fetch(href).then((it) => it.arrayBuffer()).then((it) => saved.push([download, [...new Uint8Array(it)]])); }");
  await button(page, `${name}.c`);
  await page.click("#save");
  await page.click("#save-program");
  await comes(page, "saved.length === 2", 15000);
  return Object.fromEntries((await page.eval("saved")).map(([it, bytes]) => [it, Uint8Array.from(bytes)]));
}

/** Grades what was saved, as a teacher does, and checks it, as a student does. */
function graded({ sheet, name }, files, room) {
  const student = join(room, "class", `anna ${name}`);
  mkdirSync(student, { recursive: true });
  for (const [it, bytes] of Object.entries(files)) writeFileSync(join(student, it), bytes);
  const run = (words) => spawnSync(process.execPath, words, { cwd: TOP, encoding: "utf8" });
  const grade = run(["anywhere/grade.mjs", "--work", join(room, sheet), `programs/course/exercises/${sheet}.toml`, student]);
  const [heads, row] = grade.stdout.trim().split("\n").map((it) => it.split(",")), of = (column) => row?.[heads.indexOf(column)];
  holds(grade.status === 0 && of("points") === of("of") && Number(of("of")) > 0, `graded: ${of("points")} of ${of("of")} points ${grade.stderr.slice(0, 300)}`);
  const check = run(["xv.mjs", "--check", `programs/course/check/${sheet}.json`, student, "--name", "anna"]);
  holds(check.status === 0, `xv --check: ${check.stdout.trim().split("\n").slice(-2).join(" / ")} ${check.stderr.slice(0, 300)}`);
}

async function exercise(it, room) {
  const page = await open(url, { width: 1400, height: 950 }), right = read(`checks/grading/answers/${it.sheet}/right/${it.name}.c`);
  try {
    await example(page, "shell");
    await it.prepare(page);
    const wrong = it.planted.reduce((text, one) => text.replace(one.right, one.wrong), right);
    await write_new(page, `${it.name}.c`, wrong);
    await mend(page, it, right);
    await page.picture(`${folder}/c-exercise-${it.name}-written.png`);
    await page.eval("show_tab('instruction')");
    await steps(page, it);
    if (await page.eval("!page.app.view.playing")) await page.click("#play");
    if (it.ended === undefined) {
      const words = it.shown.source;
      holds(await comes(page, `new RegExp(${JSON.stringify(words)}, 'm').test(document.getElementById('screen').textContent)`, 30000), `it does what is asked: ${(await text_of(page, "screen")).trim().slice(-60)}`);
    } else {
      holds(await comes(page, `page.app.view?.facts.halted && page.app.view.facts.status === ${it.ended}`, 60000), "the checker ends with 0");
    }
    await pause(page);
    const files = await saved(page, it);
    holds(JSON.stringify(Object.keys(files).sort()) === JSON.stringify([it.name, `${it.name}.c`].sort()), `saved: ${Object.entries(files).map(([name, bytes]) => `${name}, ${bytes.length} bytes`).join("; ")}`);
    graded(it, files, room);
  } catch (error) {
    holds(false, `${it.name}: ${error.stack}`);
    await page.picture(`${folder}/c-exercise-error.png`).catch(() => {});
  }
  holds(page.logs.length === 0, `no errors of the page: ${page.logs.join("; ")}`);
  await page.close();
}

const room = mkdtempSync(join(tmpdir(), "c-exercises-"));
for (const [number, it] of Object.entries(EXERCISES).filter(([number]) => !numbers.length || numbers.includes(number))) {
  console.log(`exercise ${number}`);
  await exercise(it, room);
}
rmSync(room, { recursive: true, force: true });
console.log(bad ? `${bad} not as they should be` : `exercises ${Object.keys(EXERCISES).join(", ")} are done on the page alone, with all points; pictures in ${folder}`);
process.exit(bad ? 1 : 0);
