// outside.mjs PAGE.html FOLDER [NAME..]: a hundred bad links, files, records, tables and kept values: after each of
// them a machine stands, what was wrong is said in the list of messages, and the page has no error. With names only
// these parts are tried. The status is 1 if something isn't as it should be.
import { mkdirSync } from "node:fs";
import { pathToFileURL } from "node:url";
import { comes, drop, example, is_booted, type } from "./hand.mjs";
const { open } = await import(process.env.BROWSER === "firefox" ? "./firefox.mjs" : "./browser.mjs");

const [page_file, folder, ...names] = process.argv.slice(2), url = pathToFileURL(page_file).href;
mkdirSync(folder, { recursive: true });
let bad = 0, tried = 0;
const holds = (is, what) => { console.log(`${is ? "  " : "NOT"} ${what}`); if (!is) bad++; };
const short = (text) => (text.length > 90 ? `${text.slice(0, 90)}..` : text);
const problems = (page) => page.eval("page.problems()");
const dismiss = (page) => page.eval("document.getElementById('messages-dismiss').click()");
const stands = "page.app.booted && page.app.view && document.documentElement.dataset.place !== 'coming'";

/** Whether a machine stands after an action, and at least one message says what was wrong. */
async function told(page, what, action) {
  tried++;
  await dismiss(page);
  await action();
  const is = (await comes(page, "page.problems().length > 0", 15000)) && (await comes(page, stands, 15000));
  const words = await problems(page);
  if (!is) holds(false, `${short(what)}: ${words.length ? "no machine stands" : "nothing is said"}`);
  return words;
}

// ---- links

const LINKS = [
  "example=constructor", "example=__proto__", "example=toString", "example=", "example=nothing", "example=hello%00",
  "example=%E0%A4%A", "example=../hello", "example=HELLO", "lesson=0", "lesson=7", "lesson=-1", "lesson=1.5",
  "lesson=one", "lesson=constructor", "lesson=1&question=99", "lesson=1&question=0", "lesson=2&question=x", "question=1",
  "tab=zzz", "tab=__proto__", "tab=", "pid=99", "pid=0", "pid=-1", "pid=x", "pid=1e9", "example=fork&at=fork&pid=99",
  "example=fork&at=nowhere", "example=fork&at=fork.0", "example=fork&at=fork.x", "example=fork&at=-5",
  "example=fork&at=constructor", "example=fork&at=__proto__", "example=fork&at=fork.999", "example=fork&at=1e5",
  "example=fork&frames=5", "example=fork&frames=99999999", "example=fork&frames=x", "example=fork&frames=15",
  "example=fork&rounds=0", "example=fork&rounds=-1", "example=fork&rounds=x", "example=hello&at=1&address=",
  "example=hello&at=1&access=jump", "example=hello&at=1&show=nothing", "example=hello&at=1&show=constructor",
  "example=hello&view=other", "manual=constructor", "manual=__proto__", "manual=nothing", "foo=bar", "__proto__=1",
  "constructor=1", "run=", "run=!!!", "run=abc", "run=AAAA", "run=____", "run=a".padEnd(40000, "a"), "example=x".padEnd(9000, "y"),
  "example=fork&at=fork&beside=1", "example=fork&at=fork&beside=1,99", "example=fork&at=1&beside=1,2", "beside=x,y",
  "beside=__proto__", "beside=0,1", "memory=", "slides=abc", "slides=!!!", "slides=", "slides=q1YqUrKqBQA",
];

async function links(page) {
  for (const link of LINKS) await told(page, link, () => page.eval(`location.hash = ${JSON.stringify(link)}`));
  await page.picture(`${folder}/outside-links.png`);
  holds(true, `${LINKS.length} bad links`);
  const words = await told(page, "several", () => page.eval("location.hash = 'example=fork&at=fork&tab=zzz&pid=99&foo=1'"));
  holds(["tab=zzz", "process 99", "foo=1"].every((it) => words.some((one) => one.includes(it))), `each is said: ${words.join(" ")}`);
  holds((await page.eval("page.app.booted.work")).startsWith("fork"), "and what is good of it is followed");
  await page.key("Escape");
  await page.key("x");
  await page.eval("document.getElementById('share').click()");
  holds(await comes(page, "document.getElementById('dialog').open", 15000), "Share opens");
  await page.eval("document.getElementById('dialog').close()");
  holds((await problems(page)).length === words.length, "no later message, key or click wipes them");
  await page.picture(`${folder}/outside-messages.png`);
}

// ---- values that are packed

const RUN = { built: "x", files: [], frames: 16, how: {}, events: "R", at: 0, end: 1, keys: [] };
const VALUES = [
  null, 1, "text", [], {}, { files: null }, { files: 5 }, { files: [null] }, { files: [5] }, { files: [[]] },
  { files: [[5, "x"]] }, { files: [["x", 5]] }, { files: [["x", null, "!!"]] }, { files: [["nothing"]] },
  { files: [["constructor"]] }, { files: [["__proto__"]] }, { files: [] }, { files: [["init.s", "nonsense\n"]] },
  { files: [["init.s", "  ecall\n"]], frames: "many" }, { files: [["init.s", "  ecall\n"]], frames: 5 },
  { files: [["init.s", "  ecall\n"]], frames: 1e9 }, { files: [["init.s", "  ecall\n"]], quantum: -1 },
  { files: [["init.s", "  ecall\n"]], keys: 5 }, { files: [["init.s", "  ecall\n"]], breaks: 5 },
  { files: [["init.s", "  ecall\n"]], breaks: [null] }, { files: [["init.s", "  ecall\n"]], breaks: [{ kind: "x" }] },
  { files: [["init.s", "  ecall\n"]], stops: [[{ line: "x" }]] }, { files: [["init.s", "  ecall\n"]], run: 5 },
  { files: [["init.s", "  ecall\n"]], run: { ...RUN, events: "Rzzzzzzzzz" } },
  { files: [["init.s", "  ecall\n"]], run: { ...RUN, events: "X" } }, { files: [["init.s", "  ecall\n"]], run: { ...RUN, files: 5 } },
  { files: [["init.s", "  ecall\n"]], run: { ...RUN, keys: [999] } }, { files: [["init.s", "  ecall\n"]], run: { ...RUN, at: "x" } },
  { files: [["init.s", "  ecall\n"]], breaks: [{ kind: "call", name: "write", condition: "a0 is 5" }] },
  { files: [["init.s", "  ecall\n"]], breaks: [{ kind: "call", name: "write", condition: 5 }] },
  { files: [["init.s", "  ecall\n"]], breaks: [{ kind: "store", name: "0x10", of: 5 }] },
  { files: [["init.s", "  ecall\n"]], stops: [[{ line: 1, text: "ecall", condition: "__proto__ == 1" }]] },
  { files: [["init.s", "  ecall\n"]], run: { ...RUN, marks: 5 } }, { files: [["init.s", "  ecall\n"]], run: { ...RUN, marks: "a b" } },
  { files: [["init.s", "  ecall\n"]], run: RUN }, { files: Array.from({ length: 300 }, (_, k) => [`f${k}`, "x"]) },
];
/** A value as a link packs it; of a page that is there. */
const packed = (page, value) => page.eval(`(async () => {
  const stream = new Blob([${JSON.stringify(JSON.stringify(value))}]).stream().pipeThrough(new CompressionStream('deflate-raw'));
  const bytes = new Uint8Array(await new Response(stream).arrayBuffer());
  return btoa(String.fromCharCode(...bytes)).replace(/\\+/g, '-').replace(/\\//g, '_').replace(/=+$/, '');
})()`);

async function values(page) {
  for (const value of VALUES) {
    const text = await packed(page, value), words = JSON.stringify(value);
    await told(page, `a link with ${words}`, () => page.eval(`location.hash = 'run=${text}'`));
  }
  for (const value of VALUES.slice(0, 12)) {
    const text = await packed(page, value);
    await told(page, `a file with ${JSON.stringify(value)}`, () => drop(page, [["run.txt", JSON.stringify(`nektavoly 1\n${text}\n`)]]));
  }
  holds(true, `${VALUES.length} values in links, and 12 in files`);
  await page.picture(`${folder}/outside-values.png`);
}

// ---- records, tables, other files

const HEAD = "xv record 1\nframes 64\n", SUM = "0".repeat(64);
const RECORDS = [
  "xv record 1\n", `${HEAD}events\nrun 5\n`, `${HEAD}events\nrun x\nend\n`, `${HEAD}events\nrun -1\nend\n`,
  `${HEAD}events\nrun 99999999999999\nend\n`, `${HEAD}events\nrun 999999999999\nend\n`, `${HEAD}events\nkey 256\nend\n`,
  `${HEAD}events\nhop 1\nend\n`, "xv record 1\nframes x\nevents\nend\n", "xv record 1\nframes 99999\nevents\nend\n",
  `${HEAD}program ${SUM} 5 init\nevents\nend\n`, `${HEAD}program\nevents\nend\n`, `${HEAD}constructor 1\nend\n`,
];
const TABLES = ["function 0 x main\n", "0 16\nfile wc.c\n-1 7\n", "frame 0 sp x 0 0\n", "frame 0 constructor 1 1 1\n", "0 1 2 3\n"];

const SOURCE = "  li a0, 3\n  li a7, 2\n  ecall\n";

/** What is told of records of which something is left out, and of a run beside other files. */
async function told_of_records(page) {
  await type(page, "echo one\n");
  await page.until("/one\\s+one/.test(document.getElementById('screen').textContent)");
  const text = await page.eval("page.sharing.run_as_record()"), cut = text.slice(0, -20), mark = "\ufeff";
  const says = async (what, content, wanted) => {
    const words = await told(page, what, () => drop(page, [["r.txt", JSON.stringify(content)]]));
    holds(words.some((it) => it.includes(wanted)), `${what}: ${words.join(" ")}`);
  };
  for (const [form, of] of [["", (it) => it], [" with returns", (it) => it.replaceAll("\n", "\r\n")]]) {
    await says(`a record that is cut off${form}`, of(cut), "r.txt: cut off: it is played up to its last whole line");
    await says(`a record with more behind its end${form}`, of(`${text}more`), "what stands after its line `end` is left out");
  }
  await says("a record whose last line has no line break", text.trimEnd(), "cut off");
  await says("a record with another mark before it", mark + text, "isn't played: not a record");
  await says("a record with a number in another form", text.replace(/run (\d)/, "run 0$1"), "otherwise than a record is");
  await dismiss(page);
  const before = await page.eval("page.app.files.length");
  await drop(page, [["r.txt", JSON.stringify(text)], ["own.s", JSON.stringify(SOURCE)]]);
  const is_taken = (await page.eval("page.app.files.length")) === before + 1 && !(await problems(page)).length;
  holds(is_taken && (await comes(page, stands)), "a source that comes after a record is taken too");
  const words = await told(page, "two records", () => drop(page, [["one.txt", JSON.stringify(text)], ["two.txt", JSON.stringify(text)]]));
  holds(words.some((it) => it.includes("two.txt: one run")), `of two records one is played, and the other told: ${words.join(" ")}`);
  const large = await told(page, "a large file and a record", () => drop(page, [["big", "new Uint8Array((1 << 20) + 1)"], ["r.txt", JSON.stringify(text)]]));
  holds(large.some((it) => it.includes("big")), "a file that is refused before a record is told");
}

async function files(page) {
  await told_of_records(page);
  for (const text of RECORDS) await told(page, `the record ${JSON.stringify(text)}`, () => drop(page, [["r.txt", JSON.stringify(text)]]));
  await example(page, "shell");
  for (const text of TABLES) {
    const table = `function 0 8 main\nfile wc.c\n0 5\n${text}`;
    await told(page, `the table ${JSON.stringify(text)}`, async () => {
      await page.eval("page.app.work.files = page.app.work.files.filter((it) => !it.name.startsWith('wc')); 0");
      await drop(page, [["wc", "Uint8Array.from(atob(PAGE_DATA.programs.wc), (it) => it.charCodeAt(0))"], ["wc.lines", JSON.stringify(table)]]);
      await is_booted(page, "document.getElementById('boot').click()");
    });
  }
  await told(page, "a file that is too large", () => drop(page, [["big", "new Uint8Array((1 << 20) + 1)"]]));
  await told(page, "a file that can't be read", () => page.eval("page.programs.take([{ name: 'gone', size: 5, slice() { throw new Error('it is gone'); } }])"));
  holds(true, `${RECORDS.length} records, ${TABLES.length} tables, and files`);
}

// ---- what the page begins with

async function begins(page) {
  for (const link of ["example=constructor", "example=fork&frames=16&tab=zzz", "run=AAAA", `run=${await packed(page, {})}`, "tab=zzz", "pid=99"]) {
    await page.go(`${url}?${Math.random()}#${link}`);
    const is = (await comes(page, "page.problems().length > 0")) && (await comes(page, stands));
    holds(is, `the page begins with #${short(link)}: ${(await problems(page)).join(" ")}`);
  }
  holds(await comes(page, "document.getElementById('screen').textContent.includes('$ ')"), "and the shell stands");
}

/** A panel that can't be drawn says so, and shows nothing of before; the others go on, and so does it, later. */
async function panels(page) {
  await example(page, "shell");
  await page.until("document.getElementById('screen').textContent.includes('$ ')");
  await page.eval("show_tab('instruction')");
  await page.sleep(300);
  await page.eval("window.right_symbols = page.app.booted.symbols; page.app.booted.symbols = page.app.booted.files.map(() => ({ get table() { throw new Error('the table is damaged'); }, get names() { throw new Error('the table is damaged'); } })); 0");
  await type(page, "echo x\n");
  holds(await comes(page, "document.querySelector('#instruction > .failed-note')?.textContent.includes('the table is damaged')"), "a panel that fails says so");
  holds(await page.eval("document.getElementById('registers').offsetHeight === 0 && document.getElementById('code').offsetHeight === 0"), "and shows nothing of before");
  holds(await comes(page, "/x\\s+x/.test(document.getElementById('screen').textContent)"), "the others go on");
  await page.picture(`${folder}/outside-panel.png`);
  await page.eval("page.app.booted.symbols = window.right_symbols; 0");
  await type(page, "echo y\n");
  holds(await comes(page, "!document.querySelector('#instruction.failed') && document.getElementById('registers').offsetHeight > 0"), "and so does it, once it can");
}

const PARTS = { links, values, files, begins, panels };
for (const [name, part] of Object.entries(PARTS)) {
  if (names.length && !names.includes(name)) continue;
  const page = await open(url, { width: 1400, height: 950 });
  await page.until("document.getElementById('screen').textContent.includes('$ ')").catch(() => {});
  try {
    await part(page);
    if (name !== "panels") {
      await example(page, "hello");
      await example(page, "shell");
      await page.until("document.getElementById('screen').textContent.includes('$ ')");
      await type(page, "echo alive\n");
      holds(await comes(page, "/alive\\s+alive/.test(document.getElementById('screen').textContent)", 15000), `${name}: the page lives`);
    }
  } catch (error) {
    holds(false, `${name}: ${error.stack}`);
    await page.picture(`${folder}/error-${name}.png`).catch(() => {});
  }
  await page.close();
  const errors = page.logs.filter((it) => !/^(instruction|c_source), /.test(it));
  holds(errors.length === 0, `${name}: no errors of the page: ${errors.join("; ")}`);
}
console.log(bad ? `${bad} not as they should be` : `${tried} bad things from outside: a machine stands after each, and it is said`);
process.exit(bad ? 1 : 0);
