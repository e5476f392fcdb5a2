// c.mjs PAGE.html FOLDER [NAME..]: programs in C, as one who reads their source would try them: lines, calls, steps by
// lines and back, break points at lines, a dropped program with the table of its lines; the reports of Why; and how
// fast the machine runs beside break points. It takes pictures: desktop and phone, light and dark. With names only
// these checks are made. The status is 1 if something isn't as it should be. With BROWSER=firefox in Firefox.
import { spawnSync } from "node:child_process";
import { mkdirSync, mkdtempSync, readFileSync, rmSync, writeFileSync } from "node:fs";
import { tmpdir } from "node:os";
import { pathToFileURL } from "node:url";
import { boot, choose, comes, example, is_booted, message, pause, text_of, type } from "./hand.mjs";
const { open } = await import(process.env.BROWSER === "firefox" ? "./firefox.mjs" : "./browser.mjs");

const [page_file, folder, ...names] = process.argv.slice(2), url = pathToFileURL(page_file).href, root = new URL("../..", import.meta.url).pathname;
mkdirSync(folder, { recursive: true });
let bad = 0;
const holds = (is, what) => { console.log(`${is ? "  " : "NOT"} ${what}`); if (!is) bad++; };
const at = (page) => page.eval("page.app.view?.at");
const where = (page) => text_of(page, "c-where");
const calls = (page) => page.eval("[...document.querySelectorAll('#c-calls li')].map((it) => it.textContent.trim())");
const picture = (page, name) => page.picture(`${folder}/c-${name}.png`);
const look_at = (page) => page.eval("document.getElementById('c-source').scrollIntoView()");

/** The shell of the page, with the break points of a work that is as it was shipped. */
async function shell(page) {
  await page.eval("page.app.work.breaks = []");
  await example(page, "hello");
  await example(page, "shell");
  await page.eval("page.app.work.breaks = []; show_tab('instruction')");
  await page.until("document.getElementById('screen').textContent.includes('$ ')");
}

async function stop_at(page, name, kind = "address") {
  await choose(page, "break-kind", kind);
  await page.eval(`document.getElementById('break-where').value = ${JSON.stringify(name)}; document.getElementById('break-add').click()`);
}

async function step(page, how, is_back = false) {
  const before = await at(page), drawn = await page.eval("page.drawn()");
  await page.click(`[data-line-step="${how}"]${is_back ? "[data-way]" : ":not([data-way])"}`);
  await comes(page, `page.app.view?.at !== ${before} && page.drawn() > ${drawn}`, 5000);
  // The calls come after that: the first one of a program is where it starts.
  await comes(page, "document.querySelector('#c-calls li:last-child')?.textContent.includes('_start')", 2000);
  return where(page);
}

/** Types a command, and waits for the break point. */
async function stopped(page, command) {
  await type(page, command);
  await comes(page, "page.app.view?.playing === false && page.app.view.stopped.startsWith('at ')", 20000);
  await page.sleep(400);
}

// ---- lines, calls and steps

async function lines(page) {
  await shell(page);
  await stop_at(page, "count");
  await stopped(page, "echo a b | wc\n");
  holds((await where(page)) === "count, wc.c:16", `the line that is next: ${await where(page)}`);
  holds(JSON.stringify(await calls(page)) === JSON.stringify(["count wc.c:16", "main wc.c:40", "_start start.S:5"]), `the calls that led there: ${(await calls(page)).join(", ")}`);
  holds(await page.eval("document.querySelector('#c-text .pc').textContent.includes('{') && [...document.querySelectorAll('#code .from')].some((it) => it.textContent.includes('struct counts counts'))"), "the source, with its line marked, and the lines beside the instructions");
  await look_at(page);
  await picture(page, "lines");
  const first = await at(page), seen = [];
  for (const how of ["over", "over", "over", "over", "into"]) seen.push([await at(page), await step(page, how)]);
  holds(seen.at(-1)[1] === "count, wc.c:23", `over lines, to the loop: ${seen.map((it) => it[1].replace(/.*:/, "")).join(", ")}`);
  await step(page, "over");
  const before = await at(page), inner = await step(page, "into");
  holds(/^(read_from|next_byte), input\.c:\d+$/.test(inner), `into a function: ${inner}`);
  holds((await calls(page)).length === 4, `with its caller: ${(await calls(page)).join(", ")}`);
  await picture(page, "into");
  const outer = await step(page, "out");
  holds(outer.startsWith("count, wc.c:"), `out of it: ${outer}`);
  await step(page, "out");
  holds((await where(page)).startsWith("main, wc.c:"), `out of count: ${await where(page)}`);
  const end = await at(page), back = await step(page, "out", true);
  holds(back.startsWith("main, wc.c:") && (await at(page)) === end && (await text_of(page, "clock")).includes("no line begins before this place"), `nothing called main: ${back}`);
  const into = await step(page, "into", true);
  holds(into.startsWith("count, wc.c:") && (await at(page)) < end, `back into the function that has returned: ${into}`);
  const call = await step(page, "out", true);
  holds(call === "main, wc.c:40" && (await at(page)) < first, `back to the call of it: ${call}`);
  await page.eval(`page.ask('go', { place: ${before} })`);
  await page.until(`page.app.view?.at === ${before}`);
  const there = await step(page, "over", true), again = await at(page);
  await step(page, "over");
  holds(again < before && (await at(page)) <= before, `a line back, and over it again: ${there}`);
  // By keys, and the line of a caller.
  await page.eval(`document.activeElement.blur(); page.ask('go', { place: ${first} })`);
  await page.until(`page.app.view?.at === ${first}`);
  const drawn = await page.eval("page.drawn()");
  await page.key("l");
  await comes(page, `page.app.view?.at > ${first} && page.drawn() > ${drawn}`);
  holds((await at(page)) > first, "L goes over a line");
  await comes(page, "document.querySelectorAll('#c-calls button').length > 1");
  await page.eval("document.querySelectorAll('#c-calls button')[1].click()");
  holds((await where(page)) === "main, wc.c:40", "a click on a call shows its line");
  await page.eval("page.app.work.breaks = []");
}

// ---- break points at lines

async function stops(page) {
  await shell(page);
  await stop_at(page, "echo.c:999");
  holds((await message(page)).startsWith("No such label"), `a line without instructions is told: ${await message(page)}`);
  await stop_at(page, "echo.c:7");
  await stopped(page, "echo one two\n");
  holds((await where(page)) === "main, echo.c:7", `a line by its name: ${await where(page)}`);
  await page.eval("page.app.work.breaks = []; [...document.querySelectorAll('#c-text div:not(.no) button')].at(-1).click()");
  const [stop] = await page.eval("page.app.work.breaks.map((it) => it.name + ' ' + it.program)");
  holds(/^echo\.c:\d+ echo$/.test(stop), `a click beside a line sets a break point: ${stop}`);
  holds(await page.eval("document.querySelectorAll('#c-text .stop').length === 1"), "it has a sign");
  await picture(page, "stop");
  await page.eval("document.querySelector('#c-text .stop button').click()");
  holds(await page.eval("page.app.work.breaks.length === 0 && document.querySelectorAll('#c-text .stop').length === 0"), "a second click takes it away");
}

/** From a break point Play goes on, also while bytes wait to be sent. */
async function goes_on(page) {
  await shell(page);
  await stop_at(page, "wc.c:24");
  await stopped(page, "echo a b | wc\n");
  const places = [await at(page)];
  for (let k = 0; k < 3; k++) {
    await page.click("#play");
    await page.sleep(400);
    await comes(page, "page.app.view?.playing === false");
    places.push(await at(page));
  }
  const steps = places.slice(1).map((it, k) => it - places[k]);
  holds(steps.every((it) => it > 10) && (await where(page)) === "count, wc.c:24", `from break point to break point: ${places.join(", ")}`);
  await page.eval("page.app.work.breaks = []");
  await shell(page);
  await stop_at(page, "primes.c:59");
  await stopped(page, "primes 12\n");
  const first = await at(page);
  await page.click("#play");
  await page.sleep(600);
  await comes(page, "page.app.view?.playing === false");
  holds((await at(page)) > first && (await text_of(page, "clock")).includes("at primes.c:59"), `also while bytes are sent: ${first}, ${await at(page)}`);
  // In the past too: back to the first place, and on from there.
  await page.eval(`page.ask('go', { place: ${first} })`);
  await page.until(`page.app.view?.at === ${first}`);
  const next = await page.eval("page.app.line.end");
  await page.click("#play");
  await comes(page, `page.app.view?.playing === false && page.app.view.at > ${first}`);
  await page.sleep(300);
  holds((await at(page)) <= next && (await text_of(page, "clock")).includes("at primes.c:59"), `and in the past: ${await at(page)}`);
  await page.eval("page.app.work.breaks = []");
}

// ---- a program that is dropped

async function dropped(page) {
  const bytes = [...readFileSync(`${root}programs/bin/wc`)], table = readFileSync(`${root}programs/c/tables/wc.lines`, "utf8"), text = readFileSync(`${root}programs/c/src/wc.c`, "utf8");
  await shell(page);
  const drop = (list) => page.eval(`page.programs.take([${list.map(([name, content]) => `new File([${content}], ${JSON.stringify(name)})`).join(", ")}])`);
  await drop([["wc", `new Uint8Array(${JSON.stringify(bytes)})`], ["wc.lines", JSON.stringify(table)], ["wc.c", JSON.stringify(text)]]);
  await boot(page);
  await page.until("document.getElementById('screen').textContent.includes('$ ')");
  holds(!(await page.eval("page.app.booted.files.some((it) => it.name === 'wc.lines')")), "the table of lines is no file of the machine");
  await stop_at(page, "wc.c:22");
  await stopped(page, "wc\n");
  holds((await where(page)) === "count, wc.c:22", `a dropped program with its table and source: ${await where(page)}`);
  await picture(page, "dropped");
  await page.eval("page.app.work.breaks = []");
  await page.click("#as-shipped");
}

// ---- a program of one's own, built without -O, whose frames lie from s0 on

const OWN = "#include <stdio.h>\n\nstatic int sum_to(int n)\n{\n    if (n == 0)\n        return 0;\n    int rest = sum_to(n - 1);\n    return n + rest;\n}\n\nint main(void)\n{\n    printf(\"%d\\n\", sum_to(4));\n    return 0;\n}\n";

async function own(page) {
  const room = mkdtempSync(`${tmpdir()}/own-`), from = (name) => readFileSync(`${room}/${name}`);
  writeFileSync(`${room}/own.c`, OWN);
  const { status } = spawnSync(`${root}programs/c/build.sh`, [`${room}/own.c`], { env: { ...process.env, CFLAGS: "-O0" }, stdio: "ignore" });
  if (status !== 0) { console.log("   left out, a program of one's own: there is no C compiler for RISC-V"); rmSync(room, { recursive: true }); return; }
  const [bytes, table] = [[...from("own")], from("own.lines").toString()];
  rmSync(room, { recursive: true });
  await shell(page);
  await page.eval(`page.programs.take([new File([new Uint8Array(${JSON.stringify(bytes)})], "own"), new File([${JSON.stringify(table)}], "own.lines"), new File([${JSON.stringify(OWN)}], "own.c")])`);
  await boot(page);
  await page.until("document.getElementById('screen').textContent.includes('$ ')");
  await stop_at(page, "own.c:6");
  await stopped(page, "own\n");
  const deep = await calls(page);
  holds(deep.length === 7 && deep.filter((it) => it.startsWith("sum_to own.c:7")).length === 4 && deep[5] === "main own.c:13", `a function that calls itself, with all its callers: ${deep.join(", ")}`);
  await picture(page, "own");
  const seen = [];
  for (const how of ["out", "over", "out", "over"]) seen.push(await step(page, how));
  holds(seen.join() === "sum_to, own.c:7,sum_to, own.c:8,sum_to, own.c:7,sum_to, own.c:8" && (await calls(page)).length === 5, `out of it, and over a line: ${seen.join("; ")}`);
  const back = await step(page, "over", true);
  holds(back === "sum_to, own.c:7" && (await calls(page)).length === 5, `back over the call, in the same one of them: ${back}`);
  await page.eval("page.app.work.breaks = []");
  await page.click("#as-shipped");
}

// ---- why

const told = (page) => text_of(page, "why-told");

async function why(page) {
  await shell(page);
  await page.eval("show_tab('why')");
  await type(page, "crash 13\n");
  await comes(page, "document.getElementById('why-told').textContent.includes('crash.c:')", 20000);
  holds(/process 3 \(crash\): load from 0x2000000000, which may not be read, at pc 0x[0-9a-f]+ <main\+0x[0-9a-f]+>, crash\.c:\d+: lb a5, 0\(a5\)/.test(await told(page)), `the report of a fault: ${(await told(page)).slice(0, 150)}`);
  await comes(page, "document.getElementById('why-told').textContent.includes('a line of keys wakes it')");
  holds(/process 1 \(init\) sleeps in wait, for a child to end.*process 2 is its child/.test(await told(page)) && /process 2 \(sh\) sleeps in read on descriptor 0, the console.*a line of keys wakes it/.test(await told(page)), "who sleeps on what, and who could wake it");
  holds(/sleeps in read on descriptor 0, the console/.test(await text_of(page, "process-rows")), "the processes have the same words");
  await page.eval("document.querySelector('.fault details').open = true");
  await picture(page, "why");
  holds(/ra 0x[0-9a-f]+ {2}sp 0x/.test(await told(page)), "with the registers");
}

// ---- how fast it is beside break points

/** Instructions in a second of a loop, in millions, with break points that are never met. */
async function speed_of(page, breaks) {
  await is_booted(page, `page.programs.set_files([{ name: 'init.s', text: '  li a0, 0\\nagain:\\n  addi a0, a0, 1\\n  j again\\nnever:\\n  ebreak\\n' }], { rounds: true, quantum: 100000 }); page.app.work.breaks = ${JSON.stringify(breaks)}; page.programs.boot()`);
  await page.until("page.app.view?.playing");
  await page.sleep(600);
  const from = await page.eval("[page.app.view.at, performance.now()]");
  await page.sleep(2500);
  const to = await page.eval("[page.app.view.at, performance.now()]");
  await pause(page);
  return (to[0] - from[0]) / (to[1] - from[1]) / 1000;
}

async function speed(page) {
  const free = await speed_of(page, []);
  for (const [name, breaks] of [["a label", [{ kind: "address", name: "never", program: "init" }]], ["a call", [{ kind: "call", name: "exec", program: null }]], ["a store", [{ kind: "store", name: "0x100", program: "init" }]]]) {
    const slow = await speed_of(page, breaks);
    holds(slow > free / 80, `beside a break point at ${name}: ${slow.toFixed(1)} million instructions a second; without one ${free.toFixed(1)}`);
  }
}

// ---- all of it

const PARTS = { lines, stops, goes_on, dropped, own, why, speed };
for (const [name, how] of [["light", { width: 1400, height: 950 }], ["dark", { width: 1400, height: 950, dark: true }], ["phone", { width: 420, height: 860, mobile: true }], ["phone-dark", { width: 420, height: 860, mobile: true, dark: true }]]) {
  const page = await open(url, how);
  try {
    if (name === "light") for (const [part, check] of Object.entries(PARTS)) { if (!names.length || names.includes(part)) { console.log(part); await check(page); } }
    else if (!names.length || names.includes("looks")) {
      await shell(page);
      await stop_at(page, "count");
      await stopped(page, "echo a b | wc\n");
      holds((await where(page)) === "count, wc.c:16", `${name}: ${await where(page)}`);
      await look_at(page);
      await picture(page, name);
      holds(await page.eval("document.documentElement.scrollWidth <= innerWidth + 1"), `${name}: nothing stands beyond the right edge`);
      await page.eval("page.app.work.breaks = []");
      await page.click("#play");
      await page.eval("show_tab('why')");
      await type(page, "crash 15\n");
      await comes(page, "document.getElementById('why-told').textContent.includes('crash.c:')", 20000);
      await page.eval("document.getElementById('why').scrollIntoView()");
      await picture(page, `${name}-why`);
    }
  } catch (error) {
    holds(false, `${name}: ${error.stack}`);
    await picture(page, "error");
  }
  holds(page.logs.length === 0, `${name}: no errors of the page: ${page.logs.join("; ")}`);
  await page.close();
}
console.log(bad ? `${bad} not as they should be` : `all is as it should be; pictures in ${folder}`);
process.exit(bad ? 1 : 0);
