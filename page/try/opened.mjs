// opened.mjs PAGE.html FOLDER: a record that is opened on the page, by a drop, goes to each event by its number in the
// field "go to": there the panels show the registers and the console that the programs tell with --replay and --at, by
// the modules of anywhere/. Named places, what is no place, a record that is cut off, one whose programs aren't there, and
// going on beyond its end. What the room that runs the machine has of records is compared by replayed.mjs. It takes
// pictures. The status is 1 if something is otherwise. With BROWSER=firefox in Firefox.
import { mkdirSync, mkdtempSync, readFileSync, readdirSync, rmSync, writeFileSync } from "node:fs";
import { tmpdir } from "node:os";
import { join } from "node:path";
import { fileURLToPath, pathToFileURL } from "node:url";
import { module_of, run as run_program } from "../../anywhere/src/program.mjs";
import { comes, drop, message, pause, text_of, type } from "./hand.mjs";
const { open } = await import(process.env.BROWSER === "firefox" ? "./firefox.mjs" : "./browser.mjs");

const [page_file, folder] = process.argv.slice(2), url = pathToFileURL(page_file).href;
const PROGRAMS = fileURLToPath(new URL("../../programs/bin/", import.meta.url)), FILES = readdirSync(PROGRAMS).map((it) => PROGRAMS + it);
mkdirSync(folder, { recursive: true });
const room = mkdtempSync(join(tmpdir(), "opened-")), path = join(room, "run.txt");
let bad = 0;
const holds = (is, what) => { console.log(`${is ? "  " : "NOT"} ${what}`); if (!is) bad++; };
const at = (page) => page.eval("page.app.view?.at");

/** What a program writes of the first events of the record. */
function by_tool(name, place, input = "") {
  const output = [], all = Buffer.from(input);
  let from = 0;
  const read = (some) => { const count = all.copy(some, 0, from); from += count; return count; };
  run_program(module_of(name), name, ["--replay", path, "--at", String(place), ...FILES], { input: { read }, output: (it) => { output.push(Buffer.from(it)); }, errors: () => {} });
  return Buffer.concat(output).toString("latin1");
}

/** The registers of a process that the debugger shows there, by their names. */
function registers_of(pid, place) {
  const told = by_tool("xv_debugger", place, `regs of ${pid}\n`).split("registers of process")[1] ?? "";
  return Object.fromEntries([...told.matchAll(/\b([a-z]+\d*) +(0x[0-9a-f]+)/g)].map(([, name, value]) => [name, BigInt(value)]));
}

async function go(page, words) {
  await page.eval("(() => { const it = document.getElementById('go-to-place'); it.focus(); it.select(); })()");
  await page.type(`${words}\n`);
}

/** What the page shows of the registers is what the debugger tells. */
async function is_same(page, place) {
  const pid = await page.eval("page.app.view.pid"), told = registers_of(pid, place);
  const shown = await page.eval("[...document.querySelectorAll('#registers > *')].map((it) => it.textContent)");
  const own = await page.eval("[...page.app.view.registers].map(String)"), names = ["pc", "ra", "sp", "gp", "tp", "t0", "t1", "t2", "s0", "s1", "a0", "a1", "a2", "a3", "a4", "a5", "a6", "a7"];
  const are = names.every((it, k) => BigInt(own[k]) === told[it]) && shown.length >= 32;
  holds(are, `event ${place}: the registers of process ${pid} are those of the debugger`);
  const console_told = by_tool("xv_terminal", place), screen = (await text_of(page, "screen")).replaceAll("\u00a0", " ");
  holds(screen.trim() === console_told.trim(), `event ${place}: the console is that of the terminal (${screen.trim().length} letters)`);
}

const page = await open(url, { width: 1400, height: 950 });
try {
  await page.until("document.getElementById('screen').textContent.includes('$ ')");
  await type(page, "echo one two | wc\ncrash 13\nforks\n");
  await comes(page, "document.getElementById('screen').textContent.includes('fault')", 20000);
  await page.sleep(800);
  await pause(page);
  const record = await page.eval("page.sharing.run_as_record()"), end = await at(page);
  writeFileSync(path, record);
  // The example has texts beside the programs.
  for (const [name, text] of await page.eval("page.app.booted.files.filter((it) => it.text !== undefined).map((it) => [it.name, it.text])")) {
    writeFileSync(join(room, name), text);
    FILES.push(join(room, name));
  }
  await page.eval("document.getElementById('example').value = 'fork'; document.getElementById('example').dispatchEvent(new Event('change'))");
  await comes(page, "page.app.booted.work.startsWith('fork')", 20000);
  await drop(page, [["run.txt", JSON.stringify(record)]]);
  holds(await comes(page, `page.app.view?.at === ${end} && page.app.view.end === ${end}`, 20000), `a record is opened: ${await at(page)} of ${end} events`);
  holds((await message(page)).includes("Here is the record run.txt"), `and told: ${await message(page)}`);
  await page.picture(`${folder}/opened.png`);
  for (const place of [Math.floor(end / 3), Math.floor(end / 2) + 17, 1, end]) {
    await go(page, place.toLocaleString("en"));
    holds(await comes(page, `page.app.view?.at === ${place}`, 20000), `the field leads to event ${place}`);
    await page.sleep(300);
    await is_same(page, place);
  }
  await go(page, "fault");
  holds(await comes(page, "/last: process \\d+ faults/.test(document.getElementById('clock').textContent)"), `to a named place: ${await text_of(page, "clock")}`);
  await page.picture(`${folder}/opened-fault.png`);
  const before = await at(page);
  for (const wrong of ["fork.0", "-3", "0x10", "fourth"]) {
    await go(page, wrong);
    holds(await comes(page, `document.getElementById('status').textContent.startsWith(${JSON.stringify(wrong)})`) && (await at(page)) === before, `${wrong}: ${await message(page)}`);
  }
  await go(page, `${end + 500}`);
  holds(await comes(page, `page.app.view?.at === ${end + 500}`, 20000), "beyond the record's end it goes on");
  // Cut off; of other programs; damaged.
  const cut = record.slice(0, Math.floor(record.length * 0.9));
  await drop(page, [["cut.txt", JSON.stringify(cut)]]);
  holds(await comes(page, "page.problems().some((it) => it.includes('cut.txt') && it.includes('cut off'))", 20000), "a record that is cut off is told so, and played");
  const id = await page.eval("page.app.booted.id"), other = record.replace(/program [0-9a-f]{8}/, "program 00000000");
  await drop(page, [["other.txt", JSON.stringify(other)]]);
  holds(await comes(page, "page.problems().some((it) => it.includes('other.txt') && it.includes('wants another file'))", 20000) && (await page.eval("page.app.booted.id")) === id, "one of another program is refused, and the machine stays");
} catch (error) {
  holds(false, error.stack);
  await page.picture(`${folder}/opened-error.png`).catch(() => {});
}
holds(page.logs.length === 0, `no errors of the page: ${page.logs.join("; ")}`);
await page.close();
rmSync(room, { recursive: true, force: true });
console.log(bad ? `${bad} not as they should be` : `a record stands on the page as in the tools; pictures in ${folder}`);
process.exit(bad ? 1 : 0);
