// refused.mjs PAGE.html FOLDER: whether each kernel call that is refused stands in the list of events with its reason, the
// one that xv_explain tells of the same run (by Node), in both themes, and at 360 pixels too, where all of it is seen.
// The status is 1 if not.
import { spawnSync } from "node:child_process";
import { mkdirSync, writeFileSync } from "node:fs";
import { fileURLToPath, pathToFileURL } from "node:url";
import { comes } from "./hand.mjs";
const { open } = await import(process.env.BROWSER === "firefox" ? "./firefox.mjs" : "./browser.mjs");

const [page_file, folder] = process.argv.slice(2), url = pathToFileURL(page_file).href;
mkdirSync(folder, { recursive: true });
let bad = 0;
const holds = (is, what) => { console.log(`${is ? "  " : "NOT"} ${what}`); if (!is) bad++; };

// ---- a program whose calls are refused, each for a reason of its own

const NUMBERS = { fork: 1, exit: 2, wait: 3, pipe: 4, read: 5, kill: 6, exec: 7, dup: 10, sbrk: 12, open: 15, write: 16, close: 21, sbrklazy: 22 };
const BEYOND = "0x700000"; // no memory is there
/** A call: its name or number, and its words: numbers, or labels of data. */
const CALLS = [
  ["open", BEYOND, 0], ["open", "nothing", 0], ["open", "own", 1], ["wait", BEYOND], ["wait", 0], ["pipe", BEYOND],
  ["read", 7, "room", 1], ["write", 7, "room", 1], ["close", 7], ["dup", 7], ["kill", 9999], ["exec", BEYOND, "list"],
  ["exec", "nothing", BEYOND], ["exec", "nothing", "list"], ["exec", "text", "list"], ["sbrk", -90000000],
  ["sbrk", 2000000000], ["sbrklazy", -5], ["sbrklazy", -1000000000], [77, 1, 2, 3], ["open", "console", 0],
  ["write", 0, "room", 3], ["read", 0, "room", -5], ["open", "console", 1], ["read", 1, "room", 3],
  ["write", 1, "room", -5], ["write", 1, BEYOND, 3], ["pipe", "room"], ["close", 2], ["write", 3, "room", 1], ["fork"],
];
const word_of = (word, k) => (/^[a-z]/.test(word) ? `  la a${k}, ${word}\n` : `  li a${k}, ${word}\n`);
const call_of = ([name, ...words]) => `${words.map(word_of).join("")}  li a7, ${NUMBERS[name] ?? name}\n  ecall\n`;
const SOURCE = `_start:\n${CALLS.map(call_of).join("")}again:\n  li a0, 1\n  li a7, 10\n  ecall\n  bge a0, x0, again\n${call_of(["exit", 0])}`
  + ".data\nroom: .dword 0\nlist: .dword nothing, 0\nnothing: .asciz \"nothing\"\nown: .asciz \"init\"\ntext: .asciz \"text\"\nconsole: .asciz \"console\"\n";
const TEXT = "no program\n", FRAMES = 16, XV = fileURLToPath(new URL("../../xv.mjs", import.meta.url));

/** What xv_explain tells of each refused call: {at, reason}. */
function explained() {
  const paths = Object.entries({ "init.s": SOURCE, text: TEXT }).map(([name, text]) => {
    writeFileSync(`${folder}/${name}`, text);
    return `${folder}/${name}`;
  });
  const words = [XV, "--explain", "--failed", "--numbers", "--frames", String(FRAMES), ...paths];
  const { stderr } = spawnSync(process.execPath, words, { input: "", encoding: "utf8" });
  const lines = stderr.split("\n").map((it) => /^ *(\d+) .* = -1(?: \((.*)\))?$/.exec(it)).filter(Boolean);
  return lines.map(([, at, reason]) => ({ at: Number(at), reason }));
}

// ---- how the page shows them

/** The refused calls of the list of events: their places, reasons, and what of their text isn't seen. */
const LISTED = `[...document.querySelectorAll('#event-list .event')].map((row) => {
  const words = row.lastElementChild, range = document.createRange(), list = document.getElementById('event-list').getBoundingClientRect();
  range.selectNodeContents(words);
  const boxes = [...range.getClientRects()], style = getComputedStyle(words);
  const is_cut = boxes.some((it) => it.left < list.left - 1 || it.right > Math.min(list.right, innerWidth) + 1) || style.textOverflow === 'ellipsis' || row.scrollWidth > row.clientWidth + 1 || words.scrollHeight > words.clientHeight + 2;
  return { at: Number(row.dataset.at), text: words.textContent, is_cut };
})`;

/** Whether the reason stands beside the slider, too, right after the call, and goes with the place. */
async function beside_the_slider(page, name, wanted) {
  const clock = "document.getElementById('clock').textContent", silent = [];
  for (const { at, reason } of [wanted[0], wanted.at(-1), wanted[4]]) {
    await page.eval(`page.ask('go', { place: ${at + 1} })`);
    if (!(await comes(page, `${clock}.includes(${JSON.stringify(`answers -1, refused: ${reason}`)})`))) silent.push(reason);
    await page.eval(`page.ask('go', { place: ${at} })`);
    if (!(await comes(page, `!${clock}.includes('refused')`))) silent.push(`not ${reason}`);
  }
  holds(silent.length === 0, `${name}: right after a call its reason stands beside the slider${silent.map((it) => `\n      ${it}`).join("")}`);
  holds(await page.eval("document.documentElement.scrollWidth <= innerWidth + 1"), `${name}: nothing stands beyond the right edge`);
  await page.eval(`page.ask('go', { place: page.app.view.end })`);
  await page.until("page.app.view.at === page.app.view.end");
}

async function look(name, how, wanted) {
  const page = await open(`${url}#example=hello`, how);
  try {
    const files = [{ name: "init.s", text: SOURCE }, { name: "text", text: TEXT }];
    await page.eval(`page.programs.set_files(${JSON.stringify(files)}, { rounds: true, quantum: 1000, frames: ${FRAMES} }); page.programs.boot()`);
    await page.until("page.app.booted?.files.length === 2 && page.app.view?.facts.halted");
    await page.eval("show_tab('happened'); (() => { const it = document.getElementById('event-answer'); it.value = '-1'; it.dispatchEvent(new Event('input')); })()");
    const all = `${LISTED}.filter((it) => it.text.includes('refused'))`;
    await comes(page, `${all}.length === ${wanted.length}`);
    const listed = await page.eval(all);
    const other = wanted.filter(({ at, reason }) => !listed.some((it) => it.at === at && it.text.includes(`= -1, refused: ${reason}`)));
    const say = ({ at, reason }) => `\n      event ${at}: ${reason}, and not: ${listed.find((it) => it.at === at)?.text}`;
    holds(listed.length === wanted.length && other.length === 0, `${name}: ${listed.length} refused calls, each with the reason of xv_explain${other.map(say).join("")}`);
    holds(listed.every((it) => !it.is_cut), `${name}: no reason is cut off${listed.filter((it) => it.is_cut).map((it) => `\n      ${it.text}`).join("")}`);
    await beside_the_slider(page, name, wanted);
    await page.eval("show_tab('happened'); document.getElementById('happened').scrollIntoView()");
    await page.picture(`${folder}/refused-${name}.png`);
  } catch (error) {
    holds(false, `${name}: ${error.stack}`);
    await page.picture(`${folder}/error-${name}.png`).catch(() => {});
  }
  await page.close();
  holds(page.logs.length === 0, `${name}: no errors of the page: ${page.logs.join("; ")}`);
}

const wanted = explained();
holds(wanted.length >= 27 && wanted.every((it) => it.reason), `xv_explain tells ${wanted.length} refused calls, and why`);
for (const [name, how] of [["light", {}], ["dark", { dark: true }], ["360", { width: 360, height: 740, mobile: true }], ["360-dark", { width: 360, height: 740, mobile: true, dark: true }]]) {
  await look(name, { width: 1300, height: 900, ...how }, wanted);
}
console.log(bad ? `${bad} not as they should be` : `all is as it should be; pictures in ${folder}`);
process.exit(bad ? 1 : 0);
