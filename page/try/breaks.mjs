// breaks.mjs PAGE.html FOLDER: break points with conditions and switches: they stop where their condition is so, forth
// and back and in what was recorded; one that is switched off doesn't; a condition that can't be read is told, and that
// before stays; an edit, a reload and a link keep them. The status is 1 if not.
import { mkdirSync } from "node:fs";
import { pathToFileURL } from "node:url";
import { comes, pause } from "./hand.mjs";
const { open } = await import(process.env.BROWSER === "firefox" ? "./firefox.mjs" : "./browser.mjs");

const [page_file, folder] = process.argv.slice(2), url = pathToFileURL(page_file).href;
mkdirSync(folder, { recursive: true });
let bad = 0;
const holds = (is, what) => { console.log(`${is ? "  " : "NOT"} ${what}`); if (!is) bad++; };

const SOURCE = "_start:\n  li a0, 0\nagain:\n  addi a0, a0, 1\n  li t0, 1000\n  bne a0, t0, again\n  li s0, 3\ncalls:\n  mv a0, s0\n  li a7, 13\n  ecall\n  li a7, 14\n  ecall\n  addi s0, s0, -1\n  bne s0, x0, calls\n  li a0, 0\n  li a7, 2\n  ecall\n";
const register = (page, number) => page.eval(`Number(page.app.view.registers?.[${number}] ?? -1n)`);
const rows = (page) => page.eval("[...document.querySelectorAll('#break-list li')].map((it) => ({ words: it.textContent, is_on: it.querySelector('[type=checkbox]').checked, condition: it.querySelector('.mono').value }))");
const set = (page, place, condition) => page.eval(`(() => { const it = document.querySelectorAll('#break-list .mono')[${place}]; it.focus(); it.value = ${JSON.stringify(condition)}; it.dispatchEvent(new Event('change')); })()`);
const turn = (page, place) => page.eval(`(() => { const it = document.querySelectorAll('#break-list [type=checkbox]')[${place}]; it.focus(); it.click(); })()`);
const add = async (page, kind, name) => page.eval(`(() => { document.getElementById('break-kind').value = '${kind}'; document.getElementById('break-where').value = '${name}'; document.getElementById('break-add').click(); })()`);
const stands = (page) => comes(page, "page.app.view && !page.app.view.playing");

/** Plays on, and waits until the machine stands. */
async function play(page) {
  const drawn = await page.eval("page.drawn()");
  await page.eval("page.ask('play')");
  await page.until(`page.drawn() > ${drawn} && !page.app.view.playing`);
  await page.sleep(150);
}

async function boots(page) {
  await page.eval(`page.programs.set_files([{ name: 'init.s', text: ${JSON.stringify(SOURCE)} }], { rounds: true, quantum: 100000 }, 'breaks'); page.programs.boot({ play: false })`);
  await page.until("page.app.view?.at === 0 && page.app.booted.work.startsWith('breaks')");
  await page.eval("document.getElementById('breaks').open = true");
}

async function conditions(page) {
  await add(page, "address", "again");
  await set(page, 0, "a0 == 700");
  await play(page);
  holds((await register(page, 10)) === 700 && (await page.eval("page.app.view.stopped")) === "at again", "a break point stops if its condition is so");
  const at = await page.eval("page.app.view.at");
  await page.picture(`${folder}/breaks.png`);
  await set(page, 0, "a0 > 800 && a0 < 802");
  await play(page);
  holds((await register(page, 10)) === 801, "of two tests both have to be so");
  await set(page, 0, "a0 == 700");
  await page.eval("page.ask('go', { place: 0 })");
  await comes(page, "page.app.view.at === 0");
  await play(page);
  holds((await page.eval("page.app.view.at")) === at, "it stops there too in what was recorded");
  await page.eval(`page.ask('go', { place: page.app.view.end })`);
  await comes(page, `page.app.view.at > ${at}`);
  await page.eval("document.getElementById('back-break').click()");
  holds(await comes(page, `page.app.view.at === ${at}`), "and back from the end");
  await set(page, 0, "a0 is 5");
  holds((await page.eval("document.getElementById('status').textContent")).startsWith("This is no condition") && (await rows(page))[0].condition === "a0 is 5", "a condition that can't be read is told, and stands to be changed");
  await page.eval("page.ask('go', { place: 0 })");
  await comes(page, "page.app.view.at === 0");
  await play(page);
  holds((await page.eval("page.app.view.at")) === at, "and that before counts");
}

async function calls(page) {
  await turn(page, 0);
  await add(page, "call", "uptime");
  await set(page, 1, "s0 == 2");
  await page.eval("page.ask('go', { place: 0 })");
  await comes(page, "page.app.view.at === 0");
  await play(page);
  holds((await register(page, 8)) === 2 && (await page.eval("page.app.view.stopped")) === "at a kernel call", "a call stops if its condition is so, and a break point that is off doesn't");
  const at = await page.eval("page.app.view.at");
  await play(page);
  await page.eval("page.ask('go', { place: 0 })");
  await comes(page, "page.app.view.at === 0");
  await play(page);
  holds((await page.eval("page.app.view.at")) === at, "in what was recorded too");
  await page.eval("page.ask('go', { place: page.app.view.end })");
  await comes(page, `page.app.view.at > ${at}`);
  await page.eval("document.getElementById('back-break').click()");
  holds(await comes(page, `page.app.view.at === ${at}`), "and back");
}

async function kept(page) {
  await page.eval("(() => { const it = document.getElementById('source'); it.value = '# one line more\\n' + it.value; it.dispatchEvent(new Event('input')); })()");
  const before = await rows(page), link = await page.eval("page.sharing.link()");
  holds(before.length === 2 && !before[0].is_on && before[1].condition === "s0 == 2", "an edit keeps them");
  await page.sleep(1500);
  await page.go(`${url}?${Math.random()}`);
  await comes(page, "document.querySelectorAll('#break-list li').length === 2");
  const after = await rows(page);
  holds(after.length === 2 && !after[0].is_on && after[1].condition === "s0 == 2", "a reload keeps them");
  const other = await open(link);
  await comes(other, "document.querySelectorAll('#break-list li').length === 2");
  const shared = await rows(other);
  holds(shared.length === 2 && !shared[0].is_on && shared[1].condition === "s0 == 2", "a link has them");
  holds(other.logs.length === 0, `no errors: ${other.logs.join("; ")}`);
  await other.close();
}

async function lines(page) {
  await boots(page);
  await page.eval("page.app.work.breaks = []; page.programs.open_again(page.app.work)");
  await page.eval("(() => { const it = document.getElementById('source'); it.focus(); const at = it.value.indexOf('  li t0'); it.setSelectionRange(at, at); })()");
  await comes(page, "document.querySelector('.gutter [data-line=\"5\"]') && !document.querySelector('.gutter [data-line=\"5\"]').classList.contains('no')");
  await page.key("F9");
  await set(page, 0, "a0 == 12");
  await page.eval("(() => { const it = document.getElementById('source'); it.value = '# more\\n' + it.value; it.dispatchEvent(new Event('input')); })()");
  await page.sleep(400);
  holds((await rows(page))[0].words.startsWith(" init.s, line 6") && (await rows(page))[0].condition === "a0 == 12", "a line's condition goes with its text");
  await play(page);
  holds((await register(page, 10)) === 12, "and it stops there");
  await turn(page, 0);
  holds(await page.eval("!!document.querySelector('.gutter .stop.off')") && (await page.eval("document.activeElement.type")) === "checkbox", "the gutter shows that it is off, and the switch keeps the keys");
}

const page = await open(url, { width: 1300, height: 800 });
try {
  await page.until("document.getElementById('screen').textContent.includes('$ ')");
  await pause(page);
  await boots(page);
  await conditions(page);
  await calls(page);
  await kept(page);
  await stands(page);
  await lines(page);
} catch (error) {
  holds(false, error.stack);
  await page.picture(`${folder}/breaks-error.png`);
}
holds(page.logs.length === 0, `no errors of the page: ${page.logs.join("; ")}`);
await page.close();
console.log(bad ? `${bad} not as they should be` : "all is as it should be");
process.exit(bad ? 1 : 0);
