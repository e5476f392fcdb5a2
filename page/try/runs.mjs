// runs.mjs PAGE.html FOLDER: a run that another release of the page has made is played, and where it first differs is
// said, and the kept one stays as it was; one that doesn't differ says nothing; 'Your runs' has a picture of each, saves
// one as a record that is played again, and stands within 360 pixels. The status is 1 if not.
import { mkdirSync } from "node:fs";
import { pathToFileURL } from "node:url";
import { comes, pause, type } from "./hand.mjs";
const { open } = await import(process.env.BROWSER === "firefox" ? "./firefox.mjs" : "./browser.mjs");

const [page_file, folder] = process.argv.slice(2), url = pathToFileURL(page_file).href;
mkdirSync(folder, { recursive: true });
let bad = 0;
const holds = (is, what) => { console.log(`${is ? "  " : "NOT"} ${what}`); if (!is) bad++; };

const SOURCE = "_start:\n  li s0, 0\n  li s1, 300\nagain:\n  addi s0, s0, 1\n  bne s0, s1, again\n  li a7, 14\n  ecall\n  li a0, 7\n  li a7, 2\n  ecall\n";
const prompts = (page) => page.until("document.getElementById('screen').textContent.includes('$ ')");
const problems = (page) => page.eval("page.problems()");
/** The kept runs, or what an action on the store of them answers. */
const stored = (page, action = "store.getAll()", mode = "readonly") => page.eval(`new Promise((done, fail) => { const asked = indexedDB.open('nektavoly'); asked.onsuccess = () => { const store = asked.result.transaction(['runs'], '${mode}').objectStore('runs'), it = ${action}; it.onsuccess = () => done(it.result); it.onerror = () => fail(it.error); }; })`);
const reload = async (page) => { await page.go(`${url}?${Math.random()}`); await page.until("page.app.view"); };
const at_rest = async (page) => { await page.sleep(1500); };

/** Boots a source, lets it end, and waits until it is kept; its record. */
async function kept_run(page) {
  await page.eval(`page.programs.set_files([{ name: 'init.s', text: ${JSON.stringify(SOURCE)} }], { rounds: true, quantum: 50 }, 'release'); page.programs.boot()`);
  await page.until("page.app.view?.facts.halted && page.app.booted.work === 'release'");
  await type(page, "x");
  await at_rest(page);
  return (await stored(page)).find((it) => it.work === "release");
}

async function releases(page) {
  const record = await kept_run(page);
  holds(record?.run.marks.length > 20, `a run is kept with its marks: ${record?.run.marks.length} letters for ${record?.length} events`);
  await reload(page);
  holds((await page.eval("page.app.booted.work")) === "release" && (await problems(page)).length === 0, "a reload plays it again, and it doesn't differ");
  for (const [what, change, words] of [
    ["the same program", null, ""],
    ["a program whose call is another one", ["li a7, 14", "li a7, 11"], "differs first at event 1,012: process 1: getpid"],
    ["a program that ends with another number", ["li a0, 7", "li a0, 8"], "differs first at event"],
    ["a loop that is shorter", ["300", "200"], "differs first at event"],
  ]) {
    await page.eval("page.programs.choose('hello')");
    const files = record.run.files.map((it) => ({ ...it, file: { ...it.file, text: change ? it.file.text.replace(...change) : it.file.text } }));
    const other = { ...record, id: `other ${what}`, owner: "", when: Date.now() + 1e6, is_own: true, of_link: false, run: { ...record.run, built: "another", files } };
    await stored(page, "store.clear()", "readwrite");
    await stored(page, `store.put(${JSON.stringify(other)})`, "readwrite");
    await page.eval("(() => { page.works.work_of('release').files[0].text = ''; })()");
    const opened = await page.eval("page.session.open_run((" + JSON.stringify(other) + "))");
    await page.until("page.app.view");
    const told = (await problems(page)).filter((it) => it.startsWith("This run was made by another release")).at(-1) ?? "";
    holds(opened && (words ? told.includes(words) : told === ""), `of another release, ${what}: ${told || "nothing is said"}`);
    await type(page, "y");
    await at_rest(page);
    const all = await stored(page), before = all.find((it) => it.id === other.id);
    holds(!words || (before?.run.events === other.run.events && before.run.marks === other.run.marks && all.length > 1), `${what}: what was kept stays as it was`);
    await page.eval("document.getElementById('messages-dismiss').click(); for (const it of document.querySelectorAll('#message-list button')) it.click()");
  }
}

async function list(page, name) {
  await page.eval("page.programs.choose('shell'); page.programs.boot()");
  await page.until("page.app.booted.work === 'shell'");
  await prompts(page);
  await type(page, "crash 13\nprimes 20\n");
  await comes(page, "document.getElementById('screen').textContent.includes('prime 19')");
  await at_rest(page);
  await page.eval("document.getElementById('your-runs').click()");
  await comes(page, "document.querySelectorAll('#runs img').length > 0");
  await page.sleep(300);
  await page.picture(`${folder}/runs-${name}.png`);
  holds(await page.eval("[...document.querySelectorAll('#runs img')].every((it) => it.alt && it.complete && it.naturalWidth > 0)"), `${name}: each run has a picture, with words`);
  const wide = await page.eval("(() => { const box = document.getElementById('dialog').getBoundingClientRect(); return [...document.querySelectorAll('#dialog *')].filter((it) => { const own = it.getBoundingClientRect(); return own.right > Math.min(box.right, innerWidth) + 1 || own.left < 0; }).map((it) => it.tagName + ' ' + it.textContent.slice(0, 20)); })()");
  holds(wide.length === 0, `${name}: the list stands within its width ${wide.join("; ")}`);
}

/** Saves the first run as a record, by the button, and plays what was saved. */
async function save(page) {
  const text = await page.eval("(async () => { let blob = null; const old = URL.createObjectURL; URL.createObjectURL = (it) => { blob = it; return old(it); }; HTMLAnchorElement.prototype.click = () => {}; [...document.querySelectorAll('#runs button')].find((it) => it.textContent === 'Save').click(); for (let k = 0; k < 100 && !blob; k++) await new Promise((done) => setTimeout(done, 50)); URL.createObjectURL = old; delete HTMLAnchorElement.prototype.click; return blob ? blob.text() : ''; })()");
  const [end, shown] = await page.eval("[page.app.line.end, page.app.text.length]");
  holds(text.startsWith("xv record 1\nframes 4096\nprogram "), "a run is saved as a record");
  await page.eval("document.getElementById('dialog').close()");
  await page.eval(`page.programs.take([new File([${JSON.stringify(text)}], 'run.txt')])`);
  await page.until("page.app.booted && page.app.view").catch(() => {});
  await page.sleep(1000);
  const again = await page.eval("[page.app.line.end, page.app.text.length]");
  holds(Math.abs(again[0] - end) < 5000 && again[1] === shown, `and it is played again: ${again[0]} events, ${again[1]} bytes`);
}

/** A run that is gone meanwhile, as another tab has taken it away: that it can't be named is said. */
async function gone(page) {
  const name = "document.querySelector('#runs tbody tr:last-child button[aria-label^=Name]').click()";
  await page.eval("document.getElementById('dialog').close(); document.getElementById('your-runs').click()");
  await comes(page, "document.querySelectorAll('#runs tbody tr').length > 1");
  await page.eval("window.prompt = () => 'a name of mine'; 0");
  await page.eval(name);
  holds(await comes(page, "document.getElementById('runs').textContent.includes('a name of mine')"), "a run is named");
  await stored(page, "store.clear()", "readwrite");
  await page.eval(name);
  holds(await comes(page, "page.problems().some((it) => it.includes('has got no name'))"), "a run that is gone can't be named, which is said");
  await page.eval("document.getElementById('dialog').close()");
}

const page = await open(url, { width: 1300, height: 900 });
try {
  await prompts(page);
  await releases(page);
  await list(page, "1300");
  await save(page);
  await gone(page);
} catch (error) {
  holds(false, error.stack);
  await page.picture(`${folder}/runs-error.png`);
}
holds(page.logs.length === 0, `no errors of the page: ${page.logs.join("; ")}`);
await page.close();
const phone = await open(url, { width: 360, height: 740, mobile: true, dark: true });
try {
  await prompts(phone);
  await pause(phone);
  await list(phone, "360");
} catch (error) { holds(false, error.stack); }
await phone.close();
console.log(bad ? `${bad} not as they should be` : "all is as it should be");
process.exit(bad ? 1 : 0);
