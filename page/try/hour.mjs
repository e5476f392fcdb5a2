// hour.mjs PAGE.html FOLDER [SECONDS [SEED]]: a session of 200 actions in two tabs, with reloads, three links and a full
// disk: commands, steps, keys in the past, edits, other examples, boots. After each reload, which comes at once or later,
// and at the end for each run in which something was typed, the events and the console's bytes are those that there were,
// and so are the sources. It takes so many seconds at least: 3600 make an hour. ACTIONS is how many actions there are, if
// not 200. The status is 1 if something is lost.
import { mkdirSync } from "node:fs";
import { pathToFileURL } from "node:url";
import { spans_of } from "../../anywhere/machine/events.mjs";
import { PATIENCE, SETTLED, comes, edit, pause, type } from "./hand.mjs";
const { open } = await import(process.env.BROWSER === "firefox" ? "./firefox.mjs" : "./browser.mjs");

const [page_file, folder, seconds = "0", first_seed = "7"] = process.argv.slice(2), url = pathToFileURL(page_file).href;
const ACTIONS = Number(process.env.ACTIONS ?? 200);
mkdirSync(folder, { recursive: true });
let bad = 0, seed = Number(first_seed), done = 0, here = 0;
const lost = (what) => { console.log(`NOT action ${done}, in tab ${here}: ${what}`); bad++; };
const random = (most) => { seed = (Math.imul(seed, 1664525) + 1013904223) >>> 0; return Math.floor((seed / 4294967296) * most); };
const one_of = (list) => list[random(list.length)];

/** What a run is: its work, its events, its console's bytes and where it stands, while the machine stands. */
const NOW = `(() => { const { app } = page; let text = ''; for (const it of app.text) text += String.fromCharCode(it); return { work: app.booted.work, events: app.events.all(), text, at: app.view.at, end: app.view.end, futures: app.cut_off.length, sources: app.files.filter((it) => it.text !== undefined).map((it) => it.name + ': ' + it.text).join('\\n'), open: app.work.name }; })()`;

const page = await open(url, { width: 1300, height: 850 });
// Of each tab: what it has now, and whether something was typed in its run. Of all: the runs that were left.
const tabs = [{ now: null, is_typed: false }, { now: null, is_typed: false }], left = [], named = new Map();
const own = () => tabs[here];

/** Whether the machine stands, and has got all keys that were typed. */
const AT_REST = "!page.app.view?.playing && page.app.booted.sent.keys.length === page.app.booted.sent.given + page.app.view.typed";

/** All that was asked of the worker is done. */
const ASKED_IS_DONE = "new Promise((done) => { const { app } = page, before = app.on_record; app.on_record = () => { app.on_record = before; done(true); }; page.ask('record'); })";

async function stands() {
  for (let end = -1, k = 0; k < 100; k++) {
    await page.eval(ASKED_IS_DONE);
    await pause(page);
    await page.sleep(120);
    const now = await page.eval(`${AT_REST} ? page.app.view.end : -1`);
    if (now >= 0 && now === end) break;
    end = now;
  }
  own().now = await page.eval(NOW);
}

const is_same = (one, other) => one.events === other.events && one.text === other.text && one.end === other.end;
const words_of = (it) => `${it.work}, ${it.end} events, ${it.text.length} bytes`;

/** The run of this tab is left for another one. */
function leaves() {
  if (own().is_typed) left.push(own().now);
  own().is_typed = false;
}

const prompts = () => page.until("page.app.view && document.getElementById('screen').textContent.trim().endsWith('$')", PATIENCE);
const boots = async (action) => {
  await page.eval(`new Promise((done) => { page.on('booted', () => done(true)); ${action}; })`);
  await page.until("page.app.view", PATIENCE);
};

// ---- actions

const ACTS = {
  async command() {
    if (own().now.work !== "shell") { await ACTS.shell(); return; }
    await page.eval("page.ask('go', { place: page.app.view.end })");
    const word = `w${done}`, line = one_of([`echo ${word}`, `echo ${word} | wc`, `cat poem.txt`, "primes 20", `grep ${word[1]} poem.txt`, "ls"]);
    const before = own().now.text.length;
    await page.eval("page.ask('play')");
    await type(page, `${line}\n`);
    await page.until(`page.app.text.length > ${before + line.length + 2} && document.getElementById('screen').textContent.trim().endsWith('$')`, PATIENCE);
    own().is_typed = true;
  },
  async shell() { leaves(); await boots("page.programs.choose('shell'); page.programs.boot()"); await prompts(); },
  async steps() { for (let k = 0; k < 3; k++) { await page.eval(`page.ask('step', { what: '${one_of(["step", "event", "call", "turn"])}', back: ${random(2) === 0} })`); await page.sleep(60); } },
  async goes() { await page.eval(`page.ask('go', { place: ${random(own().now.end)} })`); await page.sleep(200); },
  /** A key in the past cuts the future off, and that comes back. */
  async cuts() {
    if (own().now.work !== "shell" || own().now.end < 2000) return;
    const before = own().now, futures = before.futures;
    await page.eval(`page.ask('go', { place: ${Math.floor(before.end * 0.7)} })`);
    await page.sleep(200);
    await type(page, "x");
    await page.until(`page.app.cut_off.length > ${futures} || page.app.cut_off.length === 50`, PATIENCE);
    own().is_typed = true;
    if (random(2)) return;
    await stands();
    await page.eval("document.getElementById('take-back').click()");
    await page.eval(ASKED_IS_DONE); // (on a busy host what is here may be as long as what comes back)
    await comes(page, `page.app.view.end >= ${before.end}`, PATIENCE);
    await pause(page);
    await page.eval("page.ask('go', { place: page.app.view.end })");
    await page.eval(ASKED_IS_DONE);
    await page.sleep(300);
    const after = await page.eval(NOW);
    if (!begins(before.events, after.events)) lost(`a future that was cut off doesn't come back as it was: ${words_of(before)}; then ${words_of(after)}`);
  },
  async edits() {
    const name = ["hello", "fork"][here];
    if (own().now.work !== name) { leaves(); await boots(`page.programs.choose('${name}'); page.programs.boot({ play: false })`); }
    await page.eval("(() => { const it = page.app.files.find((it) => it.name === 'init.s'); [...document.querySelectorAll('#files button')].find((one) => one.textContent.startsWith(it.name)).click(); })()");
    await edit(page, "\n", `\n# ${done}\n`);
  },
  async example() { const name = one_of(["pipeline", "pages", "hang", "turns", "full"]); leaves(); await boots(`page.programs.choose('${name}'); page.programs.boot({ play: false })`); },
  async reload() {
    await stands();
    // At once, in the middle of what is written; or later.
    await page.sleep(one_of([0, 0, SETTLED]));
    const before = own().now;
    await page.eval("window.is_old = true; location.reload(); 0").catch(() => {});
    for (const end = Date.now() + PATIENCE; Date.now() < end; await page.sleep(100)) {
      if (await page.eval("!window.is_old && window.ready === true && !!page.app.view").catch(() => false)) break;
    }
    await page.sleep(400);
    await stands();
    if (!is_same(before, own().now)) lost(`a reload: ${words_of(before)}; then ${words_of(own().now)}`);
    if (before.sources !== own().now.sources) lost("a reload: the sources are others");
    if (before.at !== own().now.at) lost(`a reload: at ${before.at}, then at ${own().now.at}`);
  },
  async link() {
    const hash = one_of(["example=fork&at=fork&tab=opened", "example=hang&at=last&tab=why", "example=pages&at=1&tab=pages"]);
    await stands();
    leaves();
    await page.eval(`document.documentElement.dataset.place = ''; location.hash = '${hash}'`);
    await page.until("document.documentElement.dataset.place === 'there'", PATIENCE);
  },
  async other_tab() {
    await stands();
    here = 1 - here;
    await page.tab(here);
    if (own().now) return;
    await page.go(`${url}?tab`);
    await prompts();
  },
  /** The disk is full for a while; what is done meanwhile is kept once it has room. */
  async full() {
    await page.eval("(() => { window.put = IDBObjectStore.prototype.put; IDBObjectStore.prototype.put = () => { throw new DOMException('full', 'QuotaExceededError'); }; })()");
    await ACTS.command();
    await stands();
    await page.sleep(SETTLED);
    if (!(await page.eval("document.getElementById('kept').textContent")).includes("not kept")) lost("a full disk isn't told");
    await page.eval("IDBObjectStore.prototype.put = window.put");
    await ACTS.command();
    await stands();
    await page.sleep(SETTLED);
    if (!(await comes(page, "document.getElementById('kept').textContent === '✓ kept'", 20000))) lost("once there is room, not all is kept");
  },
};

/** Whether a run begins with all events of another one. */
function begins(first, all) {
  const [a, b] = [spans_of(first), spans_of(all)];
  for (let k = 0, from = 0; k < a.length; k++) {
    const [event, number, count] = a[k];
    let lacks = count;
    for (; lacks > 0 && b.length; ) {
      const [other, value, many] = b[0];
      if (other !== event || value !== number) return false;
      const taken = Math.min(lacks, many - from);
      lacks -= taken;
      from += taken;
      if (from === many) { b.shift(); from = 0; }
    }
    if (lacks > 0) return false;
  }
  return true;
}

/** The actions in their order: what has to come comes, the rest as it falls. */
function plan() {
  const list = [];
  for (let k = 0; k < ACTIONS; k++) list.push(one_of(["command", "command", "command", "command", "steps", "steps", "goes", "cuts", "edits", "command", "reload"]));
  const put = (name, ...places) => { for (const at of places) list[Math.floor((at * ACTIONS) / 200)] = name; };
  put("link", 40, 90, 150);
  put("other_tab", 30, 65, 100, 130, 160, 185);
  put("full", 55, 140);
  put("example", 20, 75, 110, 170);
  list[ACTIONS - 1] = "reload";
  return list;
}

// ---- the end: each run that was left is among those that are kept, and plays to the same bytes

const stored = () => page.eval("new Promise((done, fail) => { const asked = indexedDB.open('nektavoly'); asked.onsuccess = () => { const it = asked.result.transaction(['runs']).objectStore('runs').getAll(); it.onsuccess = () => done(it.result.map(({ id, work, run }) => ({ id, work, events: run?.events }))); it.onerror = () => fail(it.error); }; })");

/** Of the kept runs of its work which ones begin as a run does, or whose beginning it is. */
function beside(run, all) {
  const of_work = all.filter((it) => it.work === run.work && it.events !== undefined);
  const longer = of_work.filter((it) => begins(run.events, it.events)), shorter = of_work.filter((it) => begins(it.events, run.events));
  return `${longer.length} kept runs go on from it, ${shorter.length} are its beginning`;
}

async function at_the_end() {
  for (const it of tabs) if (it.is_typed) left.push(it.now);
  await page.sleep(SETTLED);
  const all = await stored();
  for (const run of left) {
    const found = all.find((it) => it.work === run.work && it.events === run.events);
    if (!found) { lost(`the run of ${words_of(run)} isn't kept: ${beside(run, all)}`); continue; }
    await page.eval(`new Promise((done) => { const asked = indexedDB.open('nektavoly'); asked.onsuccess = () => { const it = asked.result.transaction(['runs']).objectStore('runs').get(${JSON.stringify(found.id)}); it.onsuccess = async () => done(await page.session.open_run(it.result)); }; })`);
    await page.until("page.app.view", PATIENCE);
    await pause(page);
    await page.eval("page.ask('go', { place: page.app.view.end })");
    await page.sleep(300);
    const now = await page.eval(NOW);
    if (!is_same({ ...run, text: now.text }, now) || !now.text.startsWith(run.text)) lost(`the run of ${words_of(run)} is now ${words_of(now)}`);
  }
  console.log(`   ${left.length} runs were typed in and left; ${all.length} are kept`);
}

const began = Date.now();
try {
  await prompts();
  await stands();
  for (const name of plan()) {
    done++;
    try { await ACTS[name](); await stands(); } catch (error) { lost(`${name}: ${error.message}`); await stands().catch(() => {}); }
    named.set(name, (named.get(name) ?? 0) + 1);
    if (done % 10 === 0) console.log(`   ${done} actions: ${words_of(own().now)}`);
    await page.sleep(Math.max(0, (done * Number(seconds) * 1000) / ACTIONS - (Date.now() - began)));
  }
  await at_the_end();
  const problems = (await page.eval("page.problems()")).filter((it) => !/^The browser keeps nothing/.test(it));
  if (problems.length) lost(`messages: ${problems.join("; ")}`);
} catch (error) {
  lost(error.stack);
  await page.picture(`${folder}/hour-error.png`);
}
if (page.logs.length) lost(`errors of the page: ${page.logs.slice(0, 3).join("; ")}`);
await page.close();
console.log(`   ${[...named].map(([name, count]) => `${count} ${name}`).join(", ")}, in ${Math.round((Date.now() - began) / 1000)} seconds`);
console.log(bad ? `${bad} things are lost or wrong` : "nothing is lost");
process.exit(bad ? 1 : 0);
