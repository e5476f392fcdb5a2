// kept.mjs PAGE.html FOLDER [NAME..]: whoever wants to lose work on the page can't: a reload in the middle of a write, two
// tabs that type and edit at once, a full disk, no database at all, a link over a run and over a work, back and forward,
// a run that another tab deletes, keys before and after a boot, a program that never waits. Each check does that, and
// looks for all that was typed. With names only these checks are made. The status is 1 if something is lost.
import { mkdirSync } from "node:fs";
import { pathToFileURL } from "node:url";
import { PATIENCE, SETTLED, boot, choose, comes, edit, example, files, pause, source, type } from "./hand.mjs";
const { open } = await import(process.env.BROWSER === "firefox" ? "./firefox.mjs" : "./browser.mjs");

const [page_file, folder, ...names] = process.argv.slice(2), url = pathToFileURL(page_file).href;
mkdirSync(folder, { recursive: true });
let bad = 0;
const holds = (is, what) => { console.log(`${is ? "  " : "NOT"} ${what}`); if (!is) bad++; };

const prompts = (page) => page.until("page.app.view && document.getElementById('screen').textContent.trim().endsWith('$')", PATIENCE);
const shows = (page, words) => comes(page, `page.app.view && new RegExp(${JSON.stringify(words)}).test(document.getElementById('screen').textContent)`, PATIENCE);
const enter = async (page, line) => { await type(page, `echo ${line}\n`); await shows(page, `echo ${line}\\s+${line}`); };

/** The page is read anew, at once: in the middle of what it writes. */
async function reload(page, how = "location.reload()") {
  await page.eval(`window.is_old = true; ${how}; 0`).catch(() => {});
  for (const end = Date.now() + PATIENCE; Date.now() < end; await page.sleep(50)) {
    if (await page.eval("!window.is_old && window.ready === true && !!page.app.view").catch(() => false)) return;
  }
  throw new Error("the page isn't there again");
}

/** The page goes, and none comes in its place. */
async function leave(page) {
  await page.eval("location.href = 'about:blank'; 0").catch(() => {});
  for (const end = Date.now() + PATIENCE; Date.now() < end; await page.sleep(50)) if (await page.eval("location.href === 'about:blank'").catch(() => false)) return;
}

const of_store = (page, name, action = "all") => page.eval(`new Promise((done, fail) => { const asked = indexedDB.open('nektavoly'); asked.onerror = () => fail(asked.error); asked.onsuccess = () => { const got = asked.result.transaction(['${name}']).objectStore('${name}').getAll(); got.onsuccess = () => { const all = got.result; asked.result.close(); done(${action}); }; }; })`);
/** The keys of each kept run, as a text: those that it got, and those that wait. */
const keys_kept = (page) => of_store(page, "runs", "all.map(({ id, name, work, is_own, run }) => ({ id, name, work, is_own, keys: String.fromCharCode(...[...run.events.matchAll(/K([0-9a-z]+)/g)].map((it) => parseInt(it[1], 36)), ...run.keys) }))");
const works_kept = (page) => of_store(page, "values", "all.filter((it) => it.name.startsWith('work ')).map((it) => it.name + JSON.stringify(it.value.files) + JSON.stringify(it.value.machine))");
/** Whether so many runs are kept, some seconds later at most, that have all these keys. */
async function keeps(page, count, ...words) {
  for (let k = 0; k < 60; k++, await page.sleep(250)) {
    if ((await keys_kept(page)).filter(({ keys }) => words.every((it) => keys.includes(it))).length === count) return true;
  }
  return false;
}

// ---- attacks

/** A key, an edit or a setting, and the page goes in the same moment. */
async function at_once(page) {
  await enter(page, "one");
  for (const [k, word] of ["two", "three", "four"].entries()) {
    await type(page, `echo ${word}`);
    await reload(page);
    holds(await shows(page, `echo ${word}`), `a reload with a half line, ${k + 1}: it stands there`);
    await type(page, "\n");
    await shows(page, `echo ${word}\\s+${word}`);
  }
  await page.sleep(SETTLED);
  holds(await keeps(page, 1, "echo one\n", "echo two\n", "echo three\n", "echo four\n"), "all keys are in one run");
  await example(page, "hello");
  for (const word of ["alpha", "beta", "gamma"]) {
    await edit(page, "\n", `\n# ${word}\n`);
    await choose(page, "quantum", `${100 + word.length}`);
    await reload(page);
    holds((await source(page)).includes(`# ${word}`) && await page.eval(`document.getElementById('quantum').value === '${100 + word.length}'`), `a reload at once after an edit: ${word} is there`);
  }
  await page.sleep(SETTLED);
  holds((await works_kept(page)).filter((it) => it.includes("# alpha") && it.includes("# beta") && it.includes("# gamma")).length === 1, "the work is kept once, with all edits");
}

/** The tab is closed at once, and the page opened anew in another. */
async function closed(page) {
  await page.tab(1);
  await page.go(`${url}?second`);
  await prompts(page);
  await page.eval("page.programs.choose('shell'); page.programs.boot()");
  await page.sleep(300);
  await prompts(page);
  await enter(page, "closing");
  await type(page, "echo half");
  await page.eval("window.onpagehide = null; page.programs.choose('fork'); 0");
  await edit(page, "\n", "\n# closing\n");
  await leave(page);
  await page.tab(0);
  await page.go(`${url}?third`);
  await prompts(page).catch(() => {});
  await page.sleep(SETTLED);
  holds(await keeps(page, 1, "echo closing\n", "echo half"), "a tab that is closed: the run is there, with the half line");
  holds((await works_kept(page)).some((it) => it.startsWith("work fork[") && it.includes("# closing")), "and the edit");
}

/** Two tabs type at once, in one run and in two; and edit one work, in which the one is already elsewhere. */
async function two_tabs(page) {
  await enter(page, "before");
  await page.sleep(SETTLED);
  await page.tab(1);
  await page.go(`${url}?second`);
  await shows(page, "echo before");
  for (const word of ["a1", "a2", "a3"]) {
    for (const tab of [0, 1]) { await page.tab(tab); await enter(page, `${word}in${tab}`); }
  }
  await page.sleep(SETTLED);
  await page.tab(0);
  await page.sleep(SETTLED);
  for (const tab of [0, 1]) holds(await keeps(page, 1, "echo before\n", ...["a1", "a2", "a3"].map((it) => `echo ${it}in${tab}\n`)), `two tabs with one run: all keys of tab ${tab} are in one run`);
  for (const tab of [0, 1]) { await page.tab(tab); await example(page, "hello"); await edit(page, "\n", `\n# first of ${tab}\n`); }
  for (const tab of [0, 1]) { await page.tab(tab); await edit(page, "\n", `\n# second of ${tab}\n`); await example(page, "pages"); await edit(page, "\n", `\n# pages of ${tab}\n`); await example(page, "fork"); }
  await page.sleep(SETTLED);
  await page.tab(0);
  await page.sleep(SETTLED);
  const works = await works_kept(page);
  for (const tab of [0, 1]) holds(works.filter((it) => it.includes(`# first of ${tab}`) && it.includes(`# second of ${tab}`)).length === 1 && works.filter((it) => it.includes(`# pages of ${tab}`)).length === 1, `two tabs with one work: all edits of tab ${tab} are kept, once`);
  for (const tab of [0, 1]) {
    await page.tab(tab);
    const own = await page.eval("[...document.getElementById('example').options].map((it) => it.value).filter((it) => it.startsWith('hello'))");
    const texts = [];
    for (const name of own) { await page.eval(`page.programs.choose('${name}')`); texts.push(await source(page)); }
    holds(texts.some((it) => it.includes(`# second of ${tab}`)), `and tab ${tab} finds its own in the list: ${own.join(", ")}`);
  }
}

/** A tab is read anew whose run another tab has gone on with, and left. */
async function taken(page) {
  await enter(page, "base");
  await page.sleep(SETTLED);
  await page.tab(1);
  await page.go(`${url}?second`);
  await shows(page, "echo base");
  await enter(page, "later");
  await example(page, "hello");
  await page.sleep(SETTLED);
  await page.tab(0);
  await reload(page);
  await enter(page, "zero");
  await page.sleep(SETTLED);
  holds(await keeps(page, 1, "echo base\n", "echo later\n"), "a run that another tab has gone on with is there, after a reload of the first tab");
  holds(await keeps(page, 1, "echo base\n", "echo zero\n"), "and so is that of the first tab");
  await page.eval("document.getElementById('your-runs').click()");
  await comes(page, "document.getElementById('runs')");
  const older = await page.eval("page.session.listed_runs().then((all) => all.find((it) => !page.app.booted || it.run.events !== page.app.events.all()))");
  await page.tab(1);
  await page.eval(`page.session.open_run((${JSON.stringify(older)})).then(() => 0)`);
  await enter(page, "newer");
  await example(page, "fork");
  await page.sleep(SETTLED);
  await page.tab(0);
  await page.eval(`document.getElementById('dialog').close(); page.session.open_run((${JSON.stringify(older)})).then(() => 0)`);
  await enter(page, "stale");
  await page.sleep(SETTLED);
  holds(await keeps(page, 1, "echo base\n", "echo newer\n") && await keeps(page, 1, "echo base\n", "echo stale\n"), "a run of a list that is old is opened beside what it has become");
}

/** A tab has gone with values that it couldn't write, and another tab has changed the same ones. */
async function laid_aside(page) {
  await example(page, "hello");
  await edit(page, "\n", "\n# of this tab\n");
  await page.sleep(SETTLED);
  const value = (await of_store(page, "values", "all.find((it) => it.name === 'work hello').value"));
  const of_other = { ...value, files: value.files.map((it) => ({ ...it, text: it.text?.replace("# of this tab", "# of the tab that has gone") })) };
  await page.eval(`localStorage.setItem('nektavoly aside values gone', ${JSON.stringify(JSON.stringify({ values: [["work hello", of_other, "an older version"], ["work fork", of_other, ""], ["lessons solved", ["1.2"], "older"]] }))})`);
  const second = { ...of_other, files: of_other.files.map((it) => ({ ...it, text: it.text?.replace("the tab that has gone", "the second tab that has gone") })) };
  await page.eval(`localStorage.setItem('nektavoly aside values gone too', ${JSON.stringify(JSON.stringify({ values: [["work fork", second, ""]] }))})`);
  // A tab went while it wrote an edit, with a later one: what stands there is its own.
  await example(page, "pages");
  await edit(page, "\n", "\n# the first edit\n");
  await page.sleep(SETTLED);
  const pages = await of_store(page, "values", "all.find((it) => it.name === 'work pages')"), later = { ...pages.value, files: pages.value.files.map((it) => ({ ...it, text: it.text?.replace("# the first edit", "# the first edit, and the later one") })) };
  await page.eval(`localStorage.setItem('nektavoly aside values while it wrote', ${JSON.stringify(JSON.stringify({ values: [["work pages", later, "older", pages.version]] }))})`);
  await page.eval("localStorage.setItem('nektavoly aside run bad', '{'); localStorage.setItem('nektavoly aside values bad', '{\"values\":[null,5,[]]}'); localStorage.setItem('nektavoly aside run worse', '{\"run\":{\"id\":\"worse\"}}')");
  await reload(page);
  await page.sleep(SETTLED);
  const works = await works_kept(page), solved = await of_store(page, "values", "all.find((it) => it.name === 'lessons solved')?.value");
  holds(works.some((it) => it.startsWith("work hello[") && it.includes("# of this tab")) && works.some((it) => it.startsWith("work hello 2[") && it.includes("# of the tab that has gone")) && works.some((it) => it.startsWith("work fork[") && it.includes("# of the tab that has gone")), "what a tab couldn't write is kept beside what another one has changed");
  holds(works.some((it) => it.includes("# of the second tab that has gone")), "so are the values of two tabs that have gone");
  holds(works.filter((it) => it.startsWith("work pages")).length === 1 && works.some((it) => it.includes("and the later one")), "what a tab was just writing is no other tab's");
  holds(solved?.includes("1.2"), "and what was solved of the lessons is joined");
  holds(!await page.eval("Object.keys(localStorage).some((it) => it.startsWith('nektavoly aside values'))"), "then it isn't laid aside any more");
}

/** One tab deletes a run, or opens the one that another one shows. */
async function other_tab_deletes(page) {
  await enter(page, "mine");
  await page.sleep(SETTLED);
  await page.tab(1);
  await page.go(`${url}?second`);
  await shows(page, "echo mine");
  await page.eval("(async () => { const [run] = (await page.session.listed_runs()).filter((it) => it.work === 'shell'); await page.session.take_run_away(run); page.programs.choose('hello'); page.programs.boot(); })()");
  await page.sleep(SETTLED);
  holds(await keeps(page, 0, "echo mine\n"), "a run is taken away in another tab");
  await page.tab(0);
  await enter(page, "more");
  await page.sleep(SETTLED);
  holds(await keeps(page, 1, "echo mine\n", "echo more\n"), "and is kept again, once it is gone on with");
  await page.eval("(async () => { const [run] = (await page.session.listed_runs()).filter((it) => it.work === 'shell'); await page.session.name_run(run, 'dear'); })()");
  await page.sleep(300);
  await example(page, "hello");
  await page.sleep(SETTLED);
  await example(page, "fork");
  await page.sleep(SETTLED);
  holds((await keys_kept(page)).some((it) => it.name === "dear" && it.keys.includes("echo more\n")), "a run with a name stays");
  await example(page, "tree");
  await page.sleep(SETTLED);
  await page.eval("(async () => { const run = (await page.session.listed_runs()).find((it) => it.work === 'tree'); await page.session.name_run(run, 'untyped'); })()");
  await example(page, "hello");
  await page.sleep(SETTLED);
  holds((await keys_kept(page)).some((it) => it.name === "untyped" && it.work === "tree"), "so does one in which nothing was typed");
}

/** The disk is full for values, for runs, for both; then it has room again, and the page does nothing more. */
async function full(page) {
  await enter(page, "room");
  await page.sleep(SETTLED);
  await page.eval("(() => { window.put = IDBObjectStore.prototype.put; IDBObjectStore.prototype.put = function (it) { if (window.is_full?.(this.name)) throw new DOMException('full', 'QuotaExceededError'); return window.put.call(this, it); }; })()");
  for (const [what, is_full] of [["runs", "(it) => it === 'runs'"], ["works", "(it) => it === 'values'"], ["all", "() => true"]]) {
    await page.eval(`window.is_full = ${is_full}; 0`);
    await type(page, `echo full${what}\n`);
    await shows(page, `full${what}\\s+full${what}`);
    await pause(page);
    await page.eval(`(() => { const { files } = page.app.work; files.push({ name: 'note-${what}', text: 'of ${what}', changed: true }); page.works.touch(); })()`);
    await page.sleep(SETTLED);
    const mark = await page.eval("document.getElementById('kept').textContent");
    holds(mark.includes("not kept"), `no room for ${what}: ${mark}`);
    await page.eval("window.is_full = null; 0");
    holds(await comes(page, "document.getElementById('kept').textContent === '✓ kept'", 25000), `once there is room, ${what}: all is kept, by itself`);
    await page.sleep(SETTLED);
    holds(await keeps(page, 1, "echo room\n", `echo full${what}\n`) && (await works_kept(page)).some((it) => it.includes(`of ${what}`)), `and stands there: ${what}`);
    await page.eval("page.ask('play')");
  }
  await page.eval("window.is_full = () => true; Storage.prototype.setItem = ((put) => function (name, value) { if (value.length > 60) throw new DOMException('full', 'QuotaExceededError'); put.call(this, name, value); })(Storage.prototype.setItem)");
  await type(page, "echo nowhere\n");
  await shows(page, "nowhere\\s+nowhere");
  await pause(page);
  await page.sleep(SETTLED);
  const asks = await page.eval("(() => { const it = new Event('beforeunload', { cancelable: true }); dispatchEvent(it); return it.defaultPrevented; })()");
  holds(asks, "whoever leaves while not all is kept is asked first");
}

/** There is no database at all, as in some private windows: a reload finds all the same. */
async function no_database(page) {
  const without = "Object.defineProperty(window, 'indexedDB', { value: { open: () => { throw new DOMException('no', 'SecurityError'); } }, configurable: true })";
  await page.send("Page.addScriptToEvaluateOnNewDocument", { source: without });
  await reload(page);
  await prompts(page);
  await enter(page, "private");
  await example(page, "hello");
  await edit(page, "\n", "\n# private\n");
  await reload(page);
  holds((await source(page)).includes("# private"), "without a database a reload finds the work");
  await page.eval("document.getElementById('your-runs').click()");
  await comes(page, "document.querySelector('#dialog p[role=status]')");
  holds(await page.eval("document.querySelector('#dialog p[role=status]').textContent.startsWith('Not all')"), "and says that not all is kept");
  await page.eval("document.getElementById('dialog').close()");
  await page.eval("page.programs.choose('shell'); page.programs.boot()");
  await page.sleep(400);
  await prompts(page);
  await enter(page, "again");
  await reload(page);
  holds(await shows(page, "echo again\\s+again"), "and the run of the shell");
}

/** Links over runs and over works; back and forward. */
async function links(page) {
  await enter(page, "linked");
  await reload(page, "location.hash = 'example=fork&at=fork'; location.reload()");
  await page.until("document.documentElement.dataset.place === 'there'", PATIENCE);
  await edit(page, "\n", "\n# in the link\n");
  await reload(page, "location.hash = 'example=fork&at=turn'; location.reload()");
  await page.until("document.documentElement.dataset.place === 'there'", PATIENCE);
  await edit(page, "\n", "\n# in the second\n");
  await page.sleep(SETTLED);
  const works = await works_kept(page);
  holds(works.some((it) => it.includes("# in the link")) && works.some((it) => it.includes("# in the second")), `a link that is opened again takes nothing away of what was changed: ${works.map((it) => it.split("[")[0]).join("; ")}`);
  await page.eval("location.hash = 'example=hang&at=last'; 0");
  await page.sleep(SETTLED);
  await reload(page, "history.back(); setTimeout(() => location.reload(), 300)");
  await reload(page, "history.forward(); setTimeout(() => location.reload(), 300)");
  await page.sleep(SETTLED);
  holds(await keeps(page, 1, "echo linked\n"), "links, back and forward: the run of the shell is kept");
  await leave(page);
  await page.go(`${url}?anew`);
  holds(await shows(page, "echo linked\\s+linked"), "and found by a page that is opened anew");
  const text = await page.eval("page.sharing.link()");
  await page.eval(`location.hash = ${JSON.stringify(text.split("#")[1])}; 0`);
  await page.until("page.app.work.name.startsWith('link ')", PATIENCE);
  await page.sleep(SETTLED);
  const name = await page.eval("page.app.work.name");
  await choose(page, "frames", "777");
  await page.sleep(SETTLED);
  await page.eval(`location.hash = ''; location.hash = ${JSON.stringify(text.split("#")[1])}; 0`);
  await page.until(`page.app.work.name !== '${name}' && page.app.work.name.startsWith('link ')`, PATIENCE).catch(() => {});
  await page.sleep(SETTLED);
  holds((await works_kept(page)).some((it) => it.startsWith(`work ${name}[`) && it.includes("777")), "a link that is opened again leaves the settings that were changed");
}

/** Keys in the last moment before a boot, and while a machine is booted; runs that are opened while others are. */
async function boots(page) {
  await enter(page, "early");
  await page.eval("(() => { const screen = document.getElementById('screen'), press = (key) => screen.dispatchEvent(new KeyboardEvent('keydown', { key, bubbles: true, cancelable: true })); for (const it of 'last') press(it); page.programs.choose('pipeline'); page.programs.boot(); })()");
  await page.until("page.app.booted.work === 'pipeline' && page.app.view", PATIENCE);
  await page.sleep(SETTLED);
  holds(await keeps(page, 1, "echo early\n", "last"), "keys in the moment before another boot are kept");
  await page.eval("(() => { const screen = document.getElementById('screen'), press = (key) => screen.dispatchEvent(new KeyboardEvent('keydown', { key, bubbles: true, cancelable: true })); page.programs.choose('shell'); page.on('booted', () => { window.is_there = true; }); (async () => { await page.programs.boot(); for (const it of 'soon') press(it); })(); })()");
  await page.until("window.is_there && page.app.view && document.getElementById('screen').textContent.includes('soon')", PATIENCE);
  await page.sleep(SETTLED);
  await example(page, "hello");
  await example(page, "fork");
  await page.sleep(SETTLED);
  holds((await keys_kept(page)).some((it) => it.keys === "soon" && it.is_own), "keys that are typed while a machine is booted are kept");
  const before = await keys_kept(page);
  await page.eval("(async () => { const all = (await page.session.listed_runs()).filter((it) => it.work === 'shell'); for (const it of [...all, ...all]) page.session.open_run(it); })()");
  await page.sleep(6000);
  const after = await keys_kept(page);
  holds(before.every((one) => !one.is_own || after.some((it) => it.id === one.id && it.keys === one.keys && it.work === one.work)), "runs that are opened one upon another stay what they are");
}

/** A program that never waits; a run that is longer than can be played; many cuts; a future that is too long. */
async function long_runs(page) {
  await files(page, [{ name: "init.s", text: "again:\n  j again\n" }], "{}");
  await boot(page);
  await type(page, "busy");
  await page.sleep(13000);
  holds((await keys_kept(page)).some((it) => it.keys === "busy"), "keys to a program that never waits are kept, while it computes");
  await comes(page, "page.app.view?.end > 520e6", PATIENCE);
  await reload(page);
  const told = await page.eval("[page.app.booted.work, page.app.line.end, page.problems().join(' ')]");
  holds(told[0] === "own" && told[2].includes("here is its beginning") && (await keys_kept(page)).some((it) => it.keys === "busy"), `of a run that is too long its beginning is played: ${told.join("; ")}`);
  await example(page, "shell");
  await prompts(page);
  await enter(page, "cuts");
  await pause(page);
  await page.sleep(300);
  const end = await page.eval("page.app.view.end"), first = await page.eval("page.app.events.all()"), texts = [];
  for (let k = 0; k < 12; k++) {
    await page.eval(`page.ask('go', { place: ${end - 100 - k} })`);
    await page.until(`page.app.view?.at === ${end - 100 - k}`);
    await type(page, "abcdefghijkl"[k]);
    await page.until(`page.app.cut_off.length === ${k + 1}`);
    await pause(page);
    texts.push(await page.eval("page.app.events.all()"));
  }
  await reload(page);
  holds(await page.eval("page.app.cut_off.length") === 12, "twelve futures that keys have cut off are there after a reload");
  const seen = [];
  for (let k = 11; k >= 0; k--) {
    await page.eval("page.ask('take_back')");
    await comes(page, `page.app.view.at === ${end - 100 - k}`);
    await page.sleep(200);
    seen.push(await page.eval("page.app.events.all()"));
  }
  holds(seen.slice(0, -1).every((it, k) => it === texts[10 - k]) && seen.at(-1) === first, "each comes back as it was, the first one last");
  await page.eval("page.ask('take_back')");
  await comes(page, `page.app.view.at === ${end - 111}`);
  await page.sleep(200);
  holds(await page.eval("page.app.events.all()") === texts[11], "then comes that which was here");
}

const CHECKS = { at_once, closed, two_tabs, taken, laid_aside, other_tab_deletes, full, no_database, links, boots, long_runs };
for (const [name, check] of Object.entries(CHECKS)) {
  if (names.length && !names.includes(name)) continue;
  if (name === "no_database" && process.env.BROWSER === "firefox") continue; // its driver puts no script before a page's own
  const page = await open(url, { width: 1300, height: 850 });
  try {
    await prompts(page);
    await check(page);
  } catch (error) {
    holds(false, `${name}: ${error.stack}`);
    await page.picture(`${folder}/kept-${name}.png`).catch(() => {});
  }
  await page.close();
  holds(page.logs.length === 0, `${name}: no errors of the page: ${page.logs.join("; ")}`);
}
console.log(bad ? `${bad} things are lost or wrong` : "nothing is lost");
process.exit(bad ? 1 : 0);
