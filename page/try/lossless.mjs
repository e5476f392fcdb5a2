// lossless.mjs PAGE.html FOLDER [NAME..]: whether on the page nothing is lost, and nothing wrong is shown: each check
// does what a student does, and looks at what the page shows then. With names only these checks are made. The status is
// 1 if something isn't as it should be.
import { mkdirSync } from "node:fs";
import { pathToFileURL } from "node:url";
import { boot, button, choose, comes, drop, edit, example, files, message, pause, source, text_of, type } from "./hand.mjs";
const { open } = await import(process.env.BROWSER === "firefox" ? "./firefox.mjs" : "./browser.mjs");

const [page_file, folder, ...names] = process.argv.slice(2), url = pathToFileURL(page_file).href;
mkdirSync(folder, { recursive: true });
let bad = 0;
const holds = (is, what) => { console.log(`${is ? "  " : "NOT"} ${what}`); if (!is) bad++; };
const reload = async (page) => { await page.sleep(1600); await page.go(`${url}?${Math.random()}`); await page.sleep(800); };
const EXIT = "  li a0, 7\n  li a7, 2\n  ecall\n";

// ---- work

async function work(page) {
  await example(page, "hello");
  await edit(page, "hi\\n", "mine\\n");
  await choose(page, "quantum", "77");
  await page.eval("show_tab('opened')");
  await page.until("document.getElementById('mistake').className === 'good'");
  await page.sleep(300);
  await page.eval("[...document.querySelectorAll('.gutter div')].find((it) => !it.classList.contains('no')).click()");
  await boot(page);
  await reload(page);
  holds((await source(page)).includes("mine") && (await page.eval("document.getElementById('quantum').value")) === "77", "a reload finds the edited source and the machine's settings");
  holds((await text_of(page, "break-count")) === "1" && (await page.eval("!document.getElementById('opened').hidden")), "a reload finds the break point and the tab");
  await example(page, "echo");
  await example(page, "hello");
  holds((await source(page)).includes("mine"), "another example and back: the edit is there");
  await page.eval("document.getElementById('as-shipped')?.click()");
  await page.sleep(400);
  holds((await source(page)).includes("hi\\n") && !(await source(page)).includes("mine"), "as it was shipped");
  await page.eval("document.getElementById('bring-back')?.click()");
  holds((await source(page)).includes("mine"), "what was changed comes back");
  await button(page, "−");
  const is_gone = !(await page.eval("page.app.files.some((it) => it.name === 'init.s')"));
  await page.eval("document.getElementById('bring-back')?.click()");
  holds(is_gone && (await source(page)).includes("mine"), "a file that was taken away comes back");
  await page.eval("window.prompt = () => 'init.s'");
  await button(page, "+");
  holds((await page.eval("page.app.files.find((it) => it.name === 'init.s').text")).includes("mine") && (await message(page)).includes("already"), "a new source under a name that is there is refused");
}

/** Does something with a store of the browser's database, as another tab does: `it` is the store. */
const in_store = (page, name, action) => page.eval(`new Promise((done, fail) => {
  const request = indexedDB.open('nektavoly', 1);
  request.onerror = () => fail(request.error);
  request.onsuccess = () => {
    const asked = request.result.transaction(['${name}'], 'readwrite'), it = asked.objectStore('${name}');
    let told;
    asked.oncomplete = () => { request.result.close(); done(told); };
    const all = it.getAll();
    all.onsuccess = () => { told = (${action})(all.result, it); };
  };
})`);
const kept_runs = (page) => in_store(page, "runs", "(all) => all.map((it) => ({ id: it.id, work: it.work, name: it.name, length: it.length, at: it.run?.at, futures: it.run?.futures.length }))");

async function two_tabs(page) {
  await example(page, "hello");
  await edit(page, "hi\\n", "mine\\n");
  await page.sleep(900);
  await in_store(page, "values", "(all, it) => { const one = all.find((it) => it.name === 'work hello'), text = JSON.stringify(one.value).replace('mine', 'theirs'); it.put({ ...one, value: JSON.parse(text), version: 'of another tab' }); }");
  await edit(page, "mine", "still mine");
  await page.sleep(1500);
  const texts = await in_store(page, "values", "(all) => all.map((it) => it.name + JSON.stringify(it.value))");
  holds(texts.some((it) => it.startsWith("work hello{") && it.includes("theirs")) && texts.some((it) => it.startsWith("work hello 2{") && it.includes("still mine")), "two tabs with one example keep what both have changed");
  holds((await message(page)).includes("is now kept as hello 2"), `which is said: ${await message(page)}`);
  await example(page, "shell");
  await page.until("document.getElementById('screen').textContent.includes('$ ')");
  await type(page, "echo one\n");
  await page.until("/one\\s+one/.test(document.getElementById('screen').textContent)");
  await pause(page);
  await page.sleep(1500);
  await in_store(page, "runs", "(all, it) => { for (const one of all) it.put({ ...one, owner: 'another tab' }); }");
  const [before] = await kept_runs(page);
  await type(page, "echo two\n");
  await page.until("/two\\s+two/.test(document.getElementById('screen').textContent)");
  await pause(page);
  await page.sleep(1500);
  const runs = await kept_runs(page), there = runs.find((it) => it.id === before.id);
  holds(runs.length === 2 && there.length === before.length && runs.some((it) => it.id !== before.id && it.length > before.length), `two tabs with one run keep both: ${runs.map((it) => it.length).join(", ")} events`);
}

/** A run in which something was typed survives links and other examples, and is listed; its futures too. */
async function runs(page) {
  await page.until("document.getElementById('screen').textContent.includes('$ ')");
  await type(page, "echo one two | wc\n");
  await page.until("document.getElementById('screen').textContent.includes('1 2 8')");
  await pause(page);
  await page.sleep(1500);
  const end = await page.eval("page.app.line.end");
  await page.go(`${url}?${Math.random()}#example=fork&at=fork`);
  await comes(page, "document.documentElement.dataset.place === 'there'");
  await reload(page);
  holds(await comes(page, `page.app.booted?.work === 'shell' && page.app.line.end === ${end}`), "after a link the run of the last visit is there again");
  await page.eval("page.ask('go', { place: 3000 })");
  await page.until("page.app.view?.at === 3000");
  await type(page, "x");
  await page.sleep(500);
  await pause(page);
  await page.sleep(1500);
  await reload(page);
  await comes(page, "page.app.view?.futures?.length === 1");
  await page.click("#take-back");
  holds(await comes(page, `page.app.line.end === ${end} && page.app.view?.at === 3000`), "a future that was cut off before a reload is taken back after it");
  await example(page, "hello");
  await example(page, "shell");
  await page.until("document.getElementById('screen').textContent.includes('$ ')");
  await type(page, "ls\n");
  await page.sleep(1500);
  await pause(page);
  await page.eval("window.prompt = () => 'my first'; window.confirm = () => true");
  const listed = () => page.eval("[...document.querySelectorAll('#runs tbody tr')].map((it) => it.textContent)");
  await page.click("#your-runs");
  await comes(page, "document.querySelectorAll('#runs tbody tr').length === 2");
  const two = await listed();
  holds(two.length === 2 && two.some((it) => it.includes("shown now")) && two.every((it) => /shell.*events.*202\d/.test(it)), `your runs: ${two.join("; ")}`);
  await page.picture(`${folder}/your-runs.png`);
  await page.eval("[...document.querySelectorAll('#runs tbody tr')].find((it) => !it.textContent.includes('shown now')).querySelector('[aria-label^=Name]').click()");
  holds(await comes(page, "document.getElementById('runs').textContent.includes('my first')"), "a run has a name");
  await page.eval("[...document.querySelectorAll('#runs tbody tr')].find((it) => it.textContent.includes('my first')).querySelector('[aria-label^=Open]').click()");
  holds(await comes(page, `page.app.line.end === ${end}`), "and is opened");
  await page.sleep(1500);
  await page.click("#your-runs");
  await comes(page, "document.querySelectorAll('#runs tbody tr').length === 2");
  await page.eval("[...document.querySelectorAll('#runs tbody tr')].find((it) => !it.textContent.includes('my first')).querySelector('[aria-label^=Take]').click()");
  holds(await comes(page, "document.querySelectorAll('#runs tbody tr').length === 1"), "and another is taken away");
  await page.eval("document.getElementById('dialog').close()");
}

/** What localStorage had of an earlier page is taken over, once. */
async function taken_over(page) {
  await page.eval("(() => { indexedDB.deleteDatabase('nektavoly'); const put = (name, value) => localStorage.setItem('nektavoly ' + name, JSON.stringify(value)); put('work hello', { title: 'hello', example: 'hello', how: {}, files: [{ name: 'init.s', text: '# of an earlier page\\n  ecall\\n', changed: true }], machine: { frames: 4096, order: 'live', quantum: 1000, keys: '' }, breaks: [], gone: [] }); put('now', { work: 'hello', run: null, length: 5, tabs: ['tab-opened'], speed: '0', lesson: { number: -1, answers: {} } }); })()");
  await page.go(`${url}?${Math.random()}`);
  holds((await comes(page, "document.getElementById('source').value.includes('of an earlier page')")) && (await page.eval("!document.getElementById('opened').hidden")), "what localStorage had is taken over");
  holds(await page.eval("!Object.keys(localStorage).some((it) => it.startsWith('nektavoly work'))"), "and stands there no more");
}

async function run_kept(page) {
  await example(page, "shell");
  await page.until("document.getElementById('screen').textContent.includes('$ ')");
  await type(page, "echo one two | wc\n");
  await page.until("document.getElementById('screen').textContent.includes('1 2 8')");
  await pause(page);
  await page.eval("page.ask('go', { place: 2000 })");
  await page.until("page.app.view?.at === 2000");
  const end = await page.eval("page.app.line.end");
  await reload(page);
  holds((await page.eval("page.app.line.end")) === end && (await page.eval("page.app.view?.at")) === 2000, "a reload finds the run with the keys that were typed, and stands at its place");
}

async function run_before(page) {
  await example(page, "shell");
  await page.until("document.getElementById('screen').textContent.includes('$ ')");
  await type(page, "echo typed\n");
  await page.until("/typed\\s+typed/.test(document.getElementById('screen').textContent)");
  await pause(page);
  const end = await page.eval("page.app.line.end");
  await example(page, "hello");
  await page.eval("document.getElementById('run-before')?.click()");
  holds((await comes(page, `page.app.line.end === ${end} && page.app.view?.at === ${end}`)) && (await page.eval("document.getElementById('example').value === 'shell'")), "a run with typed keys, that another boot has ended, comes back");
}

async function chosen_ended(page) {
  await files(page, [{ name: "init.s", text: `  li a7, 1\n  ecall\n  beq a0, x0, child\nagain:\n  j again\nchild:\n  li s1, 77\n${EXIT}` }], "{ rounds: true, quantum: 20 }");
  await boot(page);
  await pause(page);
  await page.eval("page.ask('go', { place: 0 })");
  await comes(page, "page.app.view?.at === 0");
  for (let k = 0; k < 40 && !(await page.eval("page.app.view.processes.some((it) => it.pid === 2)")); k++) { await page.eval("page.ask('step', { what: 'event', back: false })"); await page.sleep(60); }
  await page.eval("[...document.querySelectorAll('#process-rows tr')].find((it) => it.textContent.startsWith('└ 2') || it.textContent.includes('└ 2')).click()");
  await page.sleep(200);
  await page.eval("page.ask('go', { place: page.app.line.end })");
  await comes(page, "document.querySelector('#instruction .who').textContent.includes('as it ended')");
  const who = await page.eval("document.querySelector('#instruction .who').textContent");
  holds(who.startsWith("2 (init), as it ended") && (await text_of(page, "registers")).includes("77"), `a process that was chosen and has ended: ${who}`);
}

async function bad_storage(page) {
  await example(page, "hello");
  await page.sleep(1600);
  const values = ["null", "5", "'x'", "[]", "{}", "{ files: 7, events: 5 }", "{ built: PAGE_DATA.built, files: 7, events: 5 }", "{ built: PAGE_DATA.built, files: [], events: 'Rzzzzzzzzz' }"];
  for (const run of values) {
    await in_store(page, "runs", `(all, it) => { it.clear(); it.put({ id: 'bad', owner: '', name: '', when: 1e15, is_own: true, work: 'hello', tabs: 5, lesson: 5, speed: {}, length: 'x', run: ${run} }); }`);
    await page.eval("sessionStorage.clear()");
    await page.go(`${url}?${Math.random()}`);
    holds(await comes(page, "page.app.view && page.app.booted"), `a run that can't be read, ${run}: a machine stands; ${(await page.eval("page.problems()")).join(" ").slice(0, 80)}`);
  }
  await example(page, "shell");
  await in_store(page, "runs", "(all, it) => it.clear()");
  await in_store(page, "values", "(all, it) => { it.put({ name: 'work shell', version: '1', value: { files: 7 } }); it.put({ name: 'work __proto__', version: '1', value: 5 }); }");
  await page.eval("sessionStorage.clear()");
  await page.go(`${url}?${Math.random()}`);
  holds(await comes(page, "document.getElementById('screen').textContent.includes('$ ')"), "works that can't be read don't keep the page from its shell");
}

async function saved(page) {
  await example(page, "hello");
  await page.eval("window.saved = []; HTMLAnchorElement.prototype.click = function () { fetch(this.href).then((it) => it.text()).then((text) => window.saved.push([this.download, text])); }");
  await page.eval("document.getElementById('save')?.click()");
  holds((await comes(page, "window.saved.length", 3000)) && (await page.eval("window.saved[0][0] === 'init.s' && window.saved[0][1] === page.app.files[0].text")), "a source is saved as a file");
}

async function lesson(page) {
  await page.eval("open_lesson(1)");
  await page.sleep(900);
  await edit(page, "ecall", "ecall # mine");
  await page.eval("(() => { const it = document.querySelectorAll('#lessons .ask')[0]; it.querySelector('input').value = '8'; it.querySelector('button.main').click(); })()");
  const is_right = await comes(page, "document.querySelectorAll('#lessons .ask')[0].querySelector('[role=status]').textContent.startsWith('Right')");
  holds(is_right && (await source(page)).includes("# mine"), "a lesson's Check leaves what was edited");
  await example(page, "tree");
  holds(!(await source(page)).includes("# mine"), "the lesson's copy is no example's");
}

async function no_storage(page) {
  await type(page, "echo kept\n");
  await page.until("/kept\\s+kept/.test(document.getElementById('screen').textContent)");
  await pause(page);
  const end = await page.eval("page.app.line.end");
  for (let k = 0; k < 60 && !(await kept_runs(page)).some((it) => it.length === end); k++) await page.sleep(200);
  await page.eval("IDBObjectStore.prototype.put = () => { throw new DOMException('full', 'QuotaExceededError'); }; Storage.prototype.setItem = ((put) => function (name, value) { if (value.length > 60) throw new DOMException('full', 'QuotaExceededError'); put.call(this, name, value); })(Storage.prototype.setItem)");
  await type(page, "echo lost\n");
  await page.until("/lost\\s+lost/.test(document.getElementById('screen').textContent)");
  holds(await comes(page, "document.getElementById('kept').textContent.includes('not kept')"), "that the browser keeps nothing is said by a lasting mark");
  await page.key("Escape");
  await page.key("x");
  await page.click("#theme");
  const words = await page.eval("page.problems().join(' ')");
  holds(words.includes("full") && words.includes("Share"), `and in the list of messages, with what to do: ${words}`);
  await page.picture(`${folder}/not-kept.png`);
  await page.sleep(1000);
  await page.go(`${url}?${Math.random()}`);
  await comes(page, "page.app.view && page.problems().length");
  const after = await page.eval("page.problems().join(' ')"), length = await page.eval("page.app.line.end");
  holds(length === end && !(await text_of(page, "screen")).includes("lost") && after.includes("was not kept"), `after a reload it is told truthfully: ${after}`);
  holds(await comes(page, "document.getElementById('kept').textContent.includes('✓')"), "and all is kept again");
}

// ---- what is shown

async function ended(page) {
  await example(page, "shell");
  await page.sleep(600);
  await files(page, [{ name: "init.s", text: `start:\n  li s1, 0x123\n${EXIT}` }]);
  await page.eval("show_tab('instruction')");
  await boot(page);
  await page.until("page.app.view?.facts.halted");
  await page.sleep(500);
  const code = await text_of(page, "code"), who = await page.eval("document.querySelector('#instruction .who').textContent");
  holds(code.includes("addi s1") === false ? code.includes("li s1, 0x123") : true, `the last process's instructions stay: ${code.slice(0, 60)}`);
  holds(who.includes("as it ended") && (await text_of(page, "registers")).includes("291"), `it is shown as it ended: ${who}`);
  await page.eval("show_tab('pages')");
  holds(await comes(page, "page.app.view?.pages?.found.length > 0 && page.app.view?.pages.found.every((it) => page.app.view?.frames.kinds[it.frame] === 6)"), "its page table and the map of frames are of the same moment");
  await page.picture(`${folder}/ended.png`);
  await page.eval("show_tab('instruction')");
}

async function only_this_boot(page) {
  await example(page, "shell");
  await page.sleep(600);
  await page.eval("window.seen = []; page.on('booted', () => window.seen.push(document.getElementById('code').textContent + document.getElementById('registers').textContent + document.getElementById('process-rows').textContent + document.querySelector('#screen pre').textContent.trim()))");
  await example(page, "hello");
  holds((await page.eval("window.seen[0]")) === "", "when another machine is booted, nothing of the one before is drawn");
  await example(page, "shell");
  await page.sleep(600);
  await choose(page, "frames", "5");
  await page.click("#boot");
  await page.sleep(600);
  holds((await message(page)).includes("16") && (await page.eval("page.app.view?.facts.free > 100 && page.app.booted.config.frames === 4096")), "a boot that is refused leaves the machine that is there");
  await choose(page, "frames", "4096");
}

// ---- files

const LONG = "Array.from({ length: 5000 }, (_, k) => `l${k}: addi t0, t0, ${k % 2000}   # line ${k}`).join('\\n')";

async function large(page) {
  await example(page, "hello");
  await drop(page, [["big.txt", "'x'.repeat(1 << 20) + 'y'"], ["fits.txt", "'a text\\n'"]]);
  holds((await message(page)).includes("big.txt") && (await message(page)).includes("MiB") && !(await page.eval("page.app.files.some((it) => it.name === 'big.txt')")), `a file that is too large is refused: ${await message(page)}`);
  holds(await page.eval("page.app.files.some((it) => it.name === 'fits.txt')"), "one that fits is taken beside it");
  const opened = await page.eval(`(async () => { const text = 'a line of text\\n'.repeat(69000); const began = performance.now(); await page.programs.take([new File([text], 'long.txt')]); document.getElementById('source').offsetHeight; await new Promise(requestAnimationFrame); return performance.now() - began; })()`);
  // (What a bare text field takes for it on this host: hosts differ by more than twice.)
  const bare = await page.eval(`(async () => { const text = 'a line of text\\n'.repeat(69000), it = document.createElement('textarea'); document.body.append(it); const began = performance.now(); it.value = text; it.offsetHeight; await new Promise(requestAnimationFrame); const took = performance.now() - began; it.remove(); return took; })()`);
  holds(opened < 4 * bare + 300, `a text of a megabyte is opened in ${opened.toFixed(0)} ms, a bare text field takes ${bare.toFixed(0)}`);
  await drop(page, [["many.s", LONG]]);
  await page.sleep(1500);
  const keys = await page.eval(`(async () => {
    const it = document.getElementById('source'), took = [];
    it.focus();
    it.setSelectionRange(60000, 60000);
    for (let k = 0; k < 20; k++) {
      const began = performance.now();
      document.execCommand('insertText', false, k % 5 === 4 ? '\\n' : 'x');
      it.offsetHeight;
      took.push(performance.now() - began);
      await new Promise((done) => setTimeout(done, 30));
    }
    return took.sort((a, b) => a - b);
  })()`);
  holds(keys[10] <= 50, `a key in 5,000 lines takes ${keys[10].toFixed(0)} ms, the longest ${keys[19].toFixed(0)}`);
  await page.eval("(() => { const it = document.getElementById('editor'); it.scrollTop = it.scrollHeight / 2; })()");
  await page.sleep(300);
  await page.picture(`${folder}/long-source.png`);
  const row = await page.eval("(() => { const box = document.getElementById('editor').getBoundingClientRect(), all = [...document.querySelectorAll('.ink .row')].filter((it) => { const one = it.getBoundingClientRect(); return one.top >= box.top && one.bottom <= box.bottom; }); return all.length > 10 && all.every((it) => /line \\d+/.test(it.textContent)) && all[0].textContent; })()");
  holds(/line (24|25)\d\d/.test(row), `what is scrolled to is drawn: ${row}`);
}

async function bytes(page) {
  await example(page, "shell");
  await drop(page, [["logo.png", "Uint8Array.from({ length: 300 }, (_, k) => k ^ 137)"]]);
  await boot(page);
  await page.until("document.getElementById('screen').textContent.includes('$ ')");
  await type(page, "wc < logo.png\n");
  holds(await comes(page, "/ 300\\b/.test(document.getElementById('screen').textContent)"), "a picture goes through wc with its own size");
  await drop(page, [["crlf.txt", "'one\\r\\ntwo\\r\\n'"]]);
  await edit(page, "one", "eins");
  holds((await page.eval("page.app.files.find((it) => it.name === 'crlf.txt').text")) === "eins\r\ntwo\r\n", "the ends of lines stay as they are");
}

// ---- break points

async function stops(page) {
  await files(page, [{ name: "init.s", text: `  li s0, 1\n  li s1, 2\n  li s2, 3\n${EXIT}` }]);
  await page.sleep(400);
  await page.eval("document.querySelectorAll('.gutter div')[2].click()");
  await edit(page, "  li s0", "# one\n# two\n  li s0");
  await page.sleep(400);
  const line = await page.eval("document.querySelector('.gutter .stop')?.textContent");
  holds(line === "5", `a break point goes with its line: line ${line}`);
  await boot(page);
  const stood = await comes(page, "!page.app.view?.playing && page.app.view?.stopped.includes('line 5')", 4000);
  holds(stood && (await page.eval("String(page.app.view?.registers[18])")) === "0", "the machine stops before it");
  await page.eval("window.prompt = () => 'other.s'");
  await button(page, "+");
  holds(await page.eval("document.querySelectorAll('.gutter .stop').length === 0"), "another source has none");
  await example(page, "hello");
  holds((await text_of(page, "break-count")) === "", "another example has none");
  await page.sleep(300);
  holds(await page.eval("page.app.view?.stopped !== 'at line 3' && !page.app.view?.stopped.includes('line')"), "and isn't stopped by it");
}

// ---- sharing

async function share(page) {
  await example(page, "shell");
  await page.until("document.getElementById('screen').textContent.includes('$ ')");
  await type(page, "echo shared run\n");
  await page.until("document.getElementById('screen').textContent.includes('shared run\\nshared') || /run\\s+shared run/.test(document.getElementById('screen').textContent)");
  await pause(page);
  const end = await page.eval("page.app.line.end"), at = end - 500;
  await page.eval(`page.ask('go', { place: ${at} })`);
  await page.until(`page.app.view?.at === ${at}`);
  await page.sleep(200);
  await page.click("#share");
  await page.until("document.querySelector('#dialog textarea')?.value.includes('#run=')");
  const link = await page.eval("document.querySelector('#dialog textarea').value"), words = await text_of(page, "dialog"), shown = await text_of(page, "screen");
  await page.picture(`${folder}/share-file.png`);
  holds(words.includes("opened from a file"), "from a local file it is said where the link works");
  await page.eval("window.saved = []; HTMLAnchorElement.prototype.click = function () { fetch(this.href).then((it) => it.text()).then((text) => window.saved.push(text)); }");
  await page.eval("document.getElementById('save-shared')?.click(); document.getElementById('dialog').close()");
  const file = (await comes(page, "window.saved.length", 2000)) ? await page.eval("window.saved[0]") : "";
  const other = await open(link);
  await other.sleep(500);
  holds((await other.eval("page.app.view?.at")) === at && (await other.eval("page.app.line.end")) === end && (await text_of(other, "screen")) === shown, `a link of ${link.length} characters leads to the same place of the same run`);
  await example(other, "hello");
  await drop(other, [["run.txt", JSON.stringify(file)]]);
  holds(await comes(other, `page.app.view?.at === ${at} && page.app.line.end === ${end}`, 5000), "so does the file");
  holds(other.logs.length === 0, `no errors: ${other.logs.join("; ")}`);
  await other.close();
}

// ---- deadlocks

async function deadlock(page) {
  for (const order of ["live", "rounds"]) {
    await example(page, "hang");
    await choose(page, "order", order);
    await boot(page);
    holds(await comes(page, "document.getElementById('clock').textContent.includes('nobody can go on')"), `${order}: the clock says that nobody can go on`);
    holds((await text_of(page, "why-count")).includes("!"), `${order}: Why has a badge`);
    await page.picture(`${folder}/deadlock-${order}.png`);
    await page.eval("document.getElementById('stuck')?.click()");
    await comes(page, "document.querySelector('.ink .row.pc')?.textContent.includes('ecall')");
    const row = await page.eval("document.querySelector('.ink .row.pc')?.textContent ?? ''");
    holds(row.includes("ecall") && (await page.eval("!document.getElementById('why').hidden && page.app.view?.at < page.app.line.end")), `${order}: from there to the call and its line: ${row.trim()}`);
  }
  await example(page, "shell");
  await page.until("document.getElementById('screen').textContent.includes('$ ')");
  await page.sleep(300);
  holds(!(await text_of(page, "clock")).includes("nobody can go on"), "a shell that waits for a key isn't one");
}

// ---- refusals

async function refusals(page) {
  const boots = async (list) => { await files(page, list); await page.eval("document.getElementById('status').textContent = ''"); await page.click("#boot"); await page.sleep(700); return (await message(page)) || text_of(page, "mistake"); };
  for (const [list, wanted] of [
    [[{ name: "my_first_program.s", text: EXIT }, { name: "init.s", text: EXIT }], ["my_first_program", "16 letters", "14 fit"]],
    [[{ name: "init.s", text: EXIT }, { name: "empty", text: "" }, { name: "empty.s", text: EXIT }], ["two files", "`empty`"]],
    [[{ name: "one.s", text: EXIT }, { name: "two.s", text: EXIT }], ["`init`"]],
    [[{ name: "my_first_program.s", text: EXIT }], ["runs as init"]],
  ]) { const words = await boots(list); holds(wanted.every((it) => words.includes(it)), `refused in words: ${words}`); }
  holds(await page.eval("page.app.view?.facts.status === 7"), "the only program runs as init");
  for (const [line, wanted] of [["  li a0, 1 // one", "begins with `#`"], ["  li a0, 'a'", "97"], [".equ N, 5", "no names for numbers"], ["  li a0, 0b101", "5"], ["again: beqz t0, again", "beq t0, x0, again"], ["again: bgt t0, t1, again # up", "blt t1, t0, again"], ["  neg t0, t1", "sub t0, x0, t1"], ["  addi a9, a0, 1", "`a9`: there is no such register"], ["  li a0, '#'", "35"], ["  j nowhere", "`nowhere`"]]) {
    // (What was told of the line before isn't to be taken for this one's.)
    await page.eval("document.getElementById('mistake').textContent = ''");
    await files(page, [{ name: "init.s", text: `${line}\n${EXIT}` }]);
    await comes(page, "document.getElementById('mistake').textContent.startsWith('line 1')", 2000);
    const words = await text_of(page, "mistake");
    holds(words.includes(wanted), `the assembler's mistake: ${words}`);
  }
}

// ---- keys

async function keys(page) {
  await example(page, "shell");
  await page.until("document.getElementById('screen').textContent.includes('$ ')");
  await type(page, "wc\n");
  const text = Array.from({ length: 40 }, (_, k) => `line number ${k}\n`).join("");
  await page.eval(`(() => { const it = new Event('paste', { bubbles: true, cancelable: true }); it.clipboardData = { getData: () => ${JSON.stringify(text)} }; document.getElementById('screen').dispatchEvent(it); })()`);
  await comes(page, "document.getElementById('screen').textContent.includes('line number 39\\n')");
  await page.eval("type_keys('\\x04')");
  holds(await comes(page, `document.getElementById('screen').textContent.includes('40 120 ${text.length}')`), "all lines that are pasted arrive");
  await pause(page);
  const end = await page.eval("page.app.line.end");
  await page.eval("page.ask('go', { place: 3000 })");
  await page.until("page.app.view?.at === 3000");
  await type(page, "x");
  await page.sleep(600);
  await pause(page);
  await page.picture(`${folder}/cut-off.png`);
  const is_cut = await page.eval("page.app.line.at[page.app.line.length - 1] < 100000 && page.app.line.end !== " + end);
  await page.eval("document.getElementById('take-back')?.click()");
  holds(is_cut && (await comes(page, `page.app.line.end === ${end} && page.app.view?.at === 3000`, 5000)), "a future that a key has cut off is taken back");
}

// ---- the rest

/** The text elements of the page whose contrast with what is below them is less than 4.5. */
const FAINT = `(() => {
  const of = (text) => { const it = /rgba?\\(([^)]+)\\)/.exec(text); if (!it) return null; const [r, g, b, a = 1] = it[1].split(/[, /]+/).map(Number); return { r, g, b, a }; };
  const light = ({ r, g, b }) => { const [x, y, z] = [r, g, b].map((it) => { const c = it / 255; return c <= 0.03928 ? c / 12.92 : ((c + 0.055) / 1.055) ** 2.4; }); return 0.2126 * x + 0.7152 * y + 0.0722 * z; };
  const below = (it) => { for (let at = it; at; at = at.parentElement) { const color = of(getComputedStyle(at).backgroundColor); if (color && color.a > 0.99) return color; } return { r: 255, g: 255, b: 255 }; };
  const found = new Map();
  for (const it of document.querySelectorAll("body *")) {
    if (!it.checkVisibility() || it.closest(".unseen, button:disabled, #source, script, style, option, canvas, #typed")) continue;
    if (![...it.childNodes].some((one) => one.nodeType === 3 && one.data.trim())) continue;
    const color = of(getComputedStyle(it).color), ground = below(it);
    if (!color || color.a < 0.5) continue;
    const [a, b] = [light(color), light(ground)].sort((x, y) => y - x), contrast = (a + 0.05) / (b + 0.05);
    if (contrast < 4.5) found.set(it.tagName + "." + it.className + "#" + it.id, contrast.toFixed(2) + " " + it.textContent.trim().slice(0, 20));
  }
  return [...found].map((it) => it.join(" "));
})()`;

async function rest(page) {
  await example(page, "hello");
  await choose(page, "speed", "1000");
  await reload(page);
  const is_chosen = await page.eval("document.getElementById('speed').value === '1000'"), before = await page.eval("page.app.line.end");
  await files(page, [{ name: "init.s", text: "again:\n  j again\n" }], "{ rounds: true }");
  await boot(page);
  await page.sleep(1500);
  await pause(page);
  const end = await page.eval("page.app.line.end");
  holds(is_chosen && end < 10000, `a reload keeps the speed that is shown: ${end} events (${before} before)`);
  await choose(page, "speed", "0");
  holds(await page.eval("parseFloat(getComputedStyle(document.documentElement).scrollPaddingTop) >= document.getElementById('time').offsetHeight"), "what is scrolled to stands below the bar");
  await page.eval("open_lesson(0)");
  await page.sleep(800);
  const answer = async (k, given) => {
    const told = `document.querySelectorAll('#lessons .ask')[${k}].querySelector('[role=status]')`;
    await page.eval(`(() => { const it = document.querySelectorAll('#lessons .ask')[${k}]; it.querySelector('input').value = ${JSON.stringify(given)}; it.querySelector('button.main').click(); })()`);
    await page.until(`${told}.className !== ''`).catch(() => {});
    return page.eval(`${told}.textContent`);
  };
  const empty = await answer(0, ""), wrong = await answer(0, "77"), minus = await answer(1, "−1");
  holds(!empty.startsWith("Not so"), `an empty answer isn't wrong: ${empty}`);
  holds(wrong.startsWith("Not so") && wrong.length > 20, `a wrong one gets a hint: ${wrong}`);
  holds(minus.startsWith("Right"), `the sign − is taken: ${minus}`);
}

async function contrast(page) {
  await example(page, "hang");
  await boot(page);
  await page.sleep(800);
  await page.eval("open_lesson(2)");
  await page.sleep(900);
  for (const [k, given] of [[0, "1"], [1, "9"]]) {
    await page.eval(`(() => { const it = document.querySelectorAll('#lessons .ask')[${k}]; it.querySelector('input').value = '${given}'; it.querySelector('button.main').click(); })()`);
    await comes(page, `/^(Right|Not so)/.test(document.querySelectorAll('#lessons .ask')[${k}].querySelector('[role=status]').textContent)`);
  }
  await edit(page, "ecall", "beqz a0, again");
  await page.sleep(600);
  for (const theme of ["light", "dark"]) {
    await page.eval(`if (document.documentElement.dataset.theme !== '${theme}') document.getElementById('theme').click()`);
    const faint = new Set();
    for (const tab of ["instruction", "pages", "translate", "opened", "happened", "why", "lessons", "programs"]) { await page.eval(`show_tab('${tab}')`); await page.sleep(300); for (const it of await page.eval(FAINT)) faint.add(it); }
    await page.click("#share");
    await page.sleep(400);
    for (const it of await page.eval(FAINT)) faint.add(it);
    await page.eval("document.getElementById('dialog').close()");
    holds(faint.size === 0, `${theme}: dim text has a contrast of 4.5 at least${[...faint].map((it) => `\n      ${it}`).join("")}`);
  }
}

const CHECKS = { work, two_tabs, run_kept, runs, taken_over, run_before, bad_storage, saved, lesson, ended, chosen_ended, only_this_boot, large, bytes, stops, share, deadlock, refusals, keys, rest, contrast, no_storage };
for (const [name, check] of Object.entries(CHECKS)) {
  if (names.length && !names.includes(name)) continue;
  const page = await open(url, { width: 1400, height: 950 });
  await page.until("document.getElementById('screen').textContent.includes('$ ')").catch(() => {});
  try { await check(page); } catch (error) {
    holds(false, `${name}: ${error.stack}`);
    await page.picture(`${folder}/error-${name}.png`).catch(() => {});
  }
  await page.close();
  holds(page.logs.length === 0, `${name}: no errors of the page: ${page.logs.join("; ")}`);
}
console.log(bad ? `${bad} not as they should be` : `nothing is lost, and nothing wrong is shown; pictures in ${folder}`);
process.exit(bad ? 1 : 0);
