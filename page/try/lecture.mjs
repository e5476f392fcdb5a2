// lecture.mjs PAGE.html FOLDER: what a lecture wants: pictures are copied and saved, in both themes; two processes stand
// side by side, forth and back and by a link; slides of a teacher's own in one link; the line of lessons that were
// solved; undo after another example; what the terminal prints is read out while it computes. The status is 1 if not.
import { mkdirSync, writeFileSync } from "node:fs";
import { pathToFileURL } from "node:url";
import { comes, edit, example, pause, source, type } from "./hand.mjs";
const { open } = await import(process.env.BROWSER === "firefox" ? "./firefox.mjs" : "./browser.mjs");

const [page_file, folder, ...names] = process.argv.slice(2), url = pathToFileURL(page_file).href;
mkdirSync(folder, { recursive: true });
let bad = 0;
const holds = (is, what) => { console.log(`${is ? "  " : "NOT"} ${what}`); if (!is) bad++; };
const follows = async (page, hash) => { await page.eval(`document.documentElement.dataset.place = ''; location.hash = ${JSON.stringify(hash)}`); await page.until("document.documentElement.dataset.place === 'there'"); await page.sleep(400); };
const PIPELINE = "example=shell&rounds=1000&keys=%5Cx10echo%20hello%20%7C%20wc%5Cn&at=exec.3&tab=opened";

// ---- pictures

/** What is wrong with a text that is to be SVG, and how large its picture is. */
const parsed = (page, svg) => page.eval(`(() => { const it = new DOMParser().parseFromString(${JSON.stringify(svg)}, 'image/svg+xml'), bad = it.querySelector('parsererror'); return { bad: bad?.textContent ?? '', texts: it.querySelectorAll('text').length, shapes: it.querySelectorAll('rect, path').length, title: it.querySelector('title')?.textContent ?? '', foreign: it.querySelectorAll('script, image, foreignObject, a').length }; })()`);

async function pictures(page) {
  await follows(page, PIPELINE);
  for (const theme of ["light", "dark"]) {
    for (const [name, tab, words] of [["opened", "opened", "echo"], ["pages", "pages", "root table"], ["turns", "opened", "wc"], ["tree", "opened", "sleeps in wait"]]) {
      await page.eval(`show_tab('${tab}')`);
      await page.until(`page.pictures.picture_of('${name}')`);
      await page.eval(`document.querySelector('[data-picture=${name}]').click()`);
      const svg = await page.eval(`page.pictures.as_svg(page.pictures.picture_of('${name}'))`), told = await parsed(page, svg);
      holds(!told.bad && told.texts > 3 && told.shapes > 3 && told.foreign === 0 && svg.includes(words), `${theme}, ${name}: SVG of ${svg.length} letters, ${told.texts} texts: ${told.title}`);
      writeFileSync(`${folder}/picture-${name}-${theme}.svg`, svg);
      const png = await page.eval(`(async () => { const it = await page.pictures.as_png(page.pictures.picture_of('${name}')), image = await createImageBitmap(it), own = page.pictures.picture_of('${name}'); return [it.type, it.size, image.width === Math.round(2 * own.width) && image.height === Math.round(2 * own.height)]; })()`);
      holds(png[0] === "image/png" && png[1] > 3000 && png[2], `${theme}, ${name}: PNG of ${png[1]} bytes`);
      holds(await comes(page, "document.activeElement.id === 'copy-png' && document.getElementById('picture').complete && document.getElementById('picture').naturalWidth > 0"), `${theme}, ${name}: it is seen before it is copied`);
      await page.picture(`${folder}/picture-${name}-${theme}.png`);
      await page.key("Enter");
      holds(await comes(page, "/is in the clipboard|save the picture/.test(document.getElementById('picture-told').textContent)"), `${theme}, ${name}: ${await page.eval("document.getElementById('picture-told').textContent")}`);
      await page.eval("document.getElementById('dialog').close()");
    }
    await page.eval("document.getElementById('theme').click()");
  }
  const saved = await page.eval("(async () => { const blobs = []; const old = URL.createObjectURL; URL.createObjectURL = (it) => { blobs.push(it); return old(it); }; HTMLAnchorElement.prototype.click = () => {}; page.pictures.show_picture('turns'); document.getElementById('save-png').click(); document.getElementById('save-svg').click(); for (let k = 0; k < 60 && blobs.length < 2; k++) await new Promise((done) => setTimeout(done, 50)); URL.createObjectURL = old; delete HTMLAnchorElement.prototype.click; document.getElementById('dialog').close(); return blobs.map((it) => it.type + ' ' + (it.size > 500)); })()");
  holds(saved.sort().join() === "image/png true,text/plain true", `both are saved as files: ${saved.join(", ")}`);
}

// ---- two processes side by side

const side = (page, k) => page.eval(`document.getElementById('beside-side-${k}').textContent`);
const shows = (page) => page.eval("!document.getElementById('beside').hidden");

async function beside(page) {
  await follows(page, "example=fork&rounds=1000&at=fork&beside=1,2");
  await comes(page, "document.querySelectorAll('#beside .registers').length === 2");
  const differ = await page.eval("[...document.querySelectorAll('#beside .registers > div')].filter((it) => it.textContent.includes('≠')).map((it) => it.textContent.replace('≠', ''))");
  holds((await shows(page)) && differ.join() === "a02,a00", `after a fork a0 alone differs: ${differ.join()}`);
  await page.picture(`${folder}/beside.png`);
  await page.eval("page.ask('step', { what: 'step', back: false })");
  holds(await comes(page, "document.querySelectorAll('#beside .registers > div').length === 64 && [...document.querySelectorAll('#beside .registers > div')].some((it) => it.textContent.startsWith('≠pc'))"), "a step of one changes it, and not the other");
  await page.eval("page.ask('go', { place: 0 })");
  holds(await comes(page, "document.getElementById('beside-side-1').textContent.includes('There is no process 2')"), "before the fork there is no child");
  await page.eval("page.ask('finish', { rounds: 50 })");
  holds(await comes(page, "document.getElementById('beside-side-1').textContent.includes('as it ended at event')"), `after its end the child is shown as it ended: ${(await side(page, 1)).slice(0, 60)}`);
  const link = await page.eval("page.short_place()");
  holds(link?.includes("beside=1%2C2"), `the link to this place has both: ${link}`);
  await page.eval("document.getElementById('close-beside').click()");
  holds(!(await shows(page)), "✕ closes it");
}

async function pair(page) {
  await follows(page, PIPELINE);
  await page.eval("document.getElementById('open-beside').click()");
  await comes(page, "document.querySelectorAll('#beside .registers').length === 2");
  const chosen = await page.eval("[0, 1].map((k) => document.getElementById('beside-' + k).value).join()");
  holds(chosen === "3,4", `the first pair is writer and reader: ${chosen}`);
  holds((await side(page, 0)).includes("the write end of the pipe") && (await side(page, 1)).includes("the read end of the pipe"), "their descriptors stand beside one another");
  const pairs = await page.eval("[...document.getElementById('beside-pair').options].map((it) => it.textContent)");
  holds(pairs.some((it) => it === "1 and 2: parent and child"), `pairs are offered: ${pairs.slice(1).join("; ")}`);
  await page.eval("(() => { const it = document.getElementById('beside-pair'); it.value = '1,2'; it.dispatchEvent(new Event('change')); })()");
  holds(await comes(page, "document.getElementById('beside-side-0').textContent.startsWith('1 init')"), "and chosen");
  await page.eval("(() => { const it = document.getElementById('beside-at'); it.value = '0x0'; it.dispatchEvent(new Event('change')); })()");
  holds(await comes(page, "document.querySelectorAll('#beside [aria-label=Memory]')[1]?.textContent.includes('0x0') && document.querySelectorAll('#beside [aria-label=Memory]')[0].textContent.includes('≠')"), "memory at one address, with what differs");
  await page.eval("(() => { const it = document.getElementById('beside-at'); it.value = '<nowhere>'; it.dispatchEvent(new Event('change')); })()");
  await page.sleep(300);
  holds(await page.eval("document.getElementById('beside-at').getAttribute('aria-invalid') === 'true'"), "an address that is none is marked");
  await page.eval("(() => { const it = document.getElementById('beside-at'); it.value = 'sp'; it.dispatchEvent(new Event('change')); })()");
  await page.sleep(1500);
  await page.go(`${url}?${Math.random()}`);
  holds(await comes(page, "page.app.view && !document.getElementById('beside').hidden"), "a reload shows them again");
  await follows(page, "example=fork&rounds=1000&at=1&beside=1,7");
  holds((await page.eval("page.problems()")).some((it) => it.includes("no process 7")) && !(await shows(page)), "a link to a process that isn't there is told");
}

// ---- slides, lessons

const DECK = "nektavoly slides 1\nslide fork answers twice\nlink example=fork&rounds=1000&at=fork&tab=instruction&beside=1,2\nquestion What has a0 in the child?\nanswer 0\nslide The second\nlink example=hang&at=last&tab=why\n";

async function slides(page) {
  await page.eval(`page.programs.take([new File([${JSON.stringify(DECK)}], 'deck.txt')])`);
  await comes(page, "document.getElementById('lecture-title').textContent.startsWith('1. fork answers twice')");
  await page.eval("document.getElementById('share').click()");
  await comes(page, "document.getElementById('slides-link')");
  const link = await page.eval("document.getElementById('slides-link').value");
  await page.eval("document.getElementById('dialog').close()");
  const other = await open(link);
  holds(await comes(other, "document.getElementById('lecture-title').textContent === '1. fork answers twice' && document.documentElement.dataset.view === 'lecture'"), `all slides come by one link of ${link.length} letters`);
  await other.sleep(500);
  await other.picture(`${folder}/slides-link.png`);
  holds((await other.eval("document.title")) === "fork answers twice · Nektavoly", "the page has the slide's title");
  await other.key("Escape");
  await other.close();
  for (const word of ["abc", "AAAA", `${link.split("=").slice(1).join("=").slice(0, -9)}`]) {
    const page = await open(`${url}#slides=${word}`);
    holds(await comes(page, "page.app.view && document.getElementById('screen').textContent.includes('$ ')") && (await page.eval("page.problems()")).length > 0, `a bad link of slides is told, and ends in a machine: ${(await page.eval("page.problems()"))[0]}`);
    await page.close();
  }
}

async function lessons(page) {
  await page.eval("show_tab('lessons'); open_lesson(0)");
  await page.sleep(700);
  await page.eval("(() => { const it = document.querySelectorAll('#lessons .ask')[0]; const input = it.querySelector('input'); input.value = '2'; it.querySelector('button.main').click(); })()");
  await comes(page, "document.querySelector('#lessons .ask [role=status]').className === 'right'");
  await page.eval("[...document.querySelectorAll('#lessons button')].find((it) => it.textContent.startsWith('← all')).click()");
  await page.eval("(() => { const it = document.getElementById('solved-name'); it.value = ' Ada   Lovelace '; it.dispatchEvent(new Event('input')); })()");
  const line = await page.eval("document.getElementById('solved-line').value");
  holds(/^nektavoly lessons; Ada Lovelace; \d{4}-\d\d-\d\d; solved 1 of \d+; 1: 1 of 4; 2: none of 4;/.test(line), `what was solved is a line: ${line}`);
  await page.picture(`${folder}/lessons-line.png`);
  await page.sleep(900);
  await page.go(`${url}?${Math.random()}`);
  await page.until("page.app.view");
  await page.eval("(() => { const it = [...document.querySelectorAll('#lessons button')].find((one) => one.textContent.startsWith('← all')); it?.click(); })()");
  holds((await page.eval("document.getElementById('solved-line').value")).includes("solved 1 of"), "a reload keeps it");
}

// ---- undo, and what is heard

async function undo(page) {
  await example(page, "hello");
  await page.eval("show_tab('programs'); document.getElementById('source').focus()");
  const before = await source(page);
  await edit(page, "hi", "hey");
  await page.eval("document.getElementById('source').focus(); document.getElementById('source').setSelectionRange(0, 0)");
  await page.sleep(1200);
  await page.type("# mine\n");
  const after = await source(page);
  await example(page, "fork");
  await example(page, "hello");
  holds((await source(page)) === after, "another example between leaves what was typed");
  await page.eval("document.getElementById('source').focus()");
  for (let k = 0; k < 4 && (await source(page)) !== before; k++) await page.key("z", { control: true });
  holds((await source(page)) === before, "and undo takes it back, edit by edit");
  for (let k = 0; k < 4 && (await source(page)) !== after; k++) await page.key("y", { control: true });
  holds((await source(page)) === after, "and redo brings it");
}

async function heard(page) {
  const loop = "_start:\n  la a0, console\n  li a1, 2\n  li a7, 15\n  ecall\nagain:\n  li a0, 0\n  la a1, text\n  li a2, 5\n  li a7, 16\n  ecall\n  li t0, 3000\nmore:\n  addi t0, t0, -1\n  bne t0, x0, more\n  j again\n.data\nconsole: .asciz \"console\"\ntext: .asciz \"line\\n\"\n";
  await page.eval(`page.programs.set_files([{ name: 'init.s', text: ${JSON.stringify(loop)} }], {}, 'loud'); page.programs.boot()`);
  const is_loud = await comes(page, "page.app.booted.work === 'loud' && page.app.view?.playing && document.getElementById('screen').textContent.includes('line')");
  holds(is_loud && (await comes(page, "page.app.view.playing && document.getElementById('heard').childElementCount > 1", 9000)), `while it computes, lines are read out in pauses: ${is_loud ? await page.eval("document.getElementById('heard').textContent.slice(0, 40)") : await page.eval("document.getElementById('mistake').textContent")}`);
  const count = await page.eval("document.getElementById('heard').childElementCount");
  await page.sleep(1500);
  holds((await page.eval("document.getElementById('heard').childElementCount")) <= count + 9, "a few at a time");
  await pause(page);
}

const PARTS = { pictures, beside, pair, slides, lessons, undo, heard };
for (const [name, part] of Object.entries(PARTS)) {
  if (names.length && !names.includes(name)) continue;
  const page = await open(url, { width: 1300, height: 850 });
  try {
    await page.until("document.getElementById('screen').textContent.includes('$ ')");
    await part(page);
  } catch (error) {
    holds(false, `${name}: ${error.stack}`);
    await page.picture(`${folder}/lecture-error-${name}.png`);
  }
  holds(page.logs.length === 0, `${name}: no errors of the page ${page.logs.join("; ")}`);
  await page.close();
}
console.log(bad ? `${bad} not as they should be` : "all is as it should be");
process.exit(bad ? 1 : 0);
