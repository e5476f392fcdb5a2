// by_keys.mjs PAGE.html FOLDER [NAME..]: the page by keys alone, and as a reader of the screen has it. At six widths Tab
// goes through all of it: each stop has a role and a name, as the browser tells them to readers of the screen, can be
// seen, isn't covered, and shows that it has the keys (WCAG 2.2: 2.1.1, 2.4.3, 2.4.7, 2.4.11, 4.1.2). Then a student works
// without a mouse: types, pauses, steps, goes to an event, sets a break point, chooses an example, changes a source,
// boots, looks at panels, opens and leaves dialogs. No script presses a button here: all is done by keys. With names
// only these parts are tried. It takes pictures. The status is 1 if something isn't as it should be. With
// BROWSER=firefox in Firefox.
import { mkdirSync } from "node:fs";
import { pathToFileURL } from "node:url";
import { comes } from "./hand.mjs";
const { open } = await import(process.env.BROWSER === "firefox" ? "./firefox.mjs" : "./browser.mjs");

const [page_file, folder, ...names] = process.argv.slice(2), url = pathToFileURL(page_file).href;
mkdirSync(folder, { recursive: true });
let bad = 0;
const holds = (is, what) => { console.log(`${is ? "  " : "NOT"} ${what}`); if (!is) bad++; };
const MOST_TABS = 200;
const at = (page) => page.eval("page.app.view?.at");
const prompts = (page) => page.until("document.getElementById('screen').textContent.includes('$ ')");

// ---- where the keys are

/** What is there of the element that has the keys: where it stands, and what is wrong with how it is seen. */
const STANDS = `(() => {
  const it = document.activeElement, wrong = [];
  if (!it || it === document.body) return { id: "", words: "", wrong };
  const box = it.getBoundingClientRect(), style = getComputedStyle(it);
  const words = (it.getAttribute('aria-label') || it.labels?.[0]?.textContent || it.textContent || it.title).trim().slice(0, 30);
  if (box.bottom < 0 || box.top > innerHeight || box.right < 0 || box.left > innerWidth) wrong.push('it is out of the window');
  else if (box.width > 1 && box.height > 1) {
    const middle = [Math.min(Math.max(box.left + box.width / 2, 1), innerWidth - 2), Math.min(Math.max(box.top + Math.min(box.height, 40) / 2, 1), innerHeight - 2)];
    const top = document.elementFromPoint(...middle);
    if (top && !it.contains(top) && !top.contains(it)) wrong.push('it is covered by ' + top.tagName.toLowerCase() + (top.id ? '#' + top.id : ''));
  }
  const is_marked = (one) => { const own = getComputedStyle(one); return own.outlineStyle !== 'none' && own.outlineWidth !== '0px'; };
  const frame = it.closest('.editor'); // (the editor's frame is marked, round its text)
  if (!is_marked(it) && style.boxShadow === 'none' && !(frame && is_marked(frame))) wrong.push('nothing shows that it has the keys');
  return { id: it.id, tag: it.tagName.toLowerCase(), words, wrong, panel: it.closest('[role=tabpanel], #time, header, #terminal, #processes, dialog, footer')?.id ?? '' };
})()`;

// (A summary has a role of its own, for which ARIA has no name: Firefox tells none then.)
const NO_ROLE = new Set(["", "generic", "none", "presentation", "Section", "GenericContainer"]);

/** All stops of Tab, from the page's beginning on; what is wrong with one is told. */
async function walk(page, what) {
  await page.eval("document.querySelector('.skip').focus()");
  const seen = [], wrong = [];
  for (let k = 0; k < MOST_TABS; k++) {
    if (k > 0) await page.key("Tab");
    const stands = await page.eval(STANDS);
    if (!stands.words && !stands.id && !stands.tag) { if (k > 5) break; continue; }
    const told = await page.focused();
    seen.push({ ...stands, ...told });
    const here = `${stands.tag}${stands.id ? `#${stands.id}` : ""} "${stands.words}"`;
    if (NO_ROLE.has(told.role) && stands.tag !== "summary") wrong.push(`${here}: it has no role`);
    if (!/[\p{L}\p{N}]/u.test(told.name)) wrong.push(`${here}: its name says nothing (${told.role})`);
    for (const it of stands.wrong) wrong.push(`${here}: ${it}`);
    if (stands.id === "screen") await page.key("Escape"); // (it takes Tab for itself)
    if (seen.length > 3 && stands.id === seen[0].id && stands.words === seen[0].words) break;
  }
  holds(seen.length > 30 && wrong.length === 0, `${what}: ${seen.length} stops of Tab${[...new Set(wrong)].slice(0, 12).map((it) => `\n      ${it}`).join("")}`);
  return seen;
}

// (650 x 400 are 1300 x 800 at 200 %.)
const SIZES = [[360, 740], [412, 860], [650, 400], [853, 480], [1300, 800], [1920, 1000]];

async function stops() {
  for (const [width, height] of SIZES) {
    const page = await open(url, { width, height, mobile: width < 500 });
    await prompts(page);
    await page.eval("document.getElementById('screen').focus()");
    await page.type("echo hello | wc\n");
    await page.sleep(900);
    const seen = await walk(page, `${width} x ${height}`);
    if (width === 1300 || width === 360) console.log(seen.map((it) => `      ${it.role}: ${it.name}`).join("\n"));
    await page.close();
    holds(page.logs.length === 0, `${width}: no errors of the page: ${page.logs.join("; ")}`);
  }
}

// ---- a student's work

/**
 * Presses Tab, or Shift Tab if it stands before, until an element of this kind has the keys. (Beyond the page's end the
 * keys would go to the browser's own buttons.)
 */
async function tab_to(page, selector) {
  const is = `!!document.activeElement?.matches(${JSON.stringify(selector)})`, one = `document.querySelector(${JSON.stringify(selector)})`;
  const back = await page.eval(`!!(document.activeElement?.compareDocumentPosition(${one}) & Node.DOCUMENT_POSITION_PRECEDING)`);
  for (let k = 0; k < MOST_TABS; k++) {
    if (await page.eval(is)) return;
    // (The terminal takes Tab for itself; Shift Tab leads back out of it.)
    if (!back && (await page.eval("document.activeElement?.id === 'screen'"))) await page.key("Escape");
    await page.key("Tab", { shift: back });
  }
  throw new Error(`no Tab leads to ${selector}`);
}
const on_button = async (page, selector) => { await tab_to(page, selector); await page.key("Enter"); };
const has_keys = (page, selector) => page.eval(`!!document.activeElement?.matches(${JSON.stringify(selector)})`);
const clear_field = async (page) => { await page.key("a", { control: true }); await page.key("Backspace"); };

async function work(width, height) {
  const page = await open(url, { width, height, mobile: width < 500 });
  try {
    await prompts(page);
    await page.eval("document.querySelector('.skip').focus()");
    await page.key("Enter");
    await page.key("Tab");
    if (!(await has_keys(page, "#screen"))) await tab_to(page, "#screen");
    await page.type("echo hello | wc\n");
    holds(await comes(page, "/\\n1 1 6/.test(document.getElementById('screen').textContent)"), "typed into the terminal");
    await page.key("Escape");
    await on_button(page, "#play");
    holds(await comes(page, "!page.app.view.playing"), "paused");
    const end = await at(page);
    await on_button(page, "[data-back=call]");
    holds(await comes(page, `page.app.view.at < ${end}`), "back by a call");
    await tab_to(page, "#slider");
    await page.key("Home");
    holds(await comes(page, "page.app.view.at === 0"), "the slider goes to the beginning");
    await page.key("ArrowRight");
    holds(await comes(page, "page.app.view.at === 1"), "and on by an event");
    await tab_to(page, "#go-to-place");
    for (const [typed, wanted] of [["1,000", 1000], ["fork.2", null], ["7", 7]]) {
      await clear_field(page);
      await page.type(`${typed}\n`);
      const is = wanted === null ? "page.app.view.at > 0 && page.app.view.at !== 1000" : `page.app.view.at === ${wanted}`;
      holds(await comes(page, is), `go to ${typed}: event ${await at(page)}`);
    }
    await clear_field(page);
    await page.type("nowhere\n");
    holds(await comes(page, "document.getElementById('status').textContent.includes('is no place of a run')") && (await at(page)) === 7, `a place that isn't: ${await page.eval("document.getElementById('status').textContent")}`);
    holds(await page.eval("document.getElementById('go-to-place').getAttribute('aria-invalid') === 'true'"), "and the field says so");
    await page.picture(`${folder}/by-keys-${width}-goes.png`);
    // a break point
    await tab_to(page, "#breaks > summary");
    await page.key("Enter");
    await tab_to(page, "#break-kind");
    await page.key("ArrowDown");
    holds(await comes(page, "document.getElementById('break-kind').value === 'call'"), "a kind of break point");
    await tab_to(page, "#break-where");
    await page.type("pipe");
    await on_button(page, "#break-add");
    holds(await comes(page, "/pipe/.test(document.getElementById('break-list').textContent)"), "a break point is set");
    await tab_to(page, "#break-list input[type=checkbox]");
    await page.key(" ");
    holds(await comes(page, "!document.querySelector('#break-list input[type=checkbox]').checked"), "it is switched off");
    await page.key(" ");
    await tab_to(page, "#breaks > summary");
    await page.key("Enter");
    await on_button(page, "#play");
    holds(await comes(page, "!page.app.view.playing && /pipe answers/.test(document.getElementById('clock').textContent)"), `it stops there: ${await page.eval("document.getElementById('clock').textContent")}`);
    // panels
    await tab_to(page, "#tab-instruction");
    const panels = [];
    for (let k = 0; k < 5; k++) { await page.key("ArrowRight"); panels.push(await page.eval("document.activeElement.id.slice(4)")); }
    holds(panels.join() === "pages,translate,opened,happened,why", `the panels by arrows: ${panels}`);
    // another example, a file of it, its source
    await tab_to(page, "#example");
    const before = await page.eval("page.app.work.name");
    await page.key("ArrowDown");
    holds(await comes(page, `page.app.work.name !== ${JSON.stringify(before)} && page.app.view?.at >= 0`, 20000), `another example: ${await page.eval("page.app.work.name")}`);
    await tab_to(page, "#files [role=option]");
    const chosen = [], names_of_files = await page.eval("page.app.files.map((it) => it.name)");
    for (const key of ["Home", "ArrowRight", "End", "ArrowRight"]) {
      await page.key(key);
      chosen.push(await page.eval("document.activeElement.getAttribute('aria-selected') === 'true' ? document.activeElement.textContent.replace(/ \\*$/, '') : ''"));
    }
    const [first_file] = names_of_files, wanted = [first_file, names_of_files[1 % names_of_files.length], names_of_files.at(-1), first_file];
    holds(chosen.join() === wanted.join(), `the files by arrows: ${chosen}`);
    holds((await page.eval("document.querySelectorAll('#file-list [tabindex=\"0\"]').length")) === 1, "and they are one stop of Tab");
    await tab_to(page, "#source");
    await page.key("Home", { control: true });
    await page.type("# by keys\n");
    holds(await page.eval("document.getElementById('source').value.includes('# by keys')"), "a source is changed");
    const id = await page.eval("page.app.booted.id");
    await page.key("Enter", { control: true });
    holds(await comes(page, `page.app.booted.id !== ${id}`, 20000), "booted by Ctrl Enter");
    await page.key("Tab");
    holds(!(await has_keys(page, "#source")), "Tab leaves the editor");
    // dialogs
    for (const [name, selector] of [["Share", "#share"], ["Your runs", "#your-runs"], ["Manual", "#open-manual"], ["help", "#time .help"], ["side by side", "#open-beside"]]) {
      await page.eval("document.querySelector('.skip').focus()");
      await on_button(page, selector);
      if (name === "side by side") {
        holds(await comes(page, "!document.getElementById('beside').hidden"), name);
        await on_button(page, "#close-beside");
        continue;
      }
      holds(await comes(page, "[...document.querySelectorAll('dialog')].some((it) => it.open && it.contains(document.activeElement))"), `${name} opens, and has the keys`);
      const outside = [];
      for (let k = 0; k < 12; k++) {
        await page.key("Tab");
        // (Behind its last stop Firefox goes to its own buttons: there the try of a dialog ends.)
        if (!(await page.eval("document.hasFocus()"))) {
          await page.tab(0);
          await page.eval("[...document.querySelectorAll('dialog[open]')].at(-1)?.querySelector('button').focus()");
          break;
        }
        if (await page.eval("!!document.activeElement && document.activeElement !== document.body && !document.activeElement.closest('dialog')")) outside.push(k);
      }
      holds(!outside.length, `the keys stay in ${name} while it is open`);
      await page.key("Escape");
      holds(await comes(page, "![...document.querySelectorAll('dialog')].some((it) => it.open)"), `Escape leaves ${name}`);
      holds(await comes(page, `!!document.activeElement?.matches(${JSON.stringify(selector)})`, 2000), `and the keys are where they were: ${await page.eval("document.activeElement.id || document.activeElement.tagName")}`);
    }
  } catch (error) {
    holds(false, `${width}: ${error.stack}`);
    await page.picture(`${folder}/by-keys-error.png`).catch(() => {});
  }
  holds(page.logs.length === 0, `no errors of the page: ${page.logs.join("; ")}`);
  await page.close();
}

const PARTS = { stops, wide: () => work(1300, 800), narrow: () => work(360, 740), zoomed: () => work(650, 400) };
for (const [name, part] of Object.entries(PARTS).filter(([it]) => !names.length || names.includes(it))) {
  console.log(name);
  await part().catch((error) => holds(false, `${name}: ${error.stack}`));
}
console.log(bad ? `${bad} not as they should be` : `all is done by keys, and told to readers of the screen; pictures in ${folder}`);
process.exit(bad ? 1 : 0);
