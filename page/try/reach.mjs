// reach.mjs PAGE.html FOLDER [NAME..]: whether all is reached by keys, also in the frame that Share offers; keys of one
// letter act outside of fields alone, and can be switched off; each group has a name; and at each width nothing is cut
// off, or lies over something else. With names only these parts are tried. The status is 1 if not.
import { mkdirSync, writeFileSync } from "node:fs";
import { pathToFileURL } from "node:url";
import { comes, pause, type } from "./hand.mjs";
const { open } = await import(process.env.BROWSER === "firefox" ? "./firefox.mjs" : "./browser.mjs");

const [page_file, folder, ...names] = process.argv.slice(2), url = pathToFileURL(page_file).href;
mkdirSync(folder, { recursive: true });
let bad = 0;
const holds = (is, what) => { console.log(`${is ? "  " : "NOT"} ${what}`); if (!is) bad++; };
const prompts = (page) => page.until("document.getElementById('screen').textContent.includes('$ ')");
const focused = (page) => page.eval("(() => { const it = document.activeElement; return it.id || it.textContent.trim().slice(0, 20) || it.tagName; })()");
const at = (page) => page.eval("page.app.view?.at");

// ---- keys

async function tab(page) {
  await prompts(page);
  await page.eval("document.getElementById('screen').focus()");
  await page.key("Tab");
  holds((await focused(page)) === "screen", "Tab types into the machine");
  await page.key("Escape");
  holds((await focused(page)) === "after-terminal", "Escape leaves the terminal");
  await page.picture(`${folder}/reach-after-terminal.png`);
  const seen = [];
  for (let k = 0; k < 6; k++) { await page.key("Tab"); seen.push(await focused(page)); }
  const is_on = await page.eval("!!(document.getElementById('screen').compareDocumentPosition(document.activeElement) & Node.DOCUMENT_POSITION_FOLLOWING)");
  holds(is_on && !seen.includes("screen"), `Tab goes on after it: ${seen.join(", ")}`);
  await page.eval("document.getElementById('screen').focus()");
  await page.key("Escape");
  await page.key("Tab", { shift: true });
  holds((await focused(page)) === "screen", "Shift Tab goes back into it");
}

/** In a frame: so many Tabs lead out of it, behind it in the page that has it. */
async function frame(page) {
  const outer = `${folder}/outer.html`;
  writeFileSync(outer, `<!doctype html><meta charset="utf-8"><button id="before">before</button><iframe src="${url}?embed#example=fork&at=fork" width="1000" height="560"></iframe><button id="behind">behind</button><script>ready = true</script>`);
  await page.go(pathToFileURL(outer).href);
  await page.sleep(4000);
  await page.eval("document.getElementById('before').focus()");
  let tabs = 0;
  for (; tabs < 90 && (await page.eval("document.activeElement.id")) !== "behind"; tabs++) { await page.key("Escape"); await page.key("Tab"); }
  holds(tabs < 90, `by Escape and Tab ${tabs} steps lead through the frame, and out of it`);
}

async function letters(page) {
  await prompts(page);
  await pause(page);
  await page.eval("document.getElementById('screen').focus()");
  await page.key("Escape");
  let before = await at(page);
  await page.key("S", { shift: true });
  holds(await comes(page, `page.app.view?.at < ${before}`), "a key of one letter steps");
  before = await at(page);
  for (const field of ["source", "address", "break-where", "keys", "speed", "event-answer"]) {
    await page.eval(`(() => { for (const it of document.querySelectorAll('details')) it.open = true; for (const it of document.querySelectorAll('[role=tabpanel]')) it.hidden = false; document.getElementById('${field}').focus(); })()`);
    for (const key of ["s", "c"]) await page.key(key);
  }
  await page.sleep(600);
  holds((await at(page)) === before, "not in fields");
  await page.eval("(() => { document.activeElement.blur(); const it = document.getElementById('letters'); it.checked = false; it.dispatchEvent(new Event('change')); })()");
  for (const key of ["s", "e", " "]) await page.key(key);
  await page.sleep(600);
  holds((await at(page)) === before && !(await page.eval("page.app.view.playing")), "and they can be switched off");
  await page.sleep(900);
  await page.go(`${url}?${Math.random()}`);
  await page.until("page.app.view");
  holds(await page.eval("!document.getElementById('letters').checked"), "which is kept");
}

/** The groups, lists and controls of the page that have no name. */
const UNNAMED = `(() => {
  const named = (it) => it.getAttribute('aria-label')?.trim() || it.getAttribute('aria-labelledby')?.split(' ').some((id) => document.getElementById(id)?.textContent.trim()) || it.labels?.length;
  const text = (it) => named(it) || it.textContent.trim() || it.title || it.placeholder;
  const groups = [...document.querySelectorAll('[role=group], [role=radiogroup], [role=tablist], [role=listbox], [role=list], [role=log], [role=slider], [role=application], [role=img], [role=textbox], [role=region], .group, dialog[aria-label=""]')];
  const controls = [...document.querySelectorAll('button, select, input:not([hidden]), textarea:not([aria-hidden]), [role=tab], [role=option], [role=radio]')];
  return [...groups.filter((it) => !named(it)), ...controls.filter((it) => !text(it))].map((it) => it.outerHTML.slice(0, 90));
})()`;

async function groups(page) {
  await prompts(page);
  const found = [];
  for (const name of ["instruction", "pages", "translate", "opened", "happened", "why", "lessons", "programs"]) { await page.eval(`show_tab('${name}')`); await page.sleep(300); found.push(...(await page.eval(UNNAMED))); }
  holds(found.length === 0, `each group and each control has a name${[...new Set(found)].map((it) => `\n      ${it}`).join("")}`);
}

// ---- widths

/** What is cut off, or lies over another control. */
const CUT = `(() => {
  const found = [], is_seen = (it) => it.checkVisibility() && it.getClientRects().length && !it.closest('.unseen, #after-terminal, #typed, #status, #messages');
  const root = document.documentElement;
  if (root.scrollWidth > innerWidth + 1) found.push('the page is ' + root.scrollWidth + ' wide');
  const controls = [...document.querySelectorAll('header *, #time *, .tabs *, h1, h2, main > .column > section > .bar *')].filter((it) => is_seen(it) && (/^(BUTTON|SELECT|INPUT|SUMMARY|H1|H2|OUTPUT|CANVAS)$/.test(it.tagName) || it.id === 'why-count'));
  const scrolls = (it) => { for (let at = it.parentElement; at; at = at.parentElement) if (/auto|scroll/.test(getComputedStyle(at).overflowX) && at.scrollWidth > at.clientWidth + 1) return at; return null; };
  const boxes = controls.map((it) => ({ it, box: it.getBoundingClientRect() })).filter(({ box }) => box.width && box.height);
  for (const { it, box } of boxes) {
    if (box.left < -1 || box.right > innerWidth + 1) found.push('beyond the edge: ' + (it.id || it.textContent.trim().slice(0, 20)));
    const tabs = it.closest('.tabs'), own = tabs?.getBoundingClientRect();
    if (own && innerWidth > 820 && box.right > own.right + 1) found.push('cut off in its row: ' + (it.id || it.textContent));
    if (it.tagName === 'BUTTON' && it.scrollWidth > it.clientWidth + 2) found.push('its words are cut off: ' + it.textContent.trim());
  }
  boxes.forEach((a, k) => boxes.slice(k + 1).forEach((b) => {
    if (a.it.contains(b.it) || b.it.contains(a.it) || scrolls(a.it) || scrolls(b.it)) return;
    const wide = Math.min(a.box.right, b.box.right) - Math.max(a.box.left, b.box.left), high = Math.min(a.box.bottom, b.box.bottom) - Math.max(a.box.top, b.box.top);
    if (wide > 2 && high > 2 && a.it.tagName !== 'H2' && b.it.tagName !== 'H2') found.push('over one another: ' + (a.it.id || a.it.textContent.trim().slice(0, 15)) + ', ' + (b.it.id || b.it.textContent.trim().slice(0, 15)));
  }));
  return found;
})()`;

/** What stands beyond the window's edges, or beyond those of a box that hides it, and no box of its own scrolls it. */
const BEYOND = `(() => {
  const width = document.documentElement.clientWidth, own = (it) => getComputedStyle(it), found = [];
  const is_seen = (it) => it.checkVisibility() && it.getClientRects().length && !it.closest('.unseen, #after-terminal, #typed, .skip, [aria-hidden=true], details:not([open]) > :not(summary)');
  const name = (it) => it.tagName.toLowerCase() + (it.id ? '#' + it.id : '') + ' ' + it.textContent.trim().slice(0, 24);
  if (document.documentElement.scrollWidth > width + 1) found.push('the page is ' + document.documentElement.scrollWidth + ' wide');
  const box_of = (it) => { for (let at = it.parentElement; at; at = at.parentElement) if (own(at).overflowX !== 'visible' && at !== document.body) return at; return null; };
  for (const it of document.querySelectorAll('body *')) {
    if (!is_seen(it) || it.closest('pre, .editor, #c-text, #code')) continue;
    const { left, right } = it.getBoundingClientRect(), box = box_of(it), edges = box?.getBoundingClientRect();
    const scrolls = box && /auto|scroll/.test(own(box).overflowX) && /^(TABLE|PRE)$/.test(box.tagName);
    if (scrolls || right - left < 1) continue;
    if (left < -1 || right > width + 1) found.push('beyond the edge: ' + name(it));
    else if (box && (right > edges.right + 1 || left < edges.left - 1)) found.push('beyond its box: ' + name(it));
  }
  return [...new Set(found)];
})()`;

const press = (id) => `document.getElementById('${id}').click()`;
const PANELS = ["instruction", "pages", "translate", "opened", "happened", "why", "programs"];
/** What can be shown, by what shows it, and what takes it away again. */
const SHOWN = {
  ...Object.fromEntries(PANELS.map((name) => [name, [`show_tab('${name}')`, ""]])),
  "the break points": ["document.getElementById('breaks').open = true", "document.getElementById('breaks').open = false"],
  "side by side": [press("open-beside"), press("close-beside")],
  ...Object.fromEntries([0, 1, 2, 3, 4, 5].map((k) => [`lesson ${k + 1}`, [`show_tab('lessons'); open_lesson(${k})`, ""]])),
  "Your runs": [press("your-runs"), "document.getElementById('dialog').close()"],
  Share: [press("share"), "document.getElementById('dialog').close()"],
  Manual: [press("open-manual"), "document.getElementById('manual').close()"],
  "a slide": ["location.hash = 'example=pages&at=1&tab=pages&view=lecture'", ""],
};

/** All that can be shown stands within the window, with break points in two rows of the bar of time. */
async function within(page, width) {
  await page.eval("for (const [kind, where] of [['call', 'write'], ['address', 'count']]) { document.getElementById('break-kind').value = kind; document.getElementById('break-where').value = where; document.getElementById('break-add').click(); } document.getElementById('run-before').hidden = false");
  for (const [what, [action, back]] of Object.entries(SHOWN)) {
    await page.eval(action);
    await page.sleep(what === "a slide" ? 1500 : 400);
    const found = await page.eval(BEYOND);
    if (found.length) {
      holds(false, `${width}, ${what}${found.slice(0, 6).map((it) => `\n      ${it}`).join("")}`);
      await page.picture(`${folder}/beyond-${width}-${what.replaceAll(" ", "-")}.png`);
    }
    await page.eval(back);
  }
  holds(true, `${width}: ${Object.keys(SHOWN).length} panels, lessons and dialogs were looked at`);
}

// (650 x 400 are 1300 x 800 at 200 %.)
const SIZES = [[360, 740], [412, 860], [650, 400], [853, 480], [1300, 800], [1920, 1000]];

async function widths() {
  for (const [width, height] of SIZES) {
    const page = await open(url, { width, height, mobile: width < 500 });
    await prompts(page).catch(() => {});
    await type(page, "crash 13\n");
    await comes(page, "document.getElementById('why-count').textContent.trim() !== ''");
    const found = await page.eval(CUT);
    holds(found.length === 0, `${await page.eval("innerWidth")} x ${height}: nothing is cut off${[...new Set(found)].map((it) => `\n      ${it}`).join("")}`);
    const bar = await page.eval("(() => { const it = document.getElementById('time'); return getComputedStyle(it).position === 'sticky' ? it.offsetHeight : 0; })()");
    holds(bar <= height / 4, `the bar that stays takes ${bar} of ${height}`);
    await page.picture(`${folder}/reach-${width}.png`);
    for (const tab of ["happened", "translate", "why"]) {
      await page.eval(`show_tab('${tab}')`);
      await page.sleep(400);
      const more = await page.eval(CUT);
      holds(more.length === 0, `${width}, ${tab}${[...new Set(more)].map((it) => `\n      ${it}`).join("")}`);
    }
    await within(page, width);
    await page.close();
    holds(page.logs.length === 0, `${width}: no errors of the page: ${page.logs.join("; ")}`);
  }
}

const CHECKS = { tab, frame, letters, groups }, ALONE = { widths };
for (const [name, check] of Object.entries({ ...CHECKS, ...ALONE })) {
  if (names.length && !names.includes(name)) continue;
  if (ALONE[name]) { await check().catch((error) => holds(false, `${name}: ${error.stack}`)); continue; }
  const page = await open(url, { width: 1400, height: 950 });
  try { await check(page); } catch (error) {
    holds(false, `${name}: ${error.stack}`);
    await page.picture(`${folder}/error-${name}.png`).catch(() => {});
  }
  await page.close();
  holds(page.logs.length === 0, `${name}: no errors of the page: ${page.logs.join("; ")}`);
}
console.log(bad ? `${bad} not as they should be` : `all is reached, and nothing is cut off; pictures in ${folder}`);
process.exit(bad ? 1 : 0);
