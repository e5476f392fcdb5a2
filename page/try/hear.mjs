// hear.mjs PAGE.html FOLDER: whether the page can be heard and seen by all: each role stands where its kind may stand,
// and names what is there; each control, region and picture has a name that says something; headings and the keys go in
// the order in which things are seen; each text stands out from its ground (WCAG 2.2: 1.1.1, 1.3.1, 1.4.3, 1.4.11, 2.4.3,
// 4.1.2). It looks at each panel, dialog and view, in both themes. The status is 1 if not.
import { mkdirSync } from "node:fs";
import { pathToFileURL } from "node:url";
import { comes, type } from "./hand.mjs";
const { open } = await import(process.env.BROWSER === "firefox" ? "./firefox.mjs" : "./browser.mjs");

const [page_file, folder] = process.argv.slice(2), url = pathToFileURL(page_file).href;
mkdirSync(folder, { recursive: true });
let bad = 0;
const holds = (is, what) => { console.log(`${is ? "  " : "NOT"} ${what}`); if (!is) bad++; };

/** What is looked at within the page; it is sent there as a text. Answers what is wrong, in words. */
function audit() {
  const found = [], all = (words) => [...document.querySelectorAll(words)];
  const dialog = all("dialog[open]").at(-1), is_within = (it) => !dialog?.matches(":modal") || dialog.contains(it);
  const told = (it) => `<${it.tagName.toLowerCase()}${it.id ? `#${it.id}` : ""}${it.className && typeof it.className === "string" ? `.${it.className.split(" ")[0]}` : ""}> ${it.textContent.trim().slice(0, 24)}`;
  const wrong = (what, it) => found.push(`${what}: ${told(it)}`);
  const is_seen = (it) => it.checkVisibility({ visibilityProperty: true }) && it.getClientRects().length > 0 && is_within(it);

  // ---- roles
  const INSIDE = { tab: "tablist", option: "listbox", listitem: "list", radio: "radiogroup" };
  const ROLES = ["alert", "application", "dialog", "group", "img", "list", "listbox", "listitem", "log", "option", "radio", "radiogroup", "region", "search", "separator", "slider", "status", "tab", "tablist", "tabpanel", "textbox"];
  for (const it of all("[role]")) {
    const role = it.getAttribute("role"), outer = INSIDE[role];
    if (!ROLES.includes(role)) wrong(`role ${role} isn't known`, it);
    if (outer && !it.parentElement.closest(`[role=${outer}]`)) wrong(`role ${role} outside of a ${outer}`, it);
    if (role === "slider" && ["min", "max", "now"].some((one) => !it.hasAttribute(`aria-value${one}`))) wrong("a slider without its values", it);
    if (["tab", "option"].includes(role) && !it.hasAttribute("aria-selected")) wrong(`a ${role} that doesn't say whether it is chosen`, it);
    if (role === "radio" && !it.hasAttribute("aria-checked")) wrong("a radio that doesn't say whether it is chosen", it);
  }
  for (const name of ["aria-controls", "aria-labelledby", "aria-describedby", "for"]) {
    for (const it of all(`[${name}]`)) for (const id of it.getAttribute(name).split(/\s+/)) if (!document.getElementById(id)) wrong(`${name} names ${id}, which isn't there`, it);
  }
  const ids = all("[id]").map((it) => it.id);
  ids.filter((it, k) => ids.indexOf(it) !== k).forEach((it) => found.push(`two elements are called ${it}`));
  for (const it of all("[aria-hidden=true]")) if (it.matches(":focus") || [...it.querySelectorAll("button, input, select, a[href], [tabindex='0']")].some(is_seen)) wrong("keys reach what is hidden from readers", it);

  // ---- names
  const by_id = (it) => (it.getAttribute("aria-labelledby") ?? "").split(/\s+/).map((id) => document.getElementById(id)?.textContent ?? "").join(" ");
  const by_label = (it) => [...(it.labels ?? [])].map((one) => one.textContent).join(" ");
  const name_of = (it) => (it.getAttribute("aria-label") || by_id(it).trim() || by_label(it).trim() || it.getAttribute("alt") || (/^(INPUT|SELECT|TEXTAREA)$/.test(it.tagName) ? "" : it.textContent) || it.title || "").trim();
  const CONTROLS = "button, a[href], input:not([type=hidden]), select, textarea, summary, [role=tab], [role=option], [role=radio], [role=slider], [role=textbox], [role=application]";
  const controls = all(CONTROLS).filter((it) => is_seen(it) && !it.closest("[aria-hidden=true]"));
  for (const it of controls) if (!/[\p{L}\p{N}]/u.test(name_of(it))) wrong("a control whose name says nothing", it);
  for (const it of all("nav, section, [role=group], [role=radiogroup], [role=tablist], [role=listbox], [role=list], [role=log], [role=region], [role=search], dialog[open]")) {
    if (is_seen(it) && it.id !== "dialog" && !it.getAttribute("aria-label") && !by_id(it).trim()) wrong("a region or a group without a name", it);
  }
  for (const it of all("img, canvas, [role=img]")) if (is_seen(it) && !name_of(it)) wrong("a picture without words", it);
  for (const it of all("table")) if (is_seen(it) && it.querySelector("td") && it.rows[0].querySelectorAll("td").length === it.rows[0].cells.length && it.rows.length > 3 && !it.querySelector("th")) wrong("a table without heads", it);
  if (!document.documentElement.lang) found.push("the page doesn't say its language");
  if (document.title.trim().length < 3) found.push("the page has no title");

  // ---- order
  const is_scrolled = (it) => { for (let at = it.parentElement; at && at !== document.body; at = at.parentElement) if (at.scrollHeight > at.clientHeight + 2 && /auto|scroll/.test(getComputedStyle(at).overflowY)) return true; return false; };
  const heads = all("h1, h2, h3, h4").filter(is_seen).map((it) => ({ it, level: Number(it.tagName[1]) }));
  heads.forEach(({ it, level }, k) => { if (k && level > heads[k - 1].level + 1) wrong(`a heading skips from ${heads[k - 1].level} to ${level}`, it); });
  for (const it of all("[tabindex]")) if (it.tabIndex > 0) wrong("a tabindex above 0", it);
  const stops = controls.filter((it) => it.tabIndex >= 0 && !it.closest("#heard, #messages, .files, .menu > div"));
  stops.forEach((it, k) => {
    const last = stops[k - 1], region = it.closest("main > .column > section, #time, header, #beside, dialog");
    if (!last || last.closest("main > .column > section, #time, header, #beside, dialog") !== region || !region || it.closest("dialog form") || last.closest("dialog form")) return;
    const [a, b] = [last.getBoundingClientRect(), it.getBoundingClientRect()];
    // (What is scrolled within a box of its own stands where it stands.)
    if (b.bottom < a.top - 4 && a.height < 200 && !is_scrolled(it) && !is_scrolled(last)) wrong(`the keys go up from ${told(last)} to`, it);
  });

  // ---- contrast
  const paint = Object.assign(document.createElement("canvas"), { width: 1, height: 1 }).getContext("2d", { willReadFrequently: true });
  const known = new Map();
  const color = (words) => {
    if (!known.has(words)) {
      paint.clearRect(0, 0, 1, 1);
      paint.fillStyle = words;
      paint.fillRect(0, 0, 1, 1);
      const [r, g, b, a] = paint.getImageData(0, 0, 1, 1).data;
      known.set(words, [r, g, b, a / 255]);
    }
    return known.get(words);
  };
  const over = ([r, g, b, a], under) => [r, g, b].map((it, k) => it * a + under[k] * (1 - a)).concat(1);
  const light = ([r, g, b]) => { const [x, y, z] = [r, g, b].map((it) => { const s = it / 255; return s <= 0.04045 ? s / 12.92 : ((s + 0.055) / 1.055) ** 2.4; }); return 0.2126 * x + 0.7152 * y + 0.0722 * z; };
  const ratio = (a, b) => { const [x, y] = [light(a), light(b)].sort((one, other) => other - one); return (x + 0.05) / (y + 0.05); };
  const ground_of = (it) => {
    const layers = [];
    for (let at = it; at; at = at.parentElement) {
      const own = color(getComputedStyle(at).backgroundColor);
      if (own[3] > 0) layers.push(own);
      if (own[3] === 1) break;
    }
    return layers.reverse().reduce((under, own) => over(own, under), [255, 255, 255, 1]);
  };
  const walker = document.createTreeWalker(document.body, NodeFilter.SHOW_TEXT), seen = new Set();
  for (let node = walker.nextNode(); node; node = walker.nextNode()) {
    const it = node.parentElement;
    if (!node.data.trim() || seen.has(it) || /^(SCRIPT|STYLE|OPTION|TEXTAREA)$/.test(it.tagName) || !is_seen(it) || it.closest(":disabled, .unseen, #after-terminal, .caret, .skip")) continue;
    seen.add(it);
    const style = getComputedStyle(it), ink = color(style.color), ground = ground_of(it);
    if (ink[3] === 0) continue;
    let faint = 1;
    for (let at = it; at; at = at.parentElement) faint *= Number(getComputedStyle(at).opacity);
    const size = parseFloat(style.fontSize), is_large = size >= 24 || (size >= 18.66 && Number(style.fontWeight) >= 700);
    const has = ratio(over([ink[0], ink[1], ink[2], ink[3] * faint], ground), ground);
    if (has < (is_large ? 3 : 4.5) - 0.005) wrong(`a contrast of ${has.toFixed(2)}`, it);
  }
  for (const it of all(".swatch, .state")) {
    if (!is_seen(it)) continue;
    const has = ratio(color(getComputedStyle(it).backgroundColor), ground_of(it.parentElement));
    if (has < 2.995) wrong(`a mark with a contrast of ${has.toFixed(2)} (${it.className})`, it.parentElement);
  }
  return { wrong: [...new Set(found)], texts: seen.size, controls: controls.length };
}

const AUDIT = `(${audit})()`;
const looked = { texts: 0, controls: 0 };
const say_all = (list) => list.map((it) => `\n      ${it}`).join("");

/** Looks at the page as it is. */
async function look(page, what) {
  await page.sleep(250);
  const { wrong, texts, controls } = await page.eval(AUDIT);
  looked.texts += texts;
  looked.controls += controls;
  if (wrong.length) holds(false, `${what}: ${wrong.length} things${say_all(wrong.slice(0, 12))}`);
  return wrong.length;
}

const press = (id) => `document.getElementById('${id}').click()`;
const close = "for (const it of document.querySelectorAll('dialog[open]')) it.close()";
const DIALOGS = { "Your runs": press("your-runs"), Share: press("share"), Manual: press("open-manual"), help: "document.querySelector('[data-help=Time]').click()", picture: "page.pictures.show_picture('tree')", tour: press("begin-tour") };

async function theme(page, name) {
  let count = 0;
  for (const tab of ["instruction", "pages", "translate", "opened", "happened", "why", "lessons", "programs"]) {
    await page.eval(`show_tab('${tab}')`);
    count += await look(page, `${name}, ${tab}`);
  }
  await page.eval("for (const it of document.querySelectorAll('details')) it.open = true");
  count += await look(page, `${name}, all that folds`);
  await page.eval("document.getElementById('breaks').open = false");
  await page.eval("document.getElementById('source').dispatchEvent(new KeyboardEvent('keydown', { key: 'f', ctrlKey: true }))");
  count += await look(page, `${name}, words that are looked for`);
  await page.eval("document.getElementById('search-close').click()");
  for (const [what, action] of Object.entries(DIALOGS)) {
    await page.eval(action);
    await page.sleep(300);
    count += await look(page, `${name}, ${what}`);
    await page.eval(close);
  }
  await page.eval("document.getElementById('open-beside').click()");
  await comes(page, "document.querySelectorAll('#beside .registers').length === 2");
  count += await look(page, `${name}, side by side`);
  await page.eval("document.getElementById('close-beside').click()");
  await page.eval("show_tab('lessons'); open_lesson(2)");
  await page.sleep(800);
  count += await look(page, `${name}, a lesson`);
  await page.eval("show_tab('programs'); (() => { const it = document.getElementById('source'); it.value = '  bnez a0, x\\n  mul a0, a0, a0\\n'; it.dispatchEvent(new Event('input')); })()");
  await comes(page, "document.querySelectorAll('#mistakes li').length === 2");
  count += await look(page, `${name}, mistakes`);
  for (const [what, hash] of [["a slide", "example=fork&rounds=1000&at=fork&tab=instruction&view=lecture"], ["a slide of a table", "example=pages&at=1&tab=pages&view=lecture"], ["a link with what is wrong", "example=fork&at=fault&tab=why"]]) {
    await page.eval(`document.documentElement.dataset.place = ''; location.hash = '${hash}'`);
    await page.until("document.documentElement.dataset.place === 'there'");
    count += await look(page, `${name}, ${what}`);
  }
  await page.eval("document.getElementById('messages-dismiss').click()");
  holds(count === 0, `${name}: roles, names, order and contrast are as they should be`);
}

for (const name of ["light", "dark"]) {
  const page = await open(url, { width: 1300, height: 900, dark: name === "dark" });
  try {
    await page.until("document.getElementById('screen').textContent.includes('$ ')");
    await type(page, "crash 13\necho hello | wc\n");
    await comes(page, "document.getElementById('why-count').textContent.trim() !== ''");
    await page.sleep(600);
    await page.eval("for (const [kind, where] of [['call', 'write'], ['address', '0x10']]) { document.getElementById('break-kind').value = kind; document.getElementById('break-where').value = where; document.getElementById('break-add').click(); }");
    await theme(page, name);
  } catch (error) {
    holds(false, `${name}: ${error.stack}`);
    await page.picture(`${folder}/hear-error.png`);
  }
  holds(page.logs.length === 0, `${name}: no errors of the page ${page.logs.join("; ")}`);
  await page.close();
}
console.log(`   ${looked.texts} texts and ${looked.controls} controls were looked at`);
console.log(bad ? `${bad} not as they should be` : "all is as it should be");
process.exit(bad ? 1 : 0);
