// What a student's hand does on a page that is driven by browser.mjs or firefox.mjs: choose, edit, boot, type, drop;
// for the scripts beside it.
export const PATIENCE = 120000, SETTLED = 1500; // ms: for a machine; and until what was done is kept
export const text_of = (page, id) => page.eval(`document.getElementById('${id}').textContent`);
export const source = (page) => page.eval("document.getElementById('source').value");
export const message = (page) => text_of(page, "status");
/** Whether something comes to be so within some seconds. */
export const comes = (page, expression, ms = 8000) => page.until(expression, ms).then(() => true, () => false);

export const choose = (page, id, value) => page.eval(`(() => { const it = document.getElementById('${id}'); it.value = ${JSON.stringify(value)}; it.dispatchEvent(new Event('change')); })()`);
export const edit = (page, from, to) => page.eval(`(() => { const it = document.getElementById('source'); it.value = it.value.replace(${JSON.stringify(from)}, ${JSON.stringify(to)}); it.dispatchEvent(new Event('input')); })()`);
export const drop = (page, files) => page.eval(`page.programs.take([${files.map(([name, content]) => `new File([${content}], ${JSON.stringify(name)})`).join(", ")}])`);
export const is_booted = (page, action) => page.eval(`new Promise((done) => { page.on('booted', () => done(true)); ${action}; })`);
export const example = async (page, name) => { await is_booted(page, `(() => { const it = document.getElementById('example'); it.value = '${name}'; it.dispatchEvent(new Event('change')); })()`); await page.until("page.app.view"); };
export const boot = async (page) => { await is_booted(page, "document.getElementById('boot').click()"); await page.until("page.app.view"); };
export const button = (page, words) => page.eval(`[...document.querySelectorAll('#files button')].find((it) => it.textContent === ${JSON.stringify(words)}).click()`);
export const pause = async (page) => { if (await page.eval("page.app.view?.playing")) await page.click("#play"); await page.until("!page.app.view?.playing", PATIENCE); };
export const type = async (page, text) => { await page.eval("document.getElementById('screen').focus()"); await page.type(text); };
export const files = (page, list, how = "{}") => page.eval(`page.programs.set_files(${JSON.stringify(list)}, ${how})`);
