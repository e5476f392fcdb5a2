// own_c.mjs PAGE.html FOLDER [NAME..]: programs in C that are written on the page, as a student writes them: mistakes and
// how they are mended, break points, steps by lines forth and back, headers, a shipped program that is changed, a link,
// a reload; and the page without a compiler. nektavoly-c.js has to lie beside the page (page/build_c.sh), and
// nektavoly-c.html too. It takes pictures. The status is 1 if something isn't as it should be. With BROWSER=firefox in
// Firefox.
import { copyFileSync, mkdirSync, mkdtempSync, rmSync } from "node:fs";
import { tmpdir } from "node:os";
import { dirname, join } from "node:path";
import { pathToFileURL } from "node:url";
import { boot, button, comes, edit, example, files, is_booted, message, pause, source, text_of, type } from "./hand.mjs";
const { open } = await import(process.env.BROWSER === "firefox" ? "./firefox.mjs" : "./browser.mjs");

const [page_file, folder, ...names] = process.argv.slice(2), url = pathToFileURL(page_file).href;
mkdirSync(folder, { recursive: true });
let bad = 0;
const holds = (is, what) => { console.log(`${is ? "  " : "NOT"} ${what}`); if (!is) bad++; };
const picture = (page, name) => page.picture(`${folder}/own-c-${name}.png`);
const where = (page) => text_of(page, "c-where");
const at = (page) => page.eval("page.app.view?.at");
const screen = (page) => text_of(page, "screen");

/** Writes a source in the place of that which is shown, and waits until it is compiled. */
async function write(page, text) {
  await page.eval(`(() => { const it = document.getElementById('source'); it.value = ${JSON.stringify(text)}; it.dispatchEvent(new Event('input')); document.getElementById('mistake').textContent = ''; })()`);
  await page.until("document.getElementById('mistake').textContent !== ''");
}
async function new_source(page, name, text) {
  await page.eval(`(() => { const old = globalThis.prompt; globalThis.prompt = () => ${JSON.stringify(name)}; document.querySelector('[aria-label="A new source"]').click(); globalThis.prompt = old; })()`);
  await write(page, text);
}
const mistakes = (page) => page.eval("[...document.querySelectorAll('#mistakes li')].map((it) => it.textContent)");
const line_of_caret = (page) => page.eval("document.getElementById('source').value.slice(0, document.getElementById('source').selectionStart).split('\\n').length");
async function step(page, how, is_back = false) {
  const before = await at(page), drawn = await page.eval("page.drawn()");
  await page.click(`[data-line-step="${how}"]${is_back ? "[data-way]" : ":not([data-way])"}`);
  await comes(page, `page.app.view?.at !== ${before} && page.drawn() > ${drawn}`, 8000);
  await page.sleep(150);
  return where(page);
}
async function stopped(page, command) {
  await type(page, command);
  await comes(page, "page.app.view?.playing === false && page.app.view.stopped.startsWith('at ')", 20000);
  await page.sleep(300);
}
async function fresh_shell(page) {
  await example(page, "shell");
  if (!(await page.eval("document.getElementById('as-shipped').hidden"))) await is_booted(page, "document.getElementById('as-shipped').click()");
  await page.eval("show_tab('instruction')");
  await page.until("document.getElementById('screen').textContent.includes('$ ')");
}

const PINGPONG = `#include "kernel/types.h"
#include "user/user.h"

int main(void)
{
    int there[2], back[2];
    char byte = 'x';
    pipe(there);
    pipe(back);
    if (fork() == 0) {
        read(there[0], &byte, 1);
        printf("%d: ping\\n", getpid());
        write(back[1], &byte, 1);
        exit(0);
    }
    write(there[1], &byte, 1);
    read(back[0], &byte, 1);
    printf("%d: pong\\n", getpid());
    wait(0);
    exit(0);
}
`;

// ---- mistakes, mended one after another

async function mistakes_are_told(page) {
  await fresh_shell(page);
  await new_source(page, "pp.c", PINGPONG.replace("pipe(there);", "pipe(thre);").replace("wait(0);", "wait(0)").replace("write(back[1]", "rite(back[1]"));
  const told = await mistakes(page);
  holds(told.length === 3 && /^line 8 'thre' undeclared/.test(told[0]) && /^line 13 warning: implicit declaration of function 'rite'/.test(told[1]) && /^line 19 ';' expected at the end/.test(told[2]), `all mistakes at once: ${told.join(" | ")}`);
  await page.eval("document.querySelectorAll('#mistakes button')[2].click()");
  holds((await line_of_caret(page)) === 19, "a click goes to the line");
  holds(await page.eval("[...document.querySelectorAll('#editor .gutter .bad')].map((it) => it.dataset.line).join()") === "8,13,19", "their lines are marked");
  await picture(page, "mistakes");
  const before = await page.eval("page.app.booted.id");
  await page.click("#boot");
  await comes(page, "document.getElementById('status').textContent.startsWith('pp.c, line')", 5000);
  holds((await message(page)) === "pp.c, line 8: 'thre' undeclared" && (await page.eval("page.app.booted.id")) === before, `Boot is refused: ${await message(page)}`);
  await edit(page, "thre)", "there)");
  await comes(page, "document.querySelectorAll('#mistakes li').length === 2");
  await edit(page, "wait(0)", "wait(0);");
  await comes(page, "document.getElementById('mistakes').textContent.includes('uses rite')");
  holds((await mistakes(page)).join() === " pp.c uses rite, which no file has,line 13 warning: implicit declaration of function 'rite'", `what isn't there: ${await mistakes(page)}`);
  await edit(page, "rite(back", "write(back");
  await comes(page, "document.getElementById('mistake').textContent.startsWith('compiles') && document.querySelectorAll('#mistakes li').length === 0");
  await page.eval("globalThis.saved = []; HTMLAnchorElement.prototype.click = function () { fetch(this.href).then((it) => it.arrayBuffer()).then((it) => saved.push([this.download, [...new Uint8Array(it).subarray(1, 4)]])); }; document.getElementById('save-program').click()");
  holds(await comes(page, "JSON.stringify(saved) === '[[\"pp\",[69,76,70]]]'"), "the program can be saved");
  await boot(page);
  await page.until("document.getElementById('screen').textContent.includes('$ ')");
  await type(page, "pp\n");
  holds(await comes(page, "/4: ping\\s+3: pong/.test(document.getElementById('screen').textContent)"), `it runs: ${(await screen(page)).trim().slice(-40)}`);
}

// ---- break points and steps by lines

async function steps(page) {
  await fresh_shell(page);
  await new_source(page, "pp.c", PINGPONG);
  await page.eval("[...document.querySelectorAll('#editor .gutter div')].find((it) => it.dataset.line === '16').click()");
  await boot(page);
  await page.until("document.getElementById('screen').textContent.includes('$ ')");
  await stopped(page, "pp\n");
  holds((await where(page)) === "main, pp.c:16", `a break point beside a line: ${await where(page)}`);
  holds(await page.eval("document.querySelector('#editor .gutter .pc')?.dataset.line === '16'"), "the editor marks the line that is next");
  holds(await page.eval("document.querySelector('#c-text .stop')?.dataset.line === '16'"), "the break point stands in both texts");
  holds(await comes(page, "/there.*int \\[2\\].*\\{3, 4\\}/.test(document.getElementById('c-locals').textContent)"), `its variables are told: ${await text_of(page, "c-locals")}`);
  await picture(page, "steps");
  const seen = [];
  for (const how of ["over", "over"]) seen.push(await step(page, how));
  holds(seen.join() === "main, pp.c:17,main, pp.c:18", `over lines: ${seen.join("; ")}`);
  holds(await comes(page, "/it was 120 'x'|byte/.test(document.getElementById('c-locals').textContent)"), "and as it goes on");
  const before = await at(page), back = await step(page, "over", true);
  holds(back === "main, pp.c:17" && (await at(page)) < before, `a line back: ${back}`);
  await edit(page, "int main", "/* a line\n more */\nint main");
  await comes(page, "document.querySelector('#editor .gutter .stop')?.dataset.line === '18'");
  holds(await page.eval("document.querySelector('#editor .gutter .stop')?.dataset.line === '18'"), "a break point goes with its line");
  await page.eval("page.app.files.at(-1).stops = []");
}

// ---- headers, several files, a program's own function

async function several(page) {
  await fresh_shell(page);
  const add = (list) => page.eval(`page.programs.set_files([...page.app.files, ...${JSON.stringify(list)}])`);
  await add([{ name: "one.c", text: '#include <stdio.h>\n#include "two.h"\nint main(void) { printf("%d\\n", twice(21)); return 0; }\n' }, { name: "two.h", text: "int twice(int n);\n" }, { name: "two.c", text: '#include "two.h"\nint twice(int n)\n{\n    return 2 * n;\n}\n' }]);
  await boot(page);
  await page.until("document.getElementById('screen').textContent.includes('$ ')");
  await type(page, "one\n");
  holds(await comes(page, "document.getElementById('screen').textContent.includes('42')"), "a program of two sources and a header");
  await button(page, "two.h");
  await write(page, "int twice(int n;\n");
  holds((await mistakes(page)).some((it) => it.startsWith("line 1 ")), `a mistake of a header: ${await mistakes(page)}`);
  await page.eval("[...document.querySelectorAll('#files button')].find((it) => it.textContent.startsWith('one.c')).click()");
  await comes(page, "document.querySelectorAll('#mistakes li').length > 0");
  holds((await mistakes(page)).some((it) => it.startsWith("two.h, line 1 ")), `told of who includes it: ${await mistakes(page)}`);
  await page.eval("document.querySelector('#mistakes button').click()");
  holds((await source(page)) === "int twice(int n;\n", "a click opens the header");
  await files(page, [{ name: "one.c", text: "double half(double n) { return n / 2; }\nint main(void) { return half(3); }\n" }]);
  await page.click("#boot");
  holds(await comes(page, "document.getElementById('mistakes').textContent.includes('the machine has whole numbers alone')"), `what can't be compiled is refused: ${await mistakes(page)}`);
}

// ---- a shipped program is changed

async function shipped(page) {
  await fresh_shell(page);
  await button(page, "echo");
  holds((await text_of(page, "its-source")).startsWith("Change echo.c"), `a shipped program offers its source: ${await text_of(page, "its-source")}`);
  await picture(page, "shipped");
  await page.click("#change-source");
  await comes(page, "document.getElementById('mistake').textContent.startsWith('compiles')");
  holds((await source(page)).includes("main(") && !(await page.eval("page.app.files.some((it) => it.name === 'echo')")), "it takes the program's place");
  await edit(page, "{", "{\n    printf(\"echo says \");");
  await comes(page, "document.getElementById('mistake').textContent.startsWith('compiles')");
  await boot(page);
  await page.until("document.getElementById('screen').textContent.includes('$ ')");
  await type(page, "echo hello\n");
  holds(await comes(page, "document.getElementById('screen').textContent.includes('echo says hello')"), "changed, booted, and run");
  for (const name of ["sh", "wc", "grep", "sort", "primes", "storm"]) {
    await fresh_shell(page);
    await button(page, name);
    await page.click("#change-source");
    await comes(page, "document.getElementById('mistake').textContent !== ''");
    holds(await comes(page, "document.getElementById('mistake').textContent.startsWith('compiles')"), `${name}.c: ${await text_of(page, "mistake")}`);
  }
  await fresh_shell(page);
  await button(page, "tests");
  holds((await text_of(page, "its-source")).includes("gcc alone"), "tests.c is not offered");
}

// ---- a link, and a reload

async function links(page) {
  await fresh_shell(page);
  await new_source(page, "pp.c", PINGPONG);
  await boot(page);
  await page.until("document.getElementById('screen').textContent.includes('$ ')");
  await type(page, "pp\n");
  await comes(page, "document.getElementById('screen').textContent.includes('pong')");
  await pause(page);
  const place = await at(page), told = await screen(page), link = await page.eval("page.sharing.link()");
  await page.eval("location.href = 'about:blank'; 0").catch(() => {});
  const other = await open(link);
  holds(await comes(other, `page.app.view?.at === ${place}`, 20000) && (await screen(other)).includes("pong"), `a link has the source and the run: ${await at(other)} of ${place}`);
  holds(await other.eval("page.app.files.some((it) => it.name === 'pp.c' && it.text.includes('pong'))"), "with its text");
  holds((await screen(other)).trim() === told.trim(), "the console is the same");
  await other.sleep(1500);
  await other.go(url);
  await other.until("page.app.view");
  holds(await comes(other, `page.app.files.some((it) => it.name === 'pp.c')`), "a reload finds it again");
  holds(other.logs.length === 0, `no errors of the page: ${other.logs.join("; ")}`);
  await other.close();
}

// ---- the page without a compiler, and with one inside

async function alone() {
  const room = mkdtempSync(join(tmpdir(), "page-"));
  for (const name of ["nektavoly.html", "nektavoly-c.html"]) copyFileSync(name === "nektavoly.html" ? page_file : join(dirname(page_file), name), join(room, name));
  const without = await open(pathToFileURL(join(room, "nektavoly.html")).href);
  await new_source(without, "pp.c", PINGPONG);
  holds((await text_of(without, "mistake")).startsWith("this page has no C compiler"), `without a compiler: ${await text_of(without, "mistake")}`);
  await without.click("#boot");
  await comes(without, "document.getElementById('status').textContent.startsWith('pp.c, this page')");
  holds((await message(without)).startsWith("pp.c, this page has no C compiler"), `Boot: ${await message(without)}`);
  await without.close();
  const within = await open(pathToFileURL(join(room, "nektavoly-c.html")).href);
  await new_source(within, "pp.c", PINGPONG);
  holds((await text_of(within, "mistake")).startsWith("compiles"), `with one inside: ${await text_of(within, "mistake")}`);
  holds(await within.eval("document.getElementById('whose-compiler').textContent.includes('GNU Lesser General Public License')"), "whose compiler it is stands at the foot");
  await within.close();
  rmSync(room, { recursive: true });
}

const ALL = { mistakes_are_told, steps, several, shipped, links, alone };
for (const [name, check] of Object.entries(ALL).filter(([it]) => !names.length || names.includes(it))) {
  console.log(name);
  try {
    const page = name === "alone" ? null : await open(url, { width: 1300, height: 900 });
    await check(page);
    if (page && name !== "links") holds(page.logs.length === 0, `no errors of the page: ${page.logs.join("; ")}`);
    await page?.close();
  } catch (error) {
    holds(false, `${name}: ${error.message}`);
  }
}
console.log(bad ? `${bad} not as they should be` : `all is as it should be; pictures in ${folder}`);
process.exit(bad ? 1 : 0);
