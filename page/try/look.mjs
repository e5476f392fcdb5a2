// look.mjs PAGE.html FOLDER [NAME..]: tries the page in Chromium as a student would, and takes pictures of each panel
// into FOLDER. It ends with the status 1 where something isn't as it should be. With names only these parts are tried.
import { mkdirSync, readFileSync } from "node:fs";
import { pathToFileURL } from "node:url";
import { full, sieve } from "./exercises.mjs";
import { comes } from "./hand.mjs";
import { crowd, instructions, steps_back } from "./measures.mjs";
const { open } = await import(process.env.BROWSER === "firefox" ? "./firefox.mjs" : "./browser.mjs");

const [page_file, folder, ...names] = process.argv.slice(2), url = pathToFileURL(page_file).href;
mkdirSync(folder, { recursive: true });
let bad = 0;
const holds = (is, what) => { console.log(`${is ? "  " : "NOT"} ${what}`); if (!is) bad++; };
const at = (page) => page.eval("page.app.view?.at");
const shows = (page, text) => page.until(`document.getElementById('screen').textContent.includes(${JSON.stringify(text)})`).then(() => holds(true, `the terminal shows ${JSON.stringify(text)}`), () => holds(false, `the terminal shows ${JSON.stringify(text)}`));

async function session(page) {
  await page.eval("document.getElementById('screen').focus()");
  await shows(page, "$ ");
  for (const [typed, shown] of [["echo hello | wc\n", "1 1 6"], ["cat poem.txt | sort | head -1\n", "Who would sleep"], ["ehco", "ehco"]]) { await page.type(typed); await shows(page, shown); }
  for (let k = 0; k < 4; k++) await page.key("Backspace");
  await page.type("echo mended\n");
  await shows(page, "mended\n");
  for (const [typed, shown] of [["primes 20\n", "prime 19"], ["pingpong 3\n", "$"], ["crash 13\n", "$"], ["echo a ; echo b\n", "a\nb"], ["grep writer poem.txt\n", "writer"], ["(echo x ; echo y) | wc\n", "2 2 4"], ["lazy\n", "$"], ["sleep 2\n", "$"], ["wc < poem.txt\n", "$"], ["echo one &\n", "one"], ["wait\n", "$"], ["cat nothing\n", "nothing"], ["kill 99\n", "$"], ["echo last | cat | cat | wc\n", "1 1 5"], ["# a remark\n", "$"], ["head -2 poem.txt\n", "should first"]]) { await page.type(typed); await page.sleep(500); await shows(page, shown); }
  await page.picture(`${folder}/session.png`);
  await page.until("document.getElementById('heard').textContent.includes('should first')").catch(() => {});
  holds((await page.eval("[...document.getElementById('heard').children].some((it) => it.textContent.trim() === '1 1 5')")), "a reader of the screen is told the terminal's lines");
  holds((await page.eval("document.getElementById('turns-told').textContent")).includes("forked by process 2 at event "), "a reader of the screen is told the picture of turns");
}

async function time(page) {
  await page.key("c", { control: true });
  await page.until("!page.app.view?.playing");
  const end = await at(page);
  await page.eval("document.getElementById('play').focus()");
  await page.key("S", { shift: true });
  await page.until(`page.app.view?.at < ${end}`);
  holds(true, "a step back");
  for (let k = 0; k < 5; k++) { const before = await at(page); await page.key("C", { shift: true }); await page.until(`page.app.view?.at < ${before}`); }
  const back = await at(page);
  holds(back < end, `five calls back: from ${end} to ${back}`);
  await page.key("c");
  await page.until(`page.app.view?.at > ${back}`);
  holds(true, "a call forward");
  const third = Math.floor(end / 3), is_there = `page.app.view?.at === ${third}`;
  await page.eval(`page.ask('go', { place: ${third} })`);
  await page.until(is_there);
  const regs = await page.eval("String(page.app.view?.registers)");
  await page.eval("page.ask('step', { what: 'one', back: false })");
  await page.until(`page.app.view?.at > ${third}`);
  await page.eval("page.ask('step', { what: 'one', back: true })");
  await page.until(is_there);
  holds((await page.eval("String(page.app.view?.registers)")) === regs, "forward and back gives the same registers");
  await page.picture(`${folder}/past.png`);
}

async function panels(page, name) {
  for (const tab of ["instruction", "pages", "opened", "why"]) { await page.eval(`show_tab('${tab}')`); await page.sleep(500); await page.picture(`${folder}/${name}-${tab}.png`, { full: true }); }
}

/** A click writes what takes more than its line: a number for its name, an alignment, a product. Undo takes each back. */
async function more_lines_are_written(page) {
  const source = ".equ N, 6\n_start:\n  li a1, N\n  mul a0, a1, a1\n  li a7, 2\n  ecall\n.data\na: .byte N\n.align 3\nb: .dword a\n";
  const text = () => page.eval("document.getElementById('source').value"), press = (k) => page.eval(`document.querySelectorAll('#mistakes li')[${k}].lastElementChild.click()`);
  await page.eval(`(() => { const it = document.getElementById('source'); it.value = ${JSON.stringify(source)}; it.dispatchEvent(new Event('input')); })()`);
  await page.until("document.querySelectorAll('#mistakes li').length === 3");
  const buttons = await page.eval("[...document.querySelectorAll('#mistakes li')].map((it) => it.lastElementChild.textContent)");
  holds(buttons.join("; ") === "write 6 wherever N stands; write a loop of 17 lines; write .space 7, which leads there", `buttons for more than a line: ${buttons.join("; ")}`);
  await page.picture(`${folder}/mistakes-of-more-lines.png`);
  await press(0);
  await page.until("document.querySelectorAll('#mistakes li').length === 2");
  holds((await text()) === source.replace(".equ N, 6", "# N is 6").replace("a1, N", "a1, 6").replace(".byte N", ".byte 6"), "a number stands wherever its name stood");
  await page.key("z", { control: true });
  await page.until("document.querySelectorAll('#mistakes li').length === 3").then(() => holds(true, "undo takes that back at once"), () => holds(false, "undo takes that back at once"));
  for (let left = 2; left >= 0; left--) { await press(0); await page.until(`document.querySelectorAll('#mistakes li').length === ${left}`); }
  holds(await page.until("document.getElementById('mistake').textContent.startsWith('assembles')").then(() => true, () => false), "then it assembles");
  await page.eval("page.programs.boot({ play: true })");
  holds(await page.until("page.app.view?.facts.halted && page.app.view.facts.status === 36").then(() => true, () => false), "and ends with the product");
}

/** All mistakes of a source are listed: a click goes to a line, another writes it, and undo takes that back. */
async function mistakes(page) {
  const rows = () => page.eval("[...document.querySelectorAll('#mistakes li')].map((it) => it.textContent)");
  const line = (place) => page.eval(`document.getElementById('source').value.split('\\n')[${place}]`);
  await page.eval("(() => { const it = document.getElementById('source'); it.value = '_start:\\n  bnez a0, _start\\n  li a0, 1\\n  mul a0, a0, a0\\n  addi a0 a0 1\\n  j nowhere\\n'; it.dispatchEvent(new Event('input')); })()");
  await page.until("document.querySelectorAll('#mistakes li').length === 4");
  holds((await page.eval("document.getElementById('mistake').textContent")).endsWith("And 3 more"), "the first mistake is told, and how many more there are");
  holds((await page.eval("document.querySelectorAll('.gutter .bad').length")) === 4, "each line with a mistake is marked");
  await page.picture(`${folder}/mistakes.png`);
  await page.eval("document.querySelectorAll('#mistakes li')[1].firstElementChild.click()");
  holds((await page.eval("(() => { const it = document.getElementById('source'); return it.value.slice(it.selectionStart, it.selectionEnd); })()")) === "  mul a0, a0, a0", "a click goes to the line of a mistake");
  await page.eval("document.querySelectorAll('#mistakes li')[0].lastElementChild.click()");
  await page.until("document.querySelectorAll('#mistakes li').length === 3");
  holds((await line(1)) === "  bne a0, x0, _start", "a click writes the line as it is meant");
  await page.key("z", { control: true });
  await page.until("document.querySelectorAll('#mistakes li').length === 4").then(() => holds(true, "undo takes it back"), () => holds(false, "undo takes it back"));
  holds((await rows()).every((it) => /^line \d+ /.test(it)), "each mistake has its line");
  await more_lines_are_written(page);
}

async function programs(page) {
  await page.eval("page.programs.choose('pipeline'); page.programs.boot({ play: false })");
  await page.until("page.app.booted.files[0].text && page.app.view?.at === 0");
  for (let k = 0; k < 12; k++) { await page.eval("page.ask('step', { what: 'event', back: false })"); await page.sleep(60); }
  await panels(page, "pipeline");
  await page.eval("(() => { const it = document.getElementById('source'); it.value = it.value.replace('ecall', 'beqz a0, x'); it.dispatchEvent(new Event('input')); })()");
  await page.until("document.getElementById('mistake').textContent.includes('UnknownWord')");
  holds((await page.eval("document.getElementById('mistake').textContent")).includes("beq a0, x0"), "a mistake is told with a hint");
  holds((await page.eval("document.querySelectorAll('.gutter div:not(.no)').length")) === 0, "a source that is refused takes no break point");
  await page.picture(`${folder}/mistake.png`);
  await mistakes(page);
  const offered = await page.eval("[...document.getElementById('labels').children].map((it) => it.value)");
  holds(offered.includes("sbrklazy") && offered.length > 16, "labels and calls are offered for break points");
}

/** The text of an element, if it stands within the window; nothing if it doesn't. */
const seen = (page, id) => page.eval(`(() => {
  const it = document.getElementById(${JSON.stringify(id)}), box = it.getBoundingClientRect();
  const is_seen = box.height > 10 && box.left >= 0 && box.right <= innerWidth && box.top >= 0 && box.bottom <= innerHeight;
  return is_seen ? it.textContent : "";
})()`);
const message = (page) => seen(page, "status");

/**
 * A file is asked for by a button, a message is seen and goes, a form of memory and a break point are chosen, all by
 * keys.
 */
async function keys(page) {
  await page.eval("window.is_asked = 0; document.getElementById('file').addEventListener('click', (event) => { event.preventDefault(); window.is_asked++; })");
  for (const button of ["#open-file", "#files > button:last-child"]) { await page.eval(`document.querySelector('${button}').focus()`); await page.key("Enter"); }
  holds(await page.eval("window.is_asked === 2"), "two buttons ask for files, by keys");
  await page.eval("(() => { const data = new DataTransfer(), it = document.getElementById('file'); data.items.add(new File(['# none\\n  li a0, 5\\n  li a7, 2\\n  ecall\\n'], 'init.s')); it.files = data.files; it.dispatchEvent(new Event('change')); })()");
  await page.until("page.app.files.some((it) => it.text?.includes('li a0, 5'))");
  await page.click("#boot");
  await page.until("page.app.view?.facts.halted && page.app.view?.facts.status === 5").catch(() => {});
  holds(await page.eval("page.app.view?.facts.status === 5"), "a source that was chosen runs");
  await page.eval("document.getElementById('source').focus(); document.getElementById('source').setSelectionRange(9, 9)");
  await page.key("F9");
  holds((await message(page)) === "A break point at line 2" && (await page.eval("document.getElementById('break-list').childElementCount === 1 && document.querySelectorAll('.gutter .stop').length === 1")), "F9 sets a break point at a line");
  await page.key("F9");
  holds(await page.eval("document.getElementById('break-list').childElementCount === 0"), "F9 takes it away");
  await page.eval("(() => { document.getElementById('breaks').open = true; const it = document.getElementById('break-where'); it.value = 'nowhere'; it.focus(); })()");
  await page.key("Enter");
  holds((await message(page)).startsWith("No such label: nowhere"), "a label that isn't there is told, and seen");
  await page.picture(`${folder}/message.png`);
  await page.key("x");
  holds((await message(page)) === "", "a message goes at the next key");
  await page.eval("document.getElementById('breaks').open = false; show_tab('instruction'); document.querySelector('[data-as=bytes]').focus()");
  await page.key("ArrowRight");
  holds(await page.eval("document.activeElement.dataset.as === 'words' && document.querySelectorAll('[data-as][aria-checked=true]').length === 1 && document.activeElement.getAttribute('aria-checked') === 'true'"), "memory as words, by an arrow");
  await page.key("ArrowLeft");
}

const boots = (page, words) => page.eval(`${words}; page.programs.boot({ play: false })`).then(() => page.until("page.app.view?.at === 0 && page.app.booted.files[0].from === page.app.files[0]"));

/** Goes on by an event, and waits until it is drawn. */
async function one(page) {
  const drawn = await page.eval("page.drawn()");
  await page.eval("page.ask('step', { what: 'one', back: false })");
  await page.until(`page.drawn() > ${drawn}`);
}

/** What the last step changed, and the memory that is next, have signs beside their colour. */
async function signs(page, name) {
  await boots(page, "page.programs.choose('lazy course')");
  await page.eval("show_tab('pages')");
  await page.sleep(300);
  for (let k = 0; k < 60 && !(await page.eval("!!document.querySelector('#table summary.new')")); k++) await one(page);
  holds(await page.eval("(() => { const all = [...document.querySelectorAll('#table .new')]; return all.length > 0 && all.every((it) => it.querySelector('.changed')); })()"), `${name}: what the last step changed of the page table has a sign`);
  await page.picture(`${folder}/${name}-sign-pages.png`, { full: true });
  await page.eval("show_tab('instruction')");
  await boots(page, "page.programs.set_files([{ name: 'init.s', text: '  li a0, 5\\n  sb a0, -8(sp)\\n' }])");
  for (let k = 0; k < 9 && (await page.eval("page.app.view?.next == null")); k++) await one(page);
  await page.eval("page.ask('look', { memory: page.app.view?.next & ~15n })");
  await page.until("document.querySelector('#memory i')?.textContent.includes('>')").catch(() => {});
  holds(await page.eval("!!document.querySelector('#memory i')?.textContent.includes('>')"), `${name}: the memory that is next has a sign`);
  await page.picture(`${folder}/${name}-sign-memory.png`, { full: true });
  await page.eval("page.ask('look', { memory: null })");
}

async function share(page) {
  await page.eval("page.programs.choose('hello'); page.programs.boot()");
  await shows(page, "hi\n");
  const link = await page.eval("page.sharing.link()");
  await page.eval("document.getElementById('share').click()");
  await page.sleep(400);
  await page.picture(`${folder}/share.png`);
  const other = await open(link);
  await shows(other, "hi\n");
  holds(true, `a link of ${link.length} characters is followed`);
  await other.eval("(() => { const data = new DataTransfer(); data.items.add(new File(['  li a0, 7\\n  li a7, 2\\n  ecall\\n'], 'init.s')); document.body.dispatchEvent(new DragEvent('drop', { dataTransfer: data, bubbles: true, cancelable: true })); })()");
  await other.until("page.app.files.some((it) => it.text?.includes('li a0, 7'))");
  await other.click("#boot");
  await other.until("page.app.view?.facts.halted && page.app.view?.facts.status === 7").catch(() => {});
  holds(await other.eval("page.app.view?.facts.status === 7"), "a dropped source runs");
  const record = await other.eval("page.sharing.run_as_record()"), end = await other.eval("page.app.line.end");
  await other.eval("page.ask('go', { place: 0 })");
  await other.eval(`page.programs.take([new File([${JSON.stringify(record)}], 'run.txt')])`);
  await other.until(`page.app.view?.at === ${end}`).catch(() => {});
  holds(record.startsWith("xv record 1\nframes 4096\nprogram ") && (await other.eval("page.app.line.end")) === end && (await other.eval("page.app.view?.at")) === end, "a record is played again");
  await other.close();
}

// What a student answers to each question; an edit of the source, where a program is to be mended; null where it is
// left out.
const CLOSES = ["  li s0, 0\n", "  lw a0, -12(sp)\n  li a7, 21\n  ecall\n  li s0, 0\n"];
const CHAIN = ["  ecall\n  ecall\n  ecall\n  li s0, 1\n", "  li s1, 7\nfork:\n  li a7, 1\n  ecall\n  bne a0, x0, parent\n  addi s1, s1, -1\n  bne s1, x0, fork\nparent:\n  li s0, 1\n"];
const LESSONS = [["2", "-1", "its load faults", "10"], ["8", "5", "8", CHAIN], ["1", "5", CLOSES], ["51", "55", "55"], ["1 2 3 1 2 3", null, null], ["7", "2 1 2 2 3", "17"]];
const clicked = (page, k, given) => page.eval(`(() => { const it = document.querySelectorAll('#lessons .ask')[${k}], input = it.querySelector('input:not([type=radio])'); if (input) input.value = ${JSON.stringify(given)}; const radio = [...it.querySelectorAll('input[type=radio]')].find((one) => one.value === ${JSON.stringify(given)}); if (radio) radio.checked = true; it.querySelector('button.main').click(); })()`);
const typed_over = (page, [from, to]) => page.eval(`(() => { const it = document.getElementById('source'); it.value = it.value.replace(${JSON.stringify(from)}, ${JSON.stringify(to)}); it.dispatchEvent(new Event('input')); })()`);

/** Gives an answer to a question of the open lesson, and tells what the page says. */
async function answered(page, k, given) {
  await clicked(page, k, given);
  const told = `document.querySelectorAll('#lessons .ask')[${k}].querySelector('[role=status]')`;
  await page.until(`${told}.className !== ''`).catch(() => {});
  return page.eval(`${told}.textContent`);
}

async function lessons(page) {
  for (let lesson = 0; lesson < LESSONS.length; lesson++) {
    await page.eval(`open_lesson(${lesson})`);
    await page.sleep(700);
    for (let k = 0; k < LESSONS[lesson].length; k++) {
      const given = LESSONS[lesson][k];
      if (given === null) continue;
      if (Array.isArray(given)) {
        holds((await answered(page, k, "")).startsWith("Not so"), `lesson ${lesson + 1}, question ${k + 1}: the program as it is isn't what is asked for`);
        await typed_over(page, given);
      }
      const words = await answered(page, k, Array.isArray(given) ? "" : given);
      holds(words.startsWith("Right"), `lesson ${lesson + 1}, question ${k + 1}: ${words}`);
    }
    await page.picture(`${folder}/lesson${lesson + 1}.png`, { full: true });
  }
}

async function speed(page) {
  const { events, ms, millions } = await instructions(page);
  console.log(`   ${events} events in ${ms.toFixed(0)} ms: ${millions.toFixed(1)} million a second`);
  const back = await steps_back(page);
  console.log(`   30 steps back at ${back.at} events: ${back.steps.toFixed(1)} a second`);
  const { processes, stretches, frames, longest } = await crowd(page);
  console.log(`   ${processes} processes, ${stretches} stretches: ${frames.toFixed(1)} frames a second, the longest ${longest.toFixed(0)} ms`);
  holds(processes === 64, "64 processes");
  await page.picture(`${folder}/crowd.png`);
}

async function exercises(page) {
  const other = await open(await full(page, holds, folder));
  await other.until("page.app.view?.facts.halted && page.app.view?.facts.status === -1").catch(() => {});
  holds(await other.eval("page.app.view?.facts.status === -1"), "exercise 13: who follows its link has the changed program");
  await other.close();
  await sieve(page, holds, folder);
}

// ---- variables of C

const POINTS = new URL("../../checks/dap/", import.meta.url); // a small program in C, and its tables

/** Boots the program of points.c with these files beside it, each {name, bytes}, and goes to its main. */
async function points(page, beside) {
  const program = ["points", "points.lines", "points.c"].map((name) => ({ name, bytes: readFileSync(new URL(name, POINTS)) }));
  const files = [...program, ...beside].map(({ name, bytes }) => ({ name, letters: Buffer.from(bytes).toString("base64") }));
  await page.eval("page.programs.set_files([], { rounds: true }, 'points')");
  await page.eval(`page.programs.take(${JSON.stringify(files)}.map(({ name, letters }) => new File([Uint8Array.from(atob(letters), (it) => it.charCodeAt(0))], name)))`);
  await page.eval("page.programs.boot({ play: false }); show_tab('instruction')");
  await page.until("page.app.booted.files[0].from.name === 'points' && page.app.view?.at === 0");
  await into(page, "main, points.c:27");
}

const element_text = (page, id) => page.eval(`document.getElementById(${JSON.stringify(id)}).textContent`);

/** Goes on by lines, into functions too, up to a place. */
async function into(page, where) {
  for (let k = 0; k < 30 && (await element_text(page, "c-where")) !== where; k++) {
    const before = await at(page);
    await page.click('[data-line-step="into"]:not([data-way])');
    await page.until(`page.app.view?.at !== ${before} && !page.app.view.playing`);
    await page.sleep(300);
  }
  await page.until("document.getElementById('c-locals').getAttribute('aria-busy') !== 'true'");
}

/** The rows of a table of variables: name, type and value, with a sign before a name that has changed. */
const variables_in = (page, id) => page.eval(`(() => {
  const seen = (cell) => { const it = cell.cloneNode(true); it.querySelectorAll('.unseen').forEach((part) => part.remove()); return it.textContent.replace(/[▸▾]/, ''); };
  return [...document.querySelectorAll('#${id} tbody tr')].map((row) => [...row.children].slice(0, 3).map(seen).join(' | '));
})()`);

async function open_globals(page) {
  await page.eval("document.querySelector('#c-globals').open || document.querySelector('#c-globals summary').click()");
  await page.until("document.querySelector('#c-globals-told .opens[aria-expanded]')");
}

async function variables_of_c(page) {
  await page.eval("[...document.querySelectorAll('dialog[open]')].forEach((it) => it.close())");
  await points(page, [{ name: "points.debug", bytes: readFileSync(new URL("points.debug", POINTS)) }]);
  holds(await page.eval("page.app.booted.files.length === 2"), "tables of variables are no file of the machine");
  await into(page, "weight, points.c:20");
  const told = await variables_in(page, "c-locals");
  holds(told.includes("✱part | long int | -1") && told.includes("letter | char | 97 'a'"), `arguments and locals, and which has changed: ${told.join("; ")}`);
  holds((await page.eval("document.querySelector('#c-locals .changed .unseen').textContent")) === "changed since the last stop: it was 0", "and what it was is read out");
  await page.eval("document.querySelector('#c-locals .to-memory').click()");
  await page.until("document.getElementById('memory').textContent.startsWith('0x1000')");
  holds(await page.eval("document.getElementById('address').value === '0x1000'"), "a pointer leads to its memory");
  await open_globals(page);
  await page.eval("document.querySelector('#c-globals-told .opens[aria-expanded]').focus()");
  await page.key("Enter");
  holds((await variables_in(page, "c-globals-told")).length === 4, "an array opens by a key");
  holds(await page.eval("document.activeElement.getAttribute('aria-label') === 'Parts of shapes' && document.activeElement.getAttribute('aria-expanded') === 'true'"), "and the keys stay there");
  await page.picture(`${folder}/variables.png`, { full: true });
  await page.eval("document.querySelectorAll('#c-calls button')[1].click()");
  await page.until("document.querySelector('#c-locals caption')?.textContent.endsWith(' main')");
  holds((await variables_in(page, "c-locals")).includes("all | int | 116"), "the variables of a call that is chosen");
  const before = await at(page);
  await page.eval("document.querySelector('#c-locals .stored').click()");
  await page.until(`page.app.view?.at < ${before}`);
  holds((await element_text(page, "c-where")).startsWith("main, points.c:2"), "who stored last in a variable");
  await watched(page);
}

/** A variable that is watched: it is stopped before each store to it, forth and back. */
async function watched(page) {
  await into(page, "weight, points.c:20");
  const button = "document.querySelector('#c-locals [data-of=\"total watch\"]')", from = await at(page);
  await page.eval(`${button}.focus()`);
  await page.key("Enter");
  holds(await page.eval(`${button} === document.activeElement && ${button}.getAttribute('aria-pressed') === 'true'`), "a variable is watched by a key, which stays there");
  holds(/store to total, 0x[0-9a-f]+, in init/.test(await element_text(page, "break-list")), `the list of break points has it: ${await element_text(page, "break-list")}`);
  const places = [];
  for (let k = 0; k < 2; k++) {
    const before = await at(page);
    await page.click("#play");
    await page.until(`page.app.view?.at > ${before} && !page.app.view.playing`);
    places.push(await at(page));
  }
  holds((await comes(page, "document.getElementById('clock').textContent.includes('before a store to total')")) && places[0] > from, `Play stops before each store to it: ${places.join(", ")}`);
  await page.click("#back-break");
  await page.until(`page.app.view?.at < ${places[1]}`);
  holds((await at(page)) === places[0], "and the way back does");
  holds(await comes(page, "[...document.querySelectorAll('#c-locals tbody tr')].some((it) => it.textContent.startsWith('✱'))"), "back, too, what has changed since the last stop has the sign");
  await page.eval("document.getElementById('c-locals').scrollIntoView({ block: 'center' })");
  await page.picture(`${folder}/watched.png`);
  await page.click("#c-locals [data-of='total watch']");
  holds((await element_text(page, "break-list")) === "", "a second click takes it away");
}

/** Tables that aren't there, are damaged, or of another program. */
async function no_variables(page) {
  const bytes = readFileSync(new URL("points.debug", POINTS)), other = Uint8Array.from(bytes);
  await points(page, []);
  holds((await element_text(page, "c-variables-none")).includes("there is no points.debug"), "without tables it says which file has them");
  for (const [name, tables] of [["cut off", bytes.subarray(0, 3000)], ["empty", bytes.subarray(0, 0)], ["a text", Buffer.from("none\n")]]) {
    await points(page, [{ name: "points.debug", bytes: tables }]);
    await page.until("document.getElementById('c-locals').textContent.includes('there is no .debug_info in them')").catch(() => {});
    holds((await element_text(page, "c-locals")).includes("there is no .debug_info in them"), `tables that are ${name} are refused in words`);
  }
  other[64 + 40] ^= 1; // the size of its first part that is loaded
  await points(page, [{ name: "points.debug", bytes: other }]);
  await page.until("document.getElementById('c-locals').textContent.includes('another program')").catch(() => {});
  holds((await element_text(page, "c-locals")).includes("they are of another program"), "tables of another program are refused in words");
}

const PARTS = { session: async (page) => { await session(page); await panels(page, "shell"); await time(page); }, programs: async (page) => { await programs(page); await keys(page); }, signs: (page) => signs(page, "light"), lessons, exercises, share, variables: async (page) => { await variables_of_c(page); await no_variables(page); }, speed };
const is_wanted = (name) => !names.length || names.includes(name);
const page = await open(url, { width: 1400, height: 950 });
try {
  const took = await page.eval("window.took"), paint = await page.eval("performance.getEntriesByType('paint').map((it) => it.startTime)[0] ?? 0");
  console.log(`   first paint after ${paint.toFixed(0)} ms, boot ${took.boot.toFixed(0)} ms, shown after ${took.shown.toFixed(0)} ms`);
  for (const [name, part] of Object.entries(PARTS)) if (is_wanted(name)) await part(page);
} catch (error) {
  holds(false, error.stack);
  await page.picture(`${folder}/error.png`);
}
holds(page.logs.length === 0, `no errors of the page: ${page.logs.join("; ")}`);
await page.close();
for (const [name, how] of [["dark", { width: 1400, height: 950, dark: true }], ["phone", { width: 420, height: 860, mobile: true }], ["phone-dark", { width: 420, height: 860, mobile: true, dark: true }]]) {
  if (!is_wanted(name)) continue;
  const other = await open(`${url}#run=abc`, how);
  await shows(other, "$ ");
  const told = await seen(other, "message-list");
  holds(told.startsWith("The link leads nowhere: it isn't whole"), `${name}: a damaged link is told, and seen`);
  await other.picture(`${folder}/${name}-message.png`);
  await other.eval("document.getElementById('screen').focus()");
  await other.type("primes 20\n");
  await shows(other, "prime 19");
  await other.picture(`${folder}/${name}.png`, { full: true });
  await panels(other, name);
  await signs(other, name);
  holds((await other.eval("document.documentElement.scrollWidth <= innerWidth + 1")), `${name}: nothing stands beyond the right edge`);
  await other.close();
}
console.log(bad ? `${bad} not as they should be` : `all is as it should be; pictures in ${folder}`);
process.exit(bad ? 1 : 0);
