// asked.mjs PAGE.html FOLDER [NAME..]: whether links lead to the places that they name, and what is told of events,
// addresses and traps is so; the first minute, and the manual inside the page. It takes pictures: desktop and phone,
// light and dark. With names only these checks are made. The status is 1 if something isn't as it should be. With
// BROWSER=firefox in Firefox.
import { mkdirSync, readFileSync } from "node:fs";
import { pathToFileURL } from "node:url";
import { boot, comes, example, files, message, pause, source, text_of, type } from "./hand.mjs";
const { open } = await import(process.env.BROWSER === "firefox" ? "./firefox.mjs" : "./browser.mjs");

const [page_file, folder, ...names] = process.argv.slice(2), url = pathToFileURL(page_file).href;
mkdirSync(folder, { recursive: true });
let bad = 0, opened = 0;
const holds = (is, what) => { console.log(`${is ? "  " : "NOT"} ${what}`); if (!is) bad++; };
/** Opens a link in the page, as if it were followed anew. */
const follow = async (page, link, query = "") => {
  await page.go(`${url}?${query}${query ? "&" : ""}n=${++opened}#${link}`);
  await page.until("document.documentElement.dataset.place === 'there'", 20000).catch(() => {});
  await page.sleep(400);
};
/** Whether the list of messages has one with these words. */
const problem = (page, words) => comes(page, `page.problems().some((it) => it.includes(${JSON.stringify(words)}))`);
const at = (page) => page.eval("page.app.view?.at");
const shown = (page) => page.eval("['instruction', 'pages', 'translate', 'opened', 'happened', 'why'].find((it) => !document.getElementById(it).hidden)");
const events = (page) => page.eval("[...document.querySelectorAll('#event-list > *')].map((it) => it.textContent)");
/** Chooses what is shown of the events; the worker is asked for them. */
const show_events = async (page, what) => {
  await page.eval(`(() => { const it = document.getElementById('event-what'); it.value = '${what}'; it.dispatchEvent(new Event('input')); })()`);
  await page.sleep(300);
};
const translated = (page) => text_of(page, "translate-told");
const EXIT = "  li a0, 7\n  li a7, 2\n  ecall\n";

// ---- links

/**
 * What each of the course's slides must show: the place, if no program in C is in it, the panel, and words that stand
 * there.
 */
const SLIDES = [
  [1, "pages", /4 pages of 4/], [6, "instruction", /open answers 0/], [3, "instruction", /fork answers 2/], [12, "opened", /the console/],
  [12, "happened", /exit\(42\) ends with 42/], [27, "opened", /2 of 2048 bytes/], [16, "opened", /0 of 2048 bytes/], [50, "opened", /read answers 0/],
  [null, "opened", /the write end of the pipe/], [3103, "opened", /the key 127/], [1, "pages", /4 pages of 4/], [6, "pages", /4 pages of/],
  [1, "translate", /Bit U refuses/], [3, "why", /which is no multiple of/], [2666, "happened", /has a turn/], [10332, "happened", /sleep\(10 ticks\)/],
  [null, "happened", /kill\(process 3\)/], [null, "happened", /exit\(0\) ends with 0/], [null, "pages", /1 pipe/], [36, "why", /nobody can go on/i],
];

async function slides(page) {
  await page.click("#share");
  await page.until("document.querySelectorAll('#dialog ol li').length");
  const links = await page.eval("[...document.querySelectorAll('#dialog ol li a:first-child')].map((it) => it.getAttribute('href').slice(1))");
  holds(links.length === SLIDES.length, `there are so many slides: ${links.length}`);
  for (const [k, link] of links.entries()) {
    const [place, panel, words] = SLIDES[k];
    await follow(page, link);
    await comes(page, `document.body.innerText.match(${words})`, 4000);
    const text = await page.eval("document.getElementById('right').innerText + document.getElementById('clock').textContent");
    holds((place === null || (await at(page)) === place) && (await shown(page)) === panel && words.test(text), `slide ${k + 1}, ${link}: event ${await at(page)}, ${await shown(page)}`);
  }
}

async function links(page) {
  await follow(page, "example=fork&rounds=1000&at=fork&pid=2&tab=opened");
  holds((await at(page)) === 3 && (await page.eval("page.app.chosen")) === 2 && (await shown(page)) === "opened" && !(await page.eval("location.hash")), "a link to an event, a process and a panel");
  await page.eval("page.ask('go', { place: 1 })");
  await page.until("page.app.view?.at === 1");
  const short = await page.eval("page.short_place()");
  holds(/^example=fork&at=1&tab=opened&pid=2$/.test(short), `the link to a place is short: ${short}`);
  await follow(page, short);
  holds((await at(page)) === 1, "and it leads there");
  await follow(page, "example=fork&at=9999999");
  holds((await problem(page, "no such place")), "a place that isn't there is told");
  await follow(page, "example=fork&at=nonsense");
  holds((await problem(page, "at=nonsense, and that is not an event's number")), "a place that means nothing is told");
  await page.go(`${url}?n=${++opened}#example=nothing&at=3`);
  holds((await problem(page, "example=nothing, and that is not the name of an example")) && (await comes(page, "document.getElementById('screen').textContent.length")), "an example that isn't there is told, and the page goes on");
  await follow(page, "lesson=3&question=2");
  holds((await text_of(page, "lessons")).includes("A pipe that hangs") && (await page.eval("document.activeElement === document.querySelectorAll('#lessons .ask')[1].querySelector('input')")), "a link to a question of a lesson");
  await page.go(`${url}?n=${++opened}#manual=page-tables&to=entries`);
  await page.sleep(500);
  holds((await page.eval("document.getElementById('manual').open")) && (await text_of(page, "manual-body")).startsWith("Page tables"), "a link to a page of the manual");
}

/** A link never takes a user's own work: an example that was changed is opened as it was shipped, beside it. */
async function own_work(page) {
  await example(page, "fork");
  await page.eval("(() => { const it = document.getElementById('source'); it.value = '# mine\\n' + it.value; it.dispatchEvent(new Event('input')); })()");
  await page.sleep(700);
  await follow(page, "example=fork&at=3");
  holds(!(await source(page)).includes("# mine") && (await at(page)) === 3, "a link to a place opens the example as it was shipped");
  await example(page, "fork");
  holds((await source(page)).includes("# mine"), "and the changed one is there");
}

async function shared_place(page) {
  await pause(page);
  await type(page, "echo linked\n");
  await page.until("/linked\\s+linked/.test(document.getElementById('screen').textContent)");
  await pause(page);
  await page.eval("show_tab('happened')");
  await page.eval("page.ask('go', { place: 900 })");
  await page.until("page.app.view?.at === 900");
  await page.click("#share");
  await page.until("document.getElementById('share-what')");
  const choose = (k) => page.eval(`(() => { const it = document.getElementById('share-what'); it.value = '${k}'; it.dispatchEvent(new Event('change')); return document.querySelector('#dialog textarea').value; })()`);
  const link = await choose(1), slide = await choose(2), frame = await choose(3);
  holds(slide.endsWith("&view=lecture") && frame.startsWith("<iframe src=") && frame.includes("?embed#run="), "Share offers a place, a slide and an iframe");
  await follow(page, link.split("#")[1]);
  holds((await at(page)) === 900 && (await shown(page)) === "happened", "a link to a place of a run with typed keys leads there, with its panel");
  await follow(page, slide.split("#")[1]);
  holds((await at(page)) === 900 && (await page.eval("document.documentElement.dataset.view")) === "lecture", "and so does the slide");
}

async function lecture(page) {
  await follow(page, "example=turns&rounds=500&at=turn.6&tab=happened&show=turns&view=lecture");
  const kept = await page.eval("localStorage.getItem('nektavoly now')");
  const hidden = await page.eval("['header', 'footer', '#left', '#time', '#right > .tabs'].every((it) => getComputedStyle(document.querySelector(it)).display === 'none')");
  holds(hidden && /^\d+\. Turns/.test(await text_of(page, "lecture-title")), "a slide shows the panel, the terminal, the processes, and nothing else");
  await page.picture(`${folder}/lecture.png`);
  const before = await at(page);
  await page.key("ArrowRight");
  await comes(page, `page.app.view?.at > ${before}`);
  const next = await at(page);
  await page.key("ArrowLeft");
  await comes(page, `page.app.view?.at < ${next}`);
  holds(next > before && (await at(page)) < next, `arrow keys go on and back: ${before}, ${next}, ${await at(page)}`);
  await page.eval("location.hash = 'example=pages&at=1&tab=translate&address=0x31000&access=store&view=lecture'");
  await comes(page, "document.getElementById('lecture-title').textContent.startsWith('6. ')");
  await page.sleep(600);
  await page.picture(`${folder}/lecture-translate.png`);
  holds((await page.eval("localStorage.getItem('nektavoly now')")) === kept, "a slide keeps nothing over the work of before");
  await page.key("Escape");
  holds(await page.eval("!document.documentElement.dataset.view && getComputedStyle(document.getElementById('left')).display !== 'none'"), "Escape leaves the slide");
}

/** Slides of a file: its titles, a question with its answer, the Page keys, and what is wrong in one. */
async function own_slides(page) {
  const take = (words) => page.eval(`page.programs.take([new File([${JSON.stringify(words)}], "mine.txt")])`);
  const title = "document.getElementById('lecture-title').textContent";
  await take("nektavoly slides 1\n\n# the first week\nslide fork answers twice\nlink #example=fork&rounds=1000&at=fork&tab=instruction&pid=2\nquestion What has <b>a0</b> in the child?\nanswer 0\nslide The same once more\nlink example=fork&rounds=1000&at=fork&tab=instruction&pid=2\nslide An end\nlink example=fork&rounds=1000&at=end\n");
  await comes(page, `${title} === "1. fork answers twice"`);
  holds((await text_of(page, "lecture-question")) === "What has <b>a0</b> in the child?", "a slide's question stands there, as it was written");
  const shows = () => page.eval("!document.getElementById('lecture-answer').hidden");
  const before = await shows();
  await page.key("End");
  await page.sleep(100);
  holds(!before && (await shows()) && (await text_of(page, "lecture-answer")) === "0", "End shows the answer");
  await page.picture(`${folder}/own-slide.png`);
  await page.key("PageDown");
  await comes(page, `${title} === "2. The same once more"`);
  holds(await page.eval("document.getElementById('lecture-asked').hidden"), "a slide without a question shows none");
  await page.key("PageDown");
  await comes(page, `${title} === "3. An end"`);
  await page.eval("location.reload()");
  await page.sleep(1500);
  await comes(page, `globalThis.ready === true && ${title} === "3. An end"`, 20000);
  await page.key("PageUp");
  await comes(page, `${title}.startsWith("2. ") || ${title}.startsWith("1. ")`);
  holds(true, "a reload has the slides again");
  await page.key("Escape");
  for (const [words, said] of [["nektavoly slides 1\n", "has no slide"], ["nektavoly slides 1\nlink a=b\n", "before the first"], ["nektavoly slides 1\nslide a\n", "has no link"], ["nektavoly slides 1\nslide a\nlink x=1\nlink x=2\n", "second link"], ["nektavoly slides 1\nslides a\n", "begins with none"], ["nektavoly slides 1\nslide\n", "says nothing"]]) {
    await take(words);
    await comes(page, `document.body.textContent.includes(${JSON.stringify(said)})`, 5000).then(() => holds(true, `slides are refused: ${said}`), () => holds(false, `slides are refused: ${said}`));
  }
}

/** A page that has this one in a frame is told what happens there, and asks for things. */
async function messages_of_a_frame(page) {
  await page.eval(`(() => {
    globalThis.told = []; addEventListener("message", ({ data }) => told.push(data));
    const it = document.createElement("iframe"); it.id = "framed"; it.src = "${url}?embed#example=fork&at=fork"; it.sandbox = "allow-scripts"; document.body.append(it);
  })()`);
  const ask = (it) => page.eval(`document.getElementById("framed").contentWindow.postMessage(${JSON.stringify(it)}, "*")`);
  const is_told = (what, holds_of) => comes(page, `told.some((it) => it?.nektavoly === "${what}" && (${holds_of}))`, 20000).then(() => holds(true, `a frame tells: ${what}, ${holds_of}`), () => holds(false, `a frame tells: ${what}, ${holds_of}`));
  await is_told("ready", "true");
  await is_told("booted", "it.files[0] === 'init'");
  await is_told("stands", "it.at > 0 && it.last.includes('fork')");
  await ask({ nektavoly: "go", id: 1, at: 3 });
  await is_told("answer", "it.id === 1 && it.is_done");
  await is_told("stands", "it.at === 3");
  await ask({ nektavoly: "boot", id: 2, files: [{ name: "init.s", text: "_start:\n  li a0, 7\n  li a7, 2\n  ecall\n" }], rounds: true });
  await is_told("answer", "it.id === 2 && it.is_done");
  await is_told("stands", "it.last.includes('7')");
  await ask({ nektavoly: "boot", id: 3, files: [{ name: "init.s", text: "beqz a0, x\n" }] });
  await is_told("refused", "it.words.includes('beqz')");
  await is_told("answer", "it.id === 3 && !it.is_done");
  for (const [id, it] of [{ nektavoly: "boot" }, { nektavoly: "go", at: -1 }, { nektavoly: "constructor" }, { nektavoly: 7 }, { nektavoly: "boot", files: [{ name: "a", base64: "*" }] }].entries()) {
    await ask({ ...it, id: `bad ${id}` });
    await is_told("answer", `it.id === "bad ${id}" && !it.is_done && it.words.length > 9`);
  }
  await page.eval("document.getElementById('framed').remove()");
}

async function embed(page) {
  await page.eval(`new Promise((done) => { const it = document.createElement('iframe'); it.src = '${url}?embed#example=hang&at=last&tab=why'; it.width = 1000; it.height = 560; it.style = "position: fixed; inset: 20px; z-index: 99; background: white"; it.onload = () => done(true); document.body.append(it); })`);
  await page.sleep(3000);
  await page.picture(`${folder}/iframe.png`);
  await follow(page, "example=hang&at=last&tab=why", "embed");
  const shows = await page.eval("['#terminal', '#processes', '#why'].every((it) => document.querySelector(it).offsetHeight > 0) && ['header', '#left', '#right > .tabs'].every((it) => document.querySelector(it).offsetHeight === 0)");
  holds(shows && (await text_of(page, "why")).includes("Nobody can go on"), "?embed shows the terminal, the processes and one panel");
}

// ---- what happened

async function happened(page) {
  await follow(page, "example=shell&rounds=1000&keys=cat%20poem.txt%20%7C%20head%20-1%5Cn&at=last&tab=happened");
  await comes(page, "document.getElementById('event-list').textContent.includes('exit(')", 8000);
  await page.sleep(700);
  let list = (await events(page)).join("\n");
  holds(/exit\(0\) ends with 0 · woke 1 \(init\), 2 \(sh\)/.test(list), "an end tells whom it woke");
  await page.picture(`${folder}/happened.png`);
  await show_events(page, "call open");
  await comes(page, "document.getElementById('event-list').textContent.includes('open(\"poem.txt\"')", 6000);
  list = (await events(page)).join("\n");
  holds(list.includes('open("poem.txt", to read) = 3') && !list.includes("read("), "a filter by call, and its argument in words");
  await page.eval("[...document.querySelectorAll('.event')].find((it) => it.textContent.includes('poem.txt')).click()");
  await comes(page, "page.app.view.at < page.app.line.end");
  const is_next = await comes(page, "document.getElementById('event-list').querySelector('.here + .event')?.textContent.includes('poem.txt')");
  holds((await text_of(page, "clock")).includes("cat (") && is_next, "a click goes to the call: it is the next instruction");
  await show_events(page, "call read");
  await comes(page, "/read\\(3, the file poem.txt; .*Who would sleep/.test(document.getElementById('event-list').textContent)", 6000);
  holds((await events(page)).join("\n").includes('= 116, "Who would sleep'), "a read tells its file, and the bytes that came");
  await page.eval("(() => { const it = document.getElementById('event-answer'); it.value = '0'; it.dispatchEvent(new Event('input')); })()");
  await page.sleep(700);
  const rows = (await events(page)).filter((it) => it.includes("read"));
  holds(rows.length > 0 && rows.every((it) => it.includes("= 0")), "a filter by answer");
  await page.eval("(() => { const it = document.getElementById('event-answer'); it.value = ''; it.dispatchEvent(new Event('input')); const pid = document.getElementById('event-pid'); pid.value = '3'; pid.dispatchEvent(new Event('input')); })()");
  await show_events(page, "calls");
  await page.sleep(900);
  holds(await page.eval("[...document.querySelectorAll('.event')].every((it) => it.children[2].textContent === '3')"), "a filter by process");
}

/** Every call that the module names has its arguments in words. */
async function words_of_calls(page) {
  const missing = await page.eval("(() => { const told = new Set(page.calls_in_words); return [...document.querySelectorAll('#event-what option')].map((it) => it.value).filter((it) => it.startsWith('call ')).map((it) => it.slice(5)).filter((it) => !told.has(it)); })()");
  holds(missing.length === 0, `each call's arguments are told in words: ${missing.join(" ")}`);
}

async function who_stored(page) {
  await follow(page, "example=overrun&at=last&tab=happened");
  await page.eval("(() => { const it = document.getElementById('store-address'); it.value = '0x1008'; })()");
  await page.click("#back-store");
  await comes(page, "page.app.view.at === 81");
  holds((await at(page)) === 81 && (await message(page)).includes("store of the program"), `who stored here last: ${await message(page)}`);
  await page.click("#back-store");
  holds(await comes(page, "page.app.view.at === 76"), "and before that");
  // A read stores too, and memory that came by a fork was the parent's.
  await files(page, [{ name: "init.s", text: `  la a0, there\n  li t0, 9\n  sd t0, 0(a0)\n  li a7, 1\n  ecall\n  beq a0, x0, child\n  li a0, 0\n  li a7, 3\n  ecall\n${EXIT}child:\n  la a0, there\n  li a7, 4\n  ecall\n${EXIT}.data\nthere: .dword 0\nother: .dword 5\n` }], "{ rounds: true, quantum: 1000 }");
  await boot(page);
  await page.until("page.app.view?.facts.halted");
  const there = await page.eval("Number(page.app.symbols[0].names.find((it) => it.name === 'there').address)");
  await page.eval("page.ask('go', { place: 14 })");
  await page.sleep(300);
  const pipe = await page.eval("(() => { const { line } = page.app; for (let k = 0; k < line.length; k++) if (line.kind[k] === 1 && line.number[k] === 4) return line.at[k]; })()");
  await page.eval(`page.ask('go', { place: ${pipe + 1} })`);
  await page.until(`page.app.view?.at === ${pipe + 1}`);
  await page.eval("[...document.querySelectorAll('#process-rows tr')][1].click()");
  await page.sleep(300);
  await page.eval(`document.getElementById('store-address').value = '${there}'`);
  await page.click("#back-store");
  holds((await comes(page, `page.app.view.at === ${pipe}`)) && (await message(page)).startsWith("Pipe stored here"), `a call's store: ${await message(page)}`);
  await page.click("#back-store");
  await comes(page, `page.app.view.at < ${pipe}`);
  holds((await page.eval("page.app.view.registers[5]")) == 9 || (await message(page)).includes("store of the program"), `a store of the parent, before the fork: ${await message(page)}`);
  await page.eval(`document.getElementById('store-address').value = '${there + 8}'`);
  await page.click("#back-store");
  await comes(page, "document.getElementById('status').textContent.includes('booted')");
  holds((await message(page)).includes("since the machine was booted"), `nobody stored there: ${await message(page)}`);
}

async function who_opened(page) {
  await follow(page, "example=shell&rounds=1000&keys=echo%20hello%20%7C%20wc%5Cn&at=exec.3&tab=opened");
  await page.eval("[...document.querySelectorAll('#opened-told tr')].find((it) => it.textContent.includes('the read end of the pipe')).querySelector('button').click()");
  await comes(page, "document.getElementById('status').textContent.includes('opened descriptor 0')", 6000);
  const words = await message(page);
  holds(/Process 4 opened descriptor 0 by dup\(3, the read end of a pipe\)/i.test(words), `who opened it: ${words}`);
  await follow(page, "example=shell&rounds=1000&keys=echo%20hello%20%7C%20wc%5Cn&at=exec.3&tab=opened");
  await page.eval("[...document.querySelectorAll('#opened-told button')][3].click()");
  await comes(page, "document.getElementById('status').textContent.includes('process 1 opened descriptor 0')", 6000);
  holds(/process 2 had it from its parent 1.*process 1 opened descriptor 0 by open\("console"/.test(await message(page)), `from the parent: ${await message(page)}`);
}

async function reverse(page) {
  await follow(page, "example=trace&at=last&tab=happened");
  await page.click("#back-fault");
  await comes(page, "document.getElementById('status').textContent.includes('about to fault')");
  const told = await message(page);
  await page.eval("show_tab('instruction')");
  holds((await comes(page, "document.querySelector('#code .pc')?.textContent.includes('lw a0, 2(sp)')")) && told.includes("about to fault"), `back to the last fault: ${told}`);
  await page.click("#back-break");
  await comes(page, "document.getElementById('status').textContent.includes('no break points')");
  holds((await message(page)).includes("There are no break points"), "without break points that is said");
  await page.eval("(() => { document.getElementById('break-where').value = 'again'; document.getElementById('break-add').click(); })()");
  await page.sleep(200);
  const places = [];
  for (let k = 0; k < 4; k++) { const before = await at(page); await page.click("#back-break"); await page.sleep(500); places.push(await at(page)); if (places.at(-1) === before) break; }
  holds(places[0] > places[1] && places[1] > places[2] && places[2] === places[3], `back to each time at the label again: ${places.join(", ")}`);
  // Forth from the beginning the same places are stops.
  await page.eval("page.ask('go', { place: 0 })");
  await page.until("page.app.view?.at === 0");
  const forth = [];
  for (let k = 0; k < 3; k++) { await page.click("#play"); await page.sleep(500); forth.push(await at(page)); }
  holds(forth.join() === [...new Set(places)].reverse().join(), `the same as forth: ${forth.join(", ")}`);
}

// ---- translate

async function translate(page) {
  await follow(page, "example=pages&at=1&tab=translate&address=0x31000&access=store");
  holds((await translated(page)).includes("Bit U refuses"), "the guard page: bit U refuses");
  await page.picture(`${folder}/translate.png`);
  const ask = async (address, access) => { await page.eval(`(() => { for (const [id, value] of [['translated-address', '${address}'], ['translated-access', '${access}']]) { const it = document.getElementById(id); it.value = value; it.dispatchEvent(new Event('input')); } })()`); await page.sleep(500); return translated(page); };
  const sp = await ask("sp", "load"), frame = await page.eval("page.app.view.translation.frame"), low = await page.eval("Number(page.app.view.registers[2] % 4096n)");
  holds(sp.includes(`0x${(0x80000000 + 4096 * frame + low).toString(16)} is the physical address`), "a register's address has its physical address");
  holds((await ask("0x0", "store")).includes("Bit W refuses"), "a store to text: bit W refuses");
  holds((await ask("0x1000", "fetch")).includes("Bit X refuses"), "a fetch from data: bit X refuses");
  holds((await ask("0x40000000", "load")).includes("Bit V refuses"), "no page: bit V refuses");
  holds((await ask("0x8000000000", "load")).includes("Bits 63..39 refuse"), "an address that isn't canonical");
  holds((await ask("0xffffffffffffffff", "load")).includes("Bit V refuses"), "the last address is canonical, and no page is there");
  holds((await ask("nothing", "load")).includes("No address: nothing"), "what is no address is told");
  await page.eval("show_tab('instruction')");
  await page.sleep(300);
  await page.eval("[...document.querySelectorAll('#registers div')][2].click()");
  await page.sleep(500);
  holds((await shown(page)) === "translate" && (await page.eval("document.getElementById('translated-address').value")) === "sp", "a click on a register translates it");
  await follow(page, "example=shell&at=asleep.2&tab=translate");
  await comes(page, "document.getElementById('translate-told').textContent.includes('The trapframe is frame')");
  const trap = await translated(page);
  holds(/scause\s*8\s*Environment call/.test(trap) && /sepc\s*0x/.test(trap) && /stval\s*0x0/.test(trap) && trap.includes("The trapframe is frame"), "the trap of a call: scause, sepc, stval and the trapframe");
  await files(page, [{ name: "init.s", text: `  li t0, 0x5008\n  sd t0, 0(t0)\n${EXIT}` }], "{ rounds: true, quantum: 1000 }");
  await boot(page);
  await page.until("page.app.view?.facts.halted");
  await page.eval("show_tab('why')");
  await why_tells(page, "Translate its address");
  await page.eval("[...document.querySelectorAll('#why-told button')].find((it) => it.textContent === 'Translate its address').click()");
  await comes(page, "document.getElementById('translate-told').textContent.includes('cause 15')");
  const fault = await translated(page);
  holds((await page.eval("document.getElementById('translated-address').value")) === "0x5008" && fault.includes("Bit V refuses") && fault.includes("cause 15"), "the address of a fault that happened");
  await page.eval("page.ask('step', { what: 'step', back: false })");
  await page.sleep(600);
  holds(/scause\s*15/.test(await translated(page)) && /stval\s*0x5008/.test(await translated(page)), "and its trap: scause 15, stval the address");
}

// ---- why processes are gone

const ZOMBIE = "  li a7, 1\n  ecall\n  beq a0, x0, child\n  li a0, 100000\n  li a7, 13\n  ecall\nchild:\n" + EXIT;
/** A source of checks/why. */
const reported = (name) => readFileSync(new URL(`../../checks/why/${name}.s`, import.meta.url), "utf8");
/** Runs a source as `init`, and opens the report. */
const report = async (page, text) => {
  await files(page, [{ name: "init.s", text }], "{ rounds: true, quantum: 1000 }");
  await boot(page);
  await page.eval("show_tab('why')");
};
const why_tells = (page, words) => comes(page, `document.getElementById('why-told').textContent.includes(${JSON.stringify(words)})`);
const press = (page, words) => page.eval(`[...document.querySelectorAll('#why-told button')].find((it) => it.textContent === ${JSON.stringify(words)}).click()`);

async function ends(page) {
  await report(page, reported("killed"));
  holds(await why_tells(page, "process 2 (init) was killed by process 1 (init), at 0x24 <stop+0x8>, init.s:13"), "a kill is told with its line");
  await page.picture(`${folder}/killed.png`);
  holds(!(await text_of(page, "why-told")).includes("has not waited for it"), "of a machine that has halted nobody is told who wasn't waited for");
  const end = await at(page);
  await press(page, "Go to the call");
  await page.sleep(500);
  holds((await at(page)) < end && (await text_of(page, "why-told")).includes("No process has faulted or was killed"), "a click goes before the kill, where nobody is killed yet");
  holds(await page.eval("page.app.view.registers[0] === 0x24n"), "and to its instruction");
  await report(page, ZOMBIE);
  holds(await why_tells(page, "process 2 has ended with status 7, and process 1, its parent, has not waited for it"), "who hasn't been waited for is told");
  await page.picture(`${folder}/zombie.png`);
  await report(page, reported("grow"));
  holds(await why_tells(page, "its sbrk at 0xc <more+0x4>, init.s:6 was refused before"), "a growth that was refused stands below a null store");
  holds((await text_of(page, "why-told")).includes("a null pointer, it seems"), "and what may be wrong");
  await page.picture(`${folder}/grow.png`);
}

// ---- the first minute, the manual

async function first(page) {
  holds(await page.eval("!document.getElementById('first').hidden"), "the hint stands above the terminal");
  await page.picture(`${folder}/first.png`);
  await page.eval("document.querySelector('#first-commands button').click()");
  holds(await comes(page, "/cat  crash  echo/.test(document.getElementById('screen').textContent)"), "a click types ls, and the shell answers");
  await type(page, "help\n");
  holds(await comes(page, "document.getElementById('screen').textContent.includes(\"isn't waited for\")"), "the shell answers help");
  await page.click("#edit-hello");
  await comes(page, "document.activeElement === document.getElementById('source')");
  holds((await source(page)).includes("hi\\n") && (await page.eval("(() => { const it = document.getElementById('source'); return it.value.slice(it.selectionStart, it.selectionEnd); })()")) === "hi", "hello is one click away, and ready to be changed");
  await example(page, "shell");
  await page.click("#begin-tour");
  for (let k = 1; k <= 5; k++) { holds((await text_of(page, "tour-step")) === `${k} of 5` && (await page.eval("document.querySelectorAll('.toured').length")) === 1, `the tour's step ${k}`); if (k === 2) await page.picture(`${folder}/tour.png`); await page.click("#tour-next"); }
  holds(await page.eval("!document.getElementById('tour').open && !document.querySelector('.toured')"), "the tour is five steps");
  await page.click("#begin-tour");
  await page.click("#tour-skip");
  holds(await page.eval("!document.getElementById('tour').open"), "and can be skipped");
  await page.click("#first-hide");
  await page.go(`${url}?n=${++opened}`);
  await page.sleep(800);
  holds(await page.eval("document.getElementById('first').hidden"), "a hint that was hidden stays so");
}

async function manual(page) {
  const outside = await page.eval("[...document.querySelectorAll('a')].map((it) => it.getAttribute('href')).filter((it) => it && !it.startsWith('#'))");
  holds(outside.length === 0, `no link of the page leads out of the file: ${outside}`);
  await page.click("#open-manual");
  const pages = await page.eval("[...document.querySelectorAll('#manual-page option')].map((it) => it.value)");
  const wrong = [];
  for (const name of pages) {
    await page.eval(`page.app.open_manual('${name}')`);
    wrong.push(...(await page.eval(`[...document.querySelectorAll('#manual-body a[href^="#manual="]')].filter((it) => { const words = new URLSearchParams(it.getAttribute('href').slice(1)), page = words.get('manual'), to = words.get('to'); const html = globalThis.page.manual()[page]; return !html || (to && !html.includes('data-heading="' + to + '"')); }).map((it) => '${name}: ' + it.getAttribute('href'))`)));
  }
  holds(pages.length > 20 && wrong.length === 0, `${pages.length} pages of the manual are inside, and their links lead on: ${wrong.join(", ")}`);
  await page.eval("page.app.open_manual('page-tables', 'entries')");
  await page.sleep(300);
  await page.picture(`${folder}/manual.png`);
  await page.eval("document.getElementById('manual').close()");
  await page.eval("document.querySelector('#happened .help').click()");
  holds((await page.eval("document.getElementById('dialog').textContent")).includes("What happened"), "a panel's help is that of the manual");
  await page.eval("document.getElementById('dialog').close()");
  const empty = await page.eval("[...document.querySelectorAll('[data-help]')].filter((it) => { it.click(); const text = document.querySelector('#dialog h2')?.textContent; document.getElementById('dialog').close(); return text !== it.dataset.help; }).map((it) => it.dataset.help)");
  holds(empty.length === 0, `each panel has its help: ${empty}`);
}

// ---- a phone

async function phone() {
  const page = await open(url, { width: 390, height: 844, mobile: true, dark: true });
  await page.sleep(1200);
  // (A window of Firefox is no narrower than some 500 pixels.)
  const wide = async (what) => holds(await page.eval("document.documentElement.scrollWidth <= innerWidth + 1"), `${await page.eval("innerWidth")} pixels, ${what}: nothing stands beyond the edge`);
  await wide("the first minute");
  await page.picture(`${folder}/phone-first.png`);
  for (const [name, link] of [["happened", "example=shell&rounds=1000&keys=echo%20hello%20%7C%20wc%5Cn&at=last&tab=happened"], ["translate", "example=pages&at=1&tab=translate&address=0x31000&access=store"], ["lecture", "example=turns&rounds=500&at=turn.6&tab=happened&view=lecture"]]) {
    await follow(page, link);
    await page.eval("document.getElementById('right').scrollIntoView()");
    await page.sleep(700);
    await wide(name);
    await page.picture(`${folder}/phone-${name}.png`);
  }
  await page.eval("page.app.open_manual('pipes')");
  await page.sleep(300);
  await page.picture(`${folder}/phone-manual.png`);
  await page.close();
  holds(page.logs.length === 0, `phone: no errors of the page: ${page.logs.join("; ")}`);
}

async function dark() {
  const page = await open(url, { width: 1400, height: 950, dark: true });
  for (const [name, link] of [["happened", "example=shell&rounds=1000&keys=echo%20hello%20%7C%20wc%5Cn&at=last&tab=happened"], ["translate", "example=pages&at=1&tab=translate&address=0x31000&access=store"]]) {
    await follow(page, link);
    await page.sleep(900);
    await page.picture(`${folder}/dark-${name}.png`);
  }
  await page.close();
  holds(page.logs.length === 0, `dark: no errors of the page: ${page.logs.join("; ")}`);
}

const CHECKS = { slides, links, own_work, shared_place, lecture, embed, messages_of_a_frame, own_slides, happened, words_of_calls, who_stored, who_opened, reverse, translate, ends, first, manual }, ALONE = { phone, dark };
for (const [name, check] of Object.entries({ ...CHECKS, ...ALONE })) {
  if (names.length && !names.includes(name)) continue;
  if (ALONE[name]) { await check().catch((error) => holds(false, `${name}: ${error.stack}`)); continue; }
  const page = await open(url, { width: 1400, height: 950 });
  await page.until("document.getElementById('screen').textContent.includes('$ ')").catch(() => {});
  try { await check(page); } catch (error) {
    holds(false, `${name}: ${error.stack}`);
    await page.picture(`${folder}/error-${name}.png`).catch(() => {});
  }
  await page.close();
  holds(page.logs.length === 0, `${name}: no errors of the page: ${page.logs.join("; ")}`);
}
console.log(bad ? `${bad} not as they should be` : `links lead to their places, and what is asked is answered; pictures in ${folder}`);
process.exit(bad ? 1 : 0);
