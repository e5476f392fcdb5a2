// Exercises 13 and 14 of the course, done in an open page by its buttons and read off its panels, as a student does
// them. What comes out is compared with the numbers of docs/COURSE-ANSWERS.md.
const text = (page, id) => page.eval(`document.getElementById('${id}').textContent`);
const at = (page) => page.eval("page.app.view?.at");

async function press(page, button) {
  const before = await at(page);
  await page.click(button);
  await page.until(`page.app.view?.at !== ${before} && !page.app.view?.playing`);
  // (Two frames later it is drawn, however busy the host is.)
  await page.eval("new Promise((done) => requestAnimationFrame(() => requestAnimationFrame(() => done(true))))");
}
const call = (page) => press(page, "[data-step=call]");

async function choose(page, id, value) {
  await page.eval(`(() => {
    const it = document.getElementById('${id}');
    it.value = ${JSON.stringify(value)};
    it.dispatchEvent(new Event('change'));
  })()`);
}

async function pause(page) {
  if (await page.eval("page.app.view?.playing")) await page.click("#play");
  await page.until("!page.app.view?.playing");
}

async function to_the_beginning(page) {
  await page.eval("document.getElementById('slider').focus()");
  await page.key("Home");
  await page.until("page.app.view?.at === 0");
  await page.sleep(150);
}

/** Goes on by calls until the clock tells what is waited for; `told` is given the clock of each place on the way. */
async function calls_until(page, wanted, told = () => {}) {
  for (let k = 0; k < 400; k++) {
    await call(page);
    const clock = await text(page, "clock");
    await told(clock);
    if (clock.includes(wanted)) return;
  }
  throw new Error(`no call is told as: ${wanted}`);
}

// ---- exercise 13

const in_pipe = async (page) => Number(/(\d+) of 2048 bytes/.exec(await text(page, "opened-told"))?.[1]);

/** Boots the files of the list by the button, and waits until the machine has this status. */
async function boots_and_ends(page, status) {
  await page.eval("window.is_booted = false; page.on('booted', () => { window.is_booted = true; })");
  await page.click("#boot");
  const ended = `window.is_booted && page.app.view?.facts.halted && page.app.view?.facts.status === ${status}`;
  await page.until(ended, 10000).catch(() => {});
  await pause(page);
  return page.eval(ended);
}

/** How full the pipe is each time that one of the two sleeps. */
async function sleeps_of(page) {
  const sleeps = { writer: [], reader: [] };
  await calls_until(page, "process 1 ends", async (clock) => {
    if (clock.includes("last: process 2 waits in write")) sleeps.writer.push(await in_pipe(page));
    if (clock.includes("last: process 1 waits in read")) sleeps.reader.push(await in_pipe(page));
  });
  return `${sleeps.writer.join(" ")}, ${sleeps.reader.join(" ")}`;
}

/** Goes back by calls to the place behind the writer's second sleep, and tells how much is in the pipe there. */
async function back_to_the_second_sleep(page) {
  for (let k = 0; k < 60; k++) {
    await press(page, "[data-back=call]");
    const before = await at(page);
    await call(page);
    if ((await text(page, "clock")).includes("last: process 2 waits in write")) return in_pipe(page);
    await press(page, "[data-back=call]");
    if ((await at(page)) !== before) throw new Error("a call forward and back leads to another place");
  }
  throw new Error("the writer's sleep isn't met on the way back");
}

/** What a student changes: the parent reads three times, closes its read end, and exits with the child's status. */
const STOPS = [
  ["  li s0, 0\nnext:", "  li s0, 3\nnext:"],
  ["  beq a0, x0, end    # 0: the child has gone\n", ""],
  ["  addi s0, s0, 1\n  j next\n", "  addi s0, s0, -1\n  bne s0, x0, next\n"],
  ["end:\n  li a0, 0           # wait(0)\n", "  li a0, 0\n  li a7, 21\n  ecall\n  addi a0, sp, -8\n"],
  ["  mv a0, s0\n", "  lw a0, -8(sp)\n"],
];

async function edit(page, from, to) {
  await page.eval(`(() => {
    const it = document.getElementById('source');
    if (!it.value.includes(${JSON.stringify(from)})) throw new Error('the source has no ' + ${JSON.stringify(from)});
    it.value = it.value.replace(${JSON.stringify(from)}, ${JSON.stringify(to)});
    it.dispatchEvent(new Event('input'));
  })()`);
}

/** Exercise 13; it answers the link that is handed in. */
export async function full(page, holds, folder) {
  await choose(page, "example", "full");
  await page.until("page.app.view?.facts.halted && page.app.view?.facts.status === 12");
  await pause(page);
  holds(true, "exercise 13: twelve reads bring bytes");
  await to_the_beginning(page);
  await page.click("#tab-opened");
  const sleeps = await sleeps_of(page);
  holds(sleeps === "2048 2048, 0 0 0", `exercise 13: bytes in the pipe as the writer, the reader sleeps: ${sleeps}`);
  const there = await back_to_the_second_sleep(page);
  await page.picture(`${folder}/exercise13.png`);
  holds(there === 2048, `exercise 13: back by calls to the writer's second sleep, with ${there} bytes in the pipe`);
  await choose(page, "quantum", 10);
  holds(await boots_and_ends(page, 10), "exercise 13: in rounds of 10 Runs ten reads bring bytes");
  await choose(page, "quantum", 1000);
  for (const [from, to] of STOPS) await edit(page, from, to);
  holds(await boots_and_ends(page, -1), "exercise 13: the changed program exits with -1");
  await to_the_beginning(page);
  let answer = "";
  await calls_until(page, "process 1 ends", (clock) => {
    answer ||= /process 2: write answers (-?\d+)/.exec(clock)?.[1] ?? "";
  });
  holds(answer === "-1", `exercise 13: the write answers ${answer} behind three reads and a close`);
  await page.click("#share");
  await page.until("document.querySelector('#dialog textarea')?.value.includes('#run=')");
  const link = await page.eval("document.querySelector('#dialog textarea').value");
  await page.eval("document.getElementById('dialog').close()");
  return link;
}

// ---- exercise 14

/** The frames in use, by what stands below the map. */
async function in_use(page) {
  await page.sleep(250);
  return 4096 - Number(/([\d,]+) free/.exec(await text(page, "frame-key"))[1].replace(/,/g, ""));
}

async function stop_at(page, name) {
  await page.eval("document.getElementById('breaks').open = true");
  await choose(page, "break-kind", "call");
  await page.eval(`document.getElementById('break-where').value = '${name}'`);
  await page.click("#break-add");
}

async function no_stops(page) {
  while (await page.eval("!!document.querySelector('#break-list button')")) await page.click("#break-list button");
  await page.eval("document.getElementById('breaks').open = false");
}

/** Plays to the next stop, which is behind a call: the call's name, and by how much more frames are in use there. */
async function next_cost(page, before) {
  const here = await at(page);
  await page.click("#play");
  await page.until(`page.app.view?.at > ${here} && !page.app.view?.playing`);
  // The view is there before it is drawn.
  await page.until("document.getElementById('clock').textContent.startsWith(`event ${page.app.view?.at.toLocaleString('en')} `)");
  const [, name] = /last: process \d+: (\w+) answers/.exec(await text(page, "clock"));
  return `${name} ${(await in_use(page)) - before}`;
}

/** What the forks and pipes cost, up to the fullest moment, and the first exec. */
async function costs(page, prompt) {
  const told = [await next_cost(page, prompt)], forked = await in_use(page);
  await calls_until(page, ": exec answers");
  told.push(`exec ${(await in_use(page)) - forked}`);
  for (let k = 0; k < 18; k++) told.push(await next_cost(page, await in_use(page)));
  return told.join(", ");
}

/** Exercise 14. */
export async function sieve(page, holds, folder) {
  await choose(page, "example", "shell");
  await choose(page, "order", "rounds");
  await choose(page, "quantum", 1000);
  await choose(page, "keys", "primes 20\\n");
  await page.click("#boot");
  await page.until("/prime 19\\n\\$ *$/.test(document.getElementById('screen').textContent)", 60000);
  await page.sleep(300);
  await pause(page);
  await page.click("#tab-pages");
  await to_the_beginning(page);
  await calls_until(page, "last: process 2 waits in read");
  const prompt = await in_use(page);
  holds(prompt === 17, `exercise 14: ${prompt} frames in use at the prompt`);
  for (const name of ["fork", "pipe"]) await stop_at(page, name);
  const told = await costs(page, prompt), sieve = Array(9).fill("pipe 1, fork 7").join(", ");
  holds(told === `fork 10, exec -3, ${sieve}`, `exercise 14: ${told}`);
  const fullest = await in_use(page);
  await page.picture(`${folder}/exercise14.png`);
  holds(fullest === 96, `exercise 14: ${fullest} frames in use at the fullest, behind event ${(await at(page)) - 1}`);
  await no_stops(page);
  await calls_until(page, " ends with ");
  const clock = await text(page, "clock"), back = fullest - (await in_use(page));
  const rows = await text(page, "process-rows");
  const is_so = clock.includes("process 12 ends") && back === 8 && rows.includes("zombie");
  holds(is_so, `exercise 14: process 12 ends first, ${back} frames come back, and it is a zombie`);
  await calls_until(page, "process 2: wait answers 3");
  const end = await in_use(page);
  holds(end === 17, `exercise 14: ${end} frames in use behind it`);
}
