// What is measured of a page that is open: each function answers numbers.

/** Milliseconds until something is painted, and those that the first boot took. */
export async function first(page) {
  const { boot } = await page.eval("window.took");
  const paint = await page.eval("performance.getEntriesByType('paint').map((it) => it.startTime)[0] ?? 0");
  return { paint, boot };
}

/** Boots a source alone, and doesn't play it. */
async function boots(page, source) {
  const files = JSON.stringify([{ name: "init.s", text: source }]);
  await page.eval(`page.programs.set_files(${files}); page.programs.boot({ play: false })`);
  await page.until("page.app.view?.at === 0 && page.app.booted.files.length === 1");
}

const LOOP = `  lui t0, 0x8000
again:
  addi t0, t0, -1
  bne t0, x0, again
`;

/** Millions of instructions in a second, of 10 million of a loop; the machine then stands behind 10 million events. */
export async function instructions(page) {
  await boots(page, LOOP);
  await page.eval("window.bench = null; page.on('bench', (it) => { window.bench = it; })");
  await page.eval("page.ask('bench', { rounds: 10000, quantum: 1000 })");
  await page.until("window.bench", 60000);
  const { ms, events } = await page.eval("window.bench");
  return { events, ms, millions: events / ms / 1000 };
}

/** Steps back in a second, of 30 of them, from where the machine stands. */
export async function steps_back(page) {
  await page.eval("window.back_bench = null; page.on('back_bench', (it) => { window.back_bench = it; })");
  await page.eval("page.ask('back_bench', { times: 30 })");
  await page.until("window.back_bench", 60000);
  const { at, ms } = await page.eval("window.back_bench");
  return { at, ms, steps: 30000 / ms };
}

/** 64 processes: each child sleeps a tick, then counts; the parent asks for the time, again and again. */
const CROWD = `  li s1, 63
fork:
  li a7, 1
  ecall
  beq a0, x0, child
  addi s1, s1, -1
  bne s1, x0, fork
parent:
  li a7, 14
  ecall
  j parent
child:
  li a7, 13
  li a0, 1
  ecall
  lui s2, 1
count:
  addi s2, s2, -1
  bne s2, x0, count
  j child
`;

const COUNT_FRAMES = `(() => {
  Object.assign(window, { frames_seen: 0, longest: 0, last_frame: performance.now(), no_more_frames: false });
  requestAnimationFrame(function frame(now) {
    window.frames_seen++;
    window.longest = Math.max(window.longest, now - window.last_frame);
    window.last_frame = now;
    if (!window.no_more_frames) requestAnimationFrame(frame);
  });
})()`;

/** Plays 64 processes at full speed, and counts the frames that the page shows behind 100,000 stretches of events. */
export async function crowd(page, seconds = 5) {
  await boots(page, CROWD);
  await page.eval("page.ask('settings', { rounds: true, quantum: 200 }); page.ask('play')");
  await page.until("page.app.view?.stretches > 100000", 120000);
  await page.eval(COUNT_FRAMES);
  const began = Date.now();
  await page.sleep(seconds * 1000);
  const seen = await page.eval(`({
    frames: window.frames_seen, longest: window.longest, stretches: page.app.view.stretches,
    processes: page.app.view?.processes.length, events: page.app.line.end,
  })`);
  seen.frames = (seen.frames * 1000) / (Date.now() - began);
  await page.eval("window.no_more_frames = true; page.ask('pause')");
  return seen;
}
