// flat.mjs PAGE.html [COMMANDS]: whether the page's memory stays flat. It types so many commands (1200: one each 3
// seconds, for an hour) into the shell in Chromium as fast as the machine goes on, with 30 ticks for each, and tells
// after each tenth how much memory there is behind a collection of garbage: of the page's JavaScript and of its
// worker's, with their arrays but without the copies, which have a bound of their own; and of the module. The status is
// 1 if the page's or the worker's grows by more than a bound after the second tenth.
import { pathToFileURL } from "node:url";
import { open } from "./browser.mjs";

const [page_file, commands = 1200] = process.argv.slice(2), TICKS = 30, MIB = 1 << 20;
const MOST_GROWN = 6 * MIB; // from the second tenth on, of the page and of the worker
const COMMANDS = ["echo hello | wc", "primes 30", "forks", "cat poem.txt | sort | head -3", "pingpong 5", "storm 7 100", "ls", "grep writer poem.txt", "crash 13", "(echo x ; echo y) | wc", "sleep 2", "wc < poem.txt"];
const mib = (bytes) => (bytes / MIB).toFixed(1);

const page = await open(pathToFileURL(page_file).href), told = [];
let typed = 0;
await page.until("document.getElementById('screen').textContent.includes('$ ')");
await page.eval(`(() => {
  page.ask('settings', { rounds: false, quantum: 10000000 });
  window.command = (text) => new Promise((done) => { window.is_over = done; window.type_keys(text + '\\n'); page.ask('finish', { rounds: ${TICKS} }); });
  page.on('finished', () => window.is_over());
})()`);
console.log("tenth  events       outcomes  page MiB  worker MiB  module MiB  copies MiB");
for (let tenth = 0; tenth <= 10; tenth++) {
  for (; typed < (tenth * commands) / 10; typed++) await page.eval(`window.command(${JSON.stringify(COMMANDS[typed % COMMANDS.length])})`);
  await page.sleep(500);
  const { all } = await page.heaps(), view = await page.eval("({ end: page.app.line.end, count: page.app.view.stretches ?? page.app.line.length, module: page.app.view.memory_bytes, copies: page.app.view.copies_bytes })");
  const own = { page: all[0], worker: all[1] - view.copies };
  told.push(own);
  console.log([String(tenth).padStart(5), String(view.end).padStart(11), String(view.count).padStart(10), mib(own.page).padStart(9), mib(own.worker).padStart(11), mib(view.module).padStart(11), mib(view.copies).padStart(11)].join(" "));
}
const grown = Object.keys(told[0]).map((it) => told.at(-1)[it] - told[2][it]), holds = page.logs.length === 0 && grown.every((it) => it <= MOST_GROWN);
console.log(`${holds ? "flat" : "NOT flat"}: from the second tenth on the page grew by ${mib(grown[0])} MiB, its worker by ${mib(grown[1])}, at most ${mib(MOST_GROWN)} each${page.logs.length ? `; ${page.logs.join("; ")}` : ""}`);
await page.close();
process.exit(holds ? 0 : 1);
