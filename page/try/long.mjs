// long.mjs PAGE.html MINUTES [SECONDS]: attends to the shell in Chromium for so long, a command every so many seconds
// (3), and tells each half minute how much memory there is: the JavaScript of the page and of its worker behind a
// collection of garbage, the module's memory, the copies, all that the host gave the page's process, and how long the
// record is. It ends with the status 1 if the module's memory or the copies don't stay within their bounds.
import { pathToFileURL } from "node:url";
import { open } from "./browser.mjs";

const [page_file, minutes, seconds = 3] = process.argv.slice(2);
const COMMANDS = ["echo hello | wc", "primes 30", "forks", "cat poem.txt | sort | head -3", "pingpong 5", "storm 7 100", "lazy", "grep writer poem.txt", "crash 13", "(echo x ; echo y) | wc", "sleep 2", "wc < poem.txt"];
const mib = (bytes) => (bytes / (1 << 20)).toFixed(1).padStart(6);
const page = await open(pathToFileURL(page_file).href);
await page.until("document.getElementById('screen').textContent.includes('$ ')");
await page.eval("document.getElementById('screen').focus()");
const began = Date.now(), told = [];
let told_at = 0, count = 0;
console.log("minute  events    stretches  page MiB  worker MiB  module MiB  copies  copies MiB  resident MiB  drawn a second");
for (let drawn = 0; Date.now() - began < minutes * 60000; ) {
  await page.type(COMMANDS[count++ % COMMANDS.length] + "\n");
  await page.sleep(seconds * 1000);
  if (Date.now() - told_at < 30000 && told_at) continue;
  const heaps = await page.heaps(), view = await page.eval("({ end: page.app.line.end, length: page.app.view?.stretches ?? page.app.line.length, module: page.app.view?.memory_bytes, copies: page.app.view?.copies, copies_bytes: page.app.view?.copies_bytes ?? 0, drawn: page.drawn() })");
  const since = told_at ? (Date.now() - told_at) / 1000 : 1, now = Date.now();
  told.push({ ...heaps, ...view });
  console.log(`${((now - began) / 60000).toFixed(1).padStart(6)} ${String(view.end).padStart(8)} ${String(view.length).padStart(10)} ${mib(heaps.page)}    ${heaps.workers.map(mib).join(" ")}      ${mib(view.module)}      ${String(view.copies).padStart(4)}      ${mib(view.copies_bytes)}        ${mib(heaps.resident)}      ${told_at ? ((view.drawn - drawn) / since).toFixed(1) : ""}`);
  told_at = now;
  drawn = view.drawn;
}
const first = told[0], last = told[told.length - 1];
console.log(`${count} commands; no errors of the page: ${page.logs.length === 0}`);
await page.close();
const holds = page.logs.length === 0 && last.module <= 2 * first.module && last.copies_bytes <= 260 * 1024 * 1024;
process.exit(holds ? 0 : 1);
