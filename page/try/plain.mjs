// plain.mjs PAGE.html FOLDER: whether the page does all of it, too, if a course serves it by plain http, where browsers hand
// out neither their sums nor the clipboard: links, records, copies. The page is served at this host's own address, while
// it runs. The status is 1 if not, and 0 if the host has no address but its own.
import { mkdirSync, readFileSync } from "node:fs";
import { createServer } from "node:http";
import { networkInterfaces } from "node:os";
import { read_record } from "../../anywhere/machine/record_text.mjs";
import { comes, drop, type } from "./hand.mjs";
const { open } = await import(process.env.BROWSER === "firefox" ? "./firefox.mjs" : "./browser.mjs");

const [page_file, folder] = process.argv.slice(2);
mkdirSync(folder, { recursive: true });
let bad = 0;
const holds = (is, what) => { console.log(`${is ? "  " : "NOT"} ${what}`); if (!is) bad++; };
const address = Object.values(networkInterfaces()).flat().find((it) => it.family === "IPv4" && !it.internal)?.address;
if (!address) { console.log("left out: this host has no address but its own"); process.exit(0); }

const server = createServer((_, answer) => { answer.setHeader("Content-Type", "text/html; charset=utf-8"); answer.end(readFileSync(page_file)); });
await new Promise((done) => server.listen(0, "0.0.0.0", done));
const page = await open(`http://${address}:${server.address().port}/`);
const problems = () => page.eval("page.problems()");
const shows = (words) => comes(page, `new RegExp(${JSON.stringify(words)}).test(document.getElementById('screen').textContent)`, 40000);
const press = (words) => page.eval(`[...document.querySelectorAll('#dialog button')].find((it) => it.textContent === ${JSON.stringify(words)}).click()`);
try {
  holds(await page.eval("!isSecureContext && !crypto.subtle && !navigator.clipboard"), "the browser hands out neither sums nor the clipboard");
  await shows("\\$ ");
  await type(page, "echo one\n");
  await shows("one\\s+one");
  await page.click("#share");
  await page.until("document.querySelector('#dialog textarea')?.value.includes('#run=')");
  const link = await page.eval("document.querySelector('#dialog textarea').value");
  await press("Copy");
  holds(await comes(page, "/in the clipboard|by Ctrl C/.test(document.getElementById('share-told').textContent)"), `Copy says what came of it: ${await page.eval("document.getElementById('share-told').textContent")}`);
  await page.picture(`${folder}/plain-share.png`);
  const record = await page.eval("page.sharing.run_as_record()");
  const end = read_record(record).spans.reduce((sum, [, , count]) => sum + count, 0);
  await page.eval("document.getElementById('dialog').close()");
  holds(/^program [0-9a-f]{64} \d+ init$/m.test(record), "a run is told as a record");
  await page.eval(`location.hash = ${JSON.stringify(link.split("#")[1])}`);
  holds((await comes(page, "page.app.booted.work.startsWith('link ')", 20000)) && (await shows("one\\s+one")), "a link leads to its run");
  await drop(page, [["run.txt", JSON.stringify(record)]]);
  holds(await comes(page, `page.app.view?.end === ${end} && !page.app.view.playing`, 20000), "a record is played");
  await page.eval("document.querySelector('[data-picture=turns]').click()");
  await page.click("#copy-png");
  holds(await comes(page, "document.getElementById('picture-told').textContent.includes('https')"), `a picture: ${await page.eval("document.getElementById('picture-told').textContent")}`);
  await page.eval("document.getElementById('dialog').close()");
  const wrong = await problems();
  holds(wrong.length === 0, `nothing else is said ${wrong.join("; ")}`);
} catch (error) {
  holds(false, error.stack);
  await page.picture(`${folder}/plain-error.png`).catch(() => {});
}
await page.close();
server.close();
holds(page.logs.length === 0, `no errors of the page: ${page.logs.join("; ")}`);
console.log(bad ? `${bad} not as they should be` : "all is as it should be");
process.exit(bad ? 1 : 0);
