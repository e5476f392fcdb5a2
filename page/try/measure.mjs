// measure.mjs PAGE.html [TIMES]: measures the page in the browser, each number so often (3), and compares the best with
// what is asked for. In Chromium the status is 1 if one isn't within its bound; in Firefox numbers are told alone.
import { loadavg } from "node:os";
import { pathToFileURL } from "node:url";
import { crowd, first, instructions, steps_back } from "./measures.mjs";

const is_firefox = process.env.BROWSER === "firefox";
const { open } = await import(is_firefox ? "./firefox.mjs" : "./browser.mjs");
const [page_file, times = 3] = process.argv.slice(2), url = pathToFileURL(page_file).href;

/** What is asked for, and what came, in the order in which it was measured. */
const LINES = {
  paint: { words: "first picture, from a file", unit: "ms", most: 500, came: [] },
  boot: { words: "boot of the shell", unit: "ms", most: 50, came: [] },
  millions: { words: "instructions a second", unit: "million", least: 100, came: [] },
  back: { words: "steps back a second, at 10 million events", unit: "", least: 30, came: [] },
  frames: { words: "frames a second, 64 processes that play", unit: "", least: 55, came: [] },
  longest: { words: "the longest of these frames", unit: "ms", most: 100, came: [] },
};

let crowded;
for (let k = 0; k < Number(times); k++) {
  const page = await open(url), { paint, boot } = await first(page);
  LINES.paint.came.push(paint);
  LINES.boot.came.push(boot);
  LINES.millions.came.push((await instructions(page)).millions);
  LINES.back.came.push((await steps_back(page)).steps);
  crowded = await crowd(page);
  LINES.frames.came.push(crowded.frames);
  LINES.longest.came.push(crowded.longest);
  await page.close();
}

const shown = (it) => (it < 100 ? it.toFixed(1) : it.toFixed(0));

/** Tells a line, and whether its best is within the bound. */
function tell({ words, unit, most, least, came }) {
  const sorted = [...came].sort((a, b) => a - b), is_time = most !== undefined;
  const best = is_time ? sorted[0] : sorted.at(-1), median = sorted[sorted.length >> 1];
  const is_within = is_time ? best < most : best >= least, bound = is_time ? `below ${most}` : `at least ${least}`;
  console.log(`${is_within ? "   " : "NOT"} ${words}: ${shown(best)} ${unit}, median ${shown(median)} (${bound})`);
  return is_within;
}

const busy = loadavg()[0].toFixed(2);
console.log(`${is_firefox ? "Firefox" : "Chromium"}; in the last minute ${busy} processors of the host had work`);
const is_fast = Object.values(LINES).map(tell).every((it) => it);
console.log(`    ${crowded.processes} processes, ${crowded.events} events in ${crowded.stretches} stretches`);
process.exit(is_fast || is_firefox ? 0 : 1);
