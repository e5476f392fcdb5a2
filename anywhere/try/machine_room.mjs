#!/usr/bin/env node
// machine_room.mjs: whether what runs a machine (anywhere/machine) stands alone: each of its modules imports its
// neighbours only, names nothing that a page or Node has and the other lacks, is told in the folder's README.md, and
// has no line of more than 120 columns. The status is 1 if not, and each place is told. It needs nothing but Node.
import { readFileSync, readdirSync } from "node:fs";

const FOLDER = new URL("../machine/", import.meta.url), MOST_COLUMNS = 120;
const FOREIGN = [
  "document", "window", "self", "navigator", "location", "localStorage", "sessionStorage", "indexedDB", "postMessage",
  "requestAnimationFrame", "addEventListener", "fetch", "Worker", "crypto", "setTimeout", "atob", "btoa", "globalThis",
  "process\\.(?:env|argv|exit|stdout|stdin|platform)", "Buffer", "require", "PAGE_DATA", "console\\.(?:log|error)",
];
const names = readdirSync(FOLDER).filter((it) => it.endsWith(".mjs"));
const told = readFileSync(new URL("README.md", FOLDER), "utf8");
let bad = 0;

function wrong(name, line, words) {
  console.log(`anywhere/machine/${name}${line ? `:${line}` : ""}: ${words}`);
  bad++;
}

/** A line of code without its comment. */
const code_of = (line) => line.replace(/^\s*(\/\*\*?|\*).*$/, "").replace(/(^|\s)\/\/ .*$/, "");

for (const name of names) {
  const lines = readFileSync(new URL(name, FOLDER), "utf8").split("\n");
  if (!told.includes(`| \`${name}\` |`)) wrong(name, 0, "README.md has no line for it");
  lines.forEach((line, k) => {
    const [, from] = / from "([^"]+)"/.exec(line) ?? [], code = code_of(line);
    if (from && !names.includes(from.replace(/^\.\//, ""))) wrong(name, k + 1, `it imports ${from}`);
    const found = FOREIGN.find((it) => new RegExp(`(?<![\\w.$"'-])${it}\\b(?!["'])`).test(code));
    if (found) wrong(name, k + 1, `it names ${found}, which not every host has: ${line.trim()}`);
    if ([...line].length > MOST_COLUMNS) wrong(name, k + 1, `it has ${[...line].length} columns`);
  });
  await import(new URL(name, FOLDER));
}
for (const [, name] of told.matchAll(/^\| `(\w+\.mjs)` \|/gm)) {
  if (!names.includes(name)) wrong("README.md", 0, `${name} isn't there`);
}
console.log(bad ? `${bad} not as they should be` : `the ${names.length} modules that run a machine stand alone`);
process.exit(bad ? 1 : 0);
