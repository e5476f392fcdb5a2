// Compares the calls that the debug adapter shows with GDB's: calls.mjs FOLDER NAME.. [-- STOPS]. FOLDER has NAME,
// NAME.debug and NAME.lines of each program, which runs alone, as init. Both stop after each so many instructions, up to
// the end; at each stop the functions of all calls and the lines of the callers are the same. (In the line of the place
// itself GDB passes over rows of the table that begin no statement; checks/c-lines.py compares these lines with
// addr2line's.) checks/dap/calls.sh builds the programs and calls it.
import { execFileSync } from "node:child_process";
import { join } from "node:path";
import { fileURLToPath } from "node:url";
import { Client } from "./client.mjs";

const XV = fileURLToPath(new URL("../../xv.mjs", import.meta.url)), APART = 37; // instructions between two stops
const KEYS = "a word and another\nthe first\n\x04";
const [folder, ...words] = process.argv.slice(2), end = words.includes("--") ? words.indexOf("--") : words.length;
const names = words.slice(0, end), stops = Number(words[end + 1] ?? 60);
let bad = 0;

/** A call, as `count wc.c:24`. */
const call_of = (name, line) => `${name.replace(/\+.*/, "")} ${line ?? ""}`.trim();

/** Whether two see the same calls. GDB knows no line of the function at which a program begins. */
function is_same(ours, theirs) {
  const parts = (it) => it.split(" ");
  return ours.length === theirs.length && ours.every((it, k) => {
    const [name, line] = parts(it), [their_name, their_line] = parts(theirs[k]);
    return name === their_name && (k === 0 || their_line === undefined || line === their_line);
  });
}

/** The calls at each stop, by GDB. */
function by_gdb(name) {
  const keys = KEYS.replaceAll("\n", "\\n").replace("\x04", "\\x04");
  const serve = `'${process.execPath}' '${XV}' --gdb --type '${keys}' ${name}`;
  const asked = Array.from({ length: stops }, () => ["-ex", `stepi ${APART}`, "-ex", "bt", "-ex", "echo ==\\n"]).flat();
  const wanted = ["width 0", "pagination off", "confirm off", "print frame-arguments none", "backtrace past-main on"];
  const settings = wanted.flatMap((it) => ["-ex", `set ${it}`]);
  const all = ["-q", "-nx", "-batch", "-l", "600", `${name}.debug`, ...settings, "-ex", `target remote | ${serve}`, ...asked];
  const how = { cwd: folder, encoding: "utf8", stdio: ["ignore", "pipe", "ignore"], maxBuffer: 1 << 26 };
  const said = execFileSync("gdb-multiarch", all, how).split("==\n").slice(0, stops);
  const call = /^#\d+ +(?:0x[0-9a-f]+ in )?(\S+) \(.*?\)(?: at (?:.*\/)?(\S+:\d+))?$/gm;
  return said.map((text) => [...text.matchAll(call)].map(([, it, line]) => call_of(it, line)));
}

/** The calls at each stop, by the adapter. */
async function by_adapter(name) {
  const client = new Client(folder), found = [];
  await client.ask("launch", { program: name, keys: KEYS, stopAtEnd: true });
  await client.ask("configurationDone");
  await client.event("stopped");
  const step = () => client.stop_after("next", { threadId: 1, granularity: "instruction" });
  for (let k = 1; k <= APART * stops && (await step()).reason === "step"; k++) {
    if (k % APART === 0) found.push((await client.calls(1)).map((it) => call_of(...it.split(" "))));
  }
  await client.ask("disconnect");
  return found;
}

for (const name of names) {
  const [ours, theirs] = [await by_adapter(name), by_gdb(name)];
  const pairs = ours.map((it, k) => ({ k, ours: it, theirs: theirs[k] ?? [] }));
  const others = pairs.filter((it) => !is_same(it.ours, it.theirs)), most = Math.max(...ours.map((it) => it.length));
  for (const it of others.slice(0, 5)) {
    console.log(`${name}, stop ${it.k + 1}: ${it.ours.join(", ")}; GDB: ${it.theirs.join(", ")}`);
  }
  console.log(`${name}: ${ours.length} stops, ${most} calls at most, ${others.length} differ from GDB's`);
  bad += others.length;
}
process.exit(bad ? 1 : 0);
