// why.mjs MODULE.wasm PROGRAMS REPORTS: whether the page's module tells the very words of xv_why: of each program of
// the folder REPORTS (checks/why) the report of its faults and kills, of who sleeps and who hasn't been waited for, as
// they are stored beside it. Those in C are left out if there is no compiler of the version with which they were
// stored. The status is 1 if a report is another.
import { spawnSync } from "node:child_process";
import { copyFileSync, mkdtempSync, readFileSync, readdirSync, rmSync } from "node:fs";
import { tmpdir } from "node:os";
import { Machine, KIND } from "../../anywhere/machine/machine.mjs";
import { fault_in_words, kill_in_words } from "../../anywhere/machine/end_reports.mjs";
import { Plan } from "../../anywhere/machine/plan.mjs";
import { Run } from "../../anywhere/machine/run.mjs";
import { elf_of, read_table, rows_of } from "../../anywhere/machine/line_tables.mjs";

const [module, folder, reports] = process.argv.slice(2), machine = new Machine(new WebAssembly.Module(readFileSync(module))), run = new Run(machine);
const QUANTUM = 1000, ROUNDS = 2000;
let bad = 0, count = 0;

/** Plays a program from the shell, and compares what is told of it. `known`: what the module is told of its source. */
function compare(name, bytes, known, stored_in) {
  run.boot({ frames: 4096, trace: 0 }, [...["init", "sh"].map((it) => ({ name: it, bytes: new Uint8Array(readFileSync(`${folder}/${it}`)) })), { name, bytes }]);
  const plan = new Plan(run, { rounds: true, quantum: QUANTUM }, [...new TextEncoder().encode(`${name}\n`)]), told = [], source = { program: 2, known };
  for (let ticks = 0; ticks < ROUNDS && !run.halted; ) {
    const it = plan.next(QUANTUM);
    if (it.kind === KIND.TICK) ticks++;
    if (it.kind === KIND.FAULT) told.push(fault_in_words(run, run.faults.at(-1), source));
    if (it.kind === KIND.EXIT && run.kills.has(it.pid)) told.push(kill_in_words(run, run.kills.get(it.pid), source));
  }
  for (const pid of machine.pids().sort((a, b) => a - b)) told.push(machine.wait_text(pid));
  const stored = readFileSync(stored_in, "utf8").replace(/xv_why: .*\n$/, ""), is = `${told.join("\n")}\n` === stored;
  count++;
  if (!is) { console.log(`NOT ${name}: the module tells\n${told.join("\n")}\nand xv_why\n${stored}`); bad++; }
}

for (const source of readdirSync(reports).filter((it) => it.endsWith(".s"))) {
  const text = readFileSync(`${reports}/${source}`, "utf8");
  compare(source.slice(0, -2), machine.assemble(text).file, { source: text }, `${reports}/${source}.txt`);
}
if (/^12\.2\./.test(spawnSync("riscv64-unknown-elf-gcc", ["-dumpfullversion"]).stdout ?? "")) {
  const room = mkdtempSync(`${tmpdir()}/why-`), build = new URL("../../programs/c/build.sh", import.meta.url).pathname;
  for (const source of readdirSync(reports).filter((it) => it.endsWith(".c"))) {
    const name = source.slice(0, -2);
    copyFileSync(`${reports}/${source}`, `${room}/${source}`);
    spawnSync(build, [`${room}/${source}`], { env: { ...process.env, CFLAGS: "-fno-omit-frame-pointer -Wno-infinite-recursion -Wno-unused-variable" } });
    const { names, lines, frames } = read_table(readFileSync(`${room}/${name}.lines`, "utf8"));
    compare(name, new Uint8Array(readFileSync(`${room}/${name}`)), { table: rows_of(lines), symbols: elf_of(names, frames) }, `${reports}/${source}.txt`);
  }
  rmSync(room, { recursive: true });
}
console.log(bad ? `why: ${bad} of ${count} reports are others` : `why: the ${count} reports are those of xv_why`);
process.exit(bad ? 1 : 0);
