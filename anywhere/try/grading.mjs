// node anywhere/try/grading.mjs FOLDER: what the pool of workers does with jobs that fail. Each gets a text that says
// why, no result, and the others are done all the same.
import { existsSync, mkdirSync, readFileSync, writeFileSync } from "node:fs";
import { inside } from "../src/grading/paths.mjs";
import { grade_all } from "../src/grading/pool.mjs";

const COUNT = 20;

// (module (func (export "_start") unreachable) (memory (export "memory") 1)): the head, and the sections of types,
// functions, the memory, exports and code.
const TRAPS = [
  "0061736d01000000",
  "010401600000",
  "03020100",
  "0503010001",
  "071302065f7374617274000006" + "6d656d6f72790200",
  "0a05010300000b",
].join("");

/** A job of no files. */
function job_of(folder, number) {
  const job = inside(folder, `${number}`);
  mkdirSync(inside(job, "files"), { recursive: true });
  for (const name of ["name", "refused", "stamp"]) writeFileSync(inside(job, name), "");
  return job;
}

/** Grades jobs by a module, and counts those whose failure is told by this text and that have no result. */
async function failures(folder, data, text) {
  const jobs = Array.from({ length: COUNT }, (_, number) => job_of(folder, number));
  await grade_all(data, jobs, 2);
  const told = jobs.filter((job) => readFileSync(inside(job, "failed"), "latin1").includes(text));
  return told.filter((job) => !existsSync(inside(job, "out")) && !existsSync(inside(job, "out.new"))).length;
}

const folder = process.argv[2];
const exercise = { path: "/none", files: new Map(), has_pictures: false };
const module = new WebAssembly.Module(Buffer.from(TRAPS, "hex"));
const counts = {
  "a trap": await failures(inside(folder, "traps"), { module, exercise }, "unreachable"),
  "a worker that dies": await failures(inside(folder, "dies"), { module, exercise: null }, "its worker died"),
};
const wrong = Object.entries(counts).filter(([, count]) => count !== COUNT);
for (const [what, count] of wrong) console.log(`grading: of ${COUNT} jobs with ${what}, ${count} are told so`);
process.exitCode = wrong.length > 0 ? 1 : 0;
