#!/usr/bin/env node
// GCC's own tests of what it compiles, gcc.c-torture/execute, by the compiler of programs/c/tcc: each is a program that ends with 0 if all is
// right. Each is compiled and linked as `xv --cc` does it, and run by xv_run, all in this process.
//
//   checks/tcc/torture.mjs FOLDER [NAME..]   FOLDER has the tests (checks/outside/torture.sh fetches them), NAME is one without its .c
//
// A line for each test that doesn't end well, with what is said of it, and a sum. A test may be refused: it asks for what isn't there.
// One that is compiled and ends otherwise is wrong, but for those of wrong.txt, which says why. The status is 1 if another one is wrong.
import { readFileSync, readdirSync } from "node:fs";
import { module_of, run } from "../../anywhere/src/program.mjs";
import { run_compiler } from "../../anywhere/src/c_host.mjs";
import { link } from "../../anywhere/src/c_linker.mjs";

const here = new URL(".", import.meta.url), out = process.env.XV_TCC ?? new URL("../../programs/c/tcc/out", here).pathname;
const compiler = new WebAssembly.Module(readFileSync(`${out}/tcc.wasm`)), machine = module_of("xv_run");
const library = readdirSync(`${out}/lib`).sort().map((name) => [name, new Uint8Array(readFileSync(`${out}/lib/${name}`))]);
const [folder, ...names] = process.argv.slice(2);

function file_at(path) {
  try {
    const place = path.startsWith("%library/") ? `${out}/${path.slice("%library/".length)}` : path.startsWith("%start/") ? new URL(path.slice("%start/".length), here) : `${folder}/${path}`;
    return new Uint8Array(readFileSync(place));
  } catch {
    return undefined;
  }
}

/** The object of a source, or what is said of it. */
function object_of(file) {
  const { status, told, made } = run_compiler(compiler, ["tcc", "-w", "-I%library/include", "-nostdinc", "-U__linux__", "-U__unix__", "-c", file, "-o", "object.o"], file_at);
  const object = status === 0 && made.get("object.o");
  return object ? { object: [file, object] } : { refused: status === 70 ? `broke: ${told.trim().split("\n").pop()}` : told.trim().split("\n").pop() };
}

const start = object_of("%start/large_stack.c");
if (!start.object) throw new Error(start.refused);

/** What comes of a test: {kind, text}. */
function outcome(name) {
  const { object, refused } = object_of(`${name}.c`);
  if (refused !== undefined) return { kind: "refused", text: refused };
  let file;
  try {
    ({ file } = link([object, start.object], library));
  } catch (error) {
    return { kind: "refused", text: error.message.split("\n")[0] };
  }
  let told = "";
  const words = ["--frames", "8192", "--rounds", "3000", "--quantum", "100000", "/init"];
  const status = run(machine, "xv_run", words, { files: { init: file }, input: { read: () => 0 }, output() {}, errors: (bytes) => { told += bytes; } });
  return status === 0 ? { kind: "well", text: "" } : { kind: "wrong", text: told.trim().split("\n").pop() };
}

const known = new Set(readFileSync(new URL("wrong.txt", here), "utf8").split("\n").filter((line) => line && !line.startsWith("#")).map((line) => line.split(" ")[0]));
const tests = names.length > 0 ? names : readdirSync(folder).filter((it) => it.endsWith(".c")).map((it) => it.slice(0, -2)).sort();
const counts = { well: 0, refused: 0, wrong: 0 };
let others = 0;
for (const name of tests) {
  const { kind, text } = outcome(name);
  counts[kind]++;
  if (kind === "wrong" && !known.has(name)) others++;
  if (kind !== "well") console.log(`${name} ${kind}${kind === "wrong" && known.has(name) ? ", as is known" : ""}: ${text}`);
}
console.log(`${tests.length} tests: ${counts.well} end well, ${counts.refused} are refused, ${counts.wrong} end otherwise, of which ${others} aren't known`);
process.exitCode = others > 0 ? 1 : 0;
