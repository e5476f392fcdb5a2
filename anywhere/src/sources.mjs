// Whether the modules in anywhere/ are of the code that stands here. anywhere/STATE says of which state they are, and
// has the sum of its code, as anywhere/build/sources.py counts it. A release has no sources, and its modules count as
// they are.
import { createHash } from "node:crypto";
import { existsSync, readFileSync, readdirSync } from "node:fs";
import { fileURLToPath } from "node:url";

export const ROOT = fileURLToPath(new URL("../../", import.meta.url));
const STATE = `${ROOT}anywhere/STATE`;
// The programs, and how their code is translated: as in anywhere/build/sources.py.
const PROGRAMS = ["xv_run", "xv_tools"];
const TRANSLATION = ["heap.c", "keep.sh", "lower.sh", "wasi.c", "wasm.sh"].map((name) => `anywhere/build/${name}`);
const KIT = "programs/host/kit.sh";
const NO_CODE = /^ *(?:\/\/|ghost |requires |ensures ).*\n/gm;

const sum_of = (text) => createHash("sha256").update(text).digest("hex");

/** A file's text of one byte each letter, with the ends of lines that it has in the repository. */
const content = (path) => readFileSync(ROOT + path, "latin1").replace(/\r\n/g, "\n");

/** The sum of a file of code without its comments and contracts. */
function sum_of_code(path) {
  const text = content(path);
  return sum_of(Buffer.from(path.endsWith(".rt") ? text.replace(NO_CODE, "") : text, "latin1"));
}

/** The crates of these names, and all of the repository's that they stand on. */
function crates_below(names) {
  const lines = content("crates.txt").split("\n").map((line) => /^(\w+)(?: [^:]*)?:(.*)/.exec(line.split("#")[0]));
  const below = new Map(lines.filter(Boolean).map(([, name, words]) => [name, words.split(" ")]));
  const found = new Set(names);
  for (const name of found) for (const it of below.get(name) ?? []) if (below.has(it)) found.add(it);
  return [...found];
}

/** The files of code in a folder and in those below it, but for tests. */
function code_in(folder) {
  return readdirSync(ROOT + folder, { withFileTypes: true }).flatMap((it) => {
    const path = `${folder}/${it.name}`;
    if (it.isDirectory()) return it.name === "tests" ? [] : code_in(path);
    return [path];
  });
}

/** The sum of what the modules are made of, as it stands here. */
function code_sum() {
  const files = crates_below(PROGRAMS).flatMap((name) => code_in(`crates/${name}/src`));
  const lines = [...TRANSLATION, KIT, ...files].sort().map((path) => `${path}\0${sum_of_code(path)}\n`);
  return sum_of(lines.join(""));
}

/** What anywhere/STATE says of a word. */
const said = (word) => (
  readFileSync(STATE, "utf8").split(/\r?\n/).find((line) => line.startsWith(`${word} `))?.slice(word.length + 1)
);

/** Of which state the modules are, in words. */
export const made_of = () => said("state") ?? "";

function is_current() {
  try {
    return said("code") === code_sum();
  } catch (error) {
    if (error.code === "ENOENT") return false;
    throw error;
  }
}

/**
 * What is known of the modules: "release", "current", "changed" (they are of an earlier state), "unknown" (nothing
 * tells their state), or "others" (XV_MODULES is another folder of modules, of which nobody knows).
 */
export function state() {
  if (process.env.XV_MODULES) return "others";
  if (!existsSync(`${ROOT}crates`)) return "release";
  if (!existsSync(STATE)) return "unknown";
  return is_current() ? "current" : "changed";
}
