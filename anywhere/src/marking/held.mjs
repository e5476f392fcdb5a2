// Exercises as bytes alone: an exercise with the files that it names can lie in a sheet, or in an autograder, and is
// graded from there by what grades a class.
import { createHash } from "node:crypto";
import { mkdtempSync, readFileSync, rmSync } from "node:fs";
import { tmpdir } from "node:os";
import { join, posix } from "node:path";
import { isUtf8 } from "node:buffer";
import { module_of } from "../program.mjs";
import { run_held } from "../wasi.mjs";
import { read_exercise } from "../grading/exercise.mjs";
import { grade_one } from "../grading/one.mjs";
import { inside, key_of } from "../grading/paths.mjs";
import { stage } from "../grading/stage.mjs";
import { cases_of } from "./cases.mjs";

/** What stops a command: a text, and the exit status. */
export class Stop extends Error {
  constructor(status, text) {
    super(text);
    this.status = status;
  }
}

const folder_of = (path) => path.slice(0, Math.max(0, path.lastIndexOf("/")));

/** What the grader says, without its name, and of a held exercise by the name that the user knows. */
function without_program(text, { path, named = path } = {}) {
  const said = text.trim().replace(/^xv_grade: /, "");
  return path === undefined ? said : said.replace(`/${path}`, () => named);
}

/**
 * The exercise of a path of this host, with all files that it names, under paths of their own: so nothing tells where
 * they lie here. {path, files, named}: a table of bytes by their paths without the `/` at their head, and the name by
 * which the user knows it.
 */
export function held_exercise(given) {
  const { path, files } = read_exercise(Buffer.from(given), (why) => {
    throw new Stop(2, without_program(why));
  });
  const own = key_of(path), here = folder_of(own);
  const relative = [...files.keys()].map((key) => posix.relative(`/${here}`, `/${key}`));
  const ups = relative.map((it) => /^(?:\.\.\/)*/.exec(it)[0].length / 3);
  const at = Array(Math.max(...ups, 0)).fill("up").join("/"), placed = (it) => key_of(`${at}/${it}`);
  const held = Object.fromEntries([...files.values()].map(({ bytes }, k) => [placed(relative[k]), bytes]));
  return { path: placed(posix.relative(`/${here}`, `/${own}`)), files: held, named: given };
}

/** An exercise that has this text, and these files beside it. */
export const made_exercise = (name, text, beside = {}) => ({ path: name,
  files: { [name]: Buffer.from(text), ...beside } });

export const text_of_held = ({ path, files }) => files[path].toString("utf8");

// ---- in JSON: a file that is a text stands there as it is

const packed_file = (bytes) => (isUtf8(bytes) && !bytes.includes(0) ? bytes.toString()
  : { base64: bytes.toString("base64") });
const file_of = (it) => (typeof it === "string" ? Buffer.from(it) : Buffer.from(String(it?.base64), "base64"));
const mapped = (table, each) => Object.fromEntries(Object.entries(table).map(([name, it]) => [name, each(it)]));

export const packed = ({ path, files }) => ({ path, files: mapped(files, packed_file) });
/** The exercise of a value of JSON that lies in a file of this name. */
export const unpacked = ({ path, files }, named) => ({ path, files: mapped(files, file_of), named });

// ---- grading

/**
 * What the grader needs of a held exercise, as `read_exercise` has it of one that lies on the host. It is read once.
 */
export function exercise_of_held(held) {
  if (!read.has(held)) read.set(held, exercise_of(held));
  return read.get(held);
}
const read = new WeakMap();

function exercise_of(held) {
  const { path, files } = held;
  const module = module_of("xv_grade"), whole = Buffer.from(`/${path}`);
  const given = new Map(Object.entries(files).map(([key, bytes]) => [key_of(key), { bytes, size: bytes.length }]));
  const file_at = (key) => given.get(key), words = ["xv_grade", whole];
  const { status, output, errors } = run_held(module, words, file_at, { encoding: "latin1" });
  if (status !== 0) throw new Stop(2, without_program(Buffer.from(errors).toString(), held));
  const wanted = Buffer.from(output).toString().split("\n").slice(0, -1);
  const text = createHash("sha256").update(files[path]).digest("hex");
  return { module, path: whole, wanted, files: given, text, common: text, has_pictures: false };
}

/** A file of a job's results; empty if there is none. */
export function result_of(job, name) {
  try {
    return readFileSync(inside(job, "out", name));
  } catch {
    return Buffer.alloc(0);
  }
}

/** What a job has come to: the row of its CSV, its cases, and `file(name)`, what else was kept; or why it has none. */
function told_of(job, held) {
  const text = result_of(job, "result.xml").toString();
  if (!text) throw new Stop(2, without_program(readFileSync(inside(job, "failed"), "utf8"), held));
  return { ...cases_of(text, result_of(job, "result.csv").toString()), file: (name) => result_of(job, name) };
}

/**
 * Grades the folder of a submission for a held exercise: what it comes to, by the grader of a class. `use` reads it.
 */
export function graded(held, folder, name, use) {
  const room = mkdtempSync(join(tmpdir(), "xv-check-"));
  try {
    const { module, ...exercise } = exercise_of_held(held);
    const { job, trouble } = stage(room, { path: Buffer.from(folder), name: Buffer.from(name) }, exercise);
    if (trouble) throw new Stop(2, trouble);
    grade_one(module, exercise, job);
    return use(told_of(job, held));
  } finally {
    rmSync(room, { recursive: true, force: true });
  }
}
