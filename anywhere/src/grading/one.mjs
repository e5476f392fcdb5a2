// Grades one submission from the folder of its job, as programs/course/grade_one.sh does. What it leaves is `out` in
// that folder, which is there only when it is whole, or `failed`.
import { copyFileSync, mkdirSync, readFileSync, readdirSync, renameSync, rmSync, writeFileSync } from "node:fs";
import { run_held } from "../wasi.mjs";
import { inside, key_of } from "./paths.mjs";

// A trace has the last events alone. Of a run that waits these show nothing, so then the picture is of its notes, which
// are the turns, calls and ends of the whole run.
const TRACED = 4096;

/** The files that the program reads: those of the exercise, and of this job. */
function given_of(job, exercise) {
  const given = new Map(exercise.files);
  given.set("name", { bytes: readFileSync(inside(job, "name")) });
  given.set("refused", { bytes: readFileSync(inside(job, "refused")) });
  for (const name of readdirSync(inside(job, "files"))) {
    given.set(key_of(`files/${name}`), { bytes: readFileSync(inside(job, "files", name)) });
  }
  return given;
}

/** Runs a program closed off from the host, so that a run is a function of bytes, and costs no call of the host. */
function run_closed(module, words, given, input) {
  const ended = run_held(module, words, (path) => given.get(path), { input, encoding: "latin1" });
  if (ended.trap) throw ended.trap;
  return ended;
}

const lines_of = (bytes) => bytes.reduce((sum, byte) => sum + (byte === 10), 0);

/** The picture of each trace that was made, as `picture-N.svg`. */
function pictures(module, made) {
  const drawn = [];
  for (const [key, trace] of made) {
    const number = /^out\/trace-(.*)$/.exec(key)?.[1];
    if (!number) continue;
    const notes = made.get(`out/notes-${number}`);
    const shown = lines_of(trace) < TRACED || lines_of(notes) > TRACED ? trace : notes;
    drawn.push([`out/picture-${number}.svg`, run_closed(module, ["xv_picture"], new Map(), shown).output]);
  }
  return drawn;
}

/** Writes all that was made into the folder `out`, which gets its name when it is whole. */
function keep(job, made) {
  mkdirSync(inside(job, "out.new"));
  for (const [key, bytes] of made) writeFileSync(inside(job, "out.new", key.slice("out/".length)), bytes);
  copyFileSync(inside(job, "stamp"), inside(job, "out.new", "stamp"));
  renameSync(inside(job, "out.new"), inside(job, "out"));
}

/** Tells in a job's folder why it has no result, as far as the host can write there. */
export function fail(job, text) {
  try {
    rmSync(inside(job, "out.new"), { recursive: true, force: true });
    writeFileSync(inside(job, "failed"), text);
  } catch {
    // There is no result, and that is told.
  }
}

/**
 * Grades the submission of this job.
 *
 * @param {{path: Uint8Array, files: Map, has_pictures: boolean}} exercise
 */
export function grade_one(module, exercise, job) {
  const words = ["xv_grade", "--name", "/name", "--refused", "/refused", "--out", "/out", exercise.path, "/files"];
  try {
    for (const name of ["out", "out.new", "failed"]) rmSync(inside(job, name), { recursive: true, force: true });
    const { status, errors, made } = run_closed(module, words, given_of(job, exercise));
    if (status !== 0) return fail(job, errors);
    keep(job, exercise.has_pictures ? [...made, ...pictures(module, made)] : [...made]);
  } catch (error) {
    fail(job, `xv_grade: ${error}\n`);
  }
}
