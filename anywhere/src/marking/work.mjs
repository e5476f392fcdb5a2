// What the grader has left of an exercise: a mark for each folder that was graded, with its parts.
import { createHash } from "node:crypto";
import { readFileSync } from "node:fs";
import { basename, join } from "node:path";
import { failure_of, shown } from "../grading/results.mjs";
import { has_result } from "../grading/stage.mjs";
import { cases_of } from "./cases.mjs";
import { names_if_folder } from "./files.mjs";
import { Stop } from "./held.mjs";

const sum_of = (bytes) => createHash("sha256").update(bytes).digest("hex");

/** The bytes of a file; null if it isn't there. */
function bytes_at(...path) {
  try {
    return readFileSync(join(...path));
  } catch {
    return null;
  }
}

/** Why a job has no result that still stands; null if it has one. */
function lacks_result(folder) {
  if (has_result(folder, bytes_at(folder, "stamp")?.toString("latin1"))) return null;
  return failure_of(folder) || "it has no result: grade it by --resume";
}

/** The parts of a mark: those of the exercise, with the points that the cases give. */
function parts_of_mark(parts, told) {
  const made = parts.map(({ points }, k) => {
    const { run, name, standing, why, cause } = told.cases[k] ?? {};
    if (standing === undefined) return { run, name, points, of: points };
    return { run, name, points: 0, of: points, standing, why, cause };
  });
  const sum = (key) => made.reduce((all, it) => all + it[key], 0);
  const is_same = told.cases.length === parts.length && sum("points") === told.points && sum("of") === told.of;
  return is_same ? made : null;
}

/** The files of a job, as they were handed in. */
function sources_of(folder) {
  const names = names_if_folder(join(folder, "files")) ?? [];
  return Object.fromEntries(names.map((name) => [name, bytes_at(folder, "files", name)]).filter(([, bytes]) => bytes));
}

/** What the grader has told of a job; what was changed since is refused. */
function told_of(folder) {
  const [xml, csv] = ["result.xml", "result.csv"].map((name) => `${bytes_at(folder, "out", name) ?? ""}`);
  try {
    return cases_of(xml, csv);
  } catch (error) {
    throw new Stop(2, `${folder} has another result than the grader writes: ${error.message}`);
  }
}

/** The mark of a job. */
function mark_of_job(folder, name, parts) {
  const lack = lacks_result(folder);
  if (lack !== null) return { folder: name, state: "not graded", reason: lack };
  const told = told_of(folder), made = parts_of_mark(parts, told);
  if (!made) throw new Stop(2, `${folder}: its parts aren't those of the exercise, or don't add up: grade it anew`);
  return { folder: name, state: "graded", standing: told.standing, reason: told.reason, parts: made };
}

/** A job of a work folder, if it is of this exercise, or of an earlier text of it: {folder, name, is_of_now}. */
function job_of(work, job, exercise, key) {
  const folder = join(work, "jobs", job), name = bytes_at(folder, "name"), of = bytes_at(folder, "exercise");
  if (name === null) return [];
  const is_of_now = job === sum_of(Buffer.concat([Buffer.from(`${key}\n`), name])).slice(0, 32);
  const is_earlier = of !== null && basename(of.toString().trimEnd()) === basename(exercise);
  return is_of_now || is_earlier ? [{ folder, name: shown(name), is_of_now }] : [];
}

/** The mark of a job: none, if it is of an earlier text of the exercise. */
function mark_of({ folder, name, is_of_now }, parts) {
  if (!is_of_now) return { folder: name, state: "not graded", reason: "graded by an earlier text of the exercise" };
  const notes = (number) => (bytes_at(folder, "out", `notes-${number}`)?.toString("latin1") ?? "").split("\n");
  return { ...mark_of_job(folder, name, parts), sources: () => sources_of(folder), notes };
}

/**
 * All marks that a work folder has of the exercise of this path and text, or null if nothing was graded there;
 * `sources()` gives what was handed in, and `notes(N)` the notes of run N.
 */
export function marks_in(work, exercise, text, parts) {
  const names = names_if_folder(join(work, "jobs"));
  if (names === null) return null;
  const jobs = names.flatMap((job) => job_of(work, job, exercise, sum_of(text)));
  const of_now = new Set(jobs.filter(({ is_of_now }) => is_of_now).map(({ name }) => name));
  // Of several earlier ones the first stands for all.
  const others = new Map(jobs.filter(({ name }) => !of_now.has(name)).reverse().map((job) => [job.name, job]));
  return [...jobs.filter(({ is_of_now }) => is_of_now), ...others.values()].map((job) => mark_of(job, parts));
}
