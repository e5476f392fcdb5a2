// Grades a class: makes the jobs, has them graded, and puts the results together.
import { mkdirSync, readFileSync, realpathSync, rmSync } from "node:fs";
import * as os from "node:os";
import { read_exercise } from "./exercise.mjs";
import { take_lock } from "./lock.mjs";
import { inside, last_part } from "./paths.mjs";
import { grade_all } from "./pool.mjs";
import { show, write_results } from "./results.mjs";
import { has_result, named, stage } from "./stage.mjs";
import { Refusal, read_words } from "./words.mjs";
import { own_words } from "../words.mjs";

/** The text at the head of a program's file. */
export function head_of(file) {
  const lines = readFileSync(file, "utf8").split("\n").slice(1);
  const head = lines.slice(0, lines.findIndex((line) => !line.startsWith("//")));
  return head.map((line) => `${line.replace(/^\/\/ ?/, "")}\n`).join("");
}

/** The folder of the work, which is made if it isn't there. */
function work_at(path) {
  try {
    mkdirSync(inside(path, "jobs"), { recursive: true });
    return realpathSync(path, "buffer");
  } catch (error) {
    throw new Refusal(2, `the folder ${path} can't be made: ${error.code}`);
  }
}

/** The folder of the work without --work: by the exercise's name, so that no two exercises have one folder. */
function usual_work(exercise) {
  const name = last_part(exercise).toString();
  return inside("grade-work", name.endsWith(".toml") ? name.slice(0, -".toml".length) : name);
}

/** Makes the jobs of all submissions; those without a result that still stands are to be graded. */
function stage_all(work, submissions, exercise, resume) {
  const jobs = [];
  const left = [];
  for (const submission of submissions) {
    const made = stage(work, submission, exercise);
    jobs.push({ ...made, name: submission.name });
    if (made.trouble || (resume && has_result(made.job, made.stamp))) continue;
    rmSync(inside(made.job, "out"), { recursive: true, force: true });
    left.push(made.job);
  }
  return { jobs, left };
}

async function grade(options) {
  const { module, ...exercise } = read_exercise(options.exercise);
  const work = work_at(options.work ?? usual_work(options.exercise));
  const give_back = take_lock(work, exercise.path);
  try {
    const { jobs, left } = stage_all(work, named(options.submissions), exercise, options.resume);
    const most = Number(options.jobs ?? os.availableParallelism?.() ?? os.cpus().length);
    exercise.has_pictures = process.env.XV_PICTURE !== "";
    await grade_all({ module, exercise }, left, Math.min(most, left.length));
    const { csv, missing } = write_results(work, jobs);
    show(csv);
    if (missing > 0) {
      throw new Refusal(
        2, `${missing} submissions are not graded; the files ${work}/jobs/*/failed say why. --resume tries them again`
      );
    }
  } finally {
    give_back();
  }
}

/** Does what the words of this process ask for, and gives the exit status. */
export async function main(name) {
  try {
    const options = read_words(own_words());
    if (options.help) show(Buffer.from(head_of(new URL("../../grade.mjs", import.meta.url))));
    else await grade(options);
    return 0;
  } catch (error) {
    if (!(error instanceof Refusal)) throw error;
    if (error.message) process.stderr.write(`${name}: ${error.message}\n`);
    return error.status;
  }
}
