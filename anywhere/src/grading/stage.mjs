// The job of a submission: a folder with its name, its files, and why a file is not taken. Only plain files of the
// names that the exercise has are taken, and copied before they are used; no link is followed.
import {
  closeSync, constants, fstatSync, lstatSync, mkdirSync, openSync, readFileSync, readSync, rmSync, writeFileSync,
} from "node:fs";
import { createHash } from "node:crypto";
import { inside, is_whole, last_part, quoted, without_slashes } from "./paths.mjs";
import { Refusal } from "./words.mjs";

/** The most bytes of a file. */
export const MOST = 1048576;

const sum_of = (bytes) => createHash("sha256").update(bytes).digest("hex");

// What the C library says of a call that failed.
const SAID = {
  EIO: "Input/output error", EACCES: "Permission denied", EPERM: "Operation not permitted",
  ENOSPC: "No space left on device", ESTALE: "Stale file handle",
};
const said = (error) => SAID[error.code] ?? error.code ?? error.message;

/** That the host couldn't read a submission, or write what is made of it: then there is no mark. */
class Trouble extends Error {}

/** What stands at a path, a link as a link; null if nothing does. */
function kind_at(path) {
  try {
    return lstatSync(path);
  } catch (error) {
    if (error.code === "ENOENT") return null;
    throw new Trouble(said(error));
  }
}

/** The bytes of an open file, one more than `MOST` at most. */
function bytes_of(fd) {
  const room = Buffer.alloc(Math.min(fstatSync(fd).size, MOST) + 1);
  let size = 0;
  for (let got = -1; got !== 0 && size < room.length; size += got) {
    got = readSync(fd, room, size, room.length - size, null);
  }
  return room.subarray(0, size);
}

/**
 * Reads a plain file. Between a look at it and the opening it may become another thing: no link is followed then
 * either, and nothing is waited for.
 *
 * @returns its bytes, or null if it is no plain file any more
 */
export function plain_bytes(path) {
  let fd = -1;
  try {
    fd = openSync(path, constants.O_RDONLY | (constants.O_NOFOLLOW ?? 0) | (constants.O_NONBLOCK ?? 0));
    return fstatSync(fd).isFile() ? bytes_of(fd) : null;
  } catch (error) {
    if (error.code === "ELOOP") return null;
    throw new Trouble(said(error));
  } finally {
    if (fd >= 0) closeSync(fd);
  }
}

/** The file of a submission at this path: its bytes, or why it is not taken, or neither if it isn't there. */
function taken(submission, path) {
  if (submission?.isSymbolicLink()) return { why: "the submission is a link, which is not followed" };
  if (!submission?.isDirectory()) return { why: "the submission is not a folder" };
  const file = kind_at(path);
  if (!file) return {};
  if (file.isSymbolicLink()) return { why: "a link, which is not followed" };
  if (!file.isFile()) return { why: "not a plain file" };
  if (file.size > MOST) return { why: "too long" };
  const bytes = plain_bytes(path);
  if (!bytes) return { why: "not a plain file" };
  return bytes.length > MOST ? { why: "too long" } : { bytes };
}

/** Whether anything stands at a path, be it a link that leads nowhere. */
function is_there(path) {
  try {
    return kind_at(path) !== null;
  } catch {
    return true;
  }
}

/** The submissions of these paths, in the order of their names' bytes; no two have one name. */
export function named(paths) {
  const found = paths.map((given) => {
    if (!is_there(given)) throw new Refusal(1, `there is no submission ${quoted(given)}`);
    const path = without_slashes(is_whole(given) ? given : inside(".", given));
    return { path, name: path.length === 1 ? Buffer.alloc(0) : last_part(path) };
  });
  found.sort((one, other) => Buffer.compare(one.name, other.name));
  const twice = found.find((it, k) => k > 0 && it.name.equals(found[k - 1].name));
  if (twice) throw new Refusal(2, `two submissions have one name: ${quoted(twice.name)}`);
  return found;
}

/** What a result depends on, as one sum. `common` is what all submissions have in common. */
function stamp_of(common, name, refused, files) {
  const lines = files.map(([file, bytes]) => `${sum_of(bytes)} ${file}`).sort();
  return `${sum_of([common, sum_of(name), sum_of(refused), ...lines].join("\n"))}\n`;
}

/**
 * The files of a submission that are wanted, as pairs of name and bytes, and the lines that say why others aren't
 * taken.
 */
function taken_of(submission, wanted) {
  const kind = kind_at(submission.path);
  const files = [];
  const refused = new Set();
  for (const file of wanted) {
    try {
      const { bytes, why } = taken(kind, inside(submission.path, file));
      if (why) refused.add(`${file}: ${why}\n`);
      if (bytes) files.push([file, bytes]);
    } catch (error) {
      throw error instanceof Trouble ? new Trouble(`${file}: ${error.message}`) : error;
    }
  }
  return { files, lines: [...refused].map((line) => Buffer.from(line)).sort(Buffer.compare) };
}

/** Writes the files of a job anew, but for its results, and gives its stamp. */
function write_job(job, name, exercise, { files, lines }) {
  for (const old of ["files", "refused", "failed", "stamp"]) rmSync(inside(job, old), { recursive: true, force: true });
  mkdirSync(inside(job, "files"), { recursive: true });
  for (const [file, bytes] of files) writeFileSync(inside(job, "files", file), bytes);
  const stamp = stamp_of(exercise.common, name, Buffer.concat(lines), files);
  writeFileSync(inside(job, "name"), name);
  writeFileSync(inside(job, "exercise"), Buffer.concat([Buffer.from(exercise.path), Buffer.from("\n")]));
  writeFileSync(inside(job, "refused"), Buffer.concat(lines));
  writeFileSync(inside(job, "stamp"), stamp);
  return stamp;
}

/**
 * Makes the job of a submission anew, but for its results.
 *
 * @returns the folder, and the stamp; or `trouble`, why there can be no result
 */
export function stage(work, { path, name }, exercise) {
  // Folders of jobs are named by the sum of the exercise's text and the name: so a host needs no odd name, no two
  // differ in capitals alone, and no result of one exercise is taken for another's.
  const job = inside(work, "jobs", sum_of(Buffer.concat([Buffer.from(`${exercise.text}\n`), name])).slice(0, 32));
  let found;
  try {
    found = taken_of({ path, name }, exercise.wanted);
  } catch (error) {
    if (!(error instanceof Trouble)) throw error;
    return { job, trouble: error.message };
  }
  try {
    return { job, stamp: write_job(job, name, exercise, found) };
  } catch {
    // What is there of its files takes room that the results need.
    rmSync(inside(job, "files"), { recursive: true, force: true });
    return { job, trouble: `its folder in ${work} cannot be written` };
  }
}

/** Whether a job has a result, and it is of what the stamp says. */
export function has_result(job, stamp) {
  try {
    return lstatSync(inside(job, "out", "result.csv")).isFile()
      && readFileSync(inside(job, "out", "stamp"), "latin1") === stamp;
  } catch {
    return false;
  }
}
