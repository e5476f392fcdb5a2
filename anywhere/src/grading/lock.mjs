// The lock of a work folder: one grader at a time works in it, whether this one or programs/course/grade.sh. It is a
// file of two lines: the program, its process, when that began (field 22 of /proc/PID/stat, on Linux) and the host; and
// the exercise. It comes by a hard link, so it is never there without its text. programs/course/lock.sh keeps to the
// same.
import { closeSync, linkSync, openSync, readFileSync, renameSync, rmSync, writeFileSync } from "node:fs";
import * as os from "node:os";
import { inside } from "./paths.mjs";
import { Refusal } from "./words.mjs";

const PROGRAM = "grade.mjs";

/** When a process began, as text: empty if there is none, `-` if the host doesn't tell. */
function began(process_id) {
  if (process.platform !== "linux") return is_there(process_id) ? "-" : "";
  try {
    const stat = readFileSync(`/proc/${process_id}/stat`, "latin1");
    return stat.slice(stat.lastIndexOf(")") + 2).split(" ")[19];
  } catch {
    return "";
  }
}

function is_there(process_id) {
  try {
    process.kill(process_id, 0);
    return true;
  } catch (error) {
    return error.code === "EPERM";
  }
}

/** The two lines of a lock; null if there is none. */
function read(path) {
  try {
    const [holder, exercise] = readFileSync(path).toString().split("\n");
    return { holder, exercise };
  } catch {
    return null;
  }
}

/** Whether the grader of a lock goes on; of one on another host nobody here can tell. */
function goes_on(holder) {
  const [, process_id, start, host] = holder.split(" ");
  return host !== os.hostname() || (start !== "" && began(process_id) === start);
}

function refuse(path, folder) {
  const { holder = "", exercise = "?" } = read(path) ?? {};
  const [program = "", process_id = "?", , host = "?"] = holder.split(" ");
  throw new Refusal(
    2,
    `${folder} is in use: ${program || "another grader"}, process ${process_id} on ${host}, grades ${exercise} there\n`
      +
      `${PROGRAM}: take another folder by --work, or wait for its end. If it has ended on that host, remove ${path}`,
  );
}

/** Takes the place of a grader that has ended and left its lock. Of two that try it at once one at most does. */
function take_over(path, own, held) {
  const taking = Buffer.concat([path, Buffer.from(".taking")]);
  try {
    closeSync(openSync(taking, "wx"));
  } catch {
    return;
  }
  if (read(path)?.holder === held.holder) renameSync(own, path);
  rmSync(taking, { force: true });
}

/**
 * Takes the lock of a work folder.
 *
 * @returns a function that gives it back
 */
export function take_lock(work, exercise) {
  const path = inside(work, "lock");
  const own = inside(work, `lock.${process.pid}`);
  const holder = `${PROGRAM} ${process.pid} ${began(process.pid)} ${os.hostname()}`;
  writeFileSync(own, `${holder}\n${exercise}\n`);
  try {
    linkSync(own, path);
  } catch {
    const held = read(path);
    if (held?.holder && !goes_on(held.holder)) take_over(path, own, held);
  }
  rmSync(own, { force: true });
  if (read(path)?.holder !== holder) refuse(path, work);
  return () => {
    if (read(path)?.holder === holder) rmSync(path, { force: true });
  };
}
