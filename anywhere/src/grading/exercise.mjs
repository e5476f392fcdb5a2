// The exercise: the names that may be handed in, and the files that it names, read once.
import { closeSync, openSync, readFileSync, readSync, fstatSync } from "node:fs";
import { createHash } from "node:crypto";
import { file_of, module_of, path_of, run } from "../program.mjs";
import { write_all } from "../streams.mjs";
import { inside, is_whole, key_of } from "./paths.mjs";
import { MOST } from "./stage.mjs";
import { Refusal } from "./words.mjs";

/** The module of a program, if it was made. */
function compiled(name) {
  try {
    return module_of(name);
  } catch (error) {
    throw new Refusal(2, error.message);
  }
}

/** What xv_grade shows for these words, in lines. What it complains of `refuse` gets. */
function lines_of(module, words, refuse) {
  const parts = [], complaints = [];
  const streams = { output: (bytes) => parts.push(bytes), errors: (bytes) => complaints.push(bytes) };
  if (run(module, "xv_grade", words, streams) !== 0) refuse(Buffer.concat(complaints).toString());
  return Buffer.concat(parts).toString().split("\n").slice(0, -1);
}

/** Tells what the grader complains of, and stops. */
function tell(complaint) {
  write_all(2, complaint);
  throw new Refusal(2, "");
}

/** A file: its size, and its bytes if these are not too many. */
function file_at(path) {
  let fd = -1;
  try {
    fd = openSync(path, "r");
    const size = fstatSync(fd).size;
    const bytes = Buffer.alloc(Math.min(size, MOST + 1));
    let got = 0;
    for (let more = -1; more !== 0 && got < bytes.length; got += more) {
      more = readSync(fd, bytes, got, bytes.length - got, null);
    }
    return { bytes: bytes.subarray(0, got), size };
  } catch {
    throw new Refusal(2, `${path}, which the exercise names, cannot be read`);
  } finally {
    if (fd >= 0) closeSync(fd);
  }
}

function sum_of(program, files) {
  const sum = createHash("sha256").update(program);
  for (const [key, { bytes, size }] of files) sum.update(`\n${key} ${size}\n`).update(bytes);
  return sum.digest("hex");
}

/**
 * Reads the exercise at this path.
 *
 * @param refuse gets what the grader complains of, and throws
 * @returns the module, its path as the program takes it, the names that are wanted, the files, the sum of the
 *   exercise's text, and that of all on which a result depends beside the submission
 */
export function read_exercise(given, refuse = tell) {
  const here = is_whole(given) ? given : inside(process.cwd(), given);
  const path = process.platform === "win32" ? Buffer.from(path_of(here.toString())) : here;
  const module = compiled("xv_grade");
  const wanted = lines_of(module, [path], refuse);
  // The exercise itself is the first of them.
  const files = new Map(lines_of(module, ["--inputs", path], refuse).map((file) => [key_of(file), file_at(file)]));
  const text = createHash("sha256").update(files.values().next().value.bytes).digest("hex");
  return { module, path, wanted, files, text, common: sum_of(readFileSync(file_of("xv_grade")), files) };
}
