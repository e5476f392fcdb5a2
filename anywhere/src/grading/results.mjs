// The results of all submissions in one file, as CSV and as JUnit's XML.
import { isUtf8 } from "node:buffer";
import { readFileSync, renameSync, writeFileSync } from "node:fs";
import { write_all } from "../streams.mjs";
import { inside } from "./paths.mjs";
import { has_result } from "./stage.mjs";
import { Refusal } from "./words.mjs";

/** The bytes of this result of a job, or null. */
function result_of(job, name) {
  try {
    return readFileSync(inside(job, "out", name));
  } catch {
    return null;
  }
}

function write_whole(work, name, parts) {
  writeFileSync(inside(work, `${name}.new`), Buffer.concat(parts));
  renameSync(inside(work, `${name}.new`), inside(work, name));
}

/** A name as text of UTF-8: in one that isn't, what isn't ASCII is shown as \\xff. */
export function shown(bytes) {
  if (isUtf8(bytes)) return bytes.toString();
  return [...bytes].map(
    (byte) => (byte < 0x80 ? String.fromCharCode(byte) : `\\x${byte.toString(16).padStart(2, "0")}`)
  ).join("");
}

/** A field of CSV. */
const field = (text) => (/[,"\n\r]/.test(text) ? `"${text.replaceAll('"', '""')}"` : text);

/** The first line of what a job without a result says. */
export function failure_of(job) {
  try {
    const bytes = readFileSync(inside(job, "failed"));
    const end = bytes.indexOf(10);
    return shown(end < 0 ? bytes : bytes.subarray(0, end));
  } catch {
    return "";
  }
}

/** The line of a submission without a result, and why it has none. */
function line_without_result({ name, job, trouble }) {
  const why = trouble || failure_of(job) || "it has no result";
  return Buffer.from(`${field(shown(name))},,,not graded,${field(why)}\n`);
}

/** Writes both into the folder of the work. Gives the CSV, and how many jobs have no result. */
export function write_results(work, jobs) {
  const graded = jobs.map((it) => !it.trouble && has_result(it.job, it.stamp));
  const lines = jobs.map((it, k) => (graded[k] && result_of(it.job, "result.csv")) || line_without_result(it));
  const suites = jobs.map((it, k) => graded[k] && result_of(it.job, "result.xml"));
  const csv = Buffer.concat([Buffer.from("submission,points,of,status,reason\n"), ...lines]);
  const head = Buffer.from('<?xml version="1.0" encoding="UTF-8"?>\n<testsuites>\n');
  try {
    write_whole(work, "results.csv", [csv]);
    write_whole(work, "results.xml", [head, ...suites.filter(Boolean), Buffer.from("</testsuites>\n")]);
  } catch (error) {
    throw new Refusal(5, `the results can't be written: ${error.code}`);
  }
  return { csv, missing: graded.filter((it) => !it).length };
}

/** Writes all of it to standard output. A reader that goes away early is no fault. */
export function show(bytes) {
  try {
    write_all(1, bytes);
  } catch (error) {
    if (error.code !== "EPIPE") throw error;
  }
}
