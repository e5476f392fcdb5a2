// What xv tells of itself: the version, and which modules would run.
import { spawnSync } from "node:child_process";
import { existsSync, readFileSync } from "node:fs";
import { file_of } from "./program.mjs";
import { ROOT, made_of, state } from "./sources.mjs";
import { write_all } from "./streams.mjs";
import { said } from "./words.mjs";

/** The statuses that say that words, or what they name, are refused; and that nothing could run. */
export const REFUSED = 1, NOTHING_RUNS = 125;

const text_of = (name) => readFileSync(ROOT + name, "utf8");

const are_there = () => ["xv_run", "xv_tools"].every((name) => existsSync(file_of(name)));

/**
 * What is known of the modules, as a text and its status, 0 if they run: {text, status}. If they run and are of another
 * state than the code here, `warning` says of which.
 */
export function modules() {
  const known = are_there() ? state() : "missing", { node } = process.versions;
  const words = { others: [node, process.env.XV_MODULES], changed: [node, made_of()], missing: [file_of("xv_run")] };
  const warning = known === "changed" ? said("earlier-modules", made_of()).text : undefined;
  return { ...said(`modules-${known}`, ...(words[known] ?? [node])), warning };
}

/** Whether this is a release, whose programs tell of what they were built. */
export const is_release = () => existsSync(`${ROOT}BUILT`);

/** What was built of which commit. */
function built() {
  if (is_release()) return text_of("BUILT");
  const words = ["-C", ROOT, "log", "-1", "--format=commit %H of %cs"];
  return `${spawnSync("git", words, { stdio: ["ignore", "pipe", "ignore"] }).stdout ?? ""}`;
}

/** Tells the version, as the program of this name. */
export function tell_version(name) {
  write_all(1, `${name} ${text_of("VERSION").trim()}\n${built()}`);
}
