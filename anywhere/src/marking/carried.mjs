// What an autograder or a repository carries, so that it needs Node and nothing else: the grader's module, and what
// runs it.
import { join } from "node:path";
import { file_of } from "../program.mjs";
import { ROOT } from "../sources.mjs";
import { bytes_of, names_in } from "./files.mjs";

const FOLDERS = ["anywhere/src", "anywhere/src/grading", "anywhere/src/marking"];
const FILES = ["xv.mjs", "anywhere/marks.mjs", "programs/host/words.txt", "LICENSE", "VERSION"];

/** The files, {name, bytes}, by their paths from the top of a release. */
export function carried_files() {
  const in_folders = FOLDERS.flatMap((folder) => names_in(join(ROOT, folder)).map((name) => `${folder}/${name}`));
  const names = [...FILES, ...in_folders.filter((name) => name.endsWith(".mjs"))];
  const files = names.map((name) => ({ name, bytes: bytes_of(join(ROOT, name)) }));
  return [...files, { name: "anywhere/xv_tools.wasm", bytes: bytes_of(file_of("xv_grade")) }];
}
