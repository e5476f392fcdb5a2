// Sources that were changed after a program was made of them: the lines that it tells may be wrong then.
import { statSync } from "node:fs";
import { basename } from "node:path";

const TOLERANCE = 2000; // milliseconds: files that are copied together aren't written at once

const time_of = (path) => statSync(path).mtimeMs;

/** Which of a program's sources is younger than the program, in words; nothing if none is. */
export function changed_since(program, sources) {
  const made = time_of(program), found = sources.find((it) => time_of(it) > made + TOLERANCE);
  if (found === undefined) return "";
  const name = basename(program), until = `until xv --cc or xvcc -g makes ${name} anew`;
  return `${basename(found)} was changed after ${name} was made of it: lines may be wrong ${until}`;
}
