// Plain files of a submission, as the grader takes them: no link is followed, and nothing is waited for.
import { lstatSync } from "node:fs";
import { MOST, plain_bytes } from "../grading/stage.mjs";

/** What stands at a path: "file", "folder", or "other", as a link, or what has a name that isn't UTF-8. */
export function kind_at(path) {
  try {
    const about = lstatSync(path);
    return about.isFile() ? "file" : about.isDirectory() ? "folder" : "other";
  } catch {
    return "other";
  }
}

/** The bytes of a plain file of so many as the grader takes; null if there is none at a path, or it can't be read. */
export function bytes_if_plain(path) {
  if (kind_at(path) !== "file") return null;
  try {
    const bytes = plain_bytes(path);
    return bytes && bytes.length <= MOST ? bytes : null;
  } catch {
    return null;
  }
}
