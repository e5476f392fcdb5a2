// Files of this host: what can't be read or written stops the command, with its path.
import { isUtf8 } from "node:buffer";
import { mkdirSync, readFileSync, readdirSync, renameSync, writeFileSync } from "node:fs";
import { getSystemErrorMap } from "node:util";
import { Stop } from "./held.mjs";

/** Why the host refused something, in its words. */
export const reason_of = (error) => getSystemErrorMap().get(error.errno)?.[1] ?? error.message;

/** Does what may fail by the host, and stops with this status and text if it does. */
function attempt(action, status, told) {
  try {
    return action();
  } catch (error) {
    throw new Stop(status, `${told}: ${reason_of(error)}`);
  }
}

export const bytes_of = (path) => attempt(() => readFileSync(path), 2, `${path} can't be read`);

/** A file that is a text of UTF-8. Of another one, letters would be lost without a word. */
export function text_of(path) {
  const bytes = bytes_of(path), is_text = isUtf8(bytes) && !bytes.includes(0);
  if (!is_text) throw new Stop(2, `${path} is no text of UTF-8: save it anew, in UTF-8 ("CSV UTF-8" in Excel)`);
  return bytes.toString();
}

/** The names in a folder, sorted. */
export const names_in = (folder) => attempt(() => readdirSync(folder).sort(), 2, `${folder} can't be read`);

/** The names in a folder, sorted; null if there is no such folder. */
export function names_if_folder(folder) {
  try {
    return readdirSync(folder).sort();
  } catch {
    return null;
  }
}

/** Makes a folder, and those above it, if it isn't there. */
export const make_folder = (path) => attempt(() => mkdirSync(path, { recursive: true }), 5, `${path} can't be made`);

/** Writes a file whole, or not at all. */
export const write_file = (path, bytes) => attempt(() => {
  writeFileSync(`${path}.new`, bytes);
  renameSync(`${path}.new`, path);
}, 5, `${path} can't be written`);
