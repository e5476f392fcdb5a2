// Records of runs, as the terminal's --record writes them: read for a session, with the files that they name; written
// of a run.
import { createHash } from "node:crypto";
import { existsSync, readFileSync, writeFileSync } from "node:fs";
import { grouped } from "../machine/number_words.mjs";
import { ENDING_WORDS, record_in, record_text } from "../machine/record_text.mjs";
import { refuse } from "./arguments.mjs";

const MOST_EVENTS = 400000000; // of a record that is played at a launch: some seconds

const sum_of = (bytes) => createHash("sha256").update(bytes).digest("hex");

/** What the record at a path says; refused in words if it is none. */
function read_whole(path) {
  if (!existsSync(path)) refuse(`${path}: there is no such record`);
  try {
    return record_in(readFileSync(path));
  } catch (error) {
    return refuse(`${path}: ${error.message}`);
  }
}

/** The same, refused if it is too long. */
function read(path) {
  const said = read_whole(path), events = said.spans.reduce((sum, [, , count]) => sum + count, 0);
  const [has, most] = [events, MOST_EVENTS].map(grouped);
  if (events > MOST_EVENTS) refuse(`${path} has ${has} events, and ${most} are played here`);
  return said;
}

/**
 * A record that is at a path, {frames, spans, files, told}: its programs are those of the files that have their sums,
 * and `told` says what of the file is left out; nothing if it is whole.
 */
export function recorded(path, files) {
  const { frames, programs, spans, ending } = read(path), words = ENDING_WORDS[ending];
  const by_sum = new Map(files.map((it) => [sum_of(it.bytes), it]));
  const file_of = ({ sum, name }) => {
    const found = by_sum.get(sum), same = files.some((it) => it.name === name);
    const why = same ? "the file of this name is another one than that which was recorded" : "no file here is that";
    if (found) return { ...found, name };
    return refuse(`the record has the program ${name}, and ${why} (SHA-256 ${sum.slice(0, 12)}..)`);
  };
  return { frames, spans, files: programs.map(file_of), told: words && `${path}: ${words}` };
}

/** Writes a run as a record, up to where its record goes. Refuses to write over a file. */
export function save(path, run) {
  if (existsSync(path)) refuse(`${path} is there: name another file`);
  const programs = run.files.map(({ name, bytes }) => ({ name, size: bytes.length, sum: sum_of(bytes) }));
  writeFileSync(path, record_text({ frames: run.config.frames, programs, spans: run.events.spans() }));
}
