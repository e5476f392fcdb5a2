// --why and --picture: xv_why runs programs, with the lines of programs in C, and tells why processes end or wait; or
// it notes each event, and xv_picture draws what was noted.
import { lines_of } from "./lines.mjs";
import { module_of, run } from "./program.mjs";
import { by_lines, write_all } from "./streams.mjs";
import { HeldFile } from "./wasi.mjs";
import { rows_of } from "./words.mjs";

const NOTE = new RegExp(rows_of("match").get("notes"));
const UNWRITTEN = 5;

/** Runs the words by xv_why, and gives each line that it tells to `hand_on`. Gives the status. */
function tell_why(words, hand_on, streams = {}) {
  const { option, files } = lines_of(words);
  const lines = by_lines(hand_on);
  const status = run(module_of("xv_why"), "xv_why", [...option, ...words], { ...streams, files, errors: lines.take });
  lines.end();
  return status;
}

/** Tells who runs the programs something on standard error. If that takes nothing, nothing else changes. */
function tell(bytes) {
  try {
    write_all(2, bytes);
  } catch { /* nobody hears it */ }
}

const bytes_of = (line) => Buffer.from(`${line}\n`, "latin1");

/** Runs the words, and tells why on standard error. */
export const why = (words) => tell_why(words, (line) => tell(bytes_of(line)));

/**
 * Runs the words and draws the run on standard output; the status is that of the run, or 5 if the picture can't be
 * written. If nothing was noted, since words, a FILE or the boot were refused, nothing is drawn. Without words it draws
 * the trace that standard input has.
 */
export function picture(words) {
  const draw = (streams) => run(module_of("xv_picture"), "xv_picture", [], streams);
  if (words.length === 0) return draw();
  const notes = new HeldFile(); // bytes: many runs have millions of notes
  const hand_on = (line) => (NOTE.test(line) ? notes.write(bytes_of(line)) : tell(bytes_of(line)));
  const status = tell_why(["--notes", ...words], hand_on, { output: tell });
  notes.seek(0, 0);
  return notes.size === 0 || draw({ input: notes }) === 0 ? status : UNWRITTEN;
}
