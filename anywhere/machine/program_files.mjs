// The files of a machine, {name, bytes, symbols}: of a source that was assembled, of a program's bytes, of others; and
// which of them runs first.
import { mistake_words } from "./assembler_mistakes.mjs";
import { is_elf } from "./file_kinds.mjs";
import { MOST_LETTERS } from "./file_refusals.mjs";
import { PlacesInC, places_of } from "./source_places.mjs";

const SOURCE = ".s", FIRST = "init";

/** The file of a source, of which `made` is what the assembler told; {mistake}, in words, if it is refused. */
export function file_of_source(name, text, made) {
  if (!made.file) return { mistake: mistake_words(made, text) };
  return { name: name.slice(0, -SOURCE.length), bytes: made.file, symbols: places_of(text, made) };
}

/** The file of bytes. `table` tells the table of its lines, and `source_of` the text of a source that this names. */
export function file_of_bytes(name, bytes, table = () => "", source_of = () => "") {
  return { name, bytes, symbols: new PlacesInC(bytes, table, source_of) };
}

/** If no file is called init, the only program is, from now on. Tells the words for that, or nothing. */
export function name_first(files) {
  if (files.some((it) => it.name === FIRST)) return "";
  const programs = files.filter((it) => is_elf(it.bytes));
  if (programs.length !== 1) return "";
  const [only] = programs, { name, from } = only, is_long = name.length > MOST_LETTERS;
  only.name = FIRST;
  const told = `No file is called init: ${from?.name ?? name} runs as init, the only program that there is`;
  return is_long ? `${told}. In a list with others its name would be too long` : told;
}
