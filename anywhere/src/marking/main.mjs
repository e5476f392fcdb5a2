// The commands of anywhere/marks.mjs.
import { head_of } from "../grading/grade.mjs";
import { Refusal } from "../grading/words.mjs";
import { own_words } from "../words.mjs";
import { write_all } from "../streams.mjs";
import { Stop } from "./held.mjs";

/** Each command: how many words it takes, and which options: true if it needs one, null if one has no value. */
const COMMANDS = {
  sheet: [1, { "--open": false }],
  try: [2, {}],
  secret: [1, {}],
  draw: [1, { "--secret": true, "--to": true, "--draw": false, "--variants": false }],
  collect: [2, { "--to": true, "--roster": false, "--exercise": false, "--prefix": false }],
  json: [1, { "--to": true, "--on": false }],
  csv: [2, {}],
  junit: [1, {}],
  html: [1, { "--to": true, "--closed": null, "--page": false }],
  gradescope: [1, { "--to": true, "--roster": false, "--open": false, "--node": false }],
  github: [1, { "--to": true, "--prefix": false }],
  // What an autograder runs: `gradescope` writes it, and no person.
  autograde: [4, {}],
};

/** What does each command; what one alone needs is read when it is asked for. It gives what is to be printed. */
const ACTS = {
  sheet: async ([exercise], { open }) => {
    const { sheet_of, text_of_sheet } = await import("./sheet.mjs");
    return text_of_sheet(sheet_of(exercise, open));
  },
  try: async (words) => (await import("./tried.mjs")).try_exercise(...words),
  secret: async ([path]) => (await import("./drawn.mjs")).make_secret(path),
  draw: async ([exercise], options) => (await import("./drawn.mjs")).write_drawn(exercise, options),
  collect: async (words, options) => (await import("./collect.mjs")).collect(...words, options),
  json: async ([course], options) => (await import("./gradebook.mjs")).write_book(course, options),
  csv: async ([way, file]) => (await import("./tables.mjs")).table(way, file),
  junit: async ([file]) => (await import("./junit.mjs")).junit(file),
  html: async ([file], options) => (await import("./pages.mjs")).write_pages(file, options),
  gradescope: async ([exercise], options) => (await import("./gradescope.mjs")).write_autograder(exercise, options),
  github: async ([sheet], options) => (await import("./github.mjs")).write_template(sheet, options),
  autograde: async (words) => (await import("./gradescope.mjs")).autograde(...words),
};

/** What the words of a command ask for: {words, options}. */
function read_words(name, left) {
  const [count, takes] = COMMANDS[name], words = [], options = {};
  while (left.length > 0) {
    const word = left.shift();
    if (!word.startsWith("--")) words.push(word);
    else if (!(word in takes)) throw new Stop(1, `${name} has no option ${word}; --help tells them`);
    else if (takes[word] !== null && left.length === 0) throw new Stop(1, `${word} takes a word behind it`);
    else options[word.slice(2)] = takes[word] === null ? true : left.shift();
  }
  const missing = Object.keys(takes).find((option) => takes[option] && !(option.slice(2) in options));
  if (missing) throw new Stop(1, `${name} needs ${missing}; --help tells what for`);
  const wanted = `${count} ${count === 1 ? "word" : "words"} beside options`;
  if (words.length !== count) throw new Stop(1, `${name} takes ${wanted}; --help tells them`);
  return { words, options };
}

/** Does what these words ask for, and gives what is to be printed. */
export async function done(all) {
  const [name, ...left] = all.map(String);
  if (name === "--help" || name === "-h") return head_of(new URL("../../marks.mjs", import.meta.url));
  if (!Object.hasOwn(COMMANDS, name ?? "")) throw new Stop(1, "usage: marks COMMAND ..; --help tells the commands");
  const { words, options } = read_words(name, left);
  return ACTS[name](words, options);
}

/** Does what the words of this process ask for, and gives the exit status. */
export async function main(program) {
  try {
    const text = await done(own_words());
    if (text) write_all(1, text);
    return 0;
  } catch (error) {
    if (!(error instanceof Stop || error instanceof Refusal)) throw error;
    if (error.message) write_all(2, `${program}: ${error.message}\n`);
    return error.status;
  }
}
