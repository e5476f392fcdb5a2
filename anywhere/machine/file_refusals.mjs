// What is refused, in words: files that are no machine's, and a boot.
import { bytes_words, grouped } from "./number_words.mjs";

export const MOST_BYTES = 1048576; // of a file
export const MOST_FILES = 64;
export const MOST_LETTERS = 14; // of a name
export const MOST_FRAMES = 32768; // of a machine
const LEAST_FRAMES = 16;

/** Why files, {name, from: {name}, bytes}, are no machine's; null if nothing speaks against them. */
export function files_refused(files) {
  if (files.length > MOST_FILES) return `there are ${files.length} files, and ${MOST_FILES} fit`;
  const seen = new Map();
  for (const { name, from, bytes } of files) {
    const length = new TextEncoder().encode(name).length;
    if (!length) return `the file \`${from.name}\` has no name before its .s: name it`;
    if (length > MOST_LETTERS) {
      return `the name \`${name}\` has ${length} letters, ${MOST_LETTERS} fit: give the file a shorter one`;
    }
    if (/[/\0]/.test(name)) return `the name \`${name}\` has a slash: give the file another one`;
    if (name === "console") return "no file may be called `console`: that is the terminal's name";
    if (seen.has(name)) {
      const both = `${seen.get(name)} and ${from.name}`;
      return `two files are named \`${name}\`: ${both}. Take one away, or give it another name`;
    }
    if (bytes.length > MOST_BYTES) return too_large(name, bytes.length);
    seen.set(name, from.name);
  }
  return null;
}

export function too_large(name, bytes) {
  const size = bytes > 2 * MOST_BYTES ? bytes_words(bytes) : `${grouped(bytes)} bytes`;
  return `${name} has ${size}: a file has ${bytes_words(MOST_BYTES)} at most, which is ${grouped(MOST_BYTES)} bytes`;
}

/** A refusal of the kernel to boot, in words, and then its own word. */
export function boot_words(refusal, { frames }) {
  const [kind, cause, segment] = refusal.split(" ");
  const words = {
    BadConfig: `a machine has from ${LEAST_FRAMES} to ${grouped(MOST_FRAMES)} frames, and not ${grouped(frames)}`,
    BadPrograms: `the file number ${Number(cause) + 1} can't stay: its name or its size`,
    NoInit: "no file is called `init`, which runs first: name a program `init`, or its source init.s",
    Memory: "the browser has too little memory for this machine",
  }[kind];
  const of_init = {
    NotElf: "`init` is no program file: it begins with other bytes than one does",
    NoFrames: `\`init\` doesn't fit into ${grouped(frames)} frames: give the machine more`,
    BadSegment: `\`init\` can't be loaded: its segment ${segment} lies where none may be`,
    TooManyArgs: "`init` has too many arguments",
    ArgsTooLong: "the arguments of `init` are too long",
  }[cause];
  return `${(kind === "Init" ? of_init : words) ?? "this machine isn't booted"} (${refusal})`;
}
