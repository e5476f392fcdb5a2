// `xv --check EXERCISE FOLDER`: what a student asks before handing in. It grades by the sheet of the exercise, by what
// grades a class, and tells nothing that isn't in the sheet: no answer can be tried on it.
import { statSync } from "node:fs";
import { basename, join, resolve } from "node:path";
import { write_all } from "../streams.mjs";
import { Refusal } from "../grading/words.mjs";
import { is_right, why_of } from "./cases.mjs";
import { names_in, reason_of } from "./files.mjs";
import { Stop, exercise_of_held, graded } from "./held.mjs";
import { bytes_if_plain } from "./plain.mjs";
import { NO_ANSWER, read_sheet } from "./sheet.mjs";
import { points_text, shown } from "./shown.mjs";
import { is_unmarked_utf16, text_of_utf16 } from "./utf16.mjs";

const USAGE = `usage: xv --check EXERCISE FOLDER [--name NAME] [--part N]

Looks at what you are about to hand in: whether the files are there and have their form, whether each question has an
answer, and the cases that your teacher has laid open. EXERCISE is the sheet that was handed out, as
programs/course/check/2-pages.json, and FOLDER yours. Whether an answer is right it doesn't tell.
  --name NAME   the name under which you hand in, if FOLDER isn't called so: it says which numbers are yours
  --part N      the status is that of the open case N alone; of 0, that of the form alone
Status: 0 nothing is missing; 3 something is; 1 the words are refused; 2 the EXERCISE is, or FOLDER can't be read.
`;
const MISSING = 3;
const OPTIONS = { "--name": /^[^]+$/, "--part": /^\d{1,4}$/ };

function read_words(words) {
  const asked = { files: [] };
  for (const left = [...words]; left.length;) {
    const word = left.shift();
    if (word === "--help") throw new Stop(0, USAGE);
    if (!word.startsWith("--")) asked.files.push(word);
    else if (OPTIONS[word]?.test(left[0] ?? "")) asked[word.slice(2)] = left.shift();
    else if (OPTIONS[word]) throw new Stop(1, `${word} takes a word behind it: xv --check --help`);
    else throw new Stop(1, `there is no option ${word} here: xv --check --help`);
  }
  if (asked.files.length !== 2) throw new Stop(1, `${USAGE.split("\n")[0]}; xv --check --help says more`);
  const [exercise, folder] = asked.files;
  return { exercise, folder, name: asked.name ?? basename(resolve(folder)), part: asked.part && Number(asked.part) };
}

// ---- the form

/** The bytes of a file, for hints alone; none if the grader wouldn't read it either. */
const text_at = (folder, file) => bytes_if_plain(join(folder, file)) ?? Buffer.alloc(0);

/** The text of a file, for hints alone. */
function text_of(folder, file) {
  const bytes = text_at(folder, file);
  return text_of_utf16(bytes) ?? bytes.toString();
}

/** Whether the line that has this question has nothing behind it. The grader has found one such line alone. */
function is_left_open(text, question) {
  const marks = "[ \\t\\r#*>_`.,;+-]*", words = question.replace(/[\\^$.|?*+()[\]{}]/g, "\\$&");
  return new RegExp(`^${marks}${words}${marks}:${marks}$`, "im").test(text);
}

/** The words of a case of the form that say what the student's own number is, as `517` for `{small}`. */
const asked_in = (why) => /`([^]*):`/.exec(why)?.[1];

/** What the form lacks by the cases of a part; null if nothing. */
function lack_of(part, [it, numbered], text) {
  if (it.standing === "refused") return it.cause;
  if (!part.question) return null;
  if (!is_right(it) && !it.why.endsWith("` has another answer")) return it.why;
  if (numbered && !is_right(numbered)) return numbered.why;
  if (is_right(it)) return `${part.name}: the answer is \`${NO_ANSWER}\``;
  const question = asked_in(it.why);
  return is_left_open(text, question) ? `\`${question}:\` has no answer` : null;
}

/** That the kernel couldn't begin what was handed in; null if it could, or wasn't asked. */
function no_program(part, run_number, told) {
  const is_refused = /^call 1 7 -1$/m.test(told.file(`notes-${run_number}`).toString("latin1"));
  const what = "no program for this machine (an ELF file for RISC-V, 64 bits)";
  return is_refused ? `${part.files.join(" or ")}: ${what}` : null;
}

/** The number of the run of each part, from 1. */
function run_numbers(parts) {
  const key_of = ({ run, files }) => JSON.stringify([run, files]);
  let number = 0;
  return parts.map((part, k) => (k > 0 && key_of(parts[k - 1]) === key_of(part) ? number : ++number));
}

/**
 * What a look at the form gives: each part with the names that this student's numbers make, and what it lacks, or null.
 */
function formed({ parts, form }, folder, name) {
  return graded(form, folder, name, (told) => {
    const runs = run_numbers(parts), left = [...told.cases];
    const asked = parts.reduce((sum, { is_numbered }) => sum + (is_numbered ? 2 : 1), 0);
    if (asked !== left.length) throw new Stop(2, `${form.named}: its parts aren't those of its form`);
    return parts.map((part, k) => {
      const its = left.splice(0, part.is_numbered ? 2 : 1);
      const text = part.question ? part.files.map((file) => text_of(folder, file)).join("\n") : "";
      const lack = lack_of(part, its, text) ?? no_program(part, runs[k], told);
      return { ...part, run: its[0].run, name: its[0].name, lack };
    });
  });
}

/** What is to be known of a file that no grader reads as it is meant. */
function hints_of(folder, files) {
  const what = "is a text of UTF-16 without a byte order mark, which isn't read: save it as UTF-8";
  const strange = files.filter((file) => is_unmarked_utf16(text_at(folder, file)));
  return strange.map((file) => `${file} ${what} (Set-Content -Encoding utf8)`);
}

/** The names in what is handed in, sorted, without those that begin with a dot; none if it is no folder. */
function handed_in(folder) {
  try {
    if (!statSync(folder).isDirectory()) return [];
  } catch (error) {
    throw new Stop(error.code === "ENOENT" ? 1 : 2, `${folder} can't be read: ${reason_of(error)}`);
  }
  return names_in(folder).filter((name) => !name.startsWith("."));
}

/** What a look at a folder gives: {title, name, wanted, there, parts, hints, open}. */
export function look_at(sheet, folder, name) {
  const there = handed_in(folder), { wanted } = exercise_of_held(sheet.form);
  const parts = formed(sheet, folder, name), hints = hints_of(folder, wanted.filter((file) => there.includes(file)));
  const open = sheet.open ? graded(sheet.open, folder, name, ({ cases }) => cases) : [];
  return { title: sheet.title, name, wanted, there, parts, hints, open };
}

/** Whether nothing is missing: of the form, and of each open case, or of one alone. */
export function is_whole({ parts, open, hints }, part) {
  const is_formed = parts.every(({ lack }) => lack === null) && hints.length === 0;
  if (part === undefined) return is_formed && open.every(is_right);
  return part === 0 ? is_formed : open[part - 1] !== undefined && is_right(open[part - 1]);
}

// ---- what is told

const counted = (count, one, many) => `${count} ${count === 1 ? one : many}`;

function lines_of_files({ wanted, there }) {
  const found = there.filter((file) => wanted.includes(file)), others = there.filter((file) => !wanted.includes(file));
  return [
    `Files: ${found.length ? found.map(shown).join(", ") : "none that is asked for"}`,
    ...(others.length ? [`  not looked at: ${others.map(shown).join(", ")}`] : []),
  ];
}

function lines_of_parts({ parts }) {
  const sum = parts.reduce((all, { points }) => all + points, 0);
  return [`Parts, ${counted(sum, "point", "points")}:`, ...parts.map(({ points, lack, run, name }) => (
    `  ${points_text(points)}  ${lack === null ? "is there " : "MISSING  "} ${shown(run)}: ${shown(name)}`
  ))];
}

function line_of_open(it, k) {
  const head = `  ${String(k + 1).padStart(2)}  ${is_right(it) ? "right" : "WRONG"}`;
  const name = `${shown(it.run)}: ${shown(it.name)}`;
  return `${head}  ${name}${is_right(it) ? "" : `: ${shown(why_of(it))}`}`;
}

const lines_of_open = ({ open }) => (open.length === 0 ? [] : ["Open cases:", ...open.map(line_of_open)]);

/** What is missing, or that nothing is. */
function lines_of_end(look) {
  const later = "Whether the answers are right, the grader says when you have handed in.";
  if (is_whole(look)) return [`Nothing is missing. ${later}`];
  const missing = [...look.parts.map(({ lack }) => lack).filter((it) => it !== null), ...look.hints];
  if (missing.length === 0) return ["All is there, and an open case is wrong."];
  return ["Missing:", ...[...new Set(missing)].map((it) => `  ${shown(it)}`)];
}

/** What a look gives, as text. */
export function told(look) {
  const lines = [lines_of_files, lines_of_parts, lines_of_open, lines_of_end].flatMap((lines_of) => lines_of(look));
  return [`${shown(look.title)}, of ${shown(look.name)}`, ...lines].map((line) => `${line}\n`).join("");
}

/** Does what the words of `xv --check` ask for, and gives the exit status. */
export function check(...words) {
  try {
    const asked = read_words(words), look = look_at(read_sheet(asked.exercise), asked.folder, asked.name);
    const { length } = look.open;
    if (asked.part > length) throw new Stop(1, `there is no open case ${asked.part}: they are ${length}`);
    write_all(1, told(look));
    return is_whole(look, asked.part) ? 0 : MISSING;
  } catch (error) {
    if (!(error instanceof Stop || error instanceof Refusal)) throw error;
    if (error.status === 0) write_all(1, error.message);
    else if (error.message) write_all(2, `xv: ${error.message}\n`);
    return error.status;
  }
}
