// The sheet of an exercise: what a student may know of it. It has the names of the parts and their points, an exercise
// that asks for the form alone, and the cases that the teacher has laid open. Nothing in it tells an answer, so it is
// handed out; `xv --check` grades by it, and makes it itself if it is given the teacher's exercise.
import { existsSync } from "node:fs";
import { basename, dirname, join } from "node:path";
import { text_of } from "./files.mjs";
import { Stop, held_exercise, made_exercise, packed, text_of_held, unpacked } from "./held.mjs";
import * as shape from "./shape.mjs";
import { shown } from "./shown.mjs";
import { NotRead, is_table, list_of, table_of, toml_of } from "./toml.mjs";

const KIND = "nektavoly sheet 1";
/** The answer that stands in a sheet in place of each right one. */
export const NO_ANSWER = "?";
const RUNS = 1000; // of a look at the form: enough to begin a program

/** The words in braces of a text. */
const keys_in = (text) => [...String(text).matchAll(/\{([^{}]*)\}/g)].map(([, key]) => key);

/** What a rule of a text asks: what stands before the colon of its line. */
export function question_of({ line }) {
  const [question, ...answer] = typeof line === "string" ? line.split(":") : [];
  return answer.length ? question.trim() : "";
}

/** Whether a rule allows so many lines with a number alone, and says how many. */
const is_numbered = (rule) => question_of(rule) !== "" && Number.isInteger(rule.numbered);

/** Whether a run takes a text, and no program. */
export const takes_text = (run) => list_of(run.rule).some((rule) => rule.line ?? rule.numbered ?? rule.predicts);

const files_of = (table, run) => (list_of(run.files).length ? run.files : list_of(table.files));
const program_of = (file) => file.replace(/\.s$/, "");

/** The tables of a list that is needed, each with a name. */
function named_in(list, what, path) {
  const all = list_of(list), is_named = (it) => is_table(it) && typeof it.name === "string";
  if (all.length === 0) throw new Stop(2, `${path} lacks ${what}`);
  if (!all.every(is_named)) throw new Stop(2, `${path}: of ${what} one has no name that is a text`);
  return all;
}

/**
 * The parts of an exercise, in the grader's order. A word in braces stays as it is: what it stands for may be secret.
 */
export function parts_of(table, path) {
  const rules_of = (run) => named_in(run.rule, "[[run.rule]]", path);
  return named_in(table.run, "[[run]]", path).flatMap((run) => rules_of(run).map((rule) => {
    const { name, points = 1 } = rule, part = { run: run.name, name, points, files: files_of(table, run) };
    if (!shape.is_count(points)) throw new Stop(2, `${path}: the points of ${shown(name)} are no number of points`);
    const question = question_of(rule);
    return question ? { ...part, question, ...(is_numbered(rule) ? { is_numbered: true } : {}) } : part;
  }));
}

/** The table of an exercise's text. */
export function read_table(text, name) {
  try {
    return table_of(text);
  } catch (error) {
    throw error instanceof NotRead ? new Stop(2, `${name}: ${error.message}`) : error;
  }
}

// ---- the exercise that asks for the form

const EXITS = "  li a0, 0\n  li a7, 2\n  ecall\n";

/** A program that begins another one: the kernel says whether it is one. */
const begins = (name) => (
  `  la a0, name\n  la a1, words\n  li a7, 7\n  ecall\n${EXITS}.data\nwords: .space 8\nname: .asciz "${name}"\n`
);

/** The program that runs beside what is handed in, as the name of a file and its source; none if that is `init`. */
function beside(table, run) {
  const programs = [...new Set(files_of(table, run).map(program_of))];
  if (programs.includes("init")) return null;
  const is_begun = !takes_text(run) && programs.length === 1 && /^[\w.-]{1,14}$/.test(programs[0]);
  const [name] = programs;
  return is_begun ? [`begins-${name}/init.s`, begins(name)] : ["exits/init.s", EXITS];
}

const rule_text = (lines) => ["[[run.rule]]", ...lines.map(([name, it]) => `${name} = ${toml_of(it)}`)].join("\n");

/**
 * The rules of the form in place of one of the exercise. The first keeps the name and the points, and the question. How
 * many lines have a number is asked by itself, for no points: else a wrong answer would hide it.
 */
function form_of_rule(rule) {
  const question = question_of(rule), head = [["name", rule.name], ["points", rule.points ?? 1]];
  const asks = question ? ["line", `${question}: ${NO_ANSWER}`] : ["status", 0];
  const first = rule_text([...head, asks]);
  const numbered = [["name", rule.name], ["points", 0], ["numbered", rule.numbered]];
  return is_numbered(rule) ? [first, rule_text(numbered)] : [first];
}

function form_of_run(table, run) {
  const its = beside(table, run), lines = [["name", run.name], ["files", files_of(table, run)], ["most_runs", RUNS]];
  if (its) lines.push(["with", [its[0]]]);
  const head = ["[[run]]", ...lines.map(([name, it]) => `${name} = ${toml_of(it)}`)].join("\n");
  return [head, ...list_of(run.rule).flatMap(form_of_rule)].join("\n\n");
}

/** Of each variant what the questions name: that the student was told. */
function form_of_variants(table) {
  const rules = list_of(table.run).flatMap((run) => list_of(run.rule));
  const keys = [...new Set(rules.flatMap((rule) => keys_in(question_of(rule))))];
  const line_of = (variant, key) => `${toml_of(key)} = ${toml_of(variant[key])}`;
  const told = list_of(table.variant).map((it) => keys.filter((key) => key in it).map((key) => line_of(it, key)));
  return told.filter((lines) => lines.length).map((lines) => ["[[variant]]", ...lines].join("\n"));
}

/** The exercise that asks for the form alone. */
function form_of(table) {
  const all = list_of(table.run), programs = all.map((run) => beside(table, run)).filter(Boolean);
  const runs = all.map((run) => form_of_run(table, run));
  const parts = [`title = ${toml_of(table.title)}`, ...form_of_variants(table), ...runs];
  const sources = Object.fromEntries(programs.map(([name, source]) => [name, Buffer.from(source)]));
  return made_exercise("form.toml", `${parts.join("\n\n")}\n`, sources);
}

// ---- sheets

/** Where the open cases of an exercise lie if nobody says: a file of its name in the folder `open` beside it. */
const usual_open = (path) => join(dirname(path), "open", basename(path));

/** The sheet of the exercise that lies here; its open cases are an exercise of their own. */
export function sheet_of(path, open = existsSync(usual_open(path)) ? usual_open(path) : null) {
  const table = read_table(text_of_held(held_exercise(path)), path);
  const opened = open === null ? null : held_exercise(open);
  return { title: table.title, parts: parts_of(table, path), form: { ...form_of(table), named: path }, open: opened };
}

/** A sheet as the text of a file. */
export function text_of_sheet({ title, parts, form, open }) {
  return `${JSON.stringify({ kind: KIND, title, parts, form: packed(form), open: open && packed(open) }, null, 1)}\n`;
}

const FILE = shape.either("a text, or bytes in base64", shape.text, shape.table({ base64: shape.text }));
/** The shape of an exercise with its files, in JSON. */
export const EXERCISE = shape.table({ path: shape.text, files: shape.table_of_all(FILE) });
const SHEET = shape.table({
  title: shape.text, form: EXERCISE, open: shape.maybe(EXERCISE),
  parts: shape.list(shape.table({
    run: shape.text, name: shape.text, points: shape.count, files: shape.list(shape.text),
    question: shape.maybe(shape.text), is_numbered: shape.maybe(shape.truth),
  })),
});

/** The exercise that a file of this name has, with its own text. */
export function unpacked_in(it, path) {
  const lacks = Object.hasOwn(it.files, it.path) ? "" : shown(it.path);
  if (lacks) throw new Stop(2, `${path}: an exercise lacks its own file, ${lacks}`);
  return unpacked(it, path);
}

/** The sheet of the text of a file. What is wrong in its exercises is told by the name of this file. */
export function sheet_of_text(text, path) {
  const it = shape.value_of(text, path, SHEET, KIND, "sheet");
  return { ...it, form: unpacked_in(it.form, path), open: it.open ? unpacked_in(it.open, path) : null };
}

/** The sheet of a file: one that was handed out, or an exercise. */
export const read_sheet = (path) => (path.endsWith(".json") ? sheet_of_text(text_of(path), path) : sheet_of(path));
