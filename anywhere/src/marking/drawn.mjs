// Exercises whose numbers nobody can know beforehand: their variants are drawn by a secret of the teacher's. A file of
// draws says how each key of a variant comes about; what is drawn is a function of the secret, the exercise's title, the
// variant and the key. So the same secret gives the same exercise, and each exercise has numbers of its own.
import { createHmac, randomBytes } from "node:crypto";
import { existsSync, realpathSync, writeFileSync } from "node:fs";
import { basename, dirname, join, posix, relative, sep } from "node:path";
import { bytes_of, make_folder, reason_of, text_of, write_file } from "./files.mjs";
import { Stop, held_exercise, text_of_held } from "./held.mjs";
import { read_table } from "./sheet.mjs";
import { shown } from "./shown.mjs";
import { is_table, line_of, list_of, toml_of } from "./toml.mjs";

const LEAST_BYTES = 16; // of a secret: nobody tries all of so many
const VARIANTS = 101;
const MOST_VARIANTS = 1000;
const LETTERS = "abcdefghijklmnopqrstuvwxyz";
const is_whole = Number.isSafeInteger;

/** Makes a file with a new secret, and writes over none. */
export function make_secret(path) {
  try {
    writeFileSync(path, `${randomBytes(32).toString("hex")}\n`, { flag: "wx", mode: 0o600 });
  } catch (error) {
    throw error.code === "EEXIST" ? new Stop(5, `${path} is there: what it has drawn, another one won't`)
      : new Stop(5, `${path} can't be written: ${reason_of(error)}`);
  }
}

function secret_of(path) {
  const bytes = bytes_of(path);
  if (bytes.length >= LEAST_BYTES) return bytes;
  throw new Stop(2, `${path} has ${bytes.length} bytes, and a secret has ${LEAST_BYTES} at least`);
}

/** What draws numbers below others, one after the other, for a place that is named by texts. */
function draws_at(secret, place) {
  let turn = 0;
  return (below) => {
    const word = createHmac("sha256", secret).update(JSON.stringify([...place, turn++])).digest();
    return Number(word.readBigUInt64BE(0) % BigInt(below));
  };
}

// ---- what a key may say: each kind gives the value, or null if it isn't written so

const is_range = (it) => Array.isArray(it) && it.length === 2 && it.every(is_whole) && it[0] >= 0 && it[0] <= it[1];
const between = ([least, most], draw) => least + draw(most - least + 1);
const is_texts = (it) => Array.isArray(it) && it.length > 0 && it.every((one) => typeof one === "string");

function sum_of(parts, had) {
  const all = list_of(parts).map((it) => (typeof it === "string" ? had[it] : it));
  return all.length > 0 && all.every(is_whole) ? all.reduce((one, two) => one + two, 0) : null;
}

/** A text in which each word in braces is a key that was drawn before. */
function text_with(it, had) {
  const lacks = typeof it !== "string" || [...it.matchAll(/\{([^{}]*)\}/g)].some(([, key]) => !(key in had));
  return lacks ? null : it.replace(/\{([^{}]*)\}/g, (_, key) => had[key]);
}

const KINDS = {
  number: (it, draw) => (is_range(it) ? between(it, draw) : null),
  letters: (it, draw) => (is_range(it) && it[0] > 0
    ? Array.from({ length: between(it, draw) }, () => LETTERS[draw(LETTERS.length)]).join("") : null),
  one_of: (it, draw) => (is_texts(it) ? it[draw(it.length)] : null),
  sum: (it, _, had) => sum_of(it, had),
  length: (it, _, had) => (typeof had[it] === "string" ? had[it].length : null),
  text: (it, _, had) => text_with(it, had),
};

function value_of(key, how, draw, had, where) {
  const [kind, ...others] = is_table(how) ? Object.keys(how) : [];
  const is_kind = Object.hasOwn(KINDS, kind ?? "") && others.length === 0;
  const value = is_kind ? KINDS[kind](how[kind], draw, had) : null;
  if (value !== null) return value;
  throw new Stop(2, `${where}: ${shown(key)} takes one of ${Object.keys(KINDS).join(", ")}, of what stands above it`);
}

/** The variants that a secret draws, so many. */
function variants_of({ keys, path }, secret, title, count) {
  return Array.from({ length: count }, (_, number) => {
    const had = Object.create(null);
    for (const [key, how] of Object.entries(keys)) {
      const draw = draws_at(secret, [title, number, key]);
      had[key] = value_of(key, how, draw, had, `${path}: line ${line_of(keys, key)}`);
    }
    return had;
  });
}

// ---- the exercise

const lines_of = (table, without) => Object.entries(table).filter(([key]) => !without.includes(key))
  .map(([key, it]) => `${toml_of(key)} = ${toml_of(it)}`);
const part_of = (head, table, ...without) => [head, ...lines_of(table, without)].join("\n");

/** Whether a file lies beside an exercise, or below: a program of the teacher's own, which may know the answer. */
const is_own = (file) => !posix.normalize(file).startsWith("../");

/** A path of an exercise's, from another folder; what is its own goes with it. */
const moved = (file, from, to) => (is_own(file) ? file
  : posix.normalize([...relative(to, from).split(sep), file].filter(Boolean).join("/")));

/** Copies the files that lie beside an exercise, or below, to another folder. */
function copy_own(table, from, to) {
  const its = list_of(table.run).flatMap((run) => list_of(run.with)).filter(is_own);
  for (const file of new Set(its)) {
    make_folder(dirname(join(to, file)));
    write_file(join(to, file), bytes_of(join(from, file)));
  }
}

function run_of(run, from, to) {
  const placed = run.with ? { ...run, with: list_of(run.with).map((file) => moved(file, from, to)) } : run;
  return [part_of("[[run]]", placed, "rule"), ...list_of(run.rule).map((rule) => part_of("[[run.rule]]", rule))];
}

/** The text of an exercise with these variants, for a file in another folder. */
function text_with_variants(table, variants, from, to) {
  const head = [part_of("# Made by a secret: whoever has this file has the answers.", table, "variant", "run")];
  const parts = [head, ...variants.map((it) => part_of("[[variant]]", it)), ...list_of(table.run).flatMap((run) => run_of(run, from, to))];
  return `${parts.join("\n\n")}\n`;
}

/** The file of draws of an exercise if nobody names one: of its name, in the folder `draw` beside it. */
const usual_draws = (path) => join(dirname(path), "draw", basename(path));

function count_of(word) {
  const count = word === undefined ? VARIANTS : Number(word);
  if (is_whole(count) && count > 0 && count <= MOST_VARIANTS) return count;
  throw new Stop(1, `--variants takes a number from 1 to ${MOST_VARIANTS}`);
}

/** That the draws give what the exercise's own variants have, and so what its texts and numbers stand for. */
function check_keys({ keys, path }, table) {
  const first = list_of(table.variant)[0] ?? {};
  const lacking = Object.keys(first).find((key) => !(key in keys));
  if (lacking) throw new Stop(2, `${path} doesn't draw ${shown(lacking)}, which the exercise's variants have`);
}

/** That nothing is written over of which something is drawn. */
function check_apart(to, ...paths) {
  const real = (path) => (existsSync(path) ? realpathSync(path) : path);
  const over = paths.find((path) => existsSync(to) && real(path) === real(to));
  if (over) throw new Stop(1, `--to names ${over} itself`);
}

/** Writes the exercise that a secret makes of this one. It is read once by the grader, which refuses what is none. */
export function write_drawn(path, { secret, to, draw = usual_draws(path), variants }) {
  check_apart(to, path, secret, draw);
  if (!existsSync(draw)) throw new Stop(2, `${draw} isn't there: it says how the numbers of ${path} are drawn`);
  const table = read_table(text_of_held(held_exercise(path)), path);
  const draws = { keys: read_table(text_of(draw), draw), path: draw };
  check_keys(draws, table);
  const made = variants_of(draws, secret_of(secret), String(table.title), count_of(variants));
  if (relative(dirname(path), dirname(to)) !== "") copy_own(table, dirname(path), dirname(to));
  write_file(to, text_with_variants(table, made, dirname(path), dirname(to)));
  held_exercise(to);
  return `${to}: ${made.length} variants, each by the secret\n`;
}
