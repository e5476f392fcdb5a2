// The file of a course, in TOML: its exercises, where their results lie, what is given by hand, and the rule for late
// days. What it names is read with it. What is written wrong is refused with its line, and with what is expected.
import { basename, dirname, resolve } from "node:path";
import { LINE } from "./csv.mjs";
import { text_of } from "./files.mjs";
import { Stop } from "./held.mjs";
import { same_form } from "./host_names.mjs";
import { read_roster, records_at } from "./roster.mjs";
import { is_count } from "./shape.mjs";
import { parts_of, read_table } from "./sheet.mjs";
import { shown } from "./shown.mjs";
import { MOMENT_FORM, MOST_DAYS, moment_of } from "./times.mjs";
import { is_table, line_of } from "./toml.mjs";

const is_text = (it) => typeof it === "string" && it.trim() !== "";
const is_list = (it) => Array.isArray(it) && it.every(is_table);
const is_moment = (it) => typeof it === "string" && moment_of(it) !== null;
const MOST_POINTS = 1000000;

const TEXT = [is_text, "a text that isn't empty"];
const DAYS = [(it) => is_count(it) && it <= MOST_DAYS, `a whole number of days, from 0 to ${MOST_DAYS}`];
const PERCENT = [(it) => is_count(it) && it <= 100, "a percent from 0 to 100, a whole number"];
const POINTS = [(it) => is_count(it) && it <= MOST_POINTS, `a whole number of points, from 0 to ${MOST_POINTS}`];
const TABLES = [is_list, "a list of tables"];

/** Each table of the file: its keys, and what stands behind them. Those that are needed have a `!` before them. */
const KNOWN = {
  course: {
    title: TEXT, roster: TEXT, by_hand: TEXT, late: TEXT, late_days: [is_table, "a table"], "!exercise": TABLES,
  },
  late_days: { free: DAYS, percent: PERCENT, most: DAYS },
  exercise: {
    name: TEXT, "!file": TEXT, "!work": TEXT, due: [is_moment, MOMENT_FORM], hand: TABLES, canvas: TEXT,
  },
  hand: { "!name": TEXT, "!points": POINTS },
};

/** The place of a key, for messages. */
function place_of(path, table, key) {
  const line = line_of(table, key);
  return line === undefined ? path : `${path}: line ${line}`;
}

/** Refuses a table that has what no such table has, or a value of another kind, or lacks one. `line` is where it is. */
function checked(table, kind, path, line) {
  const rows = Object.entries(KNOWN[kind]).map(([key, how]) => [key.replace(/^!/, ""), how, key.startsWith("!")]);
  const known = new Map(rows), names = [...known.keys()].join(", "), here = line ? `${path}: line ${line}` : path;
  for (const [key, it] of Object.entries(table)) {
    const at = place_of(path, table, key), [is_so, wanted] = known.get(key) ?? [];
    if (!is_so) throw new Stop(2, `${at}: ${shown(key)} means nothing here; ${kind} has ${names}`);
    if (!is_so(it)) throw new Stop(2, `${at}: ${key} is ${told(it)}, and is to be ${wanted}`);
  }
  const [lacking, [, wanted] = []] = rows.find(([key, , is_needed]) => is_needed && !(key in table)) ?? [];
  if (lacking) throw new Stop(2, `${here}: ${kind} has no ${lacking}: it is to be ${wanted}`);
  return table;
}

/** A value of the file, as a message shows it. */
function told(it) {
  if (typeof it === "string") return `"${shown(it)}"`;
  return Array.isArray(it) ? "a list" : is_table(it) ? "a table" : String(it);
}

/** The tables of a list; none if it isn't there. */
const tables_in = (table, kind, path) => (
  (table[kind] ?? []).map((it) => checked(it, kind, path, line_of(it, Object.keys(it)[0]) ?? line_of(table, kind)))
);

/** Refuses two of one name: only one of them could be meant. */
function check_names(its, what, path) {
  const twice = its.find(({ name }, k) => its.slice(0, k).some((it) => it.name === name));
  if (twice) throw new Stop(2, `${path} has two ${what} ${shown(twice.name)}: give one another name`);
}

/**
 * The rule for days late: so many are free for all exercises, each more takes so many percent, and after `most` of
 * these nothing counts.
 */
function rule_of(course, path) {
  if (course.late_days === undefined) return null;
  const { free = 0, percent = 100, most = null } = checked(course.late_days, "late_days", path,
    line_of(course, "late_days"));
  return { free, percent, most };
}

/** What is given by hand in an exercise. Its names are other ones than those of the parts that are graded. */
function hand_of(table, name, parts, path) {
  const hand = tables_in(table, "hand", path).map((it) => ({ name: same_form(it.name), points: it.points }));
  check_names(hand, `parts of ${shown(name)} that are given by hand and called`, path);
  const graded = new Set(parts.map((it) => `${it.run}: ${it.name}`)), both = hand.find((it) => graded.has(it.name));
  if (both) throw new Stop(2, `${path}: ${shown(both.name)} is graded, and can't be given by hand too`);
  return hand;
}

function exercise_of(table, path, at) {
  const { file, work, due = null, canvas = null } = table, whole = at(file), text = text_of(whole);
  const name = same_form(table.name ?? basename(file).replace(/\.toml$/, ""));
  const read = read_table(text, whole), parts = parts_of(read, whole);
  if (!is_text(read.title)) throw new Stop(2, `${whole} has no title that is a text`);
  const hand = hand_of(table, name, parts, path);
  return { name, title: read.title, path: whole, work: at(work), due, canvas, hand, text, table: read, parts };
}

/** What names a student's record of an exercise. */
export const key_of = (id, exercise) => JSON.stringify([same_form(id), exercise]);

/** Where a record stands, for messages. */
export const where_of = (record) => `${record.file}: line ${record[LINE]}`;

/** Records by their student and exercise; each knows its file. */
function by_keys(records, file) {
  const table = new Map();
  for (const record of records) {
    const exercise = same_form(record.exercise), part = same_form(record.part ?? ""), key = key_of(record.id, exercise);
    if (!table.has(key)) table.set(key, []);
    table.get(key).push({ ...record, exercise, part, file });
  }
  return table;
}

/** The course of a file. Its paths go from its own folder. */
export function read_course(path) {
  const table = checked(read_table(text_of(path), path), "course", path), folder = dirname(path);
  const at = (file) => resolve(folder, file);
  const records = (file, needed) => (file ? by_keys(records_at(at(file), needed), file) : new Map());
  const exercises = tables_in(table, "exercise", path).map((it) => exercise_of(it, path, at));
  if (exercises.length === 0) throw new Stop(2, `${path} has no [[exercise]]`);
  check_names(exercises, "exercises", path);
  return {
    title: table.title ?? basename(path), exercises, rule: rule_of(table, path),
    roster: table.roster ? read_roster(at(table.roster)) : null,
    by_hand: records(table.by_hand, ["id", "exercise", "part", "points"]),
    late: records(table.late, ["id", "exercise"]),
  };
}

/** Refuses records that are for nobody, for no exercise or no part: they would be lost without a word. */
export function check_records({ exercises, by_hand, late }, ids) {
  const all = [["by hand", by_hand], ["late", late]];
  for (const [what, record] of all.flatMap(([what, table]) => [...table.values()].flat().map((it) => [what, it]))) {
    const { id, exercise: name, part } = record, exercise = exercises.find((it) => it.name === name);
    const refuse = (why) => {
      throw new Stop(2, `${where_of(record)}: ${why}`);
    };
    if (!exercise) refuse(`there is no exercise ${shown(name)}`);
    if (!ids.has(same_form(id))) refuse(`there is no student ${shown(id)}`);
    const is_there = what === "late" || exercise.hand.some((it) => it.name === part);
    if (!is_there) refuse(`${shown(name)} has no part ${shown(part)}`);
  }
}
