// All marks of a course in one value of JSON: of each student each exercise, with its parts, points and reasons, what
// was given by hand, days late, and what a mark was before it was given anew.
import { existsSync } from "node:fs";
import { BOOK } from "./book_shape.mjs";
import { is_right } from "./cases.mjs";
import { check_records, key_of, read_course } from "./course.mjs";
import { text_of, write_file } from "./files.mjs";
import { days_late, given_by_hand, late_of, part_of, sum_of } from "./given.mjs";
import { Stop } from "./held.mjs";
import { changes_since, departed_since, with_changes } from "./history.mjs";
import { same_form } from "./host_names.mjs";
import { lines_to_type, link_to, place_of, runs_of, variant_of } from "./places.mjs";
import { value_of } from "./shape.mjs";
import { shown } from "./shown.mjs";
import { is_day } from "./times.mjs";
import { marks_in } from "./work.mjs";

const KIND = "nektavoly marks 1";

// ---- who they are

/**
 * The marks of an exercise, by folders; null if it isn't graded yet. Two folders that are the same in NFC are refused.
 */
function marks_of({ work, path, text, parts }) {
  const marks = new Map(), found = marks_in(work, path, text, parts);
  for (const mark of found ?? []) {
    const folder = same_form(mark.folder), differ = "which differ in the form of their letters alone";
    if (marks.has(folder)) throw new Stop(2, `${work} has two folders ${shown(folder)}, ${differ}`);
    marks.set(folder, mark);
  }
  return found && marks;
}

/** The students: those of the roster, and folders that nobody in it has. */
function students_of(roster, all) {
  const folders = [...new Set(all.flatMap((marks) => [...(marks?.keys() ?? [])]))].sort();
  const alone = (folder, more) => ({ id: folder, name: folder, folders: [folder], ...more });
  if (roster === null) return { students: folders.map((folder) => alone(folder)), strangers: [] };
  const owners = new Map(folders.map((folder) => [folder, roster.find(folder)]));
  const folders_of = (student) => folders.filter((folder) => owners.get(folder) === student);
  const of_roster = roster.students.map((it) => ({ ...it, folders: folders_of(it) }));
  const strangers = folders.filter((folder) => !owners.get(folder));
  return { students: [...of_roster, ...strangers.map((folder) => alone(folder, { is_stranger: true }))], strangers };
}

/** The one mark of a student in an exercise; two folders of one student are refused. */
function mark_of(student, marks, exercise) {
  if (marks === null) return { state: "not graded", reason: "this exercise isn't graded yet" };
  const found = student.folders.filter((folder) => marks.has(folder));
  if (found.length > 1) {
    throw new Stop(2, `${shown(student.id)} has two folders in ${exercise.name}: ${found.map(shown).join(", ")}`);
  }
  return found.length ? marks.get(found[0]) : { state: "missing", reason: "nothing was handed in" };
}

// ---- what a student is shown of a part that is lacking

/** How to see what a run came to: the lines to type, and a link of the page, if an event is known. */
function show_of(run, number, part, sources, mark) {
  const own = run.asks_text ? [] : sources, at = run.asks_text ? "last" : place_of(part, mark.notes(number));
  return {
    run: run.name, lines: lines_to_type(run, sources[0]?.[0] ?? "init.s"), link: at && link_to(run, own, at),
    is_closed: run.is_closed || run.asks_text,
  };
}

/**
 * The same of each run with a part that lacks something. What lies beside the exercise no student has, nor is to have.
 */
function shows_of(exercise, mark) {
  if (mark.state !== "graded" || mark.parts.every(is_right)) return [];
  const runs = runs_of(exercise.table, exercise.path, variant_of(exercise.table, mark.folder));
  const sources = Object.entries(mark.sources()), left = [...mark.parts];
  return runs.flatMap((run, k) => {
    const part = left.splice(0, run.rules).find((it) => !is_right(it));
    const is_shown = part && part.standing !== "refused" && !run.has_own;
    return is_shown ? [show_of(run, k + 1, part, sources, mark)] : [];
  });
}

// ---- the whole

function entry_of(student, exercise, marks, course, left) {
  const { sources, notes, ...mark } = mark_of(student, marks, exercise), key = key_of(student.id, exercise.name);
  const hand = given_by_hand(exercise, course.by_hand.get(key) ?? []);
  const late = late_of(course.rule, days_late(exercise, course.late.get(key) ?? []), left);
  const reached = sum_of([...(mark.parts ?? []), ...hand].map(({ points }) => points ?? 0));
  return {
    exercise: exercise.name, ...mark, hand, late, reached,
    points: part_of(reached, late.percent), of: points_of(exercise),
    show: shows_of(exercise, { ...mark, sources, notes }),
  };
}

const points_of = ({ parts, hand }) => sum_of([...parts, ...hand].map(({ points }) => points));

/** A student with the marks of all exercises. Free days go in the order of these. */
function student_of({ folders, ...student }, course, all) {
  let left = course.rule?.free ?? 0;
  const marks = course.exercises.map((exercise, k) => {
    const entry = entry_of({ folders, ...student }, exercise, all[k], course, left);
    left -= entry.late.free;
    return entry;
  });
  return { ...student, marks, points: sum_of(marks.map((it) => it.points)), of: sum_of(marks.map((it) => it.of)) };
}

/** What is told of an exercise. Its parts have the names that all students' have in common. */
function told_of(exercise) {
  const { name, title, due, canvas, hand } = exercise;
  const parts = exercise.parts.map((it) => ({ run: it.run, name: it.name, points: it.points }));
  return { name, title, due, ...(canvas === null ? {} : { canvas }), points: points_of(exercise), hand, parts };
}

/** The book of a course's file. */
function book_of(path) {
  const course = read_course(path), all = course.exercises.map(marks_of);
  const { students, strangers } = students_of(course.roster, all);
  check_records(course, new Set(students.map(({ id }) => id)));
  return {
    kind: KIND, title: course.title, late_days: course.rule, exercises: course.exercises.map(told_of), strangers,
    students: students.map((student) => student_of(student, course, all)),
  };
}

// ---- files

/** Refuses a book in which a student's marks aren't those of the exercises, one for each, with its parts. */
function check_marks({ exercises, students }, path) {
  for (const { id, marks } of students) {
    const is_each = exercises.every(({ name }, k) => marks[k]?.exercise === name) && marks.length === exercises.length;
    const has_parts = is_each && marks.every(({ parts }, k) => !parts || parts.length === exercises[k].parts.length);
    if (!has_parts) throw new Stop(2, `${path}: the marks of ${shown(id)} aren't those of the exercises`);
  }
}

/** The book of a file. */
export function read_book(path) {
  const book = value_of(text_of(path), path, BOOK, KIND, "book of marks");
  check_marks(book, path);
  return book;
}

/** What is told of a change. */
function line_of_change({ id, exercise, from, to, parts }) {
  const its = parts.map((it) => `; ${shown(it.part)}: ${it.from ?? "none"} -> ${it.to ?? "none"}`).join("");
  return `${shown(id)}, ${shown(exercise)}: ${from} -> ${to} points${its}`;
}

/** What has no mark: exercises that aren't graded, and submissions that aren't in one that is. */
function lines_of_unmarked({ exercises, students }) {
  const is_open = exercises.map((_, k) => students.every(({ marks }) => marks[k].state === "not graded"));
  const its = students.flatMap(({ id, marks }) => marks.filter(({ state }, k) => state === "not graded" && !is_open[k])
    .map(({ exercise, reason }) => `${shown(id)}, ${shown(exercise)}: not graded: ${shown(reason)}`));
  return [...exercises.filter((_, k) => is_open[k]).map(({ name }) => `${shown(name)}: not graded yet`), ...its];
}

/** `json COURSE --to FILE`: writes the book, and tells what has changed, and what has no mark. */
export function write_book(path, { to, on = new Date().toISOString().slice(0, 10) }) {
  if (!is_day(on)) throw new Stop(1, `--on takes a day, as 2027-04-12, and not ${on}`);
  const before = existsSync(to) ? read_book(to) : { students: [] }, book = with_changes(book_of(path), before, on);
  write_file(to, `${JSON.stringify(book, null, 1)}\n`);
  const strange = book.strangers.map((folder) => `${shown(folder)} is in no row of the roster`);
  const departed = departed_since(book, before).map((it) => `${it}: the marks are kept in ${to}`);
  const changes = [...changes_since(book, before).map(line_of_change), ...departed];
  return [...changes, ...lines_of_unmarked(book), ...strange].map((line) => `${line}\n`).join("");
}
