// Tables of marks: for people, for students, for Moodle's import of grades, and for Canvas's.
import { write_all } from "../streams.mjs";
import { is_right, told_closed } from "./cases.mjs";
import { line_of } from "./csv.mjs";
import { read_book } from "./gradebook.mjs";
import { Stop } from "./held.mjs";
import { shown } from "./shown.mjs";

/** A mark's points; nothing if it isn't graded, so that no system takes it for a zero. */
const cell = (mark) => (mark.state === "not graded" ? "" : mark.points);
const cells = (student) => student.marks.map(cell);

/** Those that the system knows; the others are told. */
function known(book) {
  for (const { id } of book.students.filter((it) => it.is_stranger)) {
    write_all(2, `marks: ${shown(id)} is in no row of the roster, and is left out\n`);
  }
  return book.students.filter((it) => !it.is_stranger);
}

function for_people({ exercises, students }) {
  const head = ["id", "name", ...exercises.flatMap(({ name }) => [name, `${name}: days late`]), "points", "of"];
  const pairs = ({ marks }) => marks.flatMap((mark) => [cell(mark), mark.late.days]);
  return [head, ...students.map((it) => [it.id, it.name, ...pairs(it), it.points, it.of])];
}

/** The parts of a mark by the exercise's own words, without a number of the student's, and in place of a reason no value. */
const closed_parts = (mark, { parts }) => (mark.parts ?? []).map((it, k) => (
  [`${parts[k].run}: ${parts[k].name}`, it.points, it.of, is_right(it) ? "" : told_closed(it)]));
const hand_parts = ({ hand }) => hand.map((it) => [it.name, it.points ?? "", it.of, it.remark]);

/** A row for each part of each student's marks, to be shown to students. */
function for_students({ exercises, students }) {
  const rows_of = (mark, exercise) => (mark.state === "graded" ? [...closed_parts(mark, exercise), ...hand_parts(mark)]
    : [["", cell(mark), mark.of, mark.state]]);
  const rows = students.flatMap(({ id, name, marks }) => marks.flatMap((mark, k) => (
    rows_of(mark, exercises[k]).map((row) => [id, name, mark.exercise, ...row]))));
  return [["id", "name", "exercise", "part", "points", "of", "remark"], ...rows];
}

/** By which columns of the roster Moodle finds a user, and what it calls them. */
const MOODLE = { email: "Email address", login: "Username", id: "ID number" };

function for_moodle(book) {
  const students = known(book), columns = Object.keys(MOODLE).filter((column) => students.some((it) => it[column]));
  const head = [...columns.map((column) => MOODLE[column]), ...book.exercises.map(({ name }) => name)];
  return [head, ...students.map((it) => [...columns.map((column) => it[column] ?? ""), ...cells(it)])];
}

function for_canvas(book) {
  const columns = book.exercises.map((it) => it.canvas ?? it.name);
  const head = ["Student", "ID", "SIS User ID", "SIS Login ID", "Section", ...columns];
  const possible = ["    Points Possible", "", "", "", "", ...book.exercises.map(({ points }) => points)];
  return [head, possible, ...known(book).map((it) => (
    [it.name, it.canvas ?? "", it.sis ?? it.id, it.login ?? "", it.section ?? "", ...cells(it)]
  ))];
}

const WAYS = { people: for_people, students: for_students, moodle: for_moodle, canvas: for_canvas };

/** `csv WAY FILE`: the table, as text. */
export function table(way, file) {
  const ways = Object.keys(WAYS);
  if (!ways.includes(way)) throw new Stop(1, `csv takes one of ${ways.join(", ")}, and not ${way}`);
  const book = read_book(file), marks = book.students.flatMap((it) => it.marks);
  const open = marks.filter(({ hand }) => hand.some(({ points }) => points === null)).length;
  if (open > 0) write_all(2, `marks: in ${open} marks something that is given by hand isn't given yet\n`);
  return WAYS[way](book).map(line_of).join("");
}
