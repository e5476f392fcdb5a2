// The roster of a course: who its students are, and under which names other systems know them. It is a table of CSV
// with a head. Names are compared in NFC, since a Mac writes an umlaut of a file's name as two letters.
import { LINE, NoTable, records_of } from "./csv.mjs";
import { text_of } from "./files.mjs";
import { Stop } from "./held.mjs";
import { folder_name, same_form } from "./host_names.mjs";
import { shown } from "./shown.mjs";

/** The columns by which a student is found, those that are of one student alone first. */
const COLUMNS = ["folder", "id", "login", "email", "github", "canvas", "moodle", "name"];

/** Columns that would be taken for what the marks say themselves. */
const TAKEN = ["folders", "gone", "is_stranger", "marks", "of", "points"];

/** A text as it is compared in a column. */
const form_of = (column, text) => (column === "folder" ? folder_name : same_form)(text);

/** The records of a file of CSV that has these columns. */
export function records_at(path, needed) {
  try {
    return records_of(text_of(path), needed);
  } catch (error) {
    throw error instanceof NoTable ? new Stop(2, `${path}: ${error.message}`) : error;
  }
}

export class Roster {
  constructor(students) {
    this.students = students;
    this.by = new Map(COLUMNS.map((column) => [column, this.table(column)]));
  }

  /** What a column says of a student, as it is compared; nothing if it is empty. */
  static text_of(student, column) {
    return column === "folder" ? Roster.folder_of(student) : same_form(student[column] ?? "");
  }

  /** The students by what stands in a column; null for what stands there twice. */
  table(column) {
    const table = new Map();
    for (const student of this.students) {
      const text = Roster.text_of(student, column);
      if (text !== "") table.set(text, table.has(text) ? null : student);
    }
    return table;
  }

  /** Who has this in one of these columns; undefined if nobody has, or several have. */
  find(text, columns = COLUMNS) {
    return columns.map((column) => this.by.get(column).get(form_of(column, text))).find(Boolean);
  }

  /**
   * The name of a student's folder: the same in every exercise, and by whatever way it comes, since it says which
   * numbers are the student's own.
   */
  static folder_of(student) {
    return folder_name(student.folder || student.id);
  }
}

/** Refuses two students who have the same. */
function check_apart(students, path, what, text_of_student) {
  const seen = new Map();
  for (const student of students) {
    const text = text_of_student(student), other = seen.get(text);
    const lines = other && `lines ${other[LINE]} and ${student[LINE]}`;
    if (other) throw new Stop(2, `${path}: ${lines}: two students have ${what} ${shown(text)}`);
    seen.set(text, student);
  }
}

/** The roster of a file. */
export function read_roster(path) {
  const students = records_at(path, ["id"]).map((it) => ({ ...it, id: same_form(it.id),
    name: same_form(it.name ?? "") }));
  if (students.length === 0) throw new Stop(2, `${path} has no student`);
  const taken = TAKEN.find((column) => column in students[0]);
  if (taken) throw new Stop(2, `${path}: a column ${taken} is of the marks themselves: give it another name`);
  const nameless = students.find(({ id }) => id === "");
  if (nameless) throw new Stop(2, `${path}: line ${nameless[LINE]}: a student has no id`);
  check_apart(students, path, "the id", ({ id }) => id);
  check_apart(students, path, "the folder", Roster.folder_of);
  return new Roster(students);
}
