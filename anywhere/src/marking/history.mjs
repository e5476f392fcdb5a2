// What a mark was before it was given anew.
import { shown } from "./shown.mjs";

/** The points of all parts of a mark, by their names; one that stands there twice has a number behind the second. */
function parts_in({ parts = [], hand }) {
  const graded = parts.map(({ run, name, points }) => [`${run}: ${name}`, points]);
  const all = [...graded, ...hand.map(({ name, points }) => [name, points])], names = all.map(([name]) => name);
  const nth = (k) => names.slice(0, k + 1).filter((name) => name === names[k]).length;
  return new Map(all.map(([name, points], k) => [nth(k) === 1 ? name : `${name} (${nth(k)})`, points]));
}

/** Which parts of a mark have other points than before. */
function changed_parts(before, mark) {
  const old = parts_in(before), now = parts_in(mark), names = [...new Set([...old.keys(), ...now.keys()])];
  const changed = names.filter((part) => old.get(part) !== now.get(part));
  return changed.map((part) => ({ part, from: old.get(part) ?? null, to: now.get(part) ?? null }));
}

/** What of a mark is kept while it has none, since it has to be graded anew. */
const kept = ({ state, points, late, parts, hand }) => ({ state, points, late, parts, hand });

/** A mark with all its changes, the last at the end. What isn't graded, as a new text of an exercise, is no change. */
function with_history(mark, before, on) {
  if (!before) return { ...mark, history: [] };
  const { history = [] } = before, last = before.state === "not graded" ? before.last : before;
  if (mark.state === "not graded") return { ...mark, history, ...(last ? { last: kept(last) } : {}) };
  if (!last) return { ...mark, history };
  const parts = changed_parts(last, mark), is_same = last.points === mark.points && last.state === mark.state;
  if (is_same && parts.length === 0 && last.late.days === mark.late.days) return { ...mark, history };
  const change = { on, from: last.points, to: mark.points, state: [last.state, mark.state] };
  return { ...mark, history: [...history, { ...change, late: [last.late.days, mark.late.days], parts }] };
}

/** All marks of a student: those of exercises that are gone, too. */
const all_marks = ({ marks, gone = [] }) => [...gone, ...marks];

/** The marks of a book, by their students and exercises. */
function marks_in({ students, gone = [] }) {
  const by_exercises = (student) => new Map(all_marks(student).map((it) => [it.exercise, it]));
  return new Map([...gone, ...students].map((student) => [student.id, by_exercises(student)]));
}

/** A student with what each mark was in an earlier book; the marks of exercises that are gone are kept. */
function with_changes_of({ marks, ...student }, old, on) {
  const names = new Set(marks.map(({ exercise }) => exercise));
  const gone = [...(old?.values() ?? [])].filter(({ exercise }) => !names.has(exercise));
  const now = marks.map((mark) => with_history(mark, old?.get(mark.exercise), on));
  return { ...student, marks: now, ...(gone.length ? { gone } : {}) };
}

/** The book, with what each mark was in an earlier one; who is in that alone is kept. */
export function with_changes(book, before, on) {
  const old = marks_in(before), ids = new Set(book.students.map(({ id }) => id));
  const students = book.students.map((student) => with_changes_of(student, old.get(student.id), on));
  const gone = [...(before.gone ?? []), ...before.students].filter(({ id }) => !ids.has(id));
  return { ...book, students, gone };
}

/** The changes that a book has and an earlier one hasn't: {id, exercise, from, to, parts}. */
export function changes_since(book, before) {
  const old = marks_in(before);
  return book.students.flatMap(({ id, marks }) => marks.flatMap(({ exercise, history }) => {
    const known = old.get(id)?.get(exercise)?.history?.length ?? 0;
    return history.slice(known).map((change) => ({ id, exercise, ...change }));
  }));
}

/** Which exercises and students an earlier book has and this one hasn't, a text each: a name may have been changed. */
export function departed_since(book, { exercises = [], students }) {
  const names = new Set(book.exercises.map(({ name }) => name)), ids = new Set(book.students.map(({ id }) => id));
  const gone = exercises.filter(({ name }) => !names.has(name)), away = students.filter(({ id }) => !ids.has(id));
  return [
    ...gone.map(({ name }) => `${shown(name)} is no exercise of the course now (was it renamed?)`),
    ...away.map(({ id }) => `${shown(id)} is no student now (was the id changed?)`),
  ];
}
