// The shape of a book of marks, as docs/manual/marks.md tells it: what is read of one is there, and of its kind.
import { either, list, maybe, number, one_of, table, text, truth } from "./shape.mjs";

const nothing = (it, at) => one_of(null)(it, at);
const NUMBER_OR_NONE = either("a number, or null", number, nothing);
const PART = { run: text, name: text, points: number };

const CHANGE = table({
  on: text, from: number, to: number,
  parts: list(table({ part: text, from: maybe(number), to: maybe(number) })),
});
const LATE = table({ days: number, free: number, percent: number });
const HAND = list(table({ name: text, points: NUMBER_OR_NONE, of: number, remark: text }));
const PARTS = list(table({ ...PART, of: number, standing: maybe(text), why: maybe(text), cause: maybe(text) }));
const STATE = one_of("graded", "missing", "not graded");

/** What is kept of a mark while it has none. */
const LAST = table({ state: STATE, points: number, late: LATE, hand: HAND, parts: maybe(PARTS) });

const MARK = table({
  exercise: text, state: STATE, reason: maybe(text), standing: maybe(text), parts: maybe(PARTS), hand: HAND, late: LATE,
  reached: number, points: number, of: number, history: maybe(list(CHANGE)), last: maybe(LAST),
  show: list(table({ run: text, lines: list(text), link: maybe(text), is_closed: truth })),
});

const COLUMNS = ["email", "login", "section", "canvas", "sis"];
const STUDENT = table({
  id: text, name: text, points: number, of: number, marks: list(MARK), gone: maybe(list(MARK)),
  ...Object.fromEntries(COLUMNS.map((column) => [column, maybe(text)])), is_stranger: maybe(truth),
});

const EXERCISE = table({
  name: text, title: text, points: number, due: maybe(text), canvas: maybe(text),
  hand: list(table({ name: text, points: number })), parts: list(table(PART)),
});

export const BOOK = table({
  title: text, exercises: list(EXERCISE), students: list(STUDENT), strangers: maybe(list(text)),
  gone: maybe(list(STUDENT)),
});
