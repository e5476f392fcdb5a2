// What isn't the grader's: points that are given by hand, and what late days take.
import { where_of } from "./course.mjs";
import { Stop } from "./held.mjs";
import { shown } from "./shown.mjs";
import { DAY, MOMENT_FORM, MOST_DAYS, moment_of } from "./times.mjs";

/** Points as whole hundredths: so no sum is made of parts that binary numbers don't have. */
const hundredths = (points) => Math.round(points * 100);
export const sum_of = (points) => points.reduce((all, it) => all + hundredths(it), 0) / 100;
/** So many percent of points, rounded down to hundredths. */
export const part_of = (points, percent) => Math.floor((hundredths(points) * percent) / 100) / 100;

/** Refuses a record, with its place. */
function refuse(record, why) {
  throw new Stop(2, `${where_of(record)}: ${shown(record.id)}, ${shown(record.exercise)}: ${why}`);
}

/** A number of points of a table, as 1.5 or 1,5; null if the cell is empty: they aren't given yet. */
function points_in(record, of) {
  const { part, points: told } = record;
  if (told === "") return null;
  const points = /^\d+([.,]\d{1,2})?$/.test(told) ? Number(told.replace(",", ".")) : NaN;
  if (Number.isNaN(points)) refuse(record, `${shown(told)} is no number of points, as 3, 3.5 or 3,25`);
  if (points > of) refuse(record, `${points} is more than the ${of} points of ${shown(part)}`);
  return points;
}

/** The parts of an exercise that are given by hand, by a student's records: null points if they aren't given yet. */
export function given_by_hand(exercise, records) {
  return exercise.hand.map(({ name, points: of }) => {
    const [record, second] = records.filter((it) => it.part === name);
    if (second) refuse(second, `${shown(name)} stands there twice`);
    return { name, points: record ? points_in(record, of) : null, of, remark: record?.remark ?? "" };
  });
}

/** The days of a record, which has their number, or the time when it came. */
function days_of(record, due) {
  const { days = "", handed_in = "" } = record, is_number = /^\d+$/.test(days) && Number(days) <= MOST_DAYS;
  if (is_number) return Number(days);
  if (days !== "") refuse(record, `${shown(days)} is no number of days, from 0 to ${MOST_DAYS}`);
  const came = moment_of(handed_in);
  if (handed_in === "") refuse(record, "there are no days, and no time in handed_in");
  if (came === null) refuse(record, `handed_in is ${shown(handed_in)}, and is to be ${MOMENT_FORM}`);
  if (due === null) refuse(record, "the exercise has no due, with which handed_in is compared");
  return Math.max(0, Math.ceil((came - moment_of(due)) / DAY));
}

/** The days that a submission was late, begun days counted: by their number, or by the time when it came. */
export function days_late(exercise, records) {
  const [record, second] = records;
  if (second) refuse(second, "this stands there twice");
  return record ? days_of(record, exercise.due) : 0;
}

/** What a rule makes of days late, if so many free ones are left: how many of these go, and how many percent count. */
export function late_of(rule, days, left) {
  if (rule === null || days === 0) return { days, free: 0, percent: 100 };
  const free = Math.min(left, days), charged = days - free, is_over = rule.most !== null && charged > rule.most;
  return { days, free, percent: is_over ? 0 : Math.max(0, 100 - rule.percent * charged) };
}
