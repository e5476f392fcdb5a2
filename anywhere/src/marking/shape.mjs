// The shape of a value of JSON that comes from a file: what is missing in it, or is of another kind, is told by the
// file and the place, as `marks.json: students[3].marks[0].points is to be a number`. A shape is a function of a value
// and its place.
import { Stop } from "./held.mjs";
import { is_table } from "./toml.mjs";

/** That a value isn't so, and where. */
class Misshapen extends Error {}

const of_kind = (wanted, is_so) => (it, at) => {
  if (!is_so(it)) throw new Misshapen(`${at || "the whole"} is to be ${wanted}`);
};
const below = (at, key) => (at ? `${at}.${key}` : key);

export const is_count = (it) => Number.isSafeInteger(it) && it >= 0;

export const text = of_kind("a text", (it) => typeof it === "string");
export const number = of_kind("a number", (it) => Number.isFinite(it));
export const count = of_kind("a whole number from 0 on", is_count);
export const truth = of_kind("true or false", (it) => typeof it === "boolean");
export const one_of = (...words) => of_kind(`one of ${words.join(", ")}`, (it) => words.includes(it));

/** What may be missing, or null. */
export const maybe = (shape) => (it, at) => {
  if (it !== undefined && it !== null) shape(it, at);
};

export const list = (shape) => (it, at) => {
  of_kind("a list", Array.isArray)(it, at);
  it.forEach((one, k) => shape(one, `${at}[${k}]`));
};

/** A table with these keys; others may be there. */
export const table = (shapes) => (it, at) => {
  of_kind("a table", is_table)(it, at);
  for (const [key, shape] of Object.entries(shapes)) shape(it[key], below(at, key));
};

/** A table of any keys, all of one shape. */
export const table_of_all = (shape) => (it, at) => {
  of_kind("a table", is_table)(it, at);
  for (const key of Object.keys(it)) shape(it[key], below(at, key));
};

/** Either of two shapes. */
export const either = (wanted, ...shapes) => of_kind(wanted, (it) => shapes.some((shape) => is_shaped(shape, it)));

function is_shaped(shape, it) {
  try {
    shape(it, "");
    return true;
  } catch (error) {
    if (!(error instanceof Misshapen)) throw error;
    return false;
  }
}

/** The value of JSON in the text of a file, which is to have this kind and shape. */
export function value_of(whole, path, shape, kind, what) {
  let it;
  try {
    it = JSON.parse(whole);
  } catch (error) {
    throw new Stop(2, `${path} can't be read: ${error.message}`);
  }
  if (kind !== null && it?.kind !== kind) throw new Stop(2, `${path} can't be read: it is no ${what} of this version`);
  try {
    shape(it, "");
  } catch (error) {
    throw error instanceof Misshapen ? new Stop(2, `${path}: ${error.message}`) : error;
  }
  return it;
}
