// The arguments of a request, as the editor sends them: each is read as what it is to be, or refused in words.

/** What an editor asks for and doesn't get, in words for a person. */
export class Refusal extends Error {}

export const refuse = (words) => { throw new Refusal(words); };

/** Whether an argument is there: editors send null, too, for what they leave out. */
const is_there = (value) => value !== undefined && value !== null;

/** A text; undefined if there is none. */
export function text_in(args, name) {
  const value = args[name];
  if (!is_there(value)) return undefined;
  return typeof value === "string" ? value : refuse(`${name} is a text`);
}

/** A whole number within bounds; undefined if there is none. */
export function number_in(args, name, least, most) {
  const value = args[name];
  if (!is_there(value)) return undefined;
  const is_one = Number.isInteger(value) && value >= least && value <= most;
  return is_one ? value : refuse(`${name} is a number from ${least} to ${most}`);
}

/** A text, or a list of texts, as a list. */
export function texts_in(args, name) {
  const value = args[name] ?? [], list = Array.isArray(value) ? value : [value];
  return list.every((it) => typeof it === "string") ? list : refuse(`${name} is a text, or a list of texts`);
}

/** Whether a value of JSON is an object, and no list. */
export const is_object = (value) => typeof value === "object" && value !== null && !Array.isArray(value);

/** A value in braces; an empty one if there is none. */
export function object_in(args, name) {
  const value = args[name] ?? {};
  return is_object(value) ? value : refuse(`${name} is an object`);
}

/** A list of values in braces; an empty one if there is none. */
export function objects_in(args, name) {
  const value = args[name] ?? [];
  return Array.isArray(value) && value.every(is_object) ? value : refuse(`${name} is a list of objects`);
}

const FARTHEST = Number.MAX_SAFE_INTEGER;

/** The address that a reference names, so many bytes on. */
export function address_in(args, name, offset = "offset") {
  const text = text_in(args, name) ?? "", far = number_in(args, offset, -FARTHEST, FARTHEST) ?? 0;
  if (!/^(0x[0-9a-f]{1,16}|\d{1,20})$/i.test(text)) refuse(`${name} is an address, as 0x774`);
  return BigInt.asUintN(64, BigInt(text) + BigInt(far));
}
