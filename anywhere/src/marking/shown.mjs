// How a text of a student's, or a name, is shown: control letters, and what turns the order of letters, as escapes; so
// nothing of it reaches a terminal.

/** The letters that are shown so. */
export const HIDDEN = /[\p{Cc}\p{Zl}\p{Zp}\u200b\u200e\u200f\u202a-\u202e\u2060-\u206f\ufeff\ufffe\uffff\p{Cs}]/gu;

/** A text in one line. */
export const shown = (text) => String(text).replace(HIDDEN,
  (letter) => `\\x${letter.codePointAt(0).toString(16).padStart(2, "0")}`);

/** Points, as they stand in a column. */
export const points_text = (points) => `${String(points).padStart(3)} ${points === 1 ? "point " : "points"}`;
