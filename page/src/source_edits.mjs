// What keys do to a source: a new line begins below the code before it, lines are moved in and out or made comments,
// a bracket finds its partner, and words are found. Each function takes a text and places in it. A change is {from, to,
// text, chosen}: `text` takes the place of what stands from `from` to `to`, and `chosen` are the two ends of what is
// selected then.
const USUAL_STEP = "    ", WIDEST_STEP = 8;
const OPENING = "([{", CLOSING = ")]}";
const IN_C = /\/\/.*|\/\*[\s\S]*?(?:\*\/|$)|"(?:\\.|[^"\\\n])*"?|'(?:\\.|[^'\\\n])*'?|[()[\]{}]/g;
const IN_ASSEMBLER = /#.*|"(?:\\.|[^"\\\n])*"?|[()]/g;
const LABEL_ALONE = /^[ \t]*[A-Za-z_]\w*:[ \t]*(?:#.*)?$/;

const begin_of_line = (text, at) => text.lastIndexOf("\n", at - 1) + 1;
const end_of_line = (text, at) => (text.indexOf("\n", at) < 0 ? text.length : text.indexOf("\n", at));
const blanks_of = (line) => /^[ \t]*/.exec(line)[0];
const is_blank = (line) => !/[^ \t]/.test(line);

/** By what a block of this text stands further in: a tab if a line begins with one, else the fewest blanks of a line. */
export function step_of(text) {
  const indents = [...text.matchAll(/^([ \t]+)[^\s#/*]/gm)].map(([, blanks]) => blanks);
  if (indents.some((it) => it.startsWith("\t"))) return "\t";
  const fewest = Math.min(...indents.map((it) => it.length).filter((it) => it > 1 && it <= WIDEST_STEP));
  return Number.isFinite(fewest) ? " ".repeat(fewest) : USUAL_STEP;
}

/** The brackets of a text that stand neither in quotes nor in a comment, each {at, letter}, in order. */
function brackets_of(text, is_c) {
  return [...text.matchAll(is_c ? IN_C : IN_ASSEMBLER)]
    .filter(([found]) => found.length === 1 && (OPENING + CLOSING).includes(found))
    .map(({ 0: letter, index: at }) => ({ at, letter }));
}

/** The pairs of brackets of a text: a map from each place to its partner's, or to null if there is none. */
function pairs_of(text, is_c) {
  const open = [], pairs = new Map();
  for (const { at, letter } of brackets_of(text, is_c)) {
    pairs.set(at, null);
    if (OPENING.includes(letter)) { open.push({ at, letter }); continue; }
    const last = open.at(-1);
    if (!last || OPENING.indexOf(last.letter) !== CLOSING.indexOf(letter)) continue;
    open.pop();
    pairs.set(last.at, at).set(at, last.at);
  }
  return pairs;
}

/** The bracket before or after a place and its partner, as [place, partner or null]; null if there is no bracket. */
export function brackets_at(text, at, is_c) {
  const pairs = pairs_of(text, is_c), place = [at - 1, at].find((it) => pairs.has(it));
  return place === undefined ? null : [place, pairs.get(place)];
}

/** Whether a line ends with the beginning of a block: in C with `{`, in assembler with a label. */
function opens_block(line, is_c) {
  if (!is_c) return LABEL_ALONE.test(line);
  return /\{[ \t]*$/.test(line.replace(/\/\/.*|\/\*.*?\*\/[ \t]*$/, ""));
}

/** A new line in the place of what is chosen: it begins below the code before it, and further in if a block begins. */
export function new_line(text, from, to, is_c) {
  const begin = begin_of_line(text, from), before = text.slice(begin, from);
  const after = text.slice(to, end_of_line(text, to));
  const blanks = blanks_of(before), opens = opens_block(before, is_c), inner = opens ? blanks + step_of(text) : blanks;
  const closes = is_c && opens && after.trimStart().startsWith("}");
  const start = is_blank(before) ? begin : from, caret = start + 1 + inner.length;
  const made = `\n${inner}${closes ? `\n${blanks}` : ""}`;
  return { from: start, to: to + blanks_of(after).length, text: made, chosen: [caret, caret] };
}

/** A closing brace of C that is typed first on its line stands below its partner's line; null if it isn't first. */
export function closing_brace(text, from, to) {
  const begin = begin_of_line(text, from);
  if (!is_blank(text.slice(begin, from))) return null;
  const partner = pairs_of(`${text.slice(0, from)}}`, true).get(from);
  if (partner === null || partner === undefined) return null;
  const opening = text.slice(begin_of_line(text, partner), partner), made = `${blanks_of(opening)}}`;
  return { from: begin, to, text: made, chosen: [begin + made.length, begin + made.length] };
}

/** Changes each line that is chosen, if only in part, and that isn't blank. */
function lines_changed(text, from, to, change) {
  const begin = begin_of_line(text, from), last = to > from && text[to - 1] === "\n" ? to - 1 : to;
  const end = end_of_line(text, Math.max(last, begin)), lines = text.slice(begin, end).split("\n");
  const made = lines.map((line) => (is_blank(line) ? line : change(line, lines))).join("\n");
  const is_one = from === to, caret = Math.max(begin, from + made.length - (end - begin));
  return { from: begin, to: end, text: made, chosen: is_one ? [caret, caret] : [begin, begin + made.length] };
}

/** The lines that are chosen one step further in. */
export const further_in = (text, from, to) => lines_changed(text, from, to, (line) => step_of(text) + line);

/** The lines that are chosen one step further out. */
export function further_out(text, from, to) {
  const step = step_of(text);
  const shorter = (line) => line.slice(line.startsWith("\t") ? 1 : Math.min(step.length, /^ */.exec(line)[0].length));
  return lines_changed(text, from, to, shorter);
}

/** A line without the sign that makes it a comment, and without the blank after that. */
function uncommented(line, sign) {
  const at = line.indexOf(sign), rest = line.slice(at + sign.length);
  return line.slice(0, at) + (rest.startsWith(" ") ? rest.slice(1) : rest);
}

/** The lines that are chosen as comments that begin with a sign; or, if they are comments all, without it. */
export function commented(text, from, to, sign) {
  const is_comment = (line) => is_blank(line) || line.trimStart().startsWith(sign);
  const depth = (lines) => Math.min(...lines.filter((it) => !is_blank(it)).map((it) => blanks_of(it).length));
  return lines_changed(text, from, to, (line, lines) => {
    if (lines.every(is_comment)) return uncommented(line, sign);
    const at = depth(lines);
    return `${line.slice(0, at)}${sign} ${line.slice(at)}`;
  });
}

/** Where words stand in a text, from the first on. A capital letter among them tells capitals apart. */
export function places_of_words(text, words) {
  if (!words) return [];
  const written = words.replace(/[.*+?^${}()|[\]\\]/g, "\\$&");
  return [...text.matchAll(new RegExp(written, words === words.toLowerCase() ? "gi" : "g"))].map((it) => it.index);
}
