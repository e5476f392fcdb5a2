// What the C compiler tells: its messages; and sources without the mistake that is told, in which the next one is
// found.
import { c_code } from "../machine/file_kinds.mjs";

// What the compiler says of what its back end lacks, and what is said here.
const CONSTANT = "an address that is a constant isn't there: put the address into a variable";
const LACKING = {
  "RISCV64 asm not implemented.": "inline assembler isn't there: gcc takes it",
  "implement me: store(!local)": `a store to ${CONSTANT}`,
  "unimp: load(non-local lval)": `a load from ${CONSTANT}`,
};

/** A message of a line that the compiler has told: {file, line, is_error, text}; null if the line is none. */
export function message_of(told) {
  const found = /^(.+?):(?:(\d+):)? (error|warning): (.*)$/.exec(told);
  if (!found) return null;
  const [, file, line = "0", kind, text] = found;
  return { file, line: Number(line), is_error: kind === "error", text: LACKING[text] ?? text };
}

/** The text of a source's line, from 1 on. */
export const line_of = (text, line) => text.split("\n")[line - 1]?.replace(/\r$/, "") ?? "";

/** Where in its line a message points: {at, length} of the word that it names; null if that isn't found. */
export function named_in(text, { text: message, is_at_end, at: place }) {
  if (place !== undefined) return { at: place, length: 1 };
  if (is_at_end) return { at: c_code(text).trimEnd().length, length: 1 };
  const word = /\(got "(.+)"\)$/.exec(message)?.[1] ?? /'([^']+)'/.exec(message)?.[1];
  const is_whole = word && /^\w+$/.test(word);
  const at = !word ? -1 : is_whole ? text.search(new RegExp(`\\b${word}\\b`)) : text.indexOf(word);
  return at < 0 ? null : { at, length: word.length };
}

// Comments, and texts in quotes up to where they or their line end.
const IN_QUOTES = /"(?:\\[\s\S]|[^"\\\n])*"?|'(?:\\[\s\S]|[^'\\\n])*'?/;
const COMMENT_OR_TEXT = new RegExp(`/\\*[^]*?(?:\\*/|$)|//[^\\n]*|${IN_QUOTES.source}`, "g");

/** The text in quotes that isn't ended in its line, the first one: {quote, from, to} in the source; or null. */
function open_text(source) {
  for (const { 0: it, index } of source.matchAll(COMMENT_OR_TEXT)) {
    const [quote] = it, is_text = quote === '"' || quote === "'";
    if (is_text && !(it.length > 1 && it.replace(/\\[\s\S]/g, "").endsWith(quote) && it !== quote)) {
      return { quote, from: index, to: index + it.length };
    }
  }
  return null;
}

/** Where a text in quotes is meant to end, by its line: before the brackets that are open there, and the `;`. */
function end_of_text(code_before, own) {
  const count = (letter) => code_before.split(letter).length - 1;
  let open = Math.max(0, count("(") - count(")")), end = own.length;
  for (; end > 0 && /[\s)\]},;]/.test(own[end - 1]); end--) if (own[end - 1] === ")" && open-- === 0) break;
  return end;
}

/**
 * The first text in quotes that its line doesn't end: {message, closed}, what is told of it, and the source in which it
 * ends before the brackets and the `;` at the end of its line; null if there is none. The compiler reads such a text on
 * through the next lines, up to a quote or to the end of the file, and tells a mistake there.
 */
export function open_quote(file, source) {
  const found = open_text(source);
  if (!found) return null;
  const { quote, from, to } = found, before = source.slice(0, from).split("\n"), own = source.slice(from + 1, to);
  const end = from + 1 + end_of_text(c_code(before.at(-1)), own);
  const text = `missing terminating ${quote} character`;
  return {
    message: { file, line: before.length, is_error: true, text, at: before.at(-1).length },
    closed: source.slice(0, end) + quote + source.slice(end),
  };
}

/** Where a line begins and ends in a text, without its end. */
function letters_of(text, line) {
  let from = 0;
  for (let k = 1; k < line; k++) from = text.indexOf("\n", from) + 1;
  const end = text.indexOf("\n", from);
  return { from, to: end < 0 ? text.length : end };
}

/** The body of the function round a place: where it begins, behind its brace, and where its brace ends it; or null. */
function body_round(code, place) {
  let depth = 0, from = -1;
  for (let k = 0; k < code.length; k++) {
    if (code[k] === "{" && ++depth === 1) from = k + 1;
    if (code[k] !== "}" || depth === 0 || --depth > 0) continue;
    if (place >= from && place <= k) return { from, to: k };
    if (k > place) return null;
  }
  return null;
}

/** Whether a line is a whole statement: the one before it has ended, and it ends itself. */
function is_statement(code, { from, to }) {
  const own = code.slice(from, to), before = code.slice(0, from).trimEnd().at(-1);
  const count = (letter) => own.split(letter).length - 1;
  return /;\s*$/.test(own) && !/[{}#]/.test(own) && count("(") === count(")") && ["{", "}", ";"].includes(before);
}

/** The line before one that lacks the `;` that the compiler expects in that; 0 if none does. */
function line_without_end(code, { line, text: words }) {
  const met = /^';' expected \(got "(\w+|.)"\)$/.exec(words)?.[1], lines = code.split("\n");
  if (met === undefined || !lines[line - 1]?.trim().startsWith(met)) return 0;
  const before = lines.slice(0, line - 1).findLastIndex((it) => it.trim());
  return before < 0 || lines[before].trimEnd().endsWith(";") ? 0 : before + 1;
}

/** What stays of a statement that is left out: of a declaration with a value the name, which others use. */
function rest_of(statement) {
  const head = /^(\s*[A-Za-z_]\w*[\s*]+[A-Za-z_][\w\s*]*?)\s*=[^=]/.exec(statement)?.[1] ?? "";
  return `${head.padEnd(statement.length - 1)};`;
}

/**
 * A source without a mistake: {text, gone}. A missing `;` is written; else the line is left out, if it is a whole
 * statement of a function, or all of the function's body. `gone` is the text that was left out; null if nothing could be.
 */
export function without_mistake(text, mistake) {
  const code = c_code(text), its = letters_of(text, mistake.line), open = line_without_end(code, mistake);
  if (open > 0) {
    const { from, to } = letters_of(text, open), end = from + code.slice(from, to).trimEnd().length;
    return { text: `${text.slice(0, end)};${text.slice(end)}`, gone: "" };
  }
  const body = body_round(code, its.from);
  if (!body) return { text, gone: null };
  const is_short = is_statement(code, its) && code.slice(its.from, its.to).trim() !== ";", part = is_short ? its : body;
  const gone = text.slice(part.from, part.to), blank = gone.replace(/[^\n]/g, " ");
  const stays = is_short ? rest_of(gone) : blank;
  return { text: text.slice(0, part.from) + stays + text.slice(part.to), gone: gone.trim() || null };
}

/**
 * A message as it helps who wrote the source: if a `;` is missing, the compiler tells the line of what comes next, and
 * here it is that of what comes before.
 */
export function placed(message, text) {
  const line = line_without_end(c_code(text), message), met = /"(.+)"/.exec(message.text)?.[1];
  if (line === 0) return message;
  return { ...message, line, text: `';' expected at the end (got "${met}" in line ${message.line})`, is_at_end: true };
}
