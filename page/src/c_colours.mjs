// A line of C with its words coloured: comments, texts in quotes, numbers, and the words of the language.
const LANGUAGE = new Set((
  "auto break case char const continue default do double else enum extern float for goto if inline int long register "
    + "return short signed sizeof static struct switch typedef union unsigned void volatile while _Bool _Noreturn"
).split(" "));
const PART = new RegExp([
  /\/\/.*|\/\*[\s\S]*?(?:\*\/|$)/, /("(?:\\.|[^"\\])*"?|'(?:\\.|[^'\\])*'?)/, /(^\s*#\s*\w+)/, /\b(\d\w*)/,
  /\b([A-Za-z_]\w*)/,
].map((it) => it.source).join("|"), "g");

const escape = (text) => text.replace(/[&<>]/g, (it) => ({ "&": "&amp;", "<": "&lt;", ">": "&gt;" })[it]);
const span = (name, text) => `<span class="${name}">${escape(text)}</span>`;

/** The lines, from 0 on, that begin within a comment. */
export function lines_in_comments(lines) {
  const found = new Set();
  let is_in = false;
  lines.forEach((line, place) => {
    if (is_in) found.add(place);
    const rest = is_in ? `/*${line}` : line;
    const last = [...rest.matchAll(PART)].at(-1)?.[0] ?? "";
    is_in = last.startsWith("/*") && (last.length < 4 || !last.endsWith("*/"));
  });
  return found;
}

function part_coloured([part, quoted, directive, number, word]) {
  if (quoted !== undefined) return span("t", part);
  if (directive !== undefined) return span("w", part);
  if (number !== undefined) return span("d", part);
  if (word !== undefined) return LANGUAGE.has(word) ? span("w", part) : part;
  return span("c", part);
}

/** A line as markup; `is_in_comment`: it begins within a comment. */
export function coloured_c(line, is_in_comment) {
  const end = is_in_comment ? line.indexOf("*/") : -2;
  if (end === -1) return span("c", line);
  const from = is_in_comment ? end + 2 : 0;
  let made = from ? span("c", line.slice(0, from)) : "", at = from;
  for (const found of line.slice(from).matchAll(PART)) {
    made += escape(line.slice(at, from + found.index)) + part_coloured(found);
    at = from + found.index + found[0].length;
  }
  return made + escape(line.slice(at));
}
