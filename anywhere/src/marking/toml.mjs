// A reader of TOML 1.0 (toml.io), for exercises and for the file of a course: tables, lists of tables, texts, whole
// numbers, truth values, lists and inline tables. What it reads, Python's tomllib reads alike; what that refuses, this
// one does. Dates and numbers with a point are texts here, and are refused. The grader has its own reader, which is the
// one that decides; so what is read here is compared with what it says.

/** That a text is no such TOML, and in which line. */
export class NotRead extends Error {}

const LINES = Symbol("lines");
const DEEPEST = 100; // lists and inline tables in one another
const ESCAPES = { b: "\b", t: "\t", n: "\n", f: "\f", r: "\r", '"': '"', "\\": "\\" };
const WHOLE = new RegExp("(?:0x[0-9A-Fa-f](?:_?[0-9A-Fa-f])*|0o[0-7](?:_?[0-7])*|0b[01](?:_?[01])*"
  + "|[+-]?(?:0|[1-9](?:_?[0-9])*))(?![\\w.:+-])", "y");

// The texts, by what opens them: what ends one, a part of it that stands for itself, and whether it has escapes. A
// control letter, but for a tab, stands in none; the end of a line in long ones alone.
const LONG_TEXTS = [
  { begin: /"""\n?/y, end: /"""(?:""?(?!"))?/y, part: /[^"\\\0-\x08\x0b-\x1f\x7f]+|"(?!"")/y, has_escapes: true },
  { begin: /'''\n?/y, end: /'''(?:''?(?!'))?/y, part: /[^'\0-\x08\x0b-\x1f\x7f]+|'(?!'')/y },
];
const SHORT_TEXTS = [
  { begin: /"/y, end: /"/y, part: /[^"\\\0-\x08\n-\x1f\x7f]+/y, has_escapes: true },
  { begin: /'/y, end: /'/y, part: /[^'\0-\x08\n-\x1f\x7f]+/y },
];
const TEXTS = [...LONG_TEXTS, ...SHORT_TEXTS];

/** A place in a text, which is read on from there. */
class Source {
  constructor(text) {
    const plain = text.replace(/^\ufeff/, "").replaceAll("\r\n", "\n");
    Object.assign(this, { text: plain, at: 0, depth: 0, counted: 0, lines: 1 });
  }

  /** The line of this place, from 1. */
  get line() {
    for (; this.counted < this.at; this.counted++) if (this.text[this.counted] === "\n") this.lines++;
    return this.lines;
  }

  refuse(why) {
    throw new NotRead(`line ${this.line}: ${why}`);
  }

  /** Passes over what fits here, and gives it; null if nothing does. */
  take(pattern) {
    pattern.lastIndex = this.at;
    const found = pattern.exec(this.text);
    if (found) this.at += found[0].length;
    return found;
  }

  need(pattern, what) {
    return this.take(pattern) ?? this.refuse(`${what} is missing`);
  }

  blanks() {
    this.take(/[ \t]*/y);
  }

  /** Blanks, comments and ends of lines. */
  gap() {
    while (this.take(/[ \t\n]+|#[^\0-\x08\n-\x1f\x7f]*(?=\n|$)/y)) { /* it goes on */ }
  }

  get is_over() {
    return this.at >= this.text.length;
  }
}

// ---- texts

/** What an escape stands for. */
function of_escape(source) {
  const found = source.need(/\\(?:u([0-9A-Fa-f]{4})|U([0-9A-Fa-f]{8})|([btnfr"\\]))/y, "an escape that TOML has");
  if (found[3]) return ESCAPES[found[3]];
  const code = parseInt(found[1] ?? found[2], 16);
  const is_letter = code <= 0x10ffff && !(code >= 0xd800 && code <= 0xdfff);
  return is_letter ? String.fromCodePoint(code) : source.refuse("an escape is no letter");
}

/** What stands in a text and isn't a part of it as it is: an escape, or the end of a line that doesn't count. */
function of_other(source, form) {
  const letter = source.text[source.at];
  if (letter === undefined || letter === "\n") source.refuse("a text has no end");
  if (!form.has_escapes || letter !== "\\") source.refuse("a text has a letter that nobody sees, and no escape for it");
  return LONG_TEXTS.includes(form) && source.take(/\\[ \t]*\n[ \t\n]*/y) ? "" : of_escape(source);
}

/** A text of one of these forms; undefined if none begins here. */
function text(source, forms) {
  const form = forms.find(({ begin }) => source.take(begin));
  if (!form) return undefined;
  const parts = [];
  for (let close = null; close === null;) {
    close = source.take(form.end);
    parts.push(close ? close[0].slice(3) : source.take(form.part)?.[0] ?? of_other(source, form));
  }
  return parts.join("");
}

// ---- values

function list(source) {
  const items = [];
  for (source.gap(); !source.take(/\]/y); source.gap()) {
    items.push(value(source));
    source.gap();
    if (source.take(/,/y)) continue;
    source.need(/\]/y, "a bracket `]`");
    break;
  }
  return items;
}

function inline_table(source) {
  const table = new_table(), places = new Places();
  source.blanks();
  if (source.take(/\}/y)) return table;
  do {
    source.blanks();
    pair(source, table, places);
    source.blanks();
  } while (source.take(/,/y));
  source.need(/\}/y, "a brace `}`");
  return table;
}

/** What opens with a bracket or a brace, to a depth at which no reader breaks. */
function nested(source, read) {
  if (++source.depth > DEEPEST) source.refuse("lists or tables stand too deep in one another");
  const made = read(source);
  source.depth--;
  return made;
}

function number(source, [digits]) {
  const plain = digits.replaceAll("_", ""), found = Number(plain.replace(/^[+-]/, ""));
  if (!Number.isSafeInteger(found)) source.refuse(`${digits} is too large a number`);
  return plain.startsWith("-") ? 0 - found : found;
}

function value(source) {
  const found = text(source, TEXTS), digits = found === undefined && source.take(WHOLE);
  if (found !== undefined) return found;
  if (digits) return number(source, digits);
  const truth = source.take(/(true|false)(?![\w-])/y);
  if (truth) return truth[1] === "true";
  if (source.take(/\[/y)) return nested(source, list);
  if (source.take(/\{/y)) return nested(source, inline_table);
  const is_number = /[+-]?(?:\d|inf|nan)/y, here = "this is no text, whole number, list or table";
  return source.refuse(source.take(is_number) ? `${here}: a time, or a number with a point, stands in quotes` : here);
}

// ---- tables

function new_table() {
  const table = Object.create(null);
  Object.defineProperty(table, LINES, { value: Object.create(null) });
  return table;
}

/** The line in which a table has a key, from 1. */
export const line_of = (table, key) => table[LINES]?.[key];

export const is_table = (it) => it !== null && typeof it === "object" && !Array.isArray(it);

/**
 * Which tables may still get keys: `headed` were begun by a header, `dotted` by dots of keys below some header, and
 * `listed` are lists of tables, of which the last may. A list or a table that is a value gets none.
 */
class Places {
  constructor() {
    Object.assign(this, { headed: new Set(), dotted: new Map(), listed: new Set(), implied: new Set(), part: 0 });
  }

  /** The table below another one that a header's part names, made if it isn't there. */
  below(source, table, key) {
    if (!(key in table)) this.implied.add(table[key] = new_table());
    const found = this.listed.has(table[key]) ? table[key].at(-1) : table[key];
    const is_open = this.implied.has(found) || this.headed.has(found) || this.dotted.has(found);
    return is_open ? found : source.refuse(`${key} is no table that can have more`);
  }

  /** The table below another one that a part of a key before its last dot names. */
  below_dot(source, table, key) {
    if (!(key in table)) this.implied.add(table[key] = new_table());
    const found = table[key], part = this.dotted.get(found) ?? this.part;
    const is_open = this.implied.has(found) && !this.headed.has(found) && part === this.part;
    if (!is_open) source.refuse(`${key} is no table that can have more here`);
    this.dotted.set(found, this.part);
    return found;
  }
}

/** The parts of a key, as `late.free`. */
function key(source) {
  const parts = [];
  do {
    source.blanks();
    const found = source.take(/[A-Za-z0-9_-]+/y)?.[0] ?? text(source, SHORT_TEXTS);
    parts.push(found ?? source.refuse("a key is missing"));
    source.blanks();
  } while (source.take(/\./y));
  return parts;
}

function pair(source, table, places) {
  const { line } = source, parts = key(source), last = parts.pop();
  source.need(/=[ \t]*/y, "an `=`");
  const at = parts.reduce((it, part) => places.below_dot(source, it, part), table);
  if (last in at) source.refuse(`${last} stands there twice`);
  at[LINES][last] = line;
  at[last] = value(source);
}

/** A new table at the end of a list of tables. */
function listed_table(source, at, last, places) {
  if (!(last in at)) places.listed.add(at[last] = []);
  if (!places.listed.has(at[last])) source.refuse(`${last} is no list of tables`);
  at[last].push(new_table());
  return at[last].at(-1);
}

/** The table of a header in brackets, which no other one has begun. */
function headed_table(source, at, last, places) {
  if (!(last in at)) places.implied.add(at[last] = new_table());
  const is_open = places.implied.has(at[last]) && !places.headed.has(at[last]) && !places.dotted.has(at[last]);
  return is_open ? at[last] : source.refuse(`${last} stands there twice`);
}

/** The table that a header begins. */
function header(source, table, places) {
  const { line } = source, is_list = source.take(/\[\[/y) !== null;
  if (!is_list) source.need(/\[/y, "a bracket");
  const parts = key(source), last = parts.pop();
  source.need(is_list ? /\]\]/y : /\]/y, "a bracket `]`");
  const at = parts.reduce((it, part) => places.below(source, it, part), table);
  const made = (is_list ? listed_table : headed_table)(source, at, last, places);
  places.headed.add(made);
  places.part++;
  at[LINES][last] ??= line;
  return made;
}

/** The table of a text of TOML. */
export function table_of(whole) {
  const source = new Source(whole), table = new_table(), places = new Places();
  let at = table;
  for (source.gap(); !source.is_over; source.gap()) {
    if (source.text[source.at] === "[") at = header(source, table, places);
    else pair(source, at, places);
    source.need(/[ \t]*(?:#[^\0-\x08\n-\x1f\x7f]*)?(?:\n|$)/y, "the line's end");
  }
  return table;
}

/** The tables of a list; none if it isn't there. */
export const list_of = (it) => (Array.isArray(it) ? it : []);

/** A value as TOML. A text of JSON is one of TOML, but for the letter that TOML doesn't take. */
export function toml_of(it) {
  if (typeof it === "string") return JSON.stringify(it).replaceAll("\x7f", "\\u007f");
  if (Array.isArray(it)) return `[${it.map(toml_of).join(", ")}]`;
  if (typeof it !== "object") return String(it);
  return `{ ${Object.entries(it).map(([name, one]) => `${toml_of(name)} = ${toml_of(one)}`).join(", ")} }`;
}
