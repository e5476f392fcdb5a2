// CSV (RFC 4180): what is read may have the mark and the line ends of Windows, and semicolons or tabs, as Excel writes
// them in some countries.

/** Under this a record has the line in which it begins, from 1. */
export const LINE = Symbol("line");

/** That a text is no such table, and in which line. */
export class NoTable extends Error {
  constructor(line, why) {
    super(`line ${line}: ${why}`);
  }
}

/** What stands between the cells: the first of these that the head has outside of quotes. */
export function separator_of(text) {
  const [head] = /[^\r\n]+/.exec(text) ?? [""];
  return /[,;\t]/.exec(head.replace(/"(?:[^"]|"")*"/g, ""))?.[0] ?? ",";
}

const ends_in = (text) => text.match(/\r\n|\r|\n/g)?.length ?? 0;

/** The rows of a text, each a list of texts, with the line in which it begins. */
export function rows_of(text, comma = ",") {
  const plain = text.replace(/^\ufeff/, ""), bare_cell = `(?:[^"${comma}\\r\\n][^${comma}\\r\\n]*)?`;
  const field = new RegExp(`(?:"((?:[^"]|"")*)"|(${bare_cell}))(${comma}|\\r\\n|\\r|\\n|$)`, "y");
  const rows = [];
  let row = [], begun = 1, line = 1;
  while (field.lastIndex < plain.length || row.length > 0) {
    const [whole, quoted, bare, end] = field.exec(plain) ?? refuse(line);
    row.push(quoted?.replaceAll('""', '"') ?? bare);
    line += ends_in(whole);
    if (end === comma) continue;
    if (row.length > 1 || row[0] !== "") rows.push(Object.assign(row, { [LINE]: begun }));
    [row, begun] = [[], line];
    if (end === "") break;
  }
  return rows;
}

function refuse(line) {
  throw new NoTable(line, "there is text behind a closing quote, or a quote that isn't closed");
}

/** A row as a table by the names of the columns. A cell that no column has would be lost. */
function record_of(row, names) {
  const over = row.findIndex((cell, k) => k >= names.length && cell.trim() !== "");
  if (over >= 0) throw new NoTable(row[LINE], `there are ${over + 1} cells, and the head has ${names.length}`);
  return { ...Object.fromEntries(names.map((name, k) => [name, (row[k] ?? "").trim()])), [LINE]: row[LINE] };
}

/** The rows of a text with a head that has these columns: tables by the names of the columns, in small letters. */
export function records_of(text, needed) {
  const [head, ...rows] = rows_of(text, separator_of(text));
  if (head === undefined) throw new NoTable(1, `there is no head, with ${needed.join(", ")}`);
  const names = head.map((name) => name.trim().toLowerCase());
  const missing = needed.find((column) => !names.includes(column));
  if (missing !== undefined) throw new NoTable(head[LINE], `there is no column ${missing}`);
  const twice = names.find((name, k) => name !== "" && names.indexOf(name) !== k);
  if (twice !== undefined) throw new NoTable(head[LINE], `there are two columns ${twice}`);
  return rows.map((row) => record_of(row, names)).filter((it) => Object.values(it).some((cell) => cell !== ""));
}

/**
 * A cell that a spreadsheet takes as text. One that begins as a formula does gets an apostrophe before it, as OWASP's
 * page on CSV injection says: spreadsheets would compute it else.
 */
const harmless = (text) => (/^[=+\-@\t\r\n\uff1d\uff0b\uff0d\uff20]/.test(text) ? `'${text}` : text);

const field = (text) => (/[,"\n\r;]|^\s|\s$/.test(text) ? `"${text.replaceAll('"', '""')}"` : text);

const cell_of = (it) => field(typeof it === "string" ? harmless(it) : String(it ?? ""));

/** A row as a line. Texts are made harmless, numbers stay as they are. */
export const line_of = (row) => `${row.map(cell_of).join(",")}\r\n`;
