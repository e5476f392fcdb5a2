// A page of HTML for each student: what was reached in each part, what failed, and how to see it. It has no script, and
// asks for nothing: its policy allows its own style alone.
import { createHash } from "node:crypto";
import { join } from "node:path";
import { is_right, told_closed, why_of } from "./cases.mjs";
import { line_of } from "./csv.mjs";
import { make_folder, write_file } from "./files.mjs";
import { read_book } from "./gradebook.mjs";
import { DEVICE } from "./host_names.mjs";
import { escaped } from "./markup.mjs";

const HEAD = '<!DOCTYPE html>\n<html lang="en"><head><meta charset="utf-8">\n'
  + '<meta http-equiv="Content-Security-Policy" content="default-src \'none\'; style-src \'unsafe-inline\'">\n'
  + '<meta name="viewport" content="width=device-width">\n'
  + "<style>body{font:1rem/1.5 sans-serif;max-width:60rem;margin:2rem auto;padding:0 1rem}"
  + "table{border-collapse:collapse;width:100%}td{border-bottom:1px solid #999;vertical-align:top;padding:.3rem}"
  + "td:first-child{white-space:nowrap}pre{background:#eee;padding:.5rem;overflow-x:auto}.no{color:#a00}</style>\n";

const PAGE = "nektavoly.html"; // beside the pages, if nobody says
const USUAL = /^[A-Za-z0-9][A-Za-z0-9._-]{0,60}$/;

const paragraph = (text) => (text ? `<p>${text}</p>\n` : "");
const row = (...its) => `<tr>${its.map((it) => `<td>${it}</td>`).join("")}</tr>\n`;
const points = (got, of) => `${got === null ? "?" : escaped(got)} of ${escaped(of)}`;

/** What failed in a part; only its standing, if answers aren't to be told. */
function failure_of(part, { is_closed }) {
  if (is_right(part)) return "";
  return escaped(is_closed ? told_closed(part) : why_of(part));
}

/** The rows of a mark. If answers aren't to be told, parts have the exercise's names, without what a variant has. */
function rows_of_mark(mark, exercise, how) {
  const names = how.is_closed ? exercise.parts : mark.parts ?? [];
  const parts = (mark.parts ?? []).map((it, k) => row(
    `<span class="${is_right(it) ? "yes" : "no"}">${points(it.points, it.of)}</span>`,
    `${escaped(names[k].run)}: ${escaped(names[k].name)}`, failure_of(it, how),
  ));
  const hand = mark.hand.map((it) => row(
    points(it.points, it.of), escaped(it.name), it.points === null ? "not given yet" : escaped(it.remark),
  ));
  return `<table>\n${[...parts, ...hand].join("")}</table>\n`;
}

/** How a student sees what a run came to. */
function show_of({ run, lines, link, is_closed }, how) {
  if (how.is_closed && is_closed) return "";
  const to_page = `<a rel="noreferrer" href="${escaped(`${how.page}#${link}`)}">on the page, at its event</a>`;
  const mine = "with what you handed in lying in the folder <code>mine</code>";
  return paragraph(`To see <em>${escaped(run)}</em>, ${mine}, type at the top of a release:`)
    + `<pre>${lines.map(escaped).join("\n")}</pre>\n${link === null ? "" : paragraph(`Or look at it ${to_page}.`)}`;
}

const days = (count) => (count === 1 ? "a day" : `${count} days`);

function late_words({ late, reached, points: given, of }) {
  if (late.days === 0) return "";
  const free = late.free ? `, ${late.free} of them free` : "";
  return `Late by ${days(late.days)}${free}: ${late.percent} % of ${reached} points count, ${given} of ${of}.`;
}

/** What a mark was before it was given anew. */
function history_words({ on, from, to, parts }, how) {
  const its = parts.map((it) => `${escaped(it.part)}: ${it.from ?? "none"}, now ${it.to ?? "none"}`).join("; ");
  return `<li>${escaped(on)}: ${from} points became ${to}${its && !how.is_closed ? ` (${its})` : ""}</li>\n`;
}

function history_of({ history = [] }, how) {
  const its = history.map((it) => history_words(it, how)).join("");
  return its && `<p>This mark was given anew:</p>\n<ul>\n${its}</ul>\n`;
}

function section_of(mark, exercise, how) {
  const state = mark.state === "graded" ? "" : escaped(`${mark.state}: ${how.is_closed ? "" : mark.reason}`);
  const given = points(mark.state === "not graded" ? null : mark.points, mark.of);
  const head = `<h2>${escaped(exercise.title)}: ${given}</h2>\n`;
  const shows = mark.show.map((it) => show_of(it, how)).join("");
  return head + paragraph(state) + paragraph(escaped(late_words(mark))) + rows_of_mark(mark, exercise, how) + shows
    + history_of(mark, how);
}

function page_of(student, book, how) {
  const title = `${escaped(book.title)}: ${escaped(student.name || student.id)}`;
  const sections = student.marks.map((mark, k) => section_of(mark, book.exercises[k], how)).join("");
  const sum = paragraph(`${points(student.points, student.of)} points.`);
  return `${HEAD}<title>${title}</title></head>\n<body>\n<h1>${title}</h1>\n${sum}${sections}</body></html>\n`;
}

/** The name of a student's page: the id, if it is a plain word that no other page has, or else with a sum of it. */
function names_of(students) {
  const taken = new Set();
  return students.map(({ id }) => {
    const sum = createHash("sha256").update(id).digest("hex").slice(0, 12);
    const is_plain = USUAL.test(id) && !DEVICE.test(id) && !taken.has(id.toLowerCase());
    const name = is_plain ? id : `${id.replace(/[^A-Za-z0-9]+/g, "-").slice(0, 40)}-${sum}`;
    taken.add(name.toLowerCase());
    return `${name}.html`;
  });
}

/** `html FILE --to FOLDER`: writes the pages, and `pages.csv`, which says whose each is. */
export function write_pages(file, { to, closed = false, page = PAGE }) {
  const book = read_book(file), { students } = book, names = names_of(students), how = { is_closed: closed, page };
  make_folder(to);
  students.forEach((student, k) => write_file(join(to, names[k]), page_of(student, book, how)));
  const rows = [["id", "name", "page"], ...students.map(({ id, name }, k) => [id, name, names[k]])];
  write_file(join(to, "pages.csv"), rows.map(line_of).join(""));
  return null;
}
