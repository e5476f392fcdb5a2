// Words of the source that are looked for, and the bracket beside the caret with its partner: both are marked below the
// letters, in the lines that are drawn.
import { $, on, say } from "./app.mjs";
import { choose, drawn_lines, make, opened } from "./editor.mjs";
import { is_c } from "../../anywhere/machine/file_kinds.mjs";
import { brackets_at, places_of_words } from "./source_edits.mjs";

const MOST_LETTERS = 400000; // of a source whose brackets are looked for at each move of the caret
const search = { is_open: false, places: [], at: -1 };

const source = () => $("source");
const words = () => $("search-words").value;

// ---- marks

/** The element of a line that has the letter at a column, and where in it the letter stands. */
function letter_of(row, column) {
  const walker = document.createTreeWalker(row, NodeFilter.SHOW_TEXT);
  let before = 0;
  for (let node = walker.nextNode(); node; node = walker.nextNode()) {
    if (column <= before + node.length) return [node, column - before];
    before += node.length;
  }
  return null;
}

/** The mark of letters of a line: it stands below them. */
function mark_of(row, from, to, name) {
  const first = letter_of(row, from), last = letter_of(row, to);
  if (!first || !last) return [];
  const range = document.createRange();
  range.setStart(...first);
  range.setEnd(...last);
  const paper = row.closest(".paper").getBoundingClientRect(), box = range.getBoundingClientRect();
  const made = document.createElement("div"), { style } = made;
  made.className = name;
  Object.assign(style, { left: `${box.left - paper.left}px`, top: `${row.offsetTop}px`, width: `${box.width}px` });
  return [made];
}

/** What is marked: {at, length, name} of each, in order of places. */
function marked() {
  const { value, selectionStart: from, selectionEnd: to } = source();
  if (search.is_open) {
    const { length } = words(), name_of = (k) => (k === search.at ? "found chosen" : "found");
    return search.places.map((at, k) => ({ at, length, name: name_of(k) }));
  }
  if (document.activeElement !== source() || from !== to || value.length > MOST_LETTERS) return [];
  const pair = brackets_at(value, from, is_c(opened()));
  if (!pair) return [];
  const name = pair[1] === null ? "bracket alone" : "bracket";
  return pair.filter((it) => it !== null).map((at) => ({ at, length: 1, name }));
}

/** Draws the marks of the lines that are drawn. */
function draw_marks() {
  const { from, to, lines, rows } = drawn_lines(), made = [];
  const wanted = rows.length ? marked() : [];
  let begin = 0;
  for (let line = 0; wanted.length && line < Math.min(to, lines.length); line++) {
    const end = begin + lines[line].length, column = begin;
    const here = line < from ? [] : wanted.filter(({ at }) => at >= column && at < end);
    for (const { at, length, name } of here) {
      made.push(...mark_of(rows[line - from], at - column, at - column + length, name));
    }
    begin = end + 1;
  }
  $("editor").querySelector(".marks").replaceChildren(...made);
}

// ---- words

/** Finds the words anew, and tells how many there are; the one that is meant is the first from a place on. */
function find_from(from) {
  if (!search.is_open) return;
  search.places = places_of_words(source().value, words());
  search.at = search.places.length ? Math.max(search.places.findIndex((it) => it >= from), 0) : -1;
  tell_count();
  draw_marks();
}

function tell_count() {
  const { places, at } = search;
  $("search-count").textContent = !words() ? "" : places.length ? `${at + 1} of ${places.length}` : "none";
  $("search-replace").disabled = $("search-all").disabled = !places.length || source().readOnly;
}

/** Chooses the one that is meant. */
function show() {
  const { places, at } = search;
  tell_count();
  if (at >= 0) choose(places[at], places[at] + words().length);
  draw_marks();
}

function find(from) {
  find_from(from);
  show();
}

function go(by) {
  const { places } = search;
  if (!places.length) return;
  search.at = (search.at + by + places.length) % places.length;
  show();
}

/** Opens the bar, with what is chosen in the source if that is on one line. */
function open_search() {
  const { value, selectionStart: from, selectionEnd: to } = source(), chosen = value.slice(from, to);
  if (chosen && !chosen.includes("\n")) $("search-words").value = chosen;
  search.is_open = true;
  $("search").hidden = false;
  $("search-words").focus();
  $("search-words").select();
  find(from);
}

/** Closes the bar: what was found last stays chosen. */
function close() {
  search.is_open = false;
  $("search").hidden = true;
  source().focus({ preventScroll: true });
  draw_marks();
}

function replace() {
  const at = search.places[search.at], text = $("search-other").value;
  if (at === undefined) return;
  make({ from: at, to: at + words().length, text, chosen: [at, at + text.length] });
  find(at + text.length);
}

/** Replaces all, as one edit. */
function replace_all() {
  const { places } = search, { value } = source(), text = $("search-other").value, { length } = words();
  const parts = places.map((at, k) => value.slice(k ? places[k - 1] + length : 0, at) + text);
  const made = parts.join("") + value.slice(places.length ? places.at(-1) + length : 0);
  if (!make({ from: 0, to: value.length, text: made, chosen: [0, 0] })) return;
  say(`${places.length} replaced`);
  find(0);
}

export function start() {
  $("search").addEventListener("submit", (event) => { event.preventDefault(); go(1); });
  $("search").addEventListener("keydown", (event) => {
    const goes_back = event.key === "Enter" && event.shiftKey && event.target === $("search-words");
    if (event.key !== "Escape" && !goes_back) return;
    event.preventDefault();
    if (goes_back) go(-1);
    else close();
  });
  $("search-words").addEventListener("input", () => find(source().selectionStart));
  $("search-back").addEventListener("click", () => go(-1));
  $("search-replace").addEventListener("click", replace);
  $("search-all").addEventListener("click", replace_all);
  $("search-close").addEventListener("click", close);
  document.addEventListener("selectionchange", () => { if (!search.is_open) draw_marks(); });
  source().addEventListener("blur", () => { if (!search.is_open) draw_marks(); });
  on("search", open_search);
  on("source drawn", draw_marks);
  on("shown", () => find_from(0));
  on("edited", () => find_from(source().selectionStart));
}
