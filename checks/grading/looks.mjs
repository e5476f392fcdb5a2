// Looks at submissions as `xv --check` does, many in one process, and makes sheets: for course.py beside it. Standard
// input has a value of JSON, {looks: [[SHEET, FOLDER..]..], sheets: [EXERCISE..]}; what is printed has the looks of
// each SHEET by the folders' names, and the text of each EXERCISE's sheet.
import { readFileSync } from "node:fs";
import { basename } from "node:path";
import { is_whole, look_at, told } from "../../anywhere/src/marking/check.mjs";
import { read_sheet, sheet_of, text_of_sheet } from "../../anywhere/src/marking/sheet.mjs";

/** The look at a folder, and what is told of it. */
function look_of(sheet, folder) {
  const look = look_at(sheet, folder, basename(folder));
  return { ...look, is_whole: is_whole(look), told: told(look) };
}

function looks_of([path, ...folders]) {
  const sheet = read_sheet(path);
  return Object.fromEntries(folders.map((folder) => [basename(folder), look_of(sheet, folder)]));
}

const { looks = [], sheets = [] } = JSON.parse(readFileSync(0, "utf8"));
const texts = sheets.map((path) => text_of_sheet(sheet_of(path)));
console.log(JSON.stringify({ looks: looks.map(looks_of), sheets: texts }));
