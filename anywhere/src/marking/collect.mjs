// Makes a class of folders, one for each student, of what a course's system gives when all submissions are downloaded.
// The folders have the roster's names, so that the grader gives each student the same numbers in each exercise.
//
//   moodle   "Download all submissions": folders NAME_NUMBER_assignsubmission_file, or files with that before their
//            names
//   canvas   "Download Submissions": files NAME_USER_SUBMISSION_FILE, or NAME_LATE_USER_SUBMISSION_FILE
//   github   clones of a classroom's repositories: folders PREFIX-USER
import { mkdirSync, writeFileSync } from "node:fs";
import { join } from "node:path";
import { MOST } from "../grading/stage.mjs";
import { make_folder, names_in } from "./files.mjs";
import { Stop, exercise_of_held, held_exercise } from "./held.mjs";
import { folder_name, same_form } from "./host_names.mjs";
import { bytes_if_plain, kind_at } from "./plain.mjs";
import { Roster, read_roster } from "./roster.mjs";
import { shown } from "./shown.mjs";
import { text_of_utf16 } from "./utf16.mjs";

// What a student chooses stands last: of a folder nothing, of a file its own name. So that is never taken for another's
// number.
const MOODLES_FOLDER = /^([^]*)_(\d+)_assignsubmission_(?:file|onlinetext)_?$/;
const MOODLES_FILE = /^([^]*?)_(\d+)_assignsubmission_(?:file|onlinetext)_([^]+)$/;
const CANVAS = /^([^_]*)_((?:LATE_)?)(\d+)_(\d+)_([^]+)$/;

const is_folder = (path) => kind_at(path) === "folder";
const is_plain = (path) => kind_at(path) === "file";

/**
 * The plain files of a folder and those below it, those that lie highest first: pairs of a name and a path. No link is
 * followed.
 */
function files_below(folder) {
  const names = names_in(folder).filter((name) => !name.startsWith("."));
  const pairs = names.map((name) => [name, join(folder, name)]);
  const below = pairs.filter(([, path]) => is_folder(path)).flatMap(([, path]) => files_below(path));
  return [...pairs.filter(([, path]) => is_plain(path)), ...below];
}

// ---- whose it is: of each submission {name, files, find(roster), is_late}. `find` gives {student, why}: who it is, or
// why nobody is meant. `strange` are names that the system doesn't give.

const why_nobody = (name) => `nobody of the roster is ${shown(name)}, or several are`;
const found_by = (student, name) => (student ? { student } : { why: why_nobody(name) });

/**
 * Whose a folder of Moodle's is: its number says it, or its name. If the two are different students', or the roster has
 * another number for this name, it is nobody's: else one student would have another one's marks.
 */
function find_of_moodle(roster, { name, number }) {
  const by_number = roster.find(number, ["moodle"]), by_name = roster.find(name, ["name"]);
  if (by_number && by_name && by_number !== by_name) {
    return { why: `the number ${number} is that of ${shown(by_number.id)}, and the name that of ${shown(by_name.id)}` };
  }
  const other = by_number || number === "" ? "" : same_form(by_name?.moodle ?? "");
  if (other !== "") return { why: `its number is ${number}, and that of ${shown(by_name.id)} is ${shown(other)}` };
  return found_by(by_number ?? by_name, name);
}

function of_moodle(folder) {
  const found = new Map(), strange = [];
  for (const entry of names_in(folder)) {
    const path = join(folder, entry), is_whole = is_folder(path);
    const [, name, number, file] = (is_whole ? MOODLES_FOLDER : MOODLES_FILE).exec(entry) ?? [, entry, ""];
    if (!is_whole && file === undefined) {
      strange.push(entry);
      continue;
    }
    const it = found.get(`${name}_${number}`) ?? { name, number, files: [] };
    it.files.push(...(is_whole ? files_below(path) : is_plain(path) ? [[file, path]] : []));
    found.set(`${name}_${number}`, it);
  }
  const all = [...found.values()].map((it) => ({ ...it, find: (roster) => find_of_moodle(roster, it) }));
  return { all, strange };
}

function of_canvas(folder) {
  const found = new Map(), strange = [];
  for (const entry of names_in(folder)) {
    const [, name, late, user, , file] = (is_plain(join(folder, entry)) && CANVAS.exec(entry)) || [];
    if (user === undefined) {
      strange.push(entry);
      continue;
    }
    const it = found.get(user) ?? { name: `${name} ${user}`, files: [], renames: true };
    const find = (roster) => found_by(roster.find(user, ["canvas"]), it.name);
    const is_late = it.is_late || late !== "";
    found.set(user, { ...it, files: [...it.files, [file, join(folder, entry)]], is_late, find });
  }
  return { all: [...found.values()], strange };
}

function of_github(folder, prefix) {
  if (!prefix) throw new Stop(1, "collect github needs --prefix, what the names of all repositories begin with");
  const names = names_in(folder), is_clone = (name) => name.startsWith(`${prefix}-`) && is_folder(join(folder, name));
  const all = names.filter(is_clone).map((name) => {
    const user = name.slice(prefix.length + 1), find = (roster) => found_by(roster.find(user, ["github"]), user);
    return { name: user, files: files_below(join(folder, name)), find };
  });
  return { all, strange: names.filter((name) => !is_clone(name)) };
}

const WAYS = { moodle: of_moodle, canvas: of_canvas, github: of_github };

// ---- what is taken

/** The name of a file that was handed in more than once, as Canvas tells it: `init-1.s` is `init.s`. */
function name_of_file(name, wanted) {
  const plain = name.replace(/-\d+(\.[^.]*)?$/, "$1");
  return wanted !== null && !wanted.includes(name) && wanted.includes(plain) ? plain : name;
}

/** The files that are taken of a submission, by their names, and what is told of the others. */
function taken_of({ files, renames }, wanted) {
  const taken = new Map(), told = [];
  for (const [given, path] of files) {
    const name = renames ? name_of_file(given, wanted) : given, bytes = bytes_if_plain(path);
    if (wanted !== null && !wanted.includes(name)) continue;
    if (name.startsWith(".")) told.push(`${shown(given)} begins with a dot, and isn't taken`);
    else if (bytes === null) told.push(`${shown(given)} is no plain file of ${MOST} bytes at most, and isn't taken`);
    else if (taken.has(name)) told.push(`${shown(given)} is there twice: the first, or higher one is taken`);
    else taken.set(name, bytes);
  }
  for (const [name, bytes] of taken) {
    const text = text_of_utf16(bytes);
    if (text === null) continue;
    taken.set(name, Buffer.from(text));
    told.push(`${shown(name)} was a text of UTF-16, and is one of UTF-8 now`);
  }
  return { taken, told };
}

/** Writes the folder of a submission. */
function write_folder(path, taken) {
  try {
    mkdirSync(path);
    for (const [name, bytes] of taken) writeFileSync(join(path, name), bytes, { flag: "wx" });
  } catch (error) {
    throw new Stop(5, `${path} can't be written: ${error.code}`);
  }
}

/** The submissions with the names of their folders; two for one student are refused. */
function placed(found, roster) {
  const all = found.map((it) => ({ ...it, ...(roster === null ? {} : it.find(roster)) }));
  // Who isn't known gets a name that no row of the roster has: a name of their own choice could be another's.
  const unknown = ({ name, number }) => ["unknown", number, name].filter(Boolean).join(" ");
  const name_of = (it) => (it.student ? Roster.folder_of(it.student) : roster ? unknown(it) : it.name);
  const named = all.map((it) => ({ ...it, folder: folder_name(name_of(it)) }));
  const letters = named.map(({ folder }) => folder.toLowerCase());
  const twice = named.find((_, k) => letters.indexOf(letters[k]) !== k);
  const apart = "give the roster a column that tells them apart";
  if (twice) throw new Stop(2, `two submissions would be ${shown(twice.folder)}: ${apart}`);
  return named;
}

const counted = (count) => (count === 1 ? "1 submission" : `${count} submissions`);

/** The empty folder of the class. */
function make_empty(to) {
  make_folder(to);
  if (names_in(to).length > 0) throw new Stop(2, `${to} isn't empty: name another folder`);
}

/** `collect WAY FOLDER --to FOLDER`: makes the class, and tells what isn't as it should be. */
export function collect(way, folder, { to, roster: path, exercise, prefix }) {
  const ways = Object.keys(WAYS);
  if (!ways.includes(way)) throw new Stop(1, `collect takes one of ${ways.join(", ")}, and not ${way}`);
  const roster = path ? read_roster(path) : null;
  const wanted = exercise ? exercise_of_held(held_exercise(exercise)).wanted : null;
  const found = WAYS[way](folder, prefix), all = placed(found.all, roster);
  const lines = found.strange.map((name) => `${shown(name)} isn't taken: it is no folder or file as ${way} gives it\n`);
  make_empty(to);
  for (const it of all) {
    const { taken, told } = taken_of(it, wanted), say = (text) => lines.push(`${shown(it.folder)}: ${text}\n`);
    write_folder(join(to, it.folder), taken);
    told.forEach(say);
    if (it.why) say(it.why);
    if (it.is_late) say("handed in late");
  }
  return `${lines.join("")}${counted(all.length)}\n`;
}
