// An autograder for Gradescope, as its page "Autograder Specifications" says: a zip that is unpacked into
// /autograder/source, with setup.sh and run_autograder; what was handed in lies in /autograder/submission, who did in
// /autograder/submission_metadata.json, and the marks go to /autograder/results/results.json.
import { is_right, why_of } from "./cases.mjs";
import { carried_files } from "./carried.mjs";
import { look_at } from "./check.mjs";
import { bytes_of, text_of, write_file } from "./files.mjs";
import { Stop, graded, held_exercise, packed } from "./held.mjs";
import { Roster, read_roster } from "./roster.mjs";
import * as shape from "./shape.mjs";
import { EXERCISE, sheet_of, sheet_of_text, text_of_sheet, unpacked_in } from "./sheet.mjs";
import { shown } from "./shown.mjs";
import { zip_of } from "./zip.mjs";

const KIND = "nektavoly autograder 1";
const MOST = 10000; // letters of what a test tells

const SETUP = `#!/bin/sh
# Makes Node ready: the one that was packed, or Ubuntu's own (24.04 and later; that of 22.04 is too old).
is_new_enough() {
    "$1" -e 'const [a, b] = process.versions.node.split("."); process.exit(a > 18 || (a == 18 && b >= 17) ? 0 : 1)' 2>&1
}
if [ -f /autograder/source/node ]; then
    chmod +x /autograder/source/node
    is_new_enough /autograder/source/node && exit 0
fi
command -v node >/dev/null && is_new_enough node && exit 0
apt-get update && apt-get install -y --no-install-recommends nodejs && is_new_enough node && exit 0
echo 'Node 18.17 or later is needed: choose the base image of Ubuntu 24.04, or pack one by --node' >&2
exit 1
`;

const RUN = `#!/bin/sh
# Grades what lies in submission, beside this file, and writes results/results.json.
top=\${0%/*}
[ "$top" != "$0" ] || top=.
node=$top/source/node
[ -x "$node" ] || node=node
exec "$node" "$top/source/anywhere/marks.mjs" autograde "$top/source/autograder.json" "$top/submission" \\
    "$top/submission_metadata.json" "$top/results/results.json"
`;

/** Whose folder's name goes with which user of Gradescope, by email and by id, in small letters. */
function names_of({ students }, path) {
  const names = new Map();
  for (const student of students) {
    const folder = Roster.folder_of(student), keys = [student.email, student.id].filter(Boolean);
    for (const key of keys.map((it) => it.toLowerCase())) {
      const is_anothers = names.has(key) && names.get(key) !== folder;
      if (is_anothers) throw new Stop(2, `${path}: ${shown(key)} is the email or id of two students`);
      names.set(key, folder);
    }
  }
  return Object.fromEntries(names);
}

/** `gradescope EXERCISE --to FILE`: writes the zip. */
export function write_autograder(exercise, { to, roster, open, node }) {
  const grader = {
    kind: KIND, exercise: packed(held_exercise(exercise)), sheet: text_of_sheet(sheet_of(exercise, open)),
    names: roster ? names_of(read_roster(roster), roster) : null,
  };
  const files = [
    { name: "setup.sh", bytes: SETUP, is_program: true }, { name: "run_autograder", bytes: RUN, is_program: true },
    { name: "autograder.json", bytes: `${JSON.stringify(grader)}\n` }, ...carried_files(),
    ...(node ? [{ name: "node", bytes: bytes_of(node), is_program: true }] : []),
  ];
  write_file(to, zip_of(files));
  return null;
}

// ---- within Gradescope

/** The name under which somebody hands in: that of the roster, or the email; the first of a group that has one. */
function name_of({ users }, names) {
  const all = (users ?? []).flatMap(({ email, sid }) => [email, sid]);
  const keys = all.filter((it) => typeof it === "string" && it !== "");
  const known = keys.map((key) => key.toLowerCase()).find((key) => names !== null && Object.hasOwn(names, key));
  const is_known = names === null || known !== undefined;
  return { name: known === undefined ? keys[0] ?? "nobody" : names[known], is_known };
}

const GRADER = shape.table({
  exercise: EXERCISE, sheet: shape.text, names: shape.maybe(shape.table_of_all(shape.text)),
});
const METADATA = shape.table({ users: shape.maybe(shape.list(shape.table({}))) });

/** A text as long as a test may tell. */
const cut = (text) => shown(text).slice(0, MOST).replace(/[\ud800-\udbff]$/, "");

/**
 * A test as Gradescope shows it. What doesn't count has no points of none: so the sum of all is the mark, and is hidden
 * as long as one of them is.
 */
const test_of = (number, name, is_passed, output, more) => ({
  number, name: cut(name), name_format: "text", status: is_passed ? "passed" : "failed", score: 0, max_score: 0,
  output: cut(output), output_format: "text", ...more,
});

const OPEN = { visibility: "visible" }, LATER = { visibility: "after_published" }, TEACHERS = { visibility: "hidden" };

/** What a student sees at once: the form and the open cases, without points. */
function open_tests({ parts, hints, open }) {
  const form = parts.map(({ run, name, lack }) => [`is there: ${run}: ${name}`, lack === null, lack ?? ""]);
  const texts = hints.map((hint) => ["the form of a text", false, hint]);
  const its = open.map((it) => [`open case: ${it.run}: ${it.name}`, is_right(it), why_of(it)]);
  return [[...form, ...texts], its].flatMap((tests, group) => (
    tests.map((test, k) => test_of(`${group + 1}.${k + 1}`, ...test, OPEN))
  ));
}

/**
 * What counts: it is shown when the marks are published, in the task's words, which are those of the sheet, since a
 * rule's name may have numbers that the grader alone knows. Why, the teacher alone sees.
 */
function closed_tests({ cases, standing, reason }, parts) {
  const tests = cases.map((it, k) => {
    const { run, name, points } = parts[k], given = { score: is_right(it) ? points : 0, max_score: points };
    return test_of(`3.${k + 1}`, `${run}: ${name}`, is_right(it), "", { ...given, ...LATER });
  });
  const why = `${standing}: ${reason}`;
  return [...tests, test_of("4", "for the teacher: what the grader says", standing === "right", why, TEACHERS)];
}

/** What Gradescope reads of a submission. */
function results_of(look, told, is_known) {
  const unknown = "You aren't in the course's roster: tell your teacher, since it says which numbers are yours.";
  const stranger = is_known ? [] : [test_of("0", "your name", false, unknown, OPEN)];
  const tests = [...stranger, ...open_tests(look), ...closed_tests(told, look.parts)];
  const sum = tests.reduce((all, { score }) => all + score, 0);
  if (sum !== told.points) throw new Stop(2, `the parts have ${sum} points, and the grader gives ${told.points}`);
  return { output: "", output_format: "text", stdout_visibility: "hidden", tests };
}

/** Grades a submission within Gradescope, and writes its results. */
export function autograde(grader, submission, metadata, results) {
  const it = shape.value_of(text_of(grader), grader, GRADER, KIND, "autograder");
  const about = shape.value_of(text_of(metadata), metadata, METADATA, null);
  const { name, is_known } = name_of(about, it.names ?? null), sheet = sheet_of_text(it.sheet, grader);
  const look = look_at(sheet, submission, name);
  const told = graded(unpacked_in(it.exercise, grader), submission, name, (all) => all);
  if (told.cases.length !== look.parts.length) throw new Stop(2, "the parts of the sheet aren't those of the exercise");
  write_file(results, `${JSON.stringify(results_of(look, told, is_known), null, 1)}\n`);
  return null;
}
