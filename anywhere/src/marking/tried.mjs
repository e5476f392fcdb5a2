// An exercise is tried on submissions of which the teacher knows what they are worth, by their folders' names: `right..`
// has all points, `fake..` a fifth at most, and `wrong..` lacks something. What isn't so is told with the line of the
// rule that says otherwise.
import { statSync } from "node:fs";
import { join } from "node:path";
import { why_of, is_right } from "./cases.mjs";
import { names_in } from "./files.mjs";
import { Stop, graded, held_exercise, text_of_held } from "./held.mjs";
import { read_table } from "./sheet.mjs";
import { shown } from "./shown.mjs";
import { line_of, list_of } from "./toml.mjs";

const KINDS = ["right", "fake", "wrong"];
const kind_of = (name) => KINDS.find((kind) => name === kind || name.startsWith(`${kind}-`));

/** The rules of an exercise in the grader's order: the line of each, and its points. */
const rules_of = (table) => list_of(table.run).flatMap((run) => list_of(run.rule)
  .map((rule) => ({ line: line_of(rule, "name"), name: rule.name, points: rule.points ?? 1 })));

/** What a folder came to: its name and kind, points and of how many, and for each rule why it hasn't it, or null. */
function tried(held, folder, name) {
  return graded(held, join(folder, name), name, ({ points, of, cases }) => (
    { name, kind: kind_of(name), points, of, lacks: cases.map((it) => (is_right(it) ? null : why_of(it))) }));
}

const at = (path, rule, what) => `${path}: line ${rule.line}: ${shown(rule.name)}: ${what}`;

/** What is wrong with a rule: right answers that lack it. */
function wrong_with(path, rule, k, rights) {
  const lacking = rights.filter(({ lacks }) => lacks[k] !== null);
  if (lacking.length === 0) return [];
  if (lacking.length === rights.length) return [at(path, rule, `no right answer has it: ${shown(lacking[0].lacks[k])}`)];
  return lacking.map((it) => at(path, rule, `${shown(it.name)} is right, and lacks it: ${shown(it.lacks[k])}`));
}

/** What is wrong with the points of a submission, with the rules that gave them. */
function wrong_points({ name, kind, points, of, lacks }, path, rules) {
  if (kind === "wrong") return points < of ? [] : [`${path}: ${shown(name)} lacks something, and has all ${of} points`];
  if (kind !== "fake" || 5 * points <= of) return [];
  const gave = rules.filter((rule, k) => lacks[k] === null && rule.points > 0).map(({ line }) => line);
  return [`${path}: ${shown(name)} is a fake, and has ${points} of ${of} points, by the lines ${gave.join(", ")}`];
}

/** Tries an exercise on the folders in a folder: what each is worth, and what is wrong. */
export function try_exercise(path, folder) {
  const names = names_in(folder).filter((name) => statSync(join(folder, name)).isDirectory());
  const others = names.filter((name) => !kind_of(name));
  if (others.length) throw new Stop(2, `${folder}: ${shown(others[0])} begins with none of ${KINDS.join(", ")}`);
  if (!names.some((name) => kind_of(name) === "right")) throw new Stop(2, `${folder} has no right answer`);
  const held = held_exercise(path), rules = rules_of(read_table(text_of_held(held), path));
  const all = names.map((name) => tried(held, folder, name)), rights = all.filter(({ kind }) => kind === "right");
  const wrong = [...rules.flatMap((rule, k) => wrong_with(path, rule, k, rights)), ...all.flatMap((it) => wrong_points(it, path, rules))];
  const lines = all.map(({ name, points, of }) => `${String(points).padStart(3)} of ${of}  ${shown(name)}\n`).join("");
  if (wrong.length) throw new Stop(2, `${lines}${wrong.join("\n")}`);
  return `${lines}${path}: all is as their names say\n`;
}
