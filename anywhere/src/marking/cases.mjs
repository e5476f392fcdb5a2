// What the grader has written of a submission: the row of its CSV, and the test cases of its XML, one for each rule, in
// the order of the exercise.
import { rows_of } from "./csv.mjs";

const ENTITIES = { amp: "&", lt: "<", gt: ">", quot: '"' };
const plain = (text) => text?.replace(/&(amp|lt|gt|quot);/g, (_, name) => ENTITIES[name]);
const FAILURE = '<failure type="([^"]*)" message="([^"]*)">([^<]*)</failure>';
const CASE = new RegExp(`^  <testcase classname="([^"]*)" name="([^"]*)"(?:/>|>${FAILURE}</testcase>)$`);

/** The case of a line: its run, its rule, and if it lacks something why, as what, and what its run came to. */
function case_of(line) {
  const found = CASE.exec(line);
  if (!found) throw new Error(`this is no line of the grader's: ${line}`);
  const [, run, name, standing, why, cause] = found.map(plain);
  return { run, name, ...(standing === undefined ? {} : { standing, why, cause }) };
}

/** Whether a submission has what a case is for. */
export const is_right = (it) => it.standing === undefined;

/** What shows that it hasn't. Of what wasn't run the cause says all. */
export const why_of = ({ standing, cause, why }) => (
  [cause, standing === "refused" ? "" : why].filter(Boolean).join("; ")
);

const CAME_TO = { fault: "a process faults", loops: "it doesn't end", waits: "it waits for ever" };

/**
 * The same in words that tell no answer: only what its run came to. What couldn't be run is told whole. What was asked, the
 * case's name says.
 */
export const told_closed = (it) => (it.standing === "refused" ? why_of(it) : CAME_TO[it.standing] ?? "not so");

/** What a submission came to: {name, points, of, standing, reason, cases}. */
export function cases_of(xml, csv) {
  const [[name, points, of, standing, reason] = []] = rows_of(csv);
  const lines = xml.split("\n").slice(1, -2);
  return { name, points: Number(points), of: Number(of), standing, reason, cases: lines.map(case_of) };
}
