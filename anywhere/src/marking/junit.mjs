// Marks as JUnit's XML, as Ant's task `junit` writes it and build servers read it: a suite for each exercise of each
// student, a case for each part.
import { read_book } from "./gradebook.mjs";
import { escaped } from "./markup.mjs";

const attributes = (table) => Object.entries(table).map(([name, it]) => ` ${name}="${escaped(it)}"`).join("");
const tag = (name, its, inner = "") => `<${name}${attributes(its)}${inner ? `>${inner}</${name}>` : "/>"}`;

/** The case of a part that the grader has marked. */
function case_of_part({ run, name, standing, why, cause }) {
  const failure = standing === undefined ? "" : tag("failure", { type: standing, message: why }, escaped(cause));
  return tag("testcase", { classname: run, name }, failure);
}

/** The case of what is given by hand: one that isn't given yet is skipped. */
function case_of_hand({ name, points, of, remark }) {
  const inner = points === null ? tag("skipped", { message: "not given yet" })
    : points < of ? tag("failure", { type: "by hand", message: `${points} of ${of}` }, escaped(remark)) : "";
  return tag("testcase", { classname: "by hand", name }, inner);
}

/** The case that says why a submission has no mark. */
const case_of_none = ({ exercise, state, reason }) => (
  tag("testcase", { classname: exercise, name: state }, tag("error", { message: reason }))
);

/** The numbers of a mark that a case has no place for. */
function properties_of({ points, of, reached, late }) {
  const told = Object.entries({ points, of, reached, "days late": late.days });
  return tag("properties", {}, told.map(([name, value]) => tag("property", { name, value })).join(""));
}

const lines_of = (its, before) => `\n${its.map((it) => `${before}${it}\n`).join("")}`;

function suite_of(student, mark) {
  const none = mark.state === "graded" ? [] : [case_of_none(mark)];
  const cases = [...(mark.parts ?? []).map(case_of_part), ...mark.hand.map(case_of_hand), ...none];
  const has = (word) => cases.filter((it) => it.includes(`<${word} `)).length;
  const counts = { tests: cases.length, failures: has("failure"), errors: has("error"), skipped: has("skipped") };
  const its = { name: `${mark.exercise}: ${student.id}`, ...counts };
  return tag("testsuite", its, lines_of([properties_of(mark), ...cases], "  "));
}

/** `junit FILE`: the XML, as text. */
export function junit(file) {
  const { title, students } = read_book(file);
  const suites = students.flatMap((student) => student.marks.map((mark) => suite_of(student, mark)));
  return `<?xml version="1.0" encoding="UTF-8"?>\n${tag("testsuites", { name: title }, lines_of(suites, ""))}\n`;
}
