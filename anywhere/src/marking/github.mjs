// What a repository of GitHub Classroom begins with: the check and its sheet in a folder, and a workflow that runs it
// at each push, in the form of GitHub's pages "Workflow syntax for GitHub Actions" and of Classroom's own graders
// (classroom-resources/autograding-command-grader): a test of Classroom has all its points if its command ends with 0.
import { dirname, join } from "node:path";
import { carried_files } from "./carried.mjs";
import { make_folder, write_file } from "./files.mjs";
import { Stop, text_of_held } from "./held.mjs";
import { parts_of, read_sheet, read_table, text_of_sheet } from "./sheet.mjs";

const FOLDER = ".nektavoly", WORKFLOW = ".github/workflows/classroom.yml";

const HEAD = `# Checks what is about to be handed in, at each push. A test has its points if its command ends with 0.
# The mark is another thing: the teacher's grader gives it, and who changes this file changes no mark.
name: check
on: [push, workflow_dispatch]
permissions:
  checks: write
  actions: read
  contents: read
jobs:
  check:
    runs-on: ubuntu-24.04
    if: github.actor != 'github-classroom[bot]'
    steps:
    - uses: actions/checkout@v4
    - uses: actions/setup-node@v4
      with:
        node-version: 20
`;

/** A text as YAML takes it: one of JSON, in ASCII; and what GitHub would put in place of braces is none. */
const yaml = (text) => JSON.stringify(text.replaceAll("${{", "$ {{"))
  .replace(/[^\x20-\x7e]/g, (it) => `\\u${it.charCodeAt(0).toString(16).padStart(4, "0")}`);

/** A step that gives points for a part of the check. */
const step = ({ id, name, points }, command, part) => `    - name: ${yaml(name)}
      id: ${id}
      uses: classroom-resources/autograding-command-grader@v1
      with:
        test-name: ${yaml(name)}
        command: ${yaml(`${command} --part ${part}`)}
        timeout: 5
        max-score: ${points}
`;

const result_of = ({ id }) => `        ${id.toUpperCase()}_RESULTS: "\${{steps.${id}.outputs.result}}"\n`;
const reporter = (tests) => `    - uses: classroom-resources/autograding-grading-reporter@v1
      env:
${tests.map(result_of).join("")}      with:
        runners: ${tests.map(({ id }) => id).join(",")}
`;

/** The workflow of a sheet. A repository is called PREFIX-USER, and the student hands in as USER. */
function workflow_of(sheet, prefix) {
  const open = sheet.open ? parts_of(read_table(text_of_held(sheet.open), sheet.open.path), sheet.open.path) : [];
  const of_open = ({ name, points }, k) => ({ id: `open${k + 1}`, name: `open case: ${name}`, points });
  const tests = [{ id: "form", name: "all that is asked for is there", points: 1 }, ...open.map(of_open)];
  const name = prefix ? `"\${PWD##*/${prefix}-}"` : '"${PWD##*/}"';
  const command = `node ${FOLDER}/xv.mjs --check ${FOLDER}/check.json . --name ${name}`;
  return `${HEAD}${tests.map((test, part) => step(test, command, part)).join("")}${reporter(tests)}`;
}

/** `github SHEET --to FOLDER`: writes the files. */
export function write_template(path, { to, prefix = "" }) {
  if (!/^[\w.-]*$/.test(prefix)) throw new Stop(1, "--prefix takes letters, digits, dots and dashes");
  const sheet = read_sheet(path), at = (name) => ({ name: `${FOLDER}/${name}` });
  const files = [
    { name: WORKFLOW, bytes: workflow_of(sheet, prefix) }, { ...at("check.json"), bytes: text_of_sheet(sheet) },
    ...carried_files().map(({ name, bytes }) => ({ ...at(name), bytes })),
  ];
  for (const { name, bytes } of files) {
    make_folder(dirname(join(to, name)));
    write_file(join(to, name), bytes);
  }
  return null;
}
