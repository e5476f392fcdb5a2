// Variables of C, as an editor shows them.
import { frames_of } from "../machine/line_steps.mjs";
import { GLOBALS, LOCALS, parts_of, path_of, shown_name, variables_at } from "../machine/variables.mjs";

const PART = /^([A-Za-z_]\w*)((?:\.[A-Za-z_]\w*|\[\d+\])*)$/; // `p`, `p.x`, `a[2].x`
const NUMBER = /^(-?\d+|0x[0-9a-f]+)(?=$|[ ,])/; // at the beginning of a value, as of `65 'A'`

/** The rows of the variables of a call; what is wrong with its tables is a row of its own. */
export function variables_of(session, { pid, program, call }, scope) {
  const tables = session.programs.tables_of(program);
  if (tables === null) return [];
  const { bytes } = session.programs.files[program];
  const { rows, wrong } = variables_at(session.machine, { pid, call, program: bytes, tables }, scope);
  return wrong ? [{ name: "tables", type: "", value: `refused: ${wrong}`, inlined: "", address: "" }] : rows;
}

/** A variable, or a part of one, as an editor wants it. `handle` keeps a list that is told when it is opened. */
export function variable_of(it, handle, path = it.name) {
  const parts = parts_of(it.value), of_part = (part) => variable_of(part, handle, path_of(path, part.name));
  const reference = parts.length ? handle(() => parts.map(of_part)) : 0;
  const more = it.address ? { memoryReference: it.address } : {};
  const told = { name: shown_name(it), value: it.value, type: it.type ?? "", evaluateName: path };
  return { ...told, variablesReference: reference, ...more };
}

/** The variable of a name as `p`, or the part of one as `p.x` or `a[2].x`; the innermost counts. */
export function part_named(rows, text) {
  const found = PART.exec(text.trim());
  const row = found && rows.findLast((it) => it.name === found[1]);
  if (!row) return undefined;
  const steps = found[2].match(/\.\w+|\[\d+\]/g) ?? [];
  const step_in = (it, step) => it && parts_of(it.value).find((part) => part.name === step.replace(".", ""));
  return steps.length ? steps.reduce(step_in, row) : row;
}

/** The value of a variable, or of a part of one, in the call in which a process stands; undefined if there is none. */
function value_named(session, pid, text) {
  const { machine, run, programs } = session, program = run.program_of(pid), pc = session.pc(pid);
  const [own] = pc === null ? [] : frames_of(machine, pid, programs.known(program, pc).frames);
  const rows_of = (scope) => variables_of(session, { pid, program, call: own.call }, scope);
  const found = own && [LOCALS, GLOBALS].map((scope) => part_named(rows_of(scope), text)).find(Boolean);
  return found?.value;
}

/**
 * What a word of a condition stands for, if it has the form of a variable of C: its number, where a process stands. If
 * it is none there, that is told.
 */
export function variable_in_condition(session, word) {
  if (!PART.test(word)) return undefined;
  return (_, pid) => {
    const value = value_named(session, pid, word), [, number] = NUMBER.exec(value ?? "") ?? [];
    if (number !== undefined) return BigInt.asIntN(64, BigInt(number));
    const is = value === undefined ? "no variable here" : `${value} here, which is no number`;
    session.told.output(`the condition can't be told: ${word} is ${is}\n`, "console");
    return null;
  };
}
