// Steps by an instruction of one process, forth and back: what others do between is passed over.
import { is_made } from "../machine/record.mjs";
import { AT_ONCE } from "../machine/steps.mjs";

const MOST_TURNS = 10000; // of the process, in which it makes no step

const is_own = (line, k, pid) => line.pid(k) === pid && is_made(line.kind(k));

/** Back before the last step that the process has made. Answers why it can't be, in words, or nothing. */
function back(run, pid) {
  const { line } = run;
  for (const k of line.along(line.find(run.at - 1), -1, { pid })) {
    if (!is_own(line, k, pid)) continue;
    run.go(Math.min(run.at, line.end_of(k)) - 1);
    return "";
  }
  return `process ${pid} has made no step before here`;
}

/** Forth in what the record has already; false if the process makes no step there. */
function forth_in_record(run, pid) {
  const { line } = run;
  if (!run.is_past) return false;
  for (const k of line.along(line.find(run.at), 1, { pid })) {
    if (!is_own(line, k, pid)) continue;
    run.go(Math.max(run.at, line.at(k)) + 1);
    return true;
  }
  run.go(run.end);
  return false;
}

/** Goes on until the process runs: words that say why it doesn't, or nothing. */
function to_turn(run, plan, pid, halts) {
  if (run.current === pid) return "";
  const lives = () => run.machine.registers(pid) !== null;
  const ended = () => (run.current === pid ? "" : lives() ? halts.met() : `process ${pid} has ended`);
  const words = plan.go_on({ at_once: AT_ONCE, stops: () => halts.stops(), ended });
  return words ?? `process ${pid} had no turn in 30 million Runs`;
}

/** Forth after the next step of the process, or to a break point of another one. */
function forth(run, plan, pid, halts) {
  if (forth_in_record(run, pid)) return "";
  for (let left = MOST_TURNS; left > 0; left--) {
    const words = to_turn(run, plan, pid, halts);
    if (words || run.current !== pid) return words;
    // A Run is a step of the process that runs; what else comes, as a tick, is none.
    if (is_made(plan.next(1).kind) || run.halted) return "";
  }
  return `process ${pid} has made no step in ${MOST_TURNS} turns`;
}

/** One step of a process. Answers words that say why it ended elsewhere, or nothing. */
export function own_step(run, plan, { pid, back: is_back, halts }) {
  if (is_back) return back(run, pid);
  plan.find();
  return forth(run, plan, pid, halts);
}
