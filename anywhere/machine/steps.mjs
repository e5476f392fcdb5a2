// Steps by kinds of events: an instruction, call or fault of a process ("step"), what is no plain instruction
// ("event"), a call ("call"), a turn ("turn").
import { KIND } from "./machine.mjs";
import { bits_of } from "./record.mjs";

export const AT_ONCE = 100000; // Runs of one call of the module

const IS = {
  step: (kind) => kind <= KIND.FAULT,
  event: (kind) => kind !== KIND.STEP && kind !== KIND.NONE && kind !== KIND.IDLE,
  call: (kind) => kind >= KIND.CALL && kind <= KIND.FAULT,
  turn: (kind) => kind === KIND.TURN,
};

/** Goes forward to the end of the next event of this kind. Answers why it ended elsewhere, in words, or nothing. */
export function step_forward(run, plan, what) {
  const is = IS[what], { line } = run;
  if (run.is_past) {
    for (const k of line.along(line.find(run.at), 1, { kinds: bits_of(is) })) {
      if (!is(line.kind(k))) continue;
      run.go(Math.max(run.at, line.at(k)) + 1);
      return "";
    }
    run.go(run.end);
  }
  const ended = (kind) => (is(kind) ? "" : null);
  return plan.go_on({ at_once: what === "step" ? 1 : AT_ONCE, ended }) ?? "not found in 30 million events";
}

/** Goes back before the last event of this kind. */
export function step_back(run, what) {
  const is = IS[what], { line } = run;
  for (const k of line.along(line.find(run.at - 1), -1, { kinds: bits_of(is) })) {
    if (!is(line.kind(k))) continue;
    run.go(Math.min(run.at, line.end_of(k)) - 1);
    return;
  }
  run.go(0);
}
