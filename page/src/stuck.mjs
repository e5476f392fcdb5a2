// Whether nobody can go on, in what is shown now, and in words.
import { app, program_name } from "./app.mjs";
import { call_name } from "../../anywhere/machine/calls.mjs";
import { deadlocked } from "../../anywhere/machine/deadlock.mjs";

const MOST_TOLD = 4; // processes

/** The processes that live, if nobody can go on; else null. */
export function stuck() {
  const { view } = app;
  return !view?.files || !view.processes || view.facts.halted ? null
    : deadlocked(view.processes, view.files.descriptors);
}

const sleep_words = ({ pid, program, call }) => `${pid} (${program_name(program)}) sleeps in ${call_name(call.number)}`;

/** `process 2 (sh) sleeps in read` of each, in words. */
export function stuck_words(list) {
  const told = list.slice(0, MOST_TOLD).map(sleep_words).join(", ");
  return `nobody can go on: ${told}${list.length > MOST_TOLD ? `, and ${list.length - MOST_TOLD} more` : ""}`;
}
