// Why processes are gone: by faults, or since others have killed them. The record has the calls that did it, and the
// module the words (crates/xv_report).
import { CALL, last_of } from "./event_search.mjs";

const GROWTHS = ["sbrk", "sbrklazy"];
// Begins the line of a fault below which a growth is told that was refused before.
const NULL_POINTER = "  a null pointer, it seems";

/** The last growth that a process was refused before a place; undefined if there is none. */
function refused_before(line, pid, place) {
  const found = GROWTHS.map((name) => last_of(line, place, { what: CALL + name, pid, answer: "-1" }));
  return found.filter((it) => it).sort((a, b) => b.at - a.at)[0];
}

/**
 * Looks at the machine right after a call of a process, and tells of it by the call's address. `known` is of the
 * program at a place.
 */
function after_call(run, place, pid, { program, known }, tell) {
  return run.look(place + 1, () => {
    const { machine } = run, own = run.program_of(pid);
    if (own !== null) machine.know(own, own === program ? known : {});
    return tell(machine, machine.register(pid, 0) - 4n);
  });
}

/** A fault in the words of the report, with what is known of a program's source: {program, known}. */
export function fault_in_words(run, { at, pid, cause }, source) {
  const text = run.look(at, () => {
    const own = run.program_of(pid);
    if (own !== null) run.machine.know(own, own === source.program ? source.known : {});
    return run.machine.fault_text(cause);
  });
  const refused = text?.includes(NULL_POINTER) ? refused_before(run.line, pid, at) : undefined;
  if (!refused) return text;
  const tell = (machine, address) => machine.refused_text(pid, refused.number, address);
  return `${text}\n  ${after_call(run, refused.at, pid, source, tell)}`;
}

/** The end of a process that was killed, in the words of the report. */
export function kill_in_words(run, { call, pid, by }, source) {
  return after_call(run, call, by, source, (machine, address) => machine.kill_text(pid, by, address));
}

// ---- what is known of an end at once: it is noted with it

/** The faults of the record, each with the machine as it was before. */
export function faults_told(run) {
  const { machine } = run;
  for (const fault of run.faults) {
    const { at, pid, cause } = fault;
    fault.told ??= run.look(at, () => {
      const [registers, program, address] = [machine.registers(pid), run.program_of(pid), machine.address(pid)];
      return { registers, program, address, cause, text: machine.fault_text(cause) };
    });
  }
  return run.faults;
}

/** Those who were killed, each with the program of the one that did it. */
export function kills_told(run) {
  const { killed, names } = run;
  for (const kill of killed) {
    const k = names.last_of(kill.by, kill.call);
    kill.told ??= { program: k < 0 ? null : names.place[k] };
  }
  return killed;
}
