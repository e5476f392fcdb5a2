// The order of events by which a run goes on.
import { call_name } from "./calls.mjs";
import { EVENT, KIND } from "./machine.mjs";

export const GONE = "process 1 is gone: nobody runs again";
export const TICK = 100; // ms between two ticks of a terminal: a tenth of a second
export const MOST_SOUGHT = 30000000; // events of a search before it gives up
const MOST_IDLE = 200; // events at which nobody may run, till that is told

/** The order of events by which a run goes on: what xv_run sends in its rounds, or what a terminal does. */
export class Plan {
  /**
   * `quantum` Runs make a round, then comes a Tick and 32 Sends (`rounds`), or bytes are sent as soon as they wait
   * (`live`), where a tick comes after so many Runs, or when nobody may run.
   */
  constructor(run, { rounds, quantum }, keys = []) {
    this.run = run;
    this.rounds = rounds;
    this.quantum = quantum;
    this.keys = [...keys];
    this.given = this.keys.length; // those that come whether there is room for them or not, as xv_run hands them over
    this.is_idle = false;
    this.find();
  }

  /** Finds where in a round the record ends. */
  find() {
    const { events, line } = this.run;
    this.runs = 0;
    this.sends = 0;
    this.keyed = false;
    this.ticked = false;
    for (const { event, at, end } of events.back()) {
      if (event === EVENT.TICK) { this.ticked = true; break; }
      if (event === EVENT.SEND) this.sends += end - at;
      else if (event === EVENT.KEY) this.keyed = true;
      else this.runs += end - at;
    }
    if (this.sends >= 32 || !this.ticked) { this.ticked = false; this.sends = 0; }
    else if (this.runs > 0 || this.keyed) this.ticked = false;
    this.is_idle = line.length > 0 && line.kind(line.length - 1) === KIND.IDLE;
  }

  /** Keys that are typed: each is handed over once the console has room for it. */
  type(bytes) {
    this.keys = this.keys.concat(bytes);
    this.is_idle = false;
  }

  /** Whether a key waits that may be handed over. */
  get has_key() {
    return this.keys.length > 0 && (this.given > 0 || this.run.machine.has_room_for_key());
  }

  next_key() {
    this.given = Math.max(0, this.given - 1);
    return this.run.send(EVENT.KEY, this.keys.shift());
  }

  /** Sends what comes next, at most so many Runs, up to a stop if there are stops; tells the outcome. */
  next(most, stops = null) {
    return this.rounds ? this.next_of_round(most, stops) : this.next_of_terminal(most, true, stops);
  }

  next_of_round(most, stops = null) {
    const { run } = this;
    if (this.ticked) {
      const told = run.send(EVENT.SEND);
      if (++this.sends >= 32) { this.ticked = false; this.sends = 0; this.runs = 0; this.keyed = false; }
      return told;
    }
    if (this.runs === 0 && !this.keyed && this.has_key) {
      this.keyed = true;
      return this.next_key();
    }
    if (this.runs >= this.quantum) {
      this.ticked = true;
      this.sends = 0;
      return run.send(EVENT.TICK);
    }
    const { sent, kind, last } = run.run(Math.min(most, this.quantum - this.runs), stops);
    this.runs += sent;
    this.is_idle = kind === KIND.IDLE;
    return last || { kind, pid: 0, number: 0, value: 0 };
  }

  /** What a terminal does. `ticks` says whether a tick comes by the number of Runs; else the caller sends ticks. */
  next_of_terminal(most, ticks, stops = null) {
    const { run } = this;
    if (this.has_key) {
      this.is_idle = false;
      return this.next_key();
    }
    if (run.machine.has_output()) {
      this.is_idle = false;
      return run.send(EVENT.SEND);
    }
    if (ticks && (this.is_idle || this.runs >= this.quantum)) return this.tick();
    const { sent, kind, last } = run.run(ticks ? Math.min(most, this.quantum - this.runs) : most, stops);
    this.runs += sent;
    this.is_idle = kind === KIND.IDLE;
    return last || { kind, pid: 0, number: 0, value: 0 };
  }

  /**
   * Goes on: first through what the record has already, then by what comes next, so many Runs at once, up to
   * `stops()`. `ended` is told the kind of what came last, and answers words if it is to end there, else null. Answers
   * these words, or why nobody goes on; null if it hasn't ended after 30 million events.
   */
  go_on({ at_once, stops = () => null, ended }) {
    const { run } = this;
    let idle = 0;
    this.find();
    for (let from = run.at, before = -1; run.at - from < MOST_SOUGHT; ) {
      if (before === run.at) return "";
      before = run.at;
      let kind = KIND.STEP;
      if (run.is_past) run.replay(Math.min(run.end, run.at + at_once), stops);
      else if (run.halted) return GONE;
      else kind = this.next(at_once, stops()).kind;
      const words = ended(kind);
      if (words !== null) return words;
      idle = kind === KIND.IDLE ? idle + 1 : kind === KIND.TICK || kind === KIND.NONE ? idle : 0;
      if (idle > MOST_IDLE && !this.sleeps_by_the_clock()) return "nobody may run: all wait, maybe for keys";
    }
    return null;
  }

  /** Whether a process sleeps until a tick. */
  sleeps_by_the_clock() {
    const { machine } = this.run;
    const sleeps = ({ asleep, call }) => asleep && call && call_name(call.number) === "sleep";
    return machine.pids().some((pid) => sleeps(machine.process(pid)));
  }

  tick() {
    this.runs = 0;
    this.is_idle = false;
    return this.run.send(EVENT.TICK);
  }
}
