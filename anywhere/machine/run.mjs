// A run: a machine, what came of each event since it was booted, and ways forward and back. The machine stands after
// `at` events; the record may go on beyond, after a step back, and is cut there by the first event that differs.
import { KIND, EVENT } from "./machine.mjs";
import { stands_before } from "./break_points.mjs";
import { Copies } from "./copies.mjs";
import { Names } from "./program_names.mjs";
import { Record } from "./record.mjs";
import { ConsoleOutput } from "./console_output.mjs";
import { Events } from "./events.mjs";

const STRETCH = 300; // instructions that take as long as a stretch takes to begin, by a replay: two microseconds
// A replay of so many takes a millisecond, less than to put a copy back.
const NEAR_EVENTS = 100000, NEAR_STRETCHES = 500;
const MOST_AT_ONCE = 1000000000; // Runs of one call of the module
const MOST_SENT = 30000000; // Runs of one call, of a record that is played

export class Run {
  /** `block_over` is told each block of the record that is over. */
  constructor(machine, block_over = () => {}) {
    this.machine = machine;
    this.block_over = block_over;
    this.copies = new Copies(machine);
    this.booted = false;
  }

  /** Boots; null, or the refusal. */
  boot(config, files) {
    const refusal = this.machine.boot(config, files);
    if (refusal !== null) return refusal;
    this.booted = true;
    this.config = config;
    this.files = files;
    this.at = 0;
    this.events = new Events();
    this.line = new Record(this);
    this.shown = new ConsoleOutput();
    this.names = new Names();
    this.faults = []; // {at, pid, cause}, in their order
    // By the pids of those who were killed: {call, by, pid, at}; `call`: the place of the call, `at`: that of the end.
    this.kills = new Map();
    this.told = 0; // up to which place whoever shows the run knows the record
    this.name(1);
    this.edits = 0;
    this.copies.begin();
    this.halted = false;
    return null;
  }

  get end() { return this.line.end; }
  get is_past() { return this.at < this.line.end; }
  get current() { return this.machine.current(); }

  // ---- the record

  heard(event, told, count) {
    this.events.add(event, event === EVENT.KEY ? told.number : 0, count);
    this.line.add(event, told, count);
    this.at += count;
    if (told.kind === KIND.CALL && told.value >= 0) this.heard_call(this.machine.kernel_calls.get(told.number), told);
    if (told.kind === KIND.FAULT) this.faults.push({ at: this.at - 1, pid: told.pid, cause: told.number });
    if (told.kind === KIND.EXIT && this.kills.has(told.pid)) this.kills.get(told.pid).at = this.at - 1;
    const is_end = told.kind === KIND.EXIT || told.kind === KIND.FAULT;
    if (told.kind === KIND.HALTED || (told.pid === 1 && is_end)) this.halted = true;
  }

  /**
   * A call that has changed which program a process runs, that of the child of a fork, or of an exec's own process; or
   * that has killed one.
   */
  heard_call(call, { pid, value }) {
    if (call === "fork" && value > 0) this.name(value);
    else if (call === "exec") this.name(pid);
    else if (call === "kill") this.heard_kill(pid);
  }

  /** Notes whom the last call has killed: who is marked from then on. */
  heard_kill(by) {
    const pid = this.machine.pids().find((it) => !this.kills.has(it) && this.machine.process(it).marked);
    if (pid) this.kills.set(pid, { call: this.at - 1, by, pid, at: Infinity });
  }

  /** The processes that are gone since they were killed, in the order of the kills. */
  get killed() { return [...this.kills.values()].filter(({ at }) => at < Infinity); }

  /** Notes which program a process runs from here on. */
  name(pid) {
    const place = this.machine.program(pid);
    if (place === null) return;
    this.names.add(this.at, pid, place);
  }

  /** How many bytes the console has shown at this place. */
  shown_count() { return this.shown.count(this.at); }

  /** Forgets what the record has beyond this place. */
  cut() {
    if (!this.is_past) return;
    this.shown.cut(this.at);
    this.line.cut(this.at);
    this.events.cut(this.at);
    this.names.cut(this.at);
    this.faults = this.faults.filter((it) => it.at < this.at);
    this.cut_kills();
    this.told = Math.min(this.told, this.at);
    this.copies.cut(this.at);
    this.edits++;
    this.halted = this.machine.facts().halted;
  }

  cut_kills() {
    for (const kill of this.kills.values()) {
      if (kill.call >= this.at) this.kills.delete(kill.pid);
      else if (kill.at >= this.at) kill.at = Infinity;
    }
  }

  /** The program that a process runs at this place, by its place in the list of files; null where it isn't known. */
  program_of(pid) {
    const place = pid ? this.machine.program(pid) : null;
    if (place !== null) return place;
    const k = this.names.last_of(pid, this.at);
    return k < 0 ? null : this.names.place[k];
  }

  // ---- forward

  /** Sends an event at the end of the record. */
  send(event, byte = 0) {
    this.cut();
    const told = this.machine.event(event, byte);
    if (event === EVENT.KEY) told.number = byte;
    this.heard(event, told, 1);
    for (const it of told.bytes) this.shown.add(it, this.at);
    this.keep();
    return told;
  }

  /**
   * Sends Run, `most` times at most, and tells how many were sent and what came of the last. `stops`: it goes up to a
   * stop at most.
   */
  run(most, stops = null) {
    this.cut();
    const { sent, last } = this.runs(most, stops, this.halted, (told, count) => this.heard(EVENT.RUN, told, count));
    this.keep();
    return { sent, kind: last === null ? KIND.STEP : last.kind, last };
  }

  /** Sends the events of spans, [event, byte, count]. */
  send_spans(spans) {
    for (const [event, byte, count] of spans) {
      if (event === EVENT.RUN) for (let left = count; left > 0; ) left -= this.run(Math.min(left, MOST_SENT)).sent;
      else for (let k = 0; k < count; k++) this.send(event, byte);
    }
  }

  /** Sends Run, and calls with each outcome and how many have come of it. */
  runs(most, stops, halted, hear) {
    const { current } = this, some = current || halted ? most : 1, { sent, last } = this.sent(some, stops);
    const is_same = last !== null && (last.kind === KIND.IDLE || last.kind === KIND.HALTED);
    const done = last === null ? sent : is_same ? 0 : sent - 1;
    if (done > 0) hear({ kind: KIND.STEP, pid: current, number: 0, value: 0 }, done);
    if (last !== null) hear(last, sent - done);
    return { sent, last };
  }

  /** Sends Run: {sent, last}, where `last` is null if each is a done instruction; up to a stop, if there are stops. */
  sent(most, stops) {
    if (!stops) return this.machine.run(most);
    const told = this.machine.run_to_stop(most, stops);
    return told.last?.kind === KIND.STEP ? { ...told, last: null } : told;
  }

  /**
   * Sends again what the record has next, up to a place. `stops`: tells those of the process that runs; then it goes on
   * up to one, and tells whether it stands there. `hear` is called with each event, what came of it, and how many.
   */
  replay(to, stops = null, hear = null) {
    const until = Math.min(to, this.end);
    if (this.at >= until) return false;
    for (const { event, byte, end } of this.events.from(this.at)) {
      for (const stop = Math.min(end, until); this.at < stop; ) {
        const told = event === EVENT.RUN ? this.run_again(stop, stops, hear) : this.send_again(event, byte, hear);
        this.at += told.sent;
        if (told.met || (told.last && this.stands_at(stops))) return true;
      }
      if (this.at >= until) break;
    }
    return false;
  }

  /** Whether what is no instruction, as an exec or a turn, has led to a stop. */
  stands_at(stops) {
    const told = stops?.() ?? null;
    return told !== null && stands_before(this.machine, told);
  }

  run_again(stop, stops, hear) {
    const most = Math.min(stop - this.at, MOST_AT_ONCE);
    if (!hear) return this.sent(most, stops?.() ?? null);
    const halted = this.halted && this.machine.facts().halted;
    return this.runs(most, null, halted, (told, count) => hear(EVENT.RUN, told, count));
  }

  send_again(event, byte, hear) {
    const told = this.machine.event(event, byte);
    hear?.(event, event === EVENT.KEY ? { ...told, number: byte } : told, 1);
    return { sent: 1, met: false };
  }

  // ---- copies of the machine, to come back fast

  /** Keeps a copy, if the last one is far behind. */
  keep() {
    this.copies.keep(this.at, this.at + STRETCH * this.line.length);
  }

  restore(copy) {
    this.machine.restore(copy.room.subarray(0, copy.length));
    this.at = copy.at;
  }

  /** A place a little before another: the way from there to it is short. */
  shortly_before(place) {
    const { line } = this, stretch = line.find(place - 1) - NEAR_STRETCHES;
    return Math.max(0, place - NEAR_EVENTS, stretch > 0 ? line.at(stretch) : 0);
  }

  /**
   * Goes to a place of the record. On a long way a copy is kept a little before the place: steps back from there are
   * short.
   */
  go(place) {
    const { line } = this, to = Math.max(0, Math.min(place, this.end)), number = line.number_of(Math.max(0, to - 1));
    // What came of the events round the place is wanted too: if it isn't at hand, it is heard on the way.
    if (!line.has(number)) line.make(number, Math.max(line.start(number), to - NEAR_EVENTS));
    const copy = this.copies.before(to), near = this.shortly_before(to);
    if (to < this.at || copy.at > this.at) this.restore(copy);
    if (this.at < near) {
      this.replay(near);
      this.copies.keep_near(this.at);
    }
    this.replay(to);
  }

  /**
   * Goes over a part of the record again, and calls with what comes of it. A copy is kept at a place of it, if one is
   * given.
   */
  over_again(from, to, near, hear) {
    const copy = this.copies.before(from);
    if (from < this.at || copy.at > this.at) this.restore(copy);
    this.replay(from);
    if (near !== null) {
      this.replay(near, null, hear);
      this.copies.keep_near(this.at);
    }
    this.replay(to, null, hear);
  }

  /** Does something elsewhere in the run, and comes back. */
  aside(action) {
    const here = this.copies.copy(this.at, 0), found = action();
    this.restore(here);
    this.copies.give_up(here);
    return found;
  }

  /** Looks at the machine as it was at another place, and comes back. */
  look(place, at_it) {
    return this.aside(() => { this.go(place); return at_it(); });
  }
}
