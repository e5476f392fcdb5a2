// A machine that is debugged: it goes on in slices, up to break points, faults, calls and ends, and back; by lines and
// by instructions. Whoever has it is told where it stops, what the console shows, and the end: `told.stopped(reason,
// text, breaks)`, `told.output(text)`, `told.ended(status)`, `told.failed(error)`.
import { seek } from "../machine/backward_search.mjs";
import { call_name } from "../machine/calls.mjs";
import { fault_in_words } from "../machine/end_reports.mjs";
import { boot_words } from "../machine/file_refusals.mjs";
import { line_step } from "../machine/line_steps.mjs";
import { Machine } from "../machine/machine.mjs";
import { Reach } from "../machine/named_place.mjs";
import { TICK } from "../machine/plan.mjs";
import { Player } from "../machine/player.mjs";
import { Run } from "../machine/run.mjs";
import { own_step } from "./own_steps.mjs";
import { Programs } from "./programs.mjs";
import { Stops, words_of } from "./stops.mjs";

const SLICE = 40; // ms of play between two looks at the messages
const MOST_RUNS = 200000, MOST_RUNS_TO_STOP = 100000; // of one piece of play
const REGISTER_PC = 0;

/** What a launch may ask for, and what stands for it if it doesn't. */
const SETTINGS = { frames: 4096, quantum: 1000, keys: null, clock: null, replay: null, stops_at_end: false };

export class Session {
  constructor(module, told) {
    this.machine = new Machine(module);
    this.run = new Run(this.machine);
    this.player = new Player(this.run);
    this.stops = new Stops(this);
    this.told = told;
    this.breaks = []; // {kind, address, program, name, number, holds, id, reason}, as `BreakPoints` has them
    this.stops_at_faults = true;
    this.pid = 1; // the process that is looked at
    this.is_playing = false;
  }

  /** Boots a machine of the files that words name. `settings.replay`: the path of a record, whose events are played. */
  boot(words, base, folders, settings = {}) {
    this.programs = new Programs(this.machine, words, base, folders);
    this.settings = { ...SETTINGS, ...settings };
    const { replay } = this.settings;
    this.record = replay ? this.programs.recorded(replay) : null;
    this.begin();
  }

  /** Boots the machine anew: it stands at the first turn. */
  begin() {
    this.close();
    const { quantum, keys, clock } = this.settings, { files } = this.programs;
    const frames = this.record?.frames ?? this.settings.frames, typed = [...Buffer.from(keys ?? "")];
    this.is_live = clock === "live" || (clock === null && keys === null);
    const how = { rounds: !this.is_live, quantum }, keys_of_boot = this.record ? [] : typed;
    const refusal = this.player.boot({ config: { frames, trace: 0 }, files, how, keys: keys_of_boot });
    if (refusal !== null) throw new Error(boot_words(refusal, { frames }));
    this.forget();
    if (this.record) this.play_record(typed);
    this.end_of_record = this.run.end;
    this.player.step("turn", false);
    this.pid = this.run.current || 1;
  }

  /** Plays the events of the record, and goes back to its beginning. Keys are typed after it. */
  play_record(keys) {
    this.player.play_spans(this.record.spans, keys);
    this.run.go(0);
  }

  /** Forgets what was told of the run before. */
  forget() {
    Object.assign(this, { shown: 0, passed: -1, was_over: false, origin: null, only: null });
    this.decoder = new TextDecoder();
    this.player.breaks.list = this.breaks;
  }

  /** Nothing goes on any more. */
  close() {
    this.is_playing = false;
    clearTimeout(this.timer);
  }

  set_breaks(list) {
    this.breaks = list;
    if (!this.only) this.player.breaks.list = list;
  }

  get at() { return this.run.at; }
  get is_over() { return this.run.halted && !this.run.is_past; }

  pc(pid) { return this.machine.register(pid, REGISTER_PC); }

  /** Does something soon, when the messages that wait are read; what goes wrong in it is told. */
  later(does, wait = 0) {
    this.timer = setTimeout(() => {
      try {
        does();
      } catch (error) {
        this.told.failed(error);
        this.stop("pause", error.message);
      }
    }, wait);
  }

  // ---- what it tells

  /** Tells the bytes that the console has shown since. What is seen again after a way back isn't told twice. */
  tell_output() {
    const now = this.run.shown_count();
    if (now <= this.shown) return;
    const text = this.decoder.decode(this.run.shown.bytes.slice(this.shown, now), { stream: true });
    this.shown = now;
    if (text) this.told.output(text);
  }

  /** Stops, and tells why. `pid`: the process that is to be looked at, if it lives. */
  stop(reason, text = "", { breaks = [], pid = this.run.current } = {}) {
    this.close();
    this.origin = null;
    this.only = null;
    this.player.breaks.list = this.breaks;
    this.tell_output();
    const lives = (it) => it && this.machine.registers(it) !== null;
    if (reason !== "step" || !lives(this.pid)) this.pid = lives(pid) ? pid : lives(this.pid) ? this.pid : 1;
    this.told.stopped(reason, text, breaks);
  }

  stop_at(met) {
    const own = met.filter((it) => it.id !== undefined), [first] = own.length ? own : met;
    this.stop(this.only ? "goto" : first.reason, words_of(met), { breaks: own.map((it) => it.id) });
  }

  stop_after_call() {
    const { pid, words } = this.stops.call_here();
    this.stop("exception", words, { pid });
  }

  /** The run is over: it stands there once, if that is asked for, so that a person can go back. */
  end() {
    const { status } = this.machine.facts();
    if (this.settings.stops_at_end && !this.was_over) {
      return this.stop("exited", `init has ended with ${status}: you can go back, and to go on ends the session`);
    }
    this.close();
    this.tell_output();
    return this.told.ended(status);
  }

  // ---- forth

  /** Notes where it goes on from. */
  leave() {
    this.was_over = this.is_over;
    this.stops.leave();
  }

  play() {
    this.is_playing = true;
    this.passed = this.fault_here()?.at ?? -1;
    this.leave();
    if (!this.run.is_past) this.player.plan.find();
    this.next_tick = performance.now() + TICK;
    this.later(() => this.slice());
  }

  /** Plays up to places, {program, address}, in place of the break points; or back. */
  play_to(places, is_back) {
    this.only = places;
    this.player.breaks.list = places;
    return is_back ? this.play_back() : this.play();
  }

  /** Stops where it is; a search back that isn't over leads nowhere. */
  pause() {
    if (!this.is_playing) return;
    if (this.origin !== null) this.run.go(this.origin);
    this.stop("pause");
  }

  /** Goes on for a while. */
  slice() {
    const until = performance.now() + SLICE;
    while (this.is_playing && performance.now() < until) {
      this.piece();
      if (this.waits()) break;
    }
    if (!this.is_playing) return;
    this.tell_output();
    this.later(() => this.slice(), this.waits() ? Math.max(1, Math.min(TICK, this.next_tick - performance.now())) : 0);
  }

  /** Whether nothing comes before the clock's next tick, or a key. */
  waits() {
    const { plan } = this.player;
    return this.is_live && !this.run.is_past && plan.is_idle && !plan.has_key && !this.machine.has_output();
  }

  tick_if_due() {
    if (!this.is_live || this.run.is_past || this.run.halted || performance.now() < this.next_tick) return;
    this.next_tick = Math.max(this.next_tick + TICK, performance.now() - TICK);
    this.player.plan.tick();
  }

  /** One piece of play, and what it comes to. */
  piece() {
    const { run, player } = this, known = run.faults.length, was_recorded = run.at < this.end_of_record;
    this.tick_if_due();
    const ahead = this.fault_ahead(), most = player.breaks.looks_at_each ? MOST_RUNS_TO_STOP : MOST_RUNS;
    if (ahead?.at === run.at) return this.stop_before(ahead);
    const some = was_recorded ? Math.min(most, this.end_of_record - run.at) : most;
    const words = player.piece(ahead ? Math.min(some, ahead.at - run.at) : some, !this.is_live);
    if (ahead?.at === run.at) return this.stop_before(ahead);
    if (this.stops_at_faults && run.faults.length > known) return this.stop_before(run.faults.at(-1));
    if (this.is_over) return this.end();
    return this.is_stopped(words, was_recorded);
  }

  /** Stops if a break point does, or nothing more comes by itself. */
  is_stopped(words, was_recorded) {
    const { run } = this, met = words === null ? [] : this.stops.met();
    if (met.length) return this.stop_at(met);
    if (words !== null && this.stops.call_here()) return this.stop_after_call();
    const is_record_over = was_recorded && run.at === this.end_of_record;
    if (is_record_over) return this.stop("pause", "the record is over: the run goes on from here");
    return this.is_still() ? this.stop("pause", "nobody may run: all wait, maybe for keys") : undefined;
  }

  /** Whether nothing happens any more without a key: nobody may run, or sleeps until a tick, and no byte waits. */
  is_still() {
    const { machine, run, player: { plan } } = this;
    if (this.is_live || run.is_past || !plan.is_idle || plan.keys.length || machine.has_output()) return false;
    const goes_on = ({ lives, asleep, call }) => lives && (!asleep || call_name(call?.number) === "sleep");
    return !machine.pids().some((pid) => goes_on(machine.process(pid)));
  }

  /** The next fault that the record has already; not the one before which the machine stood when it went on. */
  fault_ahead() {
    const { run, passed } = this;
    if (!this.stops_at_faults || !run.is_past) return undefined;
    return run.faults.find((it) => it.at >= run.at && it.at !== passed);
  }

  stop_before(fault) {
    this.run.go(fault.at);
    this.stop("exception", this.fault_words(fault).split("\n")[0]);
  }

  /** The fault that is next, if the machine stands before one. */
  fault_here() {
    return this.run.faults.find((it) => it.at === this.run.at);
  }

  fault_words(fault) {
    const program = this.run.program_of(fault.pid), known = this.programs.symbols(program)?.known() ?? {};
    return fault_in_words(this.run, fault, { program, known });
  }

  // ---- steps

  /** A step of a process: by a line ("over", "into", "out"), or by an instruction. A break point or a fault ends it. */
  step(pid, how, by_instruction, is_back) {
    const { run, player, programs } = this, pc = this.pc(pid), from = run.at;
    this.pid = pid;
    if (pc === null && !is_back) return this.stop("step", `process ${pid} has ended`);
    this.leave();
    let met = [];
    const halts = {
      stops: () => player.breaks.stops(),
      met: () => { met = this.stops.met(); return met.length ? words_of(met) : null; },
    };
    const known = programs.known(run.program_of(pid), pc ?? 0n), wants = { how, back: is_back, pid, halts };
    const words = by_instruction || !known.lines.length
      ? own_step(run, player.plan, wants) : line_step(run, player.plan, { ...wants, ...known });
    const is_fault = (it) => !is_back && this.stops_at_faults && it.at > from && it.at < run.at;
    const fault = run.faults.find(is_fault);
    if (fault) return this.stop_before(fault);
    if (met.length) return this.stop_at(met);
    if (this.is_over && !is_back) return this.end();
    return this.stop("step", words || undefined);
  }

  // ---- back

  /** Back to the last stop before here: a break point that holds, or a fault; else the beginning. */
  play_back() {
    const { run } = this, fault = this.stops_at_faults ? run.faults.filter((it) => it.at < run.at).at(-1) : undefined;
    this.is_playing = true;
    this.origin = run.at;
    this.stops.left = null;
    this.later(() => this.slice_back(fault, this.search(run.at)));
  }

  /** Looks back for a while: at a place that is found it stops, if the conditions hold there, or it looks on before. */
  slice_back(fault, search) {
    const until = performance.now() + SLICE;
    for (let found = null; this.is_playing; found = null) {
      while (!(found = search.part()) && performance.now() < until);
      if (found === null) return this.later(() => this.slice_back(fault, search));
      this.come_back(found, fault);
      search = this.search(found.place);
    }
    return undefined;
  }

  /** The search for the last place before another at which a break point stops. */
  search(before) {
    const { list } = this.player.breaks;
    return list.length ? seek(this.run, { what: "stop", breaks: list }, before) : { part: () => ({ place: -1 }) };
  }

  /** Comes back to a place that was found, or to the fault after it, and stops there, if it is a stop. */
  come_back(found, fault) {
    const { run } = this;
    if (fault && fault.at > found.place) return this.stop_before(fault);
    run.go(Math.max(0, found.place));
    if (found.place < 0) return this.stop("entry", "no break point stops before here");
    const met = this.stops.met();
    if (met.length && !this.stops.came_before()) return this.stop_at(met);
    return this.stops.call_here() ? this.stop_after_call() : undefined;
  }

  // ---- elsewhere

  /** Goes to a place of the run that has a number or a name (`way_of`). */
  go(way) {
    this.is_playing = true;
    const reach = new Reach(this.run, this.player.plan, way);
    const on = () => {
      if (!reach.go(performance.now() + SLICE)) return this.later(on);
      return this.stop("goto", reach.is_there ? "" : "the run has no such place: this is as far as it goes");
    };
    this.later(on);
  }

  /** Takes keys that are typed here. In the past they cut off what came after. */
  type(bytes) {
    const { run } = this;
    if (run.is_past) {
      this.end_of_record = 0;
      this.shown = Math.min(this.shown, run.shown_count());
    }
    this.player.type(bytes);
  }
}
