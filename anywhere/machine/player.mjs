// Plays a run: forth by pieces, up to break points; by steps; to its end; and the keys that are typed. A key that is
// typed in the past cuts off what came after it: that is a future, and can be taken back.
import { EVENT } from "./machine.mjs";
import { BreakPoints } from "./break_points.mjs";
import { MOST_CUT_OFF, MOST_FUTURES, beginning_of, spans_of } from "./events.mjs";
import { GONE, MOST_SOUGHT, Plan } from "./plan.mjs";
import { step_back, step_forward } from "./steps.mjs";

const MOST_TO_STOP = 100000; // Runs of a piece of play, if each instruction is looked at
const MOST_TO_END = 40 * MOST_SOUGHT; // events up to the end of a run
const AT_CALL = "at a kernel call";

/** Of futures the last ones, as many as are held. */
function lasting(futures) {
  let letters = 0;
  const is_beyond = ({ text }, k) => (letters += text.length) > MOST_CUT_OFF && k < futures.length - 1;
  return futures.slice(futures.findLastIndex(is_beyond) + 1).slice(-MOST_FUTURES);
}

export class Player {
  constructor(run) {
    this.run = run;
    this.plan = null;
    this.breaks = new BreakPoints(run);
    // Runs that this one has had: {at, end, from, text}, in the order in which they come back, the last one first. One
    // is cut off at `at`, and goes to `end`; its events are this run's up to `from`, and `text` from there on.
    this.futures = [];
  }

  /** Boots a machine of which nothing was played. Null, or the refusal: then the machine before stays. */
  boot({ config, files, how = {}, keys = [], breaks = [] }) {
    const refusal = this.run.boot(config, files);
    if (refusal !== null) return refusal;
    this.plan = new Plan(this.run, how, keys);
    this.breaks.list = breaks;
    this.futures = [];
    return null;
  }

  /** Takes another order of events, {rounds, quantum}; the keys that wait stay. */
  set_order(how) {
    if (!this.plan) return;
    const { keys, given } = this.plan;
    this.plan = new Plan(this.run, how, keys);
    this.plan.given = given;
  }

  /** Plays the events of a record, and takes the keys that wait then. */
  play_spans(spans, keys = []) {
    this.run.send_spans(spans);
    this.plan.find();
    this.plan.type(keys);
  }

  // ---- forth

  /**
   * Plays many Runs, up to a break point. Answers why it ends there, in words; null: it may go on. `has_ticks`: ticks
   * come by the number of Runs; else the caller sends them.
   */
  piece(most, has_ticks = true) {
    const { run, plan, breaks } = this, looks = breaks.looks_at_each;
    const some = looks ? Math.min(most, MOST_TO_STOP) : most;
    if (run.is_past) {
      const to = Math.min(run.end, run.at + Math.max(1, some)), after_call = breaks.after_call_of_record(to);
      const is_met = run.replay(after_call ?? to, looks ? () => breaks.stops() : null);
      return !is_met && after_call !== null && this.is_stop_here() ? AT_CALL : this.words_here();
    }
    if (run.halted) return GONE;
    const stops = looks ? breaks.stops() : null;
    const told = has_ticks ? plan.next(some, stops) : plan.next_of_terminal(some, false, stops);
    return breaks.is_stop_after(told) ? AT_CALL : this.words_here();
  }

  /** Whether the last event is a call after which a break point stops. */
  is_stop_here() {
    const { line, at } = this.run;
    return this.breaks.is_stop_after(line.outcome(line.find(at - 1)));
  }

  /** Why a break point stops it here; null if none does. A key or a byte that is sent leads no process to one. */
  words_here() {
    const { run, breaks } = this;
    if (!breaks.looks_at_each || run.line.event(run.line.find(run.at - 1)) !== EVENT.RUN) return null;
    return breaks.words_here();
  }

  /** Goes on by a step, or back. Answers why it ended elsewhere, in words, or nothing. */
  step(what, is_back) {
    const { run, plan } = this;
    if (what !== "one") return is_back ? step_back(run, what) ?? "" : step_forward(run, plan, what);
    if (is_back) run.go(run.at - 1);
    else if (run.is_past) run.go(run.at + 1);
    else plan.next(1);
    return "";
  }

  /** Plays until process 1 is gone, or so many ticks are over. */
  finish(ticks) {
    const { run, plan } = this, clock = () => run.machine.facts().clock;
    run.go(run.end);
    plan.find();
    const last = clock() + ticks, from = run.at;
    while (run.at - from < MOST_TO_END && !run.halted && clock() < last) plan.next(1000000);
  }

  // ---- keys, and futures that they cut off

  /** Takes keys that are typed here. */
  type(bytes) {
    if (this.run.is_past) this.cut_off();
    this.plan.type(bytes);
  }

  /** The events from a place on, as they can be kept. */
  future_from(place) {
    return { at: place, end: this.run.end, from: place, text: this.run.events.text_from(place) };
  }

  /** The futures, as they have to be kept if this run is about to change from a place on. */
  futures_beside(place) {
    const own = this.run.events.text_from(place);
    const with_own = (it) => ({ ...it, from: place, text: beginning_of(own, it.from - place) + it.text });
    return this.futures.map((it) => (it.from > place ? with_own(it) : it));
  }

  /** Cuts off what the record has beyond this place. */
  cut_off() {
    const { at } = this.run;
    this.futures = lasting([...this.futures_beside(at), this.future_from(at)]);
    this.run.cut();
    this.plan.find();
  }

  /**
   * Brings the last future back: the record goes on as it did, and the machine stands where it was cut. What was here
   * comes back after all others. False if there is no future.
   */
  take_back() {
    const { run, plan } = this, future = this.futures.at(-1);
    if (!future) return false;
    const { at, from, text } = future, others = this.futures_beside(from).slice(0, -1);
    const left = run.end > from ? [{ ...this.future_from(from), at: Math.min(at, run.end) }] : [];
    plan.keys = [];
    run.go(from);
    run.cut();
    run.send_spans(spans_of(text));
    this.futures = [...left, ...others];
    plan.find();
    run.go(at);
    return true;
  }
}
