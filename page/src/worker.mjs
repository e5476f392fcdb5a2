// The worker: it has the machine, plays it, and tells the page how it stands. So the page stays alive at full speed.
// What runs a machine is in anywhere/machine; here are the messages, the time that they may take, and what is told.
import { all_mistakes } from "../../anywhere/machine/assembler_mistakes.mjs";
import { condition_of } from "../../anywhere/machine/conditions.mjs";
import { calls_of, line_step } from "../../anywhere/machine/line_steps.mjs";
import { end_before, last_of, round } from "../../anywhere/machine/event_search.mjs";
import { fault_in_words, faults_told, kill_in_words, kills_told } from "../../anywhere/machine/end_reports.mjs";
import { EVENT, Machine } from "../../anywhere/machine/machine.mjs";
import { InstructionCounts } from "../../anywhere/machine/instruction_counts.mjs";
import { code_round, files_of, frames_of, pages_of, processes_of } from "../../anywhere/machine/machine_views.mjs";
import { last_trap, translation } from "../../anywhere/machine/translation.mjs";
import { TICK } from "../../anywhere/machine/plan.mjs";
import { Player } from "../../anywhere/machine/player.mjs";
import { Reach } from "../../anywhere/machine/named_place.mjs";
import { Run } from "../../anywhere/machine/run.mjs";
import { seek } from "../../anywhere/machine/backward_search.mjs";
import { told_event } from "../../anywhere/machine/event_words.mjs";
import { VariablesOfRun, at_place } from "../../anywhere/machine/variable_stops.mjs";

const SLICE = 14; // ms of play between two looks at the messages: less than a frame of the page
const WHOLE = 90; // ms between two views with the processes and what the panels show, while the machine plays
const WHOLE_REST = 4; // and at least so many times as long as such a view takes to be made
const PIECE = 200000; // Runs between two looks at the clock
const ASKED = 60; // ms that the page's questions about events may take, before other messages are heard
const EVENTS_AT_ONCE = 4; // events that are looked at from one copy of the machine
// Stretches round a place of which the page is told, and of a part that it shows.
const ROUND = 2000, MOST_OF_PART = 16384;
const MEMORY_SHOWN = 256, MEMORY_BESIDE = 128; // bytes
const MOST_ENDED = 4; // processes as they ended, of which is known what was told
const PANELS_BESIDE = { instruction: true };

let machine = null, run = null, player = null;
let typed = 0; // the bytes that were typed into this machine
let settings = { rounds: false, quantum: 1000, speed: 0 };
let playing = false, timer = 0, turn = 0, next_tick = 0, owed = 0, slice_from = 0;
let wanted = {
  pid: 1, panels: {}, memory: null, translate: 0n, named: 0, shown: 0, text: 0, faults: -1, killed: -1, edits: -1,
};
let next_whole = 0;
let stopped = "";
let variables = null; // of the programs in C of the machine
let counts = new InstructionCounts();
const ended = new Map(); // processes as they ended: what was told of them last, by what was asked
let trap = { key: "", told: null }; // the last trap of the process that is looked at
let search = null; // a search back in the run, which goes on part by part

// ---- the view that is sent to the page

function processes() {
  if (counts.edits !== run.edits) counts = new InstructionCounts(run.edits);
  counts.go(run.line, run.at);
  return processes_of(run, counts);
}

/** The stretches of the block that may go on, or of one that is over, of which the page doesn't know. */
function new_stretches(block) {
  // The last one that was told may have gone on.
  const part = block.part(Math.max(0, block.find(Math.max(run.told - 1, block.start))));
  run.told = block.end;
  return part;
}

/** What came of the run since the last view: stretches, events, names of programs, and bytes of the console. */
function news() {
  const { line, names, events } = run, anew = wanted.edits !== run.edits, shown = run.shown_count();
  if (anew) Object.assign(wanted, { named: 0, shown: 0, text: 0, faults: -1, killed: -1, edits: run.edits });
  const text_from = Math.min(wanted.shown, shown), list = [];
  for (let k = wanted.named; k < names.length; k++) list.push({ pid: names.pid[k], place: names.place[k] });
  const told = {
    anew, shown, line: new_stretches(line.last), stretches: line.length, events: events.part(wanted.text),
    names: { from: wanted.named, list }, text: { from: text_from, bytes: run.shown.bytes.slice(text_from, shown) },
  };
  Object.assign(wanted, { named: names.length, shown, text: events.length });
  return told;
}

/** The process that is looked at: the one that is wanted, if it lives, or else one that does. */
function looked_at(current, list) {
  const pid = wanted.follow && current ? current : wanted.pid, live = list.filter((it) => it.lives);
  return live.some((it) => it.pid === pid) ? pid : current || (live.length ? live[0].pid : 0);
}

/** The memory that is shown: from the address that is wanted, or from sp on, or from 0 if none is there. */
function memory_of(pid, registers, memory) {
  const from = (at) => ({ at, bytes: machine.peek(pid, at, MEMORY_SHOWN) });
  const told = from(memory ?? registers[2] & ~15n);
  return told.bytes.length || memory !== null ? told : from(0n);
}

/** What the panels show of a process, with its memory from an address on. */
function process_panels(pid, { instruction, pages, translate }, memory = wanted.memory) {
  const registers = pid === 0 ? null : machine.registers(pid), { frames } = run.config;
  if (registers === null) return {};
  const told = { registers, next: machine.address(pid) };
  if (instruction) {
    told.code = code_round(machine, pid, registers[0]);
    told.memory = memory_of(pid, registers, memory);
  }
  if (pages) told.pages = pages_of(machine, pid, frames);
  if (translate) {
    told.translation = translation(machine, frames, pid, wanted.translate);
    told.trap = playing ? null : trap_of(pid);
  }
  return told;
}

/** The last trap of a process up to here. */
function trap_of(pid) {
  const key = `${run.edits} ${run.at} ${pid}`;
  if (trap.key !== key) trap = { key, told: last_trap(run, pid) };
  return trap.told;
}

const frames = () => frames_of(machine, run.config.frames);

/** The address that is wanted of a process: one, or what a register has, of its number. */
const address_of = (pid, memory) => (
  typeof memory === "number" ? (machine.register(pid, memory) ?? 0n) & ~15n : memory
);

/** A process as it ended, with what the panels show of it, and the frames as they were then; of pid 0 the last one. */
function as_it_ended(of_pid, { panels, memory, translate }) {
  const end = end_before(run.line, run.at, of_pid);
  if (!end) return null;
  const { at, pid } = end, key = JSON.stringify([run.edits, at, pid, panels, String(memory), String(translate)]);
  if (ended.has(key)) return ended.get(key);
  const told = run.look(at, () => ({
    pid, ended: { ...end, program: run.program_of(pid) }, program: run.program_of(pid),
    ...process_panels(pid, panels, address_of(pid, memory)),
    ...(panels.translate ? { trap: last_trap(run, pid, at + 1) } : {}), ...(panels.pages ? { frames: frames() } : {}),
  }));
  if (ended.size >= MOST_ENDED) ended.delete(ended.keys().next().value);
  ended.set(key, told);
  return told;
}

/** What is shown of the process that is looked at; one that was chosen and has ended, or if none lives, as it ended. */
function of_process(current, list) {
  const { follow, pid: chosen, panels } = wanted, lives = (pid) => list.some((it) => it.lives && it.pid === pid);
  const is_over = !list.some((it) => it.lives), is_gone = is_over || (!follow && !lives(chosen));
  const told = is_gone ? as_it_ended(is_over ? 0 : chosen, wanted) : null;
  if (told !== null) return told;
  const pid = looked_at(current, list);
  return { pid, ended: null, ...process_panels(pid, panels), ...(panels.pages ? { frames: frames() } : {}) };
}

/** One of two processes that are looked at side by side; `memory`: an address, or the number of a register. */
function beside_of(pid, memory, list) {
  const own = list.find((it) => it.pid === pid && it.lives), registers = own ? machine.registers(pid) : null;
  if (!registers) return { pid, ...as_it_ended(pid, { panels: PANELS_BESIDE, memory, translate: 0n }) };
  const at = typeof memory === "bigint" ? memory : registers[memory ?? 2] & ~15n;
  return {
    pid, program: own.program, registers, ended: null, code: code_round(machine, pid, registers[0]),
    memory: { at, bytes: machine.peek(pid, at, MEMORY_BESIDE) },
  };
}

/** What a whole view has beside: the processes, and what the panels show. */
function whole(current) {
  const { panels } = wanted, list = processes(), { futures } = player;
  const told = {
    processes: list, current,
    futures: futures.map(({ at, end }) => ({ at, count: end - at })), ...of_process(current, list),
  };
  if (panels.files) told.files = files_of(machine, list);
  if (wanted.beside) told.beside = wanted.beside.pids.map((pid, k) => beside_of(pid, wanted.beside.memory[k], list));
  const { along, bytes } = run.copies;
  return { ...told, copies: along.length, copies_bytes: bytes, memory_bytes: machine.memory().length };
}

/** Tells how the machine stands. While it plays, a whole view comes only so often that eyes can follow. */
function view() {
  if (!run || !run.booted) return;
  const began = performance.now(), facts = machine.facts(), { at, end, edits } = run;
  const told = { at, end, facts, program: run.program_of(facts.current), playing, stopped, edits, ...news() };
  Object.assign(told, { typed, waits: player.plan.keys.length });
  if (!playing || told.anew || began >= next_whole) {
    told.whole = whole(facts.current);
    if (run.faults.length !== wanted.faults) told.faults = faults_told(run);
    wanted.faults = run.faults.length;
    const { killed } = run;
    if (killed.length !== wanted.killed) told.kills = kills_told(run);
    wanted.killed = killed.length;
    if (player.futures !== wanted.futures) told.cut_off = player.futures;
    wanted.futures = player.futures;
    const took = performance.now() - began;
    next_whole = began + took + Math.max(WHOLE, WHOLE_REST * took);
  }
  postMessage({ view: told });
}

// ---- play

// Between two slices of play the messages that wait are heard. A timer of 0 ms would wait for 4 ms.
const slices = new MessageChannel();
slices.port1.onmessage = ({ data }) => { if (data === turn) play(); };

/** Plays on after so many milliseconds. */
function play_on(ms) {
  no_more();
  if (ms > 0) timer = setTimeout(play, ms); else slices.port2.postMessage(turn);
}

/** Takes back that it is played on. */
function no_more() {
  clearTimeout(timer);
  turn++;
}

/** The machine is to stand, as somebody wants something else of it. */
function stand() {
  playing = false;
  no_more();
  stopped = "";
}

function stop(why) {
  stand();
  stopped = why;
  view();
}

/** One piece of play. Tells whether to go on. */
function piece(most, has_ticks) {
  const why = player.piece(most, has_ticks);
  if (why !== null) stop(why);
  return why === null;
}

/** A slice of play at a speed, in Runs a second; false if it has stopped. */
function slice_at_speed(now) {
  owed = Math.min(owed + (settings.speed * Math.max(0, now - slice_from)) / 1000, settings.speed);
  slice_from = now;
  let left = Math.floor(owed);
  owed -= left;
  while (left > 0 && performance.now() - now < SLICE) {
    const before = run.at;
    if (!piece(left, true)) return false;
    left -= Math.max(1, run.at - before);
  }
  return true;
}

/** Whether a terminal waits for its next tick or key. */
const waits = () => player.plan.is_idle && !player.plan.has_key;

/** A slice of play at full speed; a terminal's ticks come by the clock. False if it has stopped. */
function slice_at_once(now, by_clock, is_terminal) {
  while (performance.now() - now < SLICE) {
    if (is_terminal && performance.now() >= next_tick) {
      next_tick = Math.max(next_tick + TICK, performance.now() - TICK);
      if (!run.halted) player.plan.tick();
    }
    if (!piece(PIECE, !by_clock)) return false;
    if (is_terminal && waits() && !machine.has_output()) return true;
  }
  return true;
}

function play() {
  if (!playing) return;
  const now = performance.now(), by_clock = !settings.rounds && !settings.speed;
  const is_terminal = by_clock && !run.is_past; // whether ticks come by the clock in this slice
  if (!(settings.speed ? slice_at_speed(now) : slice_at_once(now, by_clock, is_terminal))) return;
  view();
  if (is_terminal && waits()) {
    run.copies.prepare();
    play_on(Math.min(TICK, next_tick - performance.now()));
  } else play_on(settings.speed ? 16 : 0);
}

function begin_play() {
  if (!run || !run.booted || playing) return;
  playing = true;
  stopped = "";
  if (!run.is_past) player.plan.find();
  next_tick = performance.now() + TICK;
  slice_from = performance.now();
  owed = 0;
  no_more();
  play();
}

// ---- questions about the run

/** Whether it may be looked at how the machine stands at a place. */
const can_look = (place) => !playing && run?.booted && place <= run.end;

/** Tells of events what the record doesn't have, of as many as there is time for: the page asks again. */
function tell_events({ id, key, places }) {
  if (playing || !run?.booted) return;
  const began = performance.now(), list = [], there = places.filter((it) => it < run.end);
  while (there.length && performance.now() - began < ASKED) {
    const some = there.splice(0, EVENTS_AT_ONCE).sort((a, b) => a - b);
    run.look(some[0], () => { for (const place of some) list.push(told_event(run, place)); });
  }
  postMessage({ events_told: { id, key, list } });
}

/** Looks through one more part of the run for what is sought, and goes there once it is found. */
function seek_on(id, mine) {
  if (search !== mine) return;
  const found = mine.part();
  if (!found) {
    postMessage({ sought: { id, left: mine.left } });
    setTimeout(() => safely(() => seek_on(id, mine)));
    return;
  }
  search = null;
  if (found.place >= 0) { stopped = ""; run.go(found.place); }
  postMessage({ sought: { id, ...found } });
  view();
}

/** Goes on to a place that a link names. */
function reach_on(way) {
  if (search !== way) return;
  if (!way.go(performance.now() + ASKED)) { view(); setTimeout(() => safely(() => reach_on(way))); return; }
  search = null;
  view();
  postMessage({ reached: { is: way.is_there, at: run.at } });
}

// ---- messages

/** Break points as the page sends them, each with whether its condition is so. */
const with_conditions = (list) => (
  list.map((it) => (it.condition ? { ...it, is_met: condition_of(it.condition) } : it))
);

/** Boots a machine, and tells the page; false if it is refused. */
function boot({ id, how = {}, breaks = [], tables = [], ...asked }) {
  const before = performance.now(), order = { ...settings, ...how };
  const refusal = player.boot({ ...asked, how: order, breaks: with_conditions(breaks) });
  if (refusal !== null) {
    postMessage({ refused: { id, refusal } });
    view();
    return false;
  }
  ended.clear();
  variables = new VariablesOfRun(run, tables);
  counts = new InstructionCounts();
  Object.assign(wanted, { edits: -1, pid: 1 });
  settings = order;
  stopped = "";
  typed = 0;
  postMessage({ booted: { id, took: performance.now() - before } });
  return true;
}

const obey = {
  module({ bytes }) {
    machine = new Machine(new WebAssembly.Module(bytes));
    run = new Run(machine, (block) => { postMessage({ stretches: new_stretches(block) }); });
    player = new Player(run);
    postMessage({ ready: [...machine.kernel_calls] });
  },
  /** Boots a machine; `id` tells the page of which of its boots it hears. If one is refused, that before stays. */
  boot({ play: plays, ...asked }) {
    playing = false;
    no_more();
    if (!boot(asked)) return;
    if (plays) begin_play();
    view();
  },
  play: begin_play,
  pause() { if (playing) stop("paused"); },
  step({ what, back }) { stand(); stopped = player.step(what, back); view(); },
  go({ place }) { stand(); run.go(place); view(); },
  /** Plays at once, until process 1 is gone or so many rounds are over: for a lesson. */
  finish({ rounds }) { playing = false; no_more(); player.finish(rounds); view(); postMessage({ finished: true }); },
  keys({ bytes }) {
    if (!run || !run.booted) return;
    player.type(bytes);
    typed += bytes.length;
    if (playing) { no_more(); play(); } else view();
  },
  take_back() {
    if (!player.futures.length) return;
    stand();
    player.take_back();
    view();
  },
  look(it) { Object.assign(wanted, it); next_whole = 0; if (!playing) view(); },
  settings(it) {
    settings = { ...settings, ...it };
    player.set_order(settings);
    slice_from = performance.now();
    owed = 0;
  },
  breaks({ list }) { player.breaks.list = with_conditions(list); },
  tell_events,
  /** Tells the events round a place that are wanted. */
  round({ key, place, wants }) {
    if (run?.booted) postMessage({ round: { key, ...round(run.line, Math.min(place, run.end), wants, playing) } });
  },
  /** Tells the last event before a place that is wanted; null if there is none. */
  last_of({ id, before, wants }) {
    postMessage({ last_told: { id, found: run?.booted ? last_of(run.line, Math.min(before, run.end), wants) : null } });
  },
  /** Tells the stretches of a part, or round the place where the run stands, of which the page has but some. */
  stretches({ name, key, from, to }) {
    const around = name === "place" ? ROUND : 0;
    if (run?.booted) postMessage({ part: { name, key, part: run.line.part(from, to, around, MOST_OF_PART) } });
  },
  /** Tells a fault or a kill, by its place, in the words of the report, with what is known of its program's source. */
  explain({ at, known }) {
    if (!run?.booted || at >= run.end) return;
    const fault = run.faults.find((it) => it.at === at), it = fault ?? run.killed.find((it) => it.at === at);
    if (!it?.told) return;
    const text = (fault ? fault_in_words : kill_in_words)(run, it, { program: it.told.program, known });
    postMessage({ explained: { at, edits: run.edits, text } });
  },
  /** Tells the calls that led to where a process stands at a place. */
  calls({ key, pid, place, frames: rows }) {
    const tell = () => at_place(run, place, () => calls_of(machine, pid, rows));
    postMessage({ calls_told: { key, list: can_look(place) ? tell() : [] } });
  },
  /** Tells the variables of a call of a process. */
  variables({ key, ...asked }) {
    postMessage({ variables_told: { key, ...(can_look(asked.place) ? variables.since(asked) : { is_left: true }) } });
  },
  /** Steps by a line of a program's source: over calls, into them, or out of the function; back too. */
  line_step(wants) { stand(); stopped = line_step(run, player.plan, wants); view(); },
  /** Looks for the last store to an address, or the last stop of a break point, before this place. */
  seek({ id, ...wants }) {
    playing = false;
    no_more();
    const { list: breaks } = player.breaks, none = (words) => postMessage({ sought: { id, place: -1, words } });
    if (wants.what === "stop" && !breaks.length) { none("There are no break points."); view(); return; }
    search = seek(run, { ...wants, breaks }, run.at);
    search.gone = () => none("The search was ended.");
    seek_on(id, search);
  },
  seek_no_more() { /* each message that isn't aside ends a search */ },
  reach({ to }) {
    stand();
    search = new Reach(run, player.plan, to);
    search.gone = () => postMessage({ reached: { is: true, at: run.at } });
    reach_on(search);
  },
  assemble({ text, id }) {
    const made = machine.assemble(text);
    postMessage({ assembled: { id, ...made, ...(made.file ? {} : all_mistakes(text, (it) => machine.assemble(it))) } });
  },
  sum({ bytes, id }) { postMessage({ summed: { id, sum: machine.sum(bytes) } }); },
  record() {
    const files = run.files.map(({ name, bytes }) => ({ name, bytes }));
    postMessage({ record: { config: run.config, files, spans: run.events.spans() } });
  },
  /** Plays a record: its events, one by one. Then it goes to a place of it, and plays on, if that is wanted. */
  replay({ spans, keys = [], futures = [], at = null, play: plays = false, ...asked }) {
    playing = false;
    no_more();
    if (!boot(asked)) return;
    player.play_spans(spans, keys);
    player.futures = futures;
    if (at !== null) run.go(at);
    postMessage({ replayed: { id: asked.id, end: run.end, stretches: run.line.length, shown: run.shown.length } });
    if (plays) begin_play();
    view();
  },
  bench({ rounds, quantum }) {
    const before = performance.now(), from = run.at;
    for (let k = 0; k < rounds && !run.halted; k++) run.send_spans([[EVENT.RUN, 0, quantum], [EVENT.TICK, 0, 1]]);
    postMessage({ bench: { ms: performance.now() - before, events: run.at - from } });
  },
  back_bench({ times }) {
    const before = performance.now();
    for (let k = 0; k < times; k++) run.go(run.at - 1);
    postMessage({ back_bench: { ms: performance.now() - before, times, at: run.at } });
    view();
  },
};

/** Does something; what goes wrong is told. */
function safely(action) {
  try {
    action();
  } catch (error) {
    playing = false;
    search = null;
    postMessage({ error: String(error && error.stack || error), message: String(error && error.message || error) });
  }
}

// What a search goes on beside.
const ASIDE = new Set([
  "look", "assemble", "breaks", "tell_events", "round", "last_of", "stretches", "explain", "calls", "record",
  "settings", "sum", "variables",
]);

onmessage = ({ data }) => {
  if (!ASIDE.has(data.do) && search) { search.gone(); search = null; }
  safely(() => obey[data.do](data));
};
