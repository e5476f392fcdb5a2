#!/usr/bin/env node
// break_points.mjs: whether a break point at an address stops a process before the instruction that it does next, forth
// and on the way back. In the example fork, init waits for its child: behind the call a break point is met once, when
// wait has answered, and not as init gets its turn within the call. It needs nothing but Node and the page's module.
// The status is 1 if it is not so, and what is wrong is told.
import { readFileSync } from "node:fs";
import { page_module } from "../editor/page_module.mjs";
import { seek } from "../machine/backward_search.mjs";
import { Machine } from "../machine/machine.mjs";
import { Player } from "../machine/player.mjs";
import { Run } from "../machine/run.mjs";

const SOURCE = new URL("../../programs/examples/fork/init.s", import.meta.url);
const BEHIND_WAIT = 0x18n, ANSWER_IN = 10, CHILD = 2n, MOST_PIECES = 100;

const run = new Run(new Machine(page_module())), player = new Player(run);
const files = [{ name: "init", bytes: run.machine.assemble(readFileSync(SOURCE)).file }];
const breaks = [{ kind: "address", address: BEHIND_WAIT, program: null, name: "behind wait" }];
player.boot({ config: { frames: 64, trace: 0 }, files, how: { rounds: true, quantum: 1000 }, breaks });

/** The places at which the run stops on its way forth, to its end. */
function stops_forth() {
  const found = [];
  for (let piece = 0; piece < MOST_PIECES && !run.halted; piece++) {
    const told = player.piece(1000), { machine } = run;
    if (told !== null && !run.halted) found.push({ place: run.at, answer: machine.register(run.current, ANSWER_IN) });
  }
  return found;
}

/** The places of the stops on the way back from the end. */
function stops_back() {
  const found = [];
  for (let before = run.at; before >= 0; ) {
    const search = seek(run, { what: "break", breaks }, before);
    let last = search.part();
    while (last === null) last = search.part();
    if (last.place >= 0) found.push(last.place);
    before = last.place;
  }
  return found;
}

const forth = stops_forth(), back = stops_back(), [first] = forth;
const is_once = forth.length === 1 && first.answer === CHILD;
const is_same = back.length === 1 && back[0] === first?.place;
console.log(is_once && is_same
  ? `a break point behind wait is met once, after event ${first.place}, forth and back`
  : `a break point behind wait stops at ${forth.map((it) => `${it.place} (a0 ${it.answer})`)}, back at ${back}`);
process.exit(is_once && is_same ? 0 : 1);
