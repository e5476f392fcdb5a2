#!/usr/bin/env node
// xv_run.mjs [--frames N] [--rounds N] [--quantum N] [--trace N] FILE..: does what xv_run does by the module that the
// environment's XV_MODULE names, so that the stored runs and the sessions can be played by it.
import { readFileSync, writeSync } from "node:fs";
import { basename } from "node:path";
import { EVENT, KIND, Machine } from "../../anywhere/machine/machine.mjs";

// Whoever asks for help wants to know whether this starts.
if (process.argv[2] === "--help") process.exit(0);
const options = { frames: 4096, rounds: 100000, quantum: 1000, trace: 0 }, names = [];
for (let k = 2; k < process.argv.length; k++) {
  const word = process.argv[k];
  if (word.startsWith("--")) options[word.slice(2)] = Number(process.argv[++k]);
  else names.push(word);
}
const out = [], errors = [];

function write(to, bytes) {
  for (let at = 0; at < bytes.length; ) {
    try { at += writeSync(to, bytes, at); } catch (error) { if (error.code !== "EAGAIN") throw error; }
  }
}
function end(status) {
  write(1, Buffer.from(out));
  write(2, Buffer.from(errors.map((line) => line + "\n").join("")));
  process.exit(status);
}

/** A note as a line of the trace. */
function line({ kind, pid, number, shown, value }) {
  switch (kind) {
    case KIND.STEP: return `step ${pid}`;
    case KIND.CALL: return `call ${pid} ${number} ${value}`;
    case KIND.WAIT: return `block ${pid} ${number}`;
    case KIND.EXIT: return `exit ${pid} ${number}`;
    case KIND.FAULT: return `fault ${pid} ${number}`;
    case KIND.TURN: return `turn ${pid}`;
    case KIND.IDLE: return "idle";
    case KIND.TICK: return "tick";
    case KIND.KEY: return `key ${number} ${shown}`;
    case KIND.SENT: return `sent ${number}`;
    case KIND.NONE: return "sent none";
    default: return "halted";
  }
}

const machine = new Machine(new WebAssembly.Module(readFileSync(process.env.XV_MODULE)));
const files = names.map((path) => {
  const bytes = readFileSync(path), name = basename(path);
  if (!name.endsWith(".s")) return { name, bytes };
  const made = machine.assemble(bytes.toString("utf8"));
  if (!made.file) { errors.push(`xv_run: ${path}: line ${made.line}: ${made.kind}`); end(2); }
  return { name: name.slice(0, -2), bytes: made.file };
});
const refusal = machine.boot(options, files);
if (refusal !== null) { errors.push(`xv_run: boot: ${refusal}`); end(2); }
const keys = readFileSync(0);
for (let round = 0; round < options.rounds && !machine.facts().halted; round++) {
  if (round < keys.length) out.push(...machine.event(EVENT.KEY, keys[round]).bytes);
  for (let left = options.quantum; left > 0; ) left -= machine.run(left).sent;
  machine.event(EVENT.TICK);
  for (let k = 0; k < 32; k++) out.push(...machine.event(EVENT.SEND).bytes);
}
const { halted, status, notes } = machine.facts();
for (let place = 0; place < notes; place++) errors.push(line(machine.note(place)));
if (!halted) { errors.push("xv_run: rounds over"); end(4); }
if (status === 0) end(0);
errors.push(`xv_run: init exited with ${status}`);
end(3);
