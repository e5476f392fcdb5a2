// The translation of an address by the page table of a process, and the last trap of a process, as the module tells
// them: for the worker.
import { KIND } from "./machine.mjs";
import { bits_of } from "./record.mjs";

const TRAPFRAME = 2, ROOT = 3, MIDDLE = 4, LAST = 5;

/**
 * The frames of a process that lead to a page: its trapframe, its root, and the tables below it; null where there is
 * none.
 */
function way_to(machine, count, pid, page) {
  const two = Math.floor(page / 262144), one = Math.floor(page / 512);
  const way = { trapframe: null, root: null, middle: null, last: null };
  for (let frame = 0; frame < count; frame++) {
    const use = machine.use(frame);
    if (use.pid !== pid) continue;
    if (use.kind === TRAPFRAME) way.trapframe = frame;
    else if (use.kind === ROOT) way.root = frame;
    else if (use.kind === MIDDLE && use.place === two) way.middle = frame;
    else if (use.kind === LAST && use.place === one) way.last = frame;
  }
  return way;
}

/** What the page table of a process says of an address: {address, page, way, rights, frame, size, registers}. */
export function translation(machine, count, pid, address) {
  const registers = machine.registers(pid);
  if (registers === null) return null;
  const page = Number((address >> 12n) & 0x7ffffffn), way = way_to(machine, count, pid, page);
  const is_low = address < 1n << 38n, rights = is_low ? machine.rights(pid, page) : 0;
  const frame = rights & 1 ? machine.frame(pid, page) : null, size = machine.size(pid) ?? 0n;
  return { pid, address, page, way, rights, frame, size, registers };
}

/**
 * The last trap of a process before a place, that where the run stands if no other is given: {at, kind, number, pc,
 * address}; null if it had none.
 */
export function last_trap(run, pid, before = run.at) {
  const { line, machine } = run;
  const is_trap = (kind) => kind !== KIND.STEP && kind <= KIND.FAULT;
  for (const k of line.along(line.find(before - 1), -1, { kinds: bits_of(is_trap), pid })) {
    const kind = line.kind(k);
    if (line.pid(k) !== pid || !is_trap(kind)) continue;
    const at = line.at(k), number = line.number(k);
    return run.look(at, () => {
      const process = machine.process(pid), next = machine.register(pid, 0);
      // A call that was begun before has moved the pc after its ecall.
      const pc = process?.call ? next - 4n : next, is_killed = kind === KIND.EXIT && process?.marked;
      return { at, kind, number, pc, address: machine.address(pid), is_killed };
    });
  }
  return null;
}
