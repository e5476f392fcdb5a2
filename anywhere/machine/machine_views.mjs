// What a machine has, as values that can be handed on: processes, instructions, pages, frames, descriptors and pipes.
import { PAGE, word_at } from "./memory.mjs";

const PAGE_OF_PROCESS = 6; // the use of a frame
const BEFORE = 40n, AROUND = 128n, INSTRUCTION = 4n; // bytes of instructions that are shown
const MOST_PAGES = 20000; // that are looked at one by one
const MOST_DESCRIPTORS = 32, IS_A_PIPE = 3; // of a process; the least kind of descriptor that names a pipe
const LISTS_OF_CONSOLE = [0, 1, 2];

/** The processes, live or not, of a run at its place. `counts` has the instructions that each has made. */
export function processes_of(run, counts) {
  const { machine } = run;
  return machine.pids().map((pid) => {
    const process = machine.process(pid), size = Number(machine.size(pid) ?? 0n);
    const wait = !process.lives || process.asleep ? { wait: machine.wait_text(pid) } : {};
    return { ...process, program: run.program_of(pid), size, made: counts.of(pid), ...wait };
  });
}

/** The instructions round an address: {address, word, text}. */
export function code_round(machine, pid, pc) {
  const first = pc >= BEFORE ? pc - BEFORE : pc & (INSTRUCTION - 1n), found = [];
  for (let address = first; address < first + AROUND; address += INSTRUCTION) {
    const word = word_at(machine, pid, address);
    if (word !== null) found.push({ address, word, text: machine.instruction(word, address) });
  }
  return found;
}

/** The pages of a process that are there, {page, rights, frame}, and its size. `frames`: how many the machine has. */
export function pages_of(machine, pid, frames) {
  const size = Number(machine.size(pid) ?? 0n), last = Math.min(Math.ceil(size / PAGE), 1 << 26), found = [];
  if (last <= MOST_PAGES) {
    for (let page = 0; page < last; page++) {
      const rights = machine.rights(pid, page);
      if (rights & 1) found.push({ page, rights, frame: machine.frame(pid, page) });
    }
    return { size, found };
  }
  // Of a memory that was promised only what is there is told: the frames say it.
  for (let frame = 0; frame < frames; frame++) {
    const use = machine.use(frame), page = use.place;
    if (use.kind !== PAGE_OF_PROCESS || use.pid !== pid) continue;
    found.push({ page, rights: machine.rights(pid, page), frame });
  }
  return { size, found: found.sort((a, b) => a.page - b.page) };
}

/** What each frame is used for, in arrays. */
export function frames_of(machine, count) {
  const kinds = new Uint8Array(count), pids = new Uint32Array(count), places = new Uint32Array(count);
  for (let frame = 0; frame < count; frame++) {
    const use = machine.use(frame);
    kinds[frame] = use.kind;
    pids[frame] = use.pid;
    places[frame] = use.place;
  }
  return { count, kinds, pids, places };
}

/** The descriptors of processes, the pipes that these name, with what is in them, and the console's lists. */
export function files_of(machine, processes) {
  const descriptors = [], pipes = new Map();
  const pipe_in = (frame) => ({ ...machine.pipe(frame), text: machine.pipe_bytes(frame) });
  for (const { pid } of processes.filter((it) => it.lives)) {
    for (let fd = 0; fd < MOST_DESCRIPTORS; fd++) {
      const it = machine.descriptor(pid, fd);
      if (it) descriptors.push(it);
      if (it?.kind >= IS_A_PIPE && !pipes.has(it.frame)) pipes.set(it.frame, pipe_in(it.frame));
    }
  }
  return { descriptors, pipes: [...pipes.values()], console: LISTS_OF_CONSOLE.map((list) => machine.console(list)) };
}
