// bad.mjs MODULE.wasm PROGRAMS-FOLDER: what the host page may do wrong is told by name, and changes nothing.
import { readFileSync } from "node:fs";
import { MOST_MISTAKES, all_mistakes } from "../../anywhere/machine/assembler_mistakes.mjs";
import { EVENT, Machine, UNTIL } from "../../anywhere/machine/machine.mjs";

const [module, folder] = process.argv.slice(2), compiled = new WebAssembly.Module(readFileSync(module));
const file = (name) => ({ name, bytes: readFileSync(`${folder}/${name}`) });
const text = (name, words) => ({ name, bytes: new TextEncoder().encode(words) });
const good = [file("init"), file("sh"), file("echo")];
let bad = 0;
function is(told, wanted, what) {
  if (told === wanted) return;
  console.log(`${what}: ${told} and not ${wanted}`);
  bad++;
}
function thrown(call) {
  try { call(); } catch (error) { return error.message; }
  return "nothing is wrong";
}

// Before the first boot.
const none = new Machine(compiled), MISSING = "no machine is booted";
is(thrown(() => none.event(EVENT.RUN)), MISSING, "an event");
is(thrown(() => none.run(5)), MISSING, "Runs");
is(thrown(() => none.until(5, UNTIL.FAULT)), MISSING, "a search");
is(thrown(() => none.run_to_stop(5, { addresses: [0n], bytes: [] })), MISSING, "Runs up to a stop");
is(thrown(() => none.back(5)), MISSING, "the way back");
for (const [what, call] of [["the facts", () => none.facts()], ["the pids", () => none.pids()], ["a process", () => none.process(1)], ["the size", () => none.size(1)], ["a register", () => none.register(1, 0)], ["a byte", () => none.byte(1, 0n)],
  ["the rights of a page", () => none.rights(1, 0)], ["the frame of a page", () => none.frame(1, 0)], ["a descriptor", () => none.descriptor(1, 0)], ["a pipe", () => none.pipe(0)], ["a pipe's bytes", () => none.pipe_bytes(0)], ["the console", () => none.console(0)],
  ["the next address", () => none.address(1)], ["the program", () => none.program(1)], ["the use of a frame", () => none.use(0)], ["a note", () => none.note(0)], ["why a process waits", () => none.wait_text(1)], ["a fault", () => none.fault_text(2)]]) is(thrown(call), MISSING, `${what} of no machine`);

// What boot refuses.
const machine = new Machine(compiled), config = { frames: 512, trace: 16 };
for (const [how, files, refusal] of [
  [{ frames: 15, trace: 0 }, good, "BadConfig"], [{ frames: 32769, trace: 0 }, good, "BadConfig"], [{ frames: 512, trace: 65537 }, good, "BadConfig"],
  [config, [], "NoInit"], [config, [file("sh")], "NoInit"], [config, [...good, text("a name of too many bytes", "x")], "BadPrograms 3"], [config, [file("init"), file("init")], "BadPrograms 1"],
  [config, [text("init", "no program file")], "Init NotElf"], [{ frames: 16, trace: 0 }, [file("tests"), { name: "init", bytes: readFileSync(`${folder}/tests`) }], "Init NoFrames"],
]) is(machine.boot(how, files), refusal, `boot of ${files.map((it) => it.name)} in ${how.frames} frames`);
is(machine.boot(config, good), null, "boot");

// A boot that is refused leaves the machine that is there.
machine.run(100);
const before = JSON.stringify(machine.facts());
machine.calls.xv_page_boot(machine.session, machine.programs, 512, 0, machine.told);
is(machine.view().getUint32(machine.at, true), 3, "boot without programs");
is(JSON.stringify(machine.facts()), before, "the machine behind it");

// Numbers that name nothing: of each kind the first behind the last that there is, and those that a byte or 32 bits
// would cut to one that there is.
const NOTHING = "nothing is of this number";
const calls = {
  "event": (kind) => machine.event(kind),
  "key": (byte) => machine.event(EVENT.KEY, byte),
  "a search of kind": (kind) => machine.until(5, kind, 1),
  "a step of process": (pid) => machine.until(5, UNTIL.STEP_OF, pid),
  "an address of process": (pid) => machine.until(5, UNTIL.AT, pid, 0n),
  "a call of number": (number) => machine.until(5, UNTIL.CALL, 0, number),
  "process": (pid) => machine.process(pid),
  "the size of process": (pid) => machine.size(pid),
  "the pc of process": (pid) => machine.register(pid, 0),
  "register": (number) => machine.register(1, number),
  "a byte of process": (pid) => machine.byte(pid, 0n),
  "the rights of page 0 of process": (pid) => machine.rights(pid, 0),
  "the rights of page": (page) => machine.rights(1, page),
  "the frame of page 0 of process": (pid) => machine.frame(pid, 0),
  "the frame of page": (page) => machine.frame(1, page),
  "descriptor 0 of process": (pid) => machine.descriptor(pid, 0),
  "descriptor": (fd) => machine.descriptor(1, fd),
  "the pipe of frame": (frame) => machine.pipe(frame),
  "the pipe's bytes of frame": (frame) => machine.pipe_bytes(frame),
  "the use of frame": (frame) => machine.use(frame),
  "the console's list": (list) => machine.console(list),
  "the next address of process": (pid) => machine.address(pid),
  "the program of process": (pid) => machine.program(pid),
};
const PIDS = [0, 2 ** 31, 2 ** 32 - 1, 2 ** 32 + 1], PAGES = [2 ** 26, 2 ** 32], FRAMES = [32768, 2 ** 32];
const WRONG = {
  "event": [4, 5, 255, 256, 2 ** 32, undefined], "key": [256, 512, 2 ** 32], "a search of kind": [6, 7, 256, 2 ** 32, undefined],
  "a call of number": [2n ** 31n, 2n ** 32n + 1n, 2n ** 64n - 1n], "register": [32, 33, 256, 2 ** 32], "the rights of page": PAGES, "the frame of page": PAGES, "descriptor": [32, 256, 288, 2 ** 32],
  "the pipe of frame": FRAMES, "the pipe's bytes of frame": FRAMES, "the use of frame": FRAMES, "the console's list": [3, 4, 256, 2 ** 32, undefined],
};
for (const [what, call] of Object.entries(calls)) for (const number of WRONG[what] || PIDS) is(thrown(() => call(number)), NOTHING, `${what} ${number}`);
// The module itself says so too, without the look that machine.mjs has at a number.
for (const slot of [64, 65, 256, -1]) is(machine.calls.xv_page_slot(machine.session, slot, machine.told) & 255, 4, `slot ${slot}`);
for (const kind of [4, 256, -1]) is(machine.calls.xv_page_event(machine.session, kind, 0, machine.told, machine.room, 384n) & 255, 4, `event ${kind} of the module`);
is(JSON.stringify(machine.facts()), before, "the machine behind them");

// What is of a number that there may be, but isn't there.
for (const [what, told] of [["process 9", machine.process(9)], ["a register of process 9", machine.register(9, 1)], ["a byte at 2^63", machine.byte(1, 2n ** 63n)], ["the frame of page 2^26 - 1", machine.frame(1, 2 ** 26 - 1)], ["descriptor 31", machine.descriptor(1, 31)], ["the pipe of frame 0", machine.pipe(0)], ["note 2^40", machine.note(2 ** 40)], ["why process 0 waits", machine.wait_text(0)], ["a fault of cause 1", machine.fault_text(1)], ["a fault of cause 16", machine.fault_text(16)]]) is(told, null, what);
is(machine.wait_text(9), "process 9 is no process", "why process 9 waits");
is(machine.rights(1, 2 ** 26 - 1), 0, "the rights of page 2^26 - 1");
is(machine.use(512).kind, 0, "the use of frame 512 of 512");

// Texts.
is(machine.instruction(0, 0n), null, "the word 0");
is(machine.instruction(0x73, 0n), "ecall", "the word 0x73");
is(Number(machine.calls.xv_page_instruction(0x73, 0n, machine.room, 4n)), 0, "ecall in a room of 4 bytes");
is(machine.assemble("  beqz a0, x\n").kind, "UnknownWord", "beqz");
is(machine.assemble("  li a0, 1\n  j nowhere\n").line, 2, "the line of an unknown label");

// All mistakes of a source, and lines that are written in place of others: each of these assembles.
const assemble = (source) => machine.assemble(source), first_of = (source) => { const { file, line, kind } = assemble(source); return file ? null : { line, kind }; };
const mistakes_in = (source) => { const { mistakes, more } = all_mistakes(source, assemble); return mistakes.map(({ line, kind }) => `${line} ${kind}`).join(", ") + (more ? ", .." : ""); };
is(mistakes_in("  li a0, 1\n"), "", "a source without mistakes");
is(mistakes_in("x: beqz a0, x\n  li a0 1\n  j nowhere\nx:\n  addi a0, a0, 5000\n  j x\n"), "1 UnknownWord, 2 BadOperand, 4 DuplicateLabel, 5 OutOfRange, 3 UnknownLabel", "five mistakes");
is(mistakes_in("foo\n".repeat(MOST_MISTAKES)).split(", ").length, MOST_MISTAKES, "as many mistakes as are told");
is(mistakes_in("foo\n".repeat(MOST_MISTAKES + 1)).endsWith(", .."), true, "one mistake more");
for (const [line, wanted] of [["  beqz a0, x # c", "  beq a0, x0, x # c"], ["  bnez a0, x", "  bne a0, x0, x"], ["  bltz a0, x", "  blt a0, x0, x"], ["  bgez a0, x", "  bge a0, x0, x"], ["  blez a0, x", "  bge x0, a0, x"], ["  bgtz a0, x", "  blt x0, a0, x"], ["  bgt a0, a1, x", "  blt a1, a0, x"], ["  ble a0, a1, x", "  bge a1, a0, x"],
  ["  bgtu a0, a1, x", "  bltu a1, a0, x"], ["  bleu a0, a1, x", "  bgeu a1, a0, x"], ["  neg a0, a1", "  sub a0, x0, a1"], ["  not a0, a1", "  xori a0, a1, -1"], ["  negw a0, a1", "  subw a0, x0, a1"], ["  sltz a0, a1", "  slt a0, a1, x0"], ["  sgtz a0, a1", "  slt a0, x0, a1"], ["  seqz a0, a1", "  sltiu a0, a1, 1"], ["  snez a0, a1", "  sltu a0, x0, a1"], ["  jr ra", "  jalr x0, 0(ra)"], ["  tail x", "  j x"], ["  lla a0, x", "  la a0, x"], ["  sext.w a0, a1", "  addiw a0, a1, 0"],
  [".globl x", ""], ["y: .globl x # c", "y: # c"], [".section .rodata", ".data"], ["  li a0, 'a'", "  li a0, 97"], ["  li a0, '#' # n", "  li a0, 35 # n"], ["  li a0, '\\n'", "  li a0, 10"], ["  li a0, 0b101 // five", "  li a0, 5 # five"], ["  li a0, 0X1F", "  li a0, 0x1f"], ["  addi a0 a1 1", "  addi a0, a1, 1"], ["  lw a0 4(sp)", "  lw a0, 4(sp)"],
  [".data\ny: .string \"a#b\" # c", "y: .asciz \"a#b\" # c"], [".data\n.zero 8", ".space 8"], [".data\n.skip 8", ".space 8"], [".bss\n.space 8", ".data"], [".data\n.8byte 8", ".dword 8"], [".data\n.4byte 8", ".word 8"], [".data\n.quad 8", ".dword 8"], [".data\n.long 8", ".word 8"]]) {
  const source = `x: ecall\n${line}\n`, [told] = all_mistakes(source, assemble).mistakes, lines = source.split("\n");
  is(told?.written, wanted, `in place of ${line}`);
  if (told) lines[told.line - 1] = told.written ?? "";
  is(first_of(lines.join("\n")), null, `${told?.written} assembles`);
}
for (const line of ["  mul x0, a0, a1", "  mul a0, sp, a1", "  mul a0, a1", "  div a0, a0, a1", "  .align 13", "  .align", "  .align a", "  .balign 3", "  .balign 8", ".equ a0, 5", ".equ x, 5", ".equ N, 2*3", "  beqz a0", "  constructor a0", "  __proto__ a0", "  ret a0 b", "  li a0, zz", "  j x; ecall"]) is(all_mistakes(`x: ecall\n${line}\n`, assemble).mistakes[0]?.written, null, `nothing can be written in place of ${line}`);
const at = machine.put(new Uint8Array([32, 255, 10]));
machine.calls.xv_page_assemble(at, 3n, machine.room, 65536n, machine.table, machine.told);
is(machine.view().getUint32(machine.at, true), 7, "a source that is no text");
const source = machine.put(new TextEncoder().encode("  ecall\n"));
machine.calls.xv_page_assemble(source, 8n, machine.room, 20n, machine.table, machine.told);
is(machine.view().getUint32(machine.at, true), 8, "a file in a room of 20 bytes");

// What is known of sources: nothing before it is begun, and no bytes that are no text.
const [no_bytes, three] = [machine.put(new Uint8Array(0)), machine.put(new Uint8Array([32, 255, 10]))];
is(machine.calls.xv_page_source(machine.sources, no_bytes, 0n, no_bytes, 0n) & 255, 4, "a source before the first table");
is(machine.calls.xv_page_know(machine.sources, three, 3n) & 255, 4, "a table that is no text");
is(machine.calls.xv_page_know(machine.sources, no_bytes, 0n) & 255, 0, "a table of no row");
is(machine.calls.xv_page_source(machine.sources, three, 3n, three, 3n) & 255, 0, "a program with neither symbols nor a source");

// Tables: where lines and labels lie, and the kernel's calls. Behind the last row, and without a table, there is none.
const shown = (it) => JSON.stringify(it, (_, value) => (typeof value === "bigint" ? Number(value) : value));
const { lines, names } = machine.assemble(".data\nword: .dword 5\n.text\n# Data stands behind the text.\nstart: la a0, word\n\n  li a7, 2  # exit\nend: ecall\n");
is(shown(lines), shown([{ line: 5, start: 0, end: 8 }, { line: 7, start: 8, end: 12 }, { line: 8, start: 12, end: 16 }]), "the lines of a source");
is(shown(names), shown([{ name: "word", address: 4096 }, { name: "start", address: 0 }, { name: "end", address: 12 }]), "the labels of a source");
const row = (call, place) => machine.calls[call](machine.table, place, machine.told, machine.room, 65536n) & 255;
for (const call of ["xv_page_line", "xv_page_label"]) is(row(call, 0n), 4, `${call} of no table`);
machine.calls.xv_page_assemble(source, 8n, machine.room, 65536n, machine.table, machine.told);
for (const [call, place, answer] of [["xv_page_line", 0n, 0], ["xv_page_line", 1n, 4], ["xv_page_line", 2n ** 63n, 4], ["xv_page_label", 0n, 4]]) is(row(call, place), answer, `${call} at the place ${place}`);
machine.calls.xv_page_assemble(at, 3n, machine.room, 65536n, machine.table, machine.told);
is(row("xv_page_line", 0n), 4, "a line of what is no text");
is(machine.calls.xv_page_call(16n, machine.told, machine.room, 65536n) & 255, 4, "a call behind the last");
machine.memory().fill(0, machine.room_at, machine.room_at + 4);
is(machine.calls.xv_page_call(0n, machine.told, machine.room, 3n) & 255, 0, "a call");
is(machine.memory()[machine.room_at], 0, "its name in a room of 3 bytes");

// Why a call is refused: of process 1, which has just booted; of any other there is no reason.
const reason = (number, ...words) => machine.reason_text(1, { number, words });
for (const [words, told] of [[[21, 7n, 0n, 0n], "descriptor 7 isn't open"], [[15, 0n, 9n, 0n], "nothing has this name"],
  [[12, BigInt.asUintN(64, -(1n << 30n)), 0n, 0n], "its memory can't have such a size"],
  [[6, 99n, 0n, 0n], "no process has the pid 99"], [[-5, 0n, 0n, 0n], "no call has this number"], [[11, 0n, 0n, 0n], null],
]) is(reason(...words), told, `the reason of call ${words}`);
is(machine.reason_text(2, { number: 21, words: [7n, 0n, 0n] }), null, "a reason of no process");
is(thrown(() => none.reason_text(1, { number: 21, words: [7n, 0n, 0n] })), MISSING, "a reason of no machine");

console.log(bad ? `${bad} answers to bad input are not as they should be` : "bad input is told by name, and changes nothing");
process.exit(bad ? 1 : 0);
