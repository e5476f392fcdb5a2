// written.mjs MODULE.wasm: what is written in the place of lines of another assembler, if that takes more than the line
// itself: `.equ` becomes the number wherever the name stands, `.align` the bytes that lead there, `mul` a loop. Each
// source is written as its buttons say, until nothing is wrong; then it is booted, and ends with the status that GNU's
// program would end with. The status is 1 if something is otherwise.
import { readFileSync } from "node:fs";
import { all_mistakes } from "../../anywhere/machine/assembler_mistakes.mjs";
import { Machine } from "../../anywhere/machine/machine.mjs";

const machine = new Machine(new WebAssembly.Module(readFileSync(process.argv[2])));
const assemble = (text) => machine.assemble(text), EXIT = "  li a7, 2\n  ecall\n";
let bad = 0, tried = 0;
function is(told, wanted, what) {
  tried++;
  if (told === wanted) return;
  console.log(`${what}: ${JSON.stringify(told)} and not ${JSON.stringify(wanted)}`);
  bad++;
}

/** A source as the buttons of its mistakes write it, one after another; the list has each button's words. */
function written(source) {
  const buttons = [];
  let lines = source.split("\n");
  for (let k = 0; k < 50; k++) {
    const told = all_mistakes(lines.join("\n"), assemble).mistakes.find((it) => it.written !== null);
    if (!told) break;
    buttons.push(told.button);
    for (const [line, text] of [...told.others, [told.line, told.written]]) lines[line - 1] = text;
    lines = lines.join("\n").split("\n");
  }
  return { text: lines.join("\n"), buttons };
}

/** The status of a source's program: what is in a0 at its end. */
function status_of(text) {
  const made = assemble(text);
  if (!made.file) return `line ${made.line}: ${made.kind}`;
  const refusal = machine.boot({ frames: 64, trace: 0 }, [{ name: "init", bytes: made.file }]);
  if (refusal !== null) return refusal;
  for (let left = 100000; left > 0 && !machine.facts().halted; ) left -= Math.max(1, machine.run(1000).sent);
  return machine.facts().halted ? machine.facts().status : "it doesn't end";
}

function ends_with(source, wanted, what) {
  const { text, buttons } = written(source);
  is(status_of(text), wanted, `${what}, by ${buttons.join("; ")}`);
  return { text, buttons };
}

// ---- names for numbers

const names = ".equ SIZE, 0x20 # bytes\n.set LAST, -3\nN = 7\n_start:\n  li a0, SIZE # SIZE stays here\n  addi a0, a0, LAST\n  addi a0, a0, -LAST\n  addi a0, a0, N\n  la t0, it\n  lbu t1, N(t0)\n  add a0, a0, t1\n" + EXIT + ".data\nit: .asciz \"SIZE N \\\" N\"\nSIZED: .byte N\n";
const { text } = ends_with(names, 32 + 7 + '"'.charCodeAt(0), "names for numbers");
is(text.includes("li a0, 0x20 # SIZE stays here") && text.includes('"SIZE N \\" N"') && text.includes("SIZED: .byte 7"), true, "neither comments nor quotes nor other names are changed");
is(text.split("\n")[0], "# SIZE is 0x20 # bytes", "what the name was stays as a comment");
ends_with(`  li a0, N\n${EXIT}.equ N, 9\n`, 9, "a name that is used before it is given");
ends_with(`.set N, 1\n  li a0, N\n.set N, 5\n  addi a0, a0, N\n${EXIT}`, 6, "a name that gets another number");
ends_with(`.equ N, 4\n.equ M, N\n  li a0, M\n${EXIT}`, 4, "a name by another one");
ends_with(`.equ C, 'x'\n  li a0, C\n${EXIT}`, 120, "a name for a letter");
const message = ends_with(`_start:\n  la a1, msg\n  li a2, LEN\n  addi a0, a2, half\n${EXIT}.data\npad: .byte 1, 2, 3\nmsg: .asciz "hello\\n" # a text\nhalf = . - msg\n.equ LEN, . -pad\n`, 17, "how long a text is");
is(message.text.includes("# half is 7\n# LEN is 10"), true, "which stays as a comment");
for (const line of ["N = . - nothing", "N = . - msg", ".equ N, msg - 5", "N = ", "N == 5"]) is(written(`  ecall\n${line}\n.data\nmsg: .byte 5\n`).buttons.join(), "", `nothing is written for ${line}`);
ends_with(`.file "x.c"\n.option norvc\n.attribute arch, "rv64i"\n.globl _start\n.type _start, @function\n_start: li a0, 8\n${EXIT}.size _start, .-_start\n.ident "gcc"\n`, 8, "words of a compiler");

// ---- alignments

const placed = (before, word, then) => `_start:\n  la t0, there\n  andi a0, t0, 63\n${EXIT}.data\n${before}${word}\nthere: ${then}\n`;
for (const [before, word, wanted] of [
  ["a: .byte 1\n", ".align 3", 8], ["a: .byte 1, 2, 3\n", "  .p2align 2 # four", 4], ["a: .asciz \"four\"\n", ".balign 16", 16],
  ["a: .dword there\n", ".align 3", 8], ["a: .space 33\nb: .byte 5\n", "c: .balign 32", 0], ["", ".align 4", 0], ["a: .byte 1\nbeqz:\n", ".align 1", 2],
]) ends_with(placed(before, word, ".dword 5"), wanted, `${word} behind ${JSON.stringify(before)}`);
ends_with(placed("a: .byte 1\n.align 2\nb: .word 5\nc: .byte 1\n", ".align 3", ".dword 5"), 16, "two alignments");
const of_text = ends_with(`.align 2\n_start:\n  li a0, 3\n${EXIT}`, 3, "an alignment of instructions");
is(of_text.buttons.join(), "leave it out: it is so here", "which are always at multiples of four");

// ---- products

const product = (word, rd, one, other, values) => `_start:\n${values.map(([name, at]) => `  la t6, ${at}\n  ld ${name}, 0(t6)\n`).join("")}  ${word} ${rd}, ${one}, ${other}\n  la t6, want\n  ld t6, 0(t6)\n  sub a0, ${rd}, t6\n  sltu a0, x0, a0\n${EXIT}.data\n`;
const signed = (value) => BigInt.asIntN(64, value);
for (const [x, y] of [[0n, 5n], [6n, 7n], [-3n, 9n], [-1n, -1n], [1n << 40n, 3n], [-(1n << 63n), 1n], [0x7fffffffn, 0x10001n], [123456789n, -987654321n]]) {
  for (const [word, rd, one, other] of [["mul", "a0", "a1", "a2"], ["mul", "a1", "a1", "a2"], ["mul", "a2", "a1", "a2"], ["mul", "t0", "t1", "t2"], ["mul", "x5", "x5", "t3"], ["mulw", "s1", "a1", "a2"]]) {
    const want = word === "mulw" ? BigInt.asIntN(32, x * y) : signed(x * y);
    const data = `x: .dword ${signed(x)}\ny: .dword ${signed(y)}\nwant: .dword ${want}\n`;
    ends_with(product(word, rd, one, other, [[one, "x"], [other, "y"]]) + data, 0, `${word} ${rd}, ${one}, ${other} of ${x} and ${y}`);
  }
}
ends_with(`_start:\n  li a1, 5\n  mul a0, a1, a1\n  mul a0, a0, a1 # again\n${EXIT}`, 125, "two products");
const kept = ends_with(`_start:\n  li t0, 1\n  li t1, 2\n  li t2, 3\n  li t3, 4\n  mul a0, t3, t3\n  add a0, a0, t0\n  add a0, a0, t1\n  add a0, a0, t2\n${EXIT}`, 22, "a product leaves other registers");
is(kept.buttons.join(), "write a loop of 17 lines", "and says how long it is");
ends_with(`  li a0, 3\nx: mul a0, a0, a0\n${EXIT}`, 9, "a label before a product");
const bare = all_mistakes("product_1: ecall\n  mul a0, a0, a0\nproduct_2: ecall\n", assemble).mistakes;
is(bare.length, 1, "a label of the name that a loop would have is not taken twice");

console.log(bad ? `${bad} of ${tried} not as they should be` : `${tried} sources with words of another assembler do what they mean`);
process.exit(bad ? 1 : 0);
