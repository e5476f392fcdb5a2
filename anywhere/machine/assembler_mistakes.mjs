// The mistakes of a source: all of them, what is wrong in each line in words, and the line that is to stand in its
// place.
import { letter_of, loop_for_product, number_for_name, room_for_alignment, with_forms } from "./written_lines.mjs";

/** So many mistakes are told of one source. */
export const MOST_MISTAKES = 20;

const LABEL = /^\s*[A-Za-z_]\w*:/;

/** A line without its mistake, so that others are found: its label alone; if this stands twice, all but the label. */
function line_without(kind, text) {
  const label = LABEL.exec(text)?.[0] ?? "";
  return kind === "DuplicateLabel" ? text.slice(label.length) : label;
}

/** The lines of a source with what is written in the place of one. */
function with_written(lines, place, { written, others }) {
  const made = [...lines];
  made[place] = written;
  for (const [line, text] of others) made[line - 1] = text;
  return made;
}

/**
 * What is written for a line with a mistake, the lines then, and their first mistake; null if that can't be told. Which
 * other lines change is told of the source's own ones.
 */
function tried(mistake, { lines, own }, { assemble, first_of }) {
  const place = mistake.line - 1, made = lines[place] ? mended(mistake, { lines, of: lines }, assemble) : null;
  if (!made) return null;
  const told = mended(mistake, { lines, of: own }, assemble);
  const next_lines = with_written(lines, place, made), next = first_of(next_lines);
  const more = made.written.split("\n").length - 1;
  if (next && next.line >= mistake.line && next.line <= mistake.line + more) return null;
  // (Behind several lines the others would have other numbers.)
  return more ? { told, next_lines: null, next: null } : { told, next_lines, next };
}

/**
 * The mistakes of a source, by the order in which the assembler tells them: {line, kind, written, others, button} each,
 * of which `written` is the line as it is meant, or null, `others` are lines that change too, [line, text], and
 * `button` has words for it; and whether there are `more`. `assemble` tells the first mistake of a text, or its file
 * and its labels. A line that is told is written as it is meant then, if the assembler takes that; else it is left
 * out, but for its label, so a mistake may come of one before it. A mistake of no line, as too little memory, is the
 * last that is told.
 */
export function all_mistakes(source, assemble) {
  const first_of = (its_lines) => {
    const { file, line, kind } = assemble(its_lines.join("\n"));
    return file ? null : { line, kind };
  };
  const mistakes = [];
  const own = source.split("\n");
  let lines = own, first = first_of(lines);
  while (first && mistakes.length < MOST_MISTAKES) {
    const { line, kind } = first, place = line - 1, text = lines[place];
    const found = tried(first, { lines, own }, { assemble, first_of });
    mistakes.push({ line, kind, written: null, others: [], ...found?.told });
    if (!text) return { mistakes, more: false };
    lines = found?.next_lines ?? with_written(lines, place, { written: line_without(kind, text), others: [] });
    first = found?.next_lines ? found.next : first_of(lines);
  }
  return { mistakes, more: Boolean(first) };
}

/** Words of other assemblers, and what to write in place of each. */
const SWAPS = {
  beqz: "this language has `beq a0, x0, label`",
  bnez: "this language has `bne a0, x0, label`",
  bltz: "write `blt a0, x0, label`",
  bgez: "write `bge a0, x0, label`",
  blez: "write `bge x0, a0, label`",
  bgtz: "write `blt x0, a0, label`",
  bgt: "turn the registers round: `blt b, a, label`",
  ble: "turn the registers round: `bge b, a, label`",
  bgtu: "turn the registers round: `bltu b, a, label`",
  bleu: "turn the registers round: `bgeu b, a, label`",
  neg: "write `sub rd, x0, rs`",
  negw: "write `subw rd, x0, rs`",
  not: "write `xori rd, rs, -1`",
  seqz: "write `sltiu rd, rs, 1`",
  snez: "write `sltu rd, x0, rs`",
  sltz: "write `slt rd, rs, x0`",
  sgtz: "write `slt rd, x0, rs`",
  jr: "write `jalr x0, 0(rs)`",
  tail: "write `j label`",
  lla: "write `la rd, label`",
  "sext.w": "write `addiw rd, rs, 0`",
  mul: "there is no multiplication: the machine has RV64I alone",
  mulw: "there is no multiplication",
  div: "there is no division: the machine has RV64I alone",
  divu: "there is no division",
  rem: "there is no remainder: the machine has RV64I alone",
  remu: "there is no remainder",
  ".type": "leave it out: the machine needs no such word",
  ".size": "leave it out: the machine needs no such word",
  ".option": "leave it out: the machine needs no such word",
  ".attribute": "leave it out: the machine needs no such word",
  ".file": "leave it out: the machine needs no such word",
  ".ident": "leave it out: the machine needs no such word",
  ".globl": "leave it out: `_start:` is found by its name",
  ".global": "leave it out: `_start:` is found by its name",
  ".section": "write `.text` or `.data`",
  ".string": "write `.asciz \"text\"`",
  ".ascii": "write `.asciz \"text\"`, which adds a zero byte",
  ".zero": "write `.space n`",
  ".skip": "write `.space n`",
  ".bss": "write `.data`",
  ".half": "there are `.byte`, `.word` and `.dword`",
  ".2byte": "there are `.byte`, `.word` and `.dword`",
  ".align": "nothing is aligned: put the widest numbers first",
  ".balign": "nothing is aligned: put the widest numbers first",
  ".p2align": "nothing is aligned: put the widest numbers first",
  ".quad": "write `.dword`",
  ".8byte": "write `.dword`",
  ".long": "write `.word`",
  ".4byte": "write `.word`",
};

const HAS_AN_OFFSET = /^(lb|lh|lw|ld|lbu|lhu|lwu|sb|sh|sw|sd|jalr)$/;
const HAS_AN_IMMEDIATE = /^(addi|andi|ori|xori|slti|sltiu|addiw|lb|lh|lw|ld|lbu|lhu|lwu|sb|sh|sw|sd|jalr)$/;
const IS_A_BRANCH = /^b(eq|ne|lt|ge|ltu|geu)$/;

/** What to write in place of what the assembler refuses. */
function hint_of(kind, text) {
  const word = (/^\s*(?:[A-Za-z_]\w*:)?\s*([A-Za-z_.][\w.]*)/.exec(text) || [])[1] || "";
  switch (kind) {
    case "UnknownWord":
      if (Object.hasOwn(SWAPS, word)) return SWAPS[word];
      if (/^\s*\.(byte|word|dword|asciz|space)\b/.test(text)) return "data stands behind a line `.data`";
      if (/[A-Z]/.test(word)) return "words are written in lower case";
      return "no word of this language, or not in this section";
    case "BadOperand":
      if (HAS_AN_OFFSET.test(word)) return `the form is \`${word} reg, number(reg)\`: the number may not be left out`;
      if (IS_A_BRANCH.test(word)) return `the form is \`${word} reg, reg, label\`: load a number by \`li\` first`;
      if (word === "la") return "the form is `la reg, label`";
      if (word === "li") return "the form is `li reg, number`";
      return "an operand is missing, is one too many, or has not the form that the word asks for";
    case "OutOfRange":
      if (HAS_AN_IMMEDIATE.test(word)) return "the number goes from -2048 to 2047: load a larger one by `li`";
      return "a number or a distance is outside its range";
    case "DuplicateLabel": return "this label stands on an earlier line too";
    case "UnknownLabel": return "no line has this label";
    case "NotText": return "the source is not UTF-8";
    default: return "the page has too little memory";
  }
}

/** The word of a line, what stands behind it, and all of the line without its label. */
function parts(line) {
  const [, rest] = /^\s*(?:[A-Za-z_]\w*:)?\s*(.*)$/s.exec(line);
  const [, word, operands] = /^(\.?[\w.]*)\s*(.*)$/s.exec(rest);
  return { rest, word, operands: operands.replace(/\s*#.*$/, "") };
}

/**
 * A hint, as "write `bne a0, x0, label`", with the operands that stand in the line, if these are as many as it has
 * places for.
 */
function fitted(hint, operands) {
  const given = operands.split(",").map((it) => it.trim()).filter((it) => it), [first] = given, last = given.at(-1);
  const places = { a0: first, a: first, rd: first, b: given[1], rs: last, label: last };
  return hint.replace(/`([^`]+)`/, (quoted, code) => {
    const names = new Set(code.match(/\b(a0|a|b|rd|rs|label)\b/g));
    if (names.size !== given.length) return quoted;
    return `\`${code.replace(/\b(a0|a|b|rd|rs|label)\b/g, (name) => places[name])}\``;
  });
}

function decimal(digits, base) {
  const value = parseInt(digits, base);
  return `numbers are decimal, or begin with 0x: write ${value} or 0x${value.toString(16)}`;
}

/** Forms of other assemblers, and what to write in place of each. */
const FOREIGN = [
  [/'(\\?.)'/, ([form, letter]) => `letters are written as numbers: ${letter_of(letter).codePointAt(0)} for ${form}`],
  [/\/\/|\/\*|^\*\//, () => "a comment begins with `#`"],
  [/;/, () => "a comment begins with `#`, and a line has one instruction"],
  [/^\.(?:equ|set|eqv)\b|^\w+\s*=/, () => "there are no names for numbers: write the number itself in each place"],
  [/\b0[bB]([01]+)\b/, ([, digits]) => decimal(digits, 2)],
  [/\b0[oO]([0-7]+)\b/, ([, digits]) => decimal(digits, 8)],
  [/\b0X[0-9a-fA-F]+\b/, ([form]) => `write the x small: ${form.toLowerCase()}`],
  [/%(?:hi|lo|pcrel_hi|pcrel_lo)\b/, () => "take a label's address by `la reg, label`"],
];

/**
 * The form of another assembler that a line has, and what to write in its place: [form, words]; null where it has none.
 */
function foreign(line) {
  const code = parts(line).rest.replace(/"(?:[^"\\]|\\.)*"?/g, '""').replace(/(?<!')#.*$/, "");
  for (const [form, words] of FOREIGN) { const found = form.exec(code); if (found) return [found[0], words(found)]; }
  return null;
}

const REGISTER = /^(x([0-9]|[12][0-9]|3[01])|zero|ra|sp|gp|tp|fp|t[0-6]|s([0-9]|1[01])|a[0-7])$/;
const is_no_register = (it) => /^[astx]\d+$/.test(it) && !REGISTER.test(it);
const NUMBER = /^-?(0x[0-9a-fA-F]+|\d+)$/;

/** What the mistake is about: the label, the number or the register that isn't one, or the word. */
function about(kind, line) {
  const { word, operands } = parts(line), given = operands.split(",").map((it) => it.trim());
  const wrong = {
    UnknownLabel: () => given.find((it) => !REGISTER.test(it) && !NUMBER.test(it)),
    OutOfRange: () => given.map((it) => /^-?\w+/.exec(it)?.[0]).find((it) => it && NUMBER.test(it)),
    BadOperand: () => given.find(is_no_register),
    DuplicateLabel: () => /^\s*([A-Za-z_]\w*):/.exec(line)?.[1],
  }[kind]?.();
  return wrong || word;
}

/** What to write in place of what is wrong in a line. */
function hint(kind, line, what) {
  if (kind === "BadOperand" && with_commas(parts(line).operands)) return "commas stand between operands";
  if (kind === "UnknownWord") return fitted(hint_of(kind, line), parts(line).operands);
  if (kind === "BadOperand" && is_no_register(what)) {
    return "there is no such register: a0 to a7, s0 to s11, t0 to t6, or x0 to x31";
  }
  return hint_of(kind, line);
}

// ---- what to write in a line's place

/** Words of other assemblers that have another name here, with the same operands. */
const OTHER_NAMES = {
  tail: "j", lla: "la", ".string": ".asciz", ".ascii": ".asciz", ".zero": ".space", ".skip": ".space", ".bss": ".data",
  ".quad": ".dword", ".8byte": ".dword", ".long": ".word", ".4byte": ".word",
};
/** Words of other assemblers that are left out here. */
const LEFT_OUT = new Set([".globl", ".global", ".type", ".size", ".option", ".attribute", ".file", ".ident"]);
/** The sections of others, by how their names begin. */
const SECTIONS = [[/^\.text\b/, ".text"], [/^\.(data|rodata|bss|sdata)\b/, ".data"]];

/** The instruction in place of one that other assemblers know, with the same operands; null if none can be told. */
function instruction_for(word, operands) {
  if (Object.hasOwn(OTHER_NAMES, word)) return `${OTHER_NAMES[word]} ${operands}`.trimEnd();
  if (LEFT_OUT.has(word)) return "";
  if (word === ".section") return SECTIONS.find(([it]) => it.test(operands))?.[1] ?? null;
  if (!Object.hasOwn(SWAPS, word)) return null;
  const hint = SWAPS[word], code = fitted(hint, operands);
  return code === hint ? null : /`([^`]+)`/.exec(code)[1];
}

/** The operands with commas between them; null if they have some, or aren't names and numbers. */
function with_commas(operands) {
  const given = operands.trim().split(/\s+/);
  return given.length > 1 && given.every((it) => /^-?\w+(\(\w+\))?$/.test(it)) ? given.join(", ") : null;
}

/** The line that has a mistake, as it is meant; null if that can't be told of it alone. */
function mended_line(kind, text) {
  const line = /^(\s*(?:[A-Za-z_]\w*:)?\s*)((?:"(?:[^"\\]|\\.)*"?|'\\?.'|[^#"'])*)(.*)$/s;
  const [, before, code, comment] = line.exec(text);
  const [, word, operands, end] = /^(\.?[\w.]*)\s*(.*?)(\s*)$/s.exec(code);
  const other = kind === "UnknownWord" ? instruction_for(word, operands) : null;
  if (other !== null) return other || comment ? `${before}${other}${other ? end : ""}${comment}` : before.trimEnd();
  if (!/"/.test(code)) {
    const made = with_forms(code);
    if (made !== code) return before + made + comment;
  }
  const listed = kind === "BadOperand" ? with_commas(operands) : null;
  return listed === null ? null : `${before}${word} ${listed}${end}${comment}`;
}

/**
 * What is written for one of the lines that has a mistake: {written, others, button}, with those others of the lines
 * `of` that change too; null if that can't be told.
 */
function mended({ line, kind }, { lines, of }, assemble) {
  if (kind !== "UnknownWord" && kind !== "BadOperand") return null;
  const place = line - 1, of_more = [number_for_name, room_for_alignment, loop_for_product];
  const made = kind === "UnknownWord" ? of_more.map((it) => it({ lines, place, of }, assemble)).find((it) => it) : null;
  if (made) return made;
  const written = mended_line(kind, lines[place]);
  if (written === null) return null;
  return { written, others: [], button: written.trim() ? `write ${written.trim()}` : "leave it out" };
}

/** A mistake of a source in words: the line, what is wrong in it, and what to write. */
export function mistake_words({ line, kind }, source) {
  const text = source.split("\n")[line - 1] ?? "", what = about(kind, text);
  const is_form = kind === "UnknownWord" || kind === "BadOperand";
  const [named, words] = (is_form ? foreign(text) : null) ?? [what, hint(kind, text, what)];
  return `line ${line}: ${named ? `\`${named}\`: ` : ""}${words} (${kind})`;
}
