// What is written in the place of a line that the assembler refuses, if that takes more than the line itself: a name
// for a number becomes the number wherever it stands, an alignment the bytes that lead there, and a product a loop.
// Each function is given {lines, place}, and answers {written, others, button}: the text in the line's place, perhaps
// of several lines; which other lines change to what, [line, text] each; and the words for a button. It answers null if
// it can't be told.
import { REGISTERS } from "./registers.mjs";

const LABEL = /^(\s*[A-Za-z_]\w*:)?(.*)$/s;
const NUMBER = /^-?(0x[0-9a-fA-F]+|\d+)$/;
const QUOTED_OR_CODE = /"(?:[^"\\]|\\.)*"?|'\\?.'|#.*|[^"'#]+|'/g;
const FREE = ["t0", "t1", "t2", "t3", "t4", "t5", "t6"];

/** The letter that is meant between quotes. */
export const letter_of = (text) => ({ "\\n": "\n", "\\t": "\t", "\\0": "\0", "\\r": "\r" })[text] ?? text;

/** Forms of other assemblers that have one meaning, and what stands in the place of each. */
const FORMS = [
  [/'(\\?.)'/g, (form, letter) => String(letter_of(letter).codePointAt(0))],
  [/\b0[bB]([01]+)\b/g, (form, digits) => String(parseInt(digits, 2))],
  [/\b0[oO]([0-7]+)\b/g, (form, digits) => String(parseInt(digits, 8))],
  [/\b0X[0-9a-fA-F]+\b/g, (form) => form.toLowerCase()],
  [/\/\/.*$/, (form) => `#${form.slice(2)}`],
];

/** A line's code with each such form as it stands here. */
export const with_forms = (code) => FORMS.reduce((so_far, [form, to]) => so_far.replace(form, to), code);

/** The number of a register by its name, or -1. */
function register(name) {
  const found = /^x([0-9]|[12][0-9]|3[01])$/.exec(name), other = { zero: "x0", fp: "s0" }[name];
  if (other) return register(other);
  return found ? Number(found[1]) : name === "pc" ? -1 : REGISTERS.indexOf(name);
}

/** A line's parts: its label, its code, and its comment, from the `#` on. */
function parts_of(line) {
  const [, label = "", rest] = LABEL.exec(line), pieces = rest.match(QUOTED_OR_CODE) ?? [];
  const comment = pieces.at(-1)?.startsWith("#") ? pieces.pop() : "";
  return { label, code: pieces.join(""), comment };
}

// ---- a name for a number

const NAMED = /^\s*(?:\.(?:equ|set|eqv|equiv)\s+([A-Za-z_]\w*)\s*,|([A-Za-z_]\w*)\s*=)\s*(\S.*?)\s*$/;
const FROM_LABEL = /^\.\s*-\s*([A-Za-z_]\w*)$/; // how many bytes of data stand between a label and here

/** What a line gives a name to: {name, value}, or null. */
function named_in(line) {
  const [, by_word, by_sign, value = ""] = NAMED.exec(with_forms(parts_of(line).code)) ?? [];
  return NUMBER.test(value) || FROM_LABEL.test(value) ? { name: by_word ?? by_sign, value } : null;
}

/** What a line gives a name to, with its value as a number; null if that can't be told. */
function named_at(lines, place, assemble) {
  const named = named_in(lines[place]), [, label] = FROM_LABEL.exec(named?.value) ?? [];
  if (!label) return named;
  const { at, names } = data_up_to(lines, place, assemble) ?? {};
  const from = names?.find((it) => it.name === label)?.address;
  return from !== undefined && from <= at ? { name: named.name, value: String(at - from) } : null;
}

/** A line with a number in the place of its name, in quotes and comments nowhere. */
function with_number(line, { name, value }) {
  const { label, code, comment } = parts_of(line), use = new RegExp(`(-?)(?<![\\w.])${name}(?![\\w:])`, "g");
  const number = (found, minus) => (minus && value.startsWith("-") ? value.slice(1) : minus + value);
  const written = code.replace(QUOTED_OR_CODE, (it) => (/^["']/.test(it) ? it : it.replace(use, number)));
  return label + written + comment;
}

/** In the place of `.equ NAME, NUMBER`: the number wherever the name stands, up to where it gets another one. */
export function number_for_name({ lines, place, of }, assemble) {
  const named = named_at(lines, place, assemble);
  if (!named || register(named.name) >= 0) return null;
  if (lines.some((it) => new RegExp(`^\\s*${named.name}:`).test(it))) return null;
  const places = [...lines.keys()].filter((k) => k === place || named_in(of[k])?.name === named.name);
  const is_one = places.length === 1, from = is_one ? 0 : place + 1;
  const to = is_one ? lines.length : places.find((k) => k > place) ?? lines.length, others = [];
  for (let k = from; k < to; k++) {
    const written = k === place ? of[k] : with_number(of[k], named);
    if (written !== of[k]) others.push([k + 1, written]);
  }
  const { label, comment } = parts_of(lines[place]), kept = `# ${named.name} is ${named.value}`;
  const written = [label, kept, comment].filter((it) => it).join(" ");
  return { written, others, button: `write ${named.value} wherever ${named.name} stands` };
}

// ---- an alignment

const ALIGNED = /^\s*\.(align|p2align|balign)\s+(\d+)\s*$/, SECTION = /^\s*\.(text|data)\s*$/, MOST = 4096;

/** A line without all but its label, or its section. */
const label_of = (line) => (SECTION.test(parts_of(line).code) ? line : parts_of(line).label);

/**
 * Where data stands that would begin at a line, and the labels of the data before it: {at, names}; null if no data
 * stands there. `assemble` tells the labels of a text.
 */
function data_up_to(lines, place, assemble) {
  let is_data = false;
  const name = "place_of_this_line", kept = lines.map((line, k) => {
    const section = SECTION.exec(parts_of(line).code)?.[1];
    if (section && k < place) is_data = section === "data";
    return k < place && is_data ? line : k === place ? `${parts_of(line).label}\n${name}:` : label_of(line);
  });
  const names = is_data ? assemble(kept.join("\n")).names : null, found = names?.find((it) => it.name === name);
  return found ? { at: found.address, names } : null;
}

/** In the place of `.align N`: so many bytes of 0 that what follows stands at such a multiple. */
export function room_for_alignment({ lines, place }, assemble) {
  const { label, code, comment } = parts_of(lines[place]), [, word, number] = ALIGNED.exec(code) ?? [];
  if (!word) return null;
  const multiple = word === "balign" ? Number(number) : 2 ** Number(number);
  if (multiple < 1 || multiple > MOST || !Number.isInteger(Math.log2(multiple))) return null;
  const data = data_up_to(lines, place, assemble), is_text = data === null && multiple <= 4;
  if (data === null && !is_text) return null;
  const lacks = is_text ? 0 : (multiple - (Number(data.at) % multiple)) % multiple;
  const left = [label, comment].filter((it) => it).join(" ");
  if (!lacks) return { written: left, others: [], button: "leave it out: it is so here" };
  const space = `.space ${lacks}`, written = `${label}${label ? " " : /^\s*/.exec(code)[0]}${space}`;
  const button = `write ${space}, which leads there`;
  return { written: comment ? `${written} ${comment}` : written, others: [], button };
}

// ---- a product

/** In the place of `mul rd, rs1, rs2`: a loop that adds up, with three registers that it saves on the stack. */
export function loop_for_product({ lines, place }) {
  const { label, code, comment } = parts_of(lines[place]);
  const [, indent, word, operands] = /^(\s*)(mulw?)\s+(.*?)\s*$/s.exec(code) ?? [];
  if (!word) return null;
  const given = operands.split(",").map((it) => it.trim()), numbers = given.map(register), [to, one, other] = given;
  if (given.length !== 3 || numbers.some((it) => it < 0 || it === register("sp")) || numbers[0] === 0) return null;
  const [a, b, bit] = FREE.filter((it) => !numbers.includes(register(it))), all = lines.join("\n");
  let name = `product_${place + 1}`;
  while (all.includes(name)) name += "_";
  const saved = [a, b, bit], each = (how) => saved.map((it, k) => `${how} ${it}, ${8 * k}(sp)`);
  const code_lines = [
    "addi sp, sp, -24", ...each("sd"), `mv ${a}, ${one}`, `mv ${b}, ${other}`, `li ${to}, 0`,
    `${name}: andi ${bit}, ${b}, 1`, `beq ${bit}, x0, ${name}_next`, `add ${to}, ${to}, ${a}`,
    `${name}_next: slli ${a}, ${a}, 1`, `srli ${b}, ${b}, 1`, `bne ${b}, x0, ${name}`,
    ...each("ld"), "addi sp, sp, 24", ...(word === "mulw" ? [`addiw ${to}, ${to}, 0`] : []),
  ];
  const blanks = indent || "  ", said = `  # ${to} = ${one} * ${other}${comment && ` ${comment}`}`;
  const made = code_lines.map((it) => (/^product/.test(it) ? it : blanks + it));
  made[0] = label + made[0] + said;
  return { written: made.join("\n"), others: [], button: `write a loop of ${made.length} lines` };
}
