// Tries what keys do to a source: node source_edits.mjs. In a text `|` is where the caret stands, or the two ends of
// what is chosen. The status is 1 if a text isn't as it should be.
import {
  brackets_at, closing_brace, commented, further_in, further_out, new_line, places_of_words, step_of,
} from "../src/source_edits.mjs";

let tried = 0, wrong = 0;

/** A text without its signs, and where they stood. */
function read(text) {
  const [before, between, after] = text.split("|");
  if (after === undefined) return { text: before + (between ?? ""), from: before.length, to: before.length };
  return { text: before + between + after, from: before.length, to: (before + between).length };
}

/** A text after a change, with the signs of what is chosen then. */
function shown(text, change) {
  if (change === null) return null;
  const made = text.slice(0, change.from) + change.text + text.slice(change.to), [from, to] = change.chosen;
  return from === to ? `${made.slice(0, from)}|${made.slice(from)}`
    : `${made.slice(0, from)}|${made.slice(from, to)}|${made.slice(to)}`;
}

function expect(name, found, wanted) {
  tried += 1;
  const [one, other] = [JSON.stringify(found), JSON.stringify(wanted)];
  if (one !== other) { wrong += 1; console.log(`${name}: ${one}, and it should be ${other}`); }
}

const key = (name, act) => (before, after, ...more) => {
  const { text, from, to } = read(before);
  expect(name, shown(text, act(text, from, to, ...more)), after);
};
const enter = key("Enter", new_line), brace = key("}", closing_brace), comment = key("Ctrl /", commented);
const indent = key("Ctrl ]", further_in), outdent = key("Ctrl [", further_out);

enter("int x;|", "int x;\n|", true);
enter("    int x;|", "    int x;\n    |", true);
enter("    int x;| // one", "    int x;\n    |// one", true);
enter("int main() {|", "int main() {\n    |", true);
enter("int main() {|}", "int main() {\n    |\n}", true);
enter("\tif (a) {|\n", "\tif (a) {\n\t\t|\n", true);
enter("  if (a) { // why|\n", "  if (a) { // why\n    |\n", true);
enter("int a[] = { 1, 2 };|", "int a[] = { 1, 2 };\n|", true);
enter("    |", "\n    |", true);
enter("start:|", "start:\n    |", false);
enter("start: # the first|", "start: # the first\n    |", false);
enter("  li a0, 1|", "  li a0, 1\n  |", false);
enter("start: li a0, 1|", "start: li a0, 1\n|", false);
enter("  li |a0, 1|\n  ecall", "  li \n  |\n  ecall", false);
brace("int f() {\n    if (a) {\n        b();\n        |", "int f() {\n    if (a) {\n        b();\n    }|");
brace("int f() {\n    |", "int f() {\n}|");
brace("int f() { |", null);
brace("    |", null);
brace("// {\n    |", null);
indent("li a0, 1|", "    li a0, 1|");
indent("  a\n|b\n\nc|", "  a\n|  b\n\n  c|");
indent("a|\nb\n|c", "|    a\n    b|\nc");
outdent("    li a0, 1|", "li a0, 1|");
outdent("|\ta\n b|", "|a\nb|");
outdent("a|", "a|");
comment("    a|\n", "    # a|\n", "#");
comment("|    a\n  b|", "|  //   a\n  // b|", "//");
comment("|  //   a\n\n  // b|", "|    a\n\n  b|", "//");
comment("|# a\nb|", "|# # a\n# b|", "#");
comment("#a|", "a|", "#");
expect("step", ["a\n  b", "\tc", "a:\n        b", "a", "a\n b"].map(step_of), ["  ", "\t", "        ", "    ", "    "]);
expect("bracket", brackets_at("f(a[1])", 7, true), [6, 1]);
expect("bracket", brackets_at("f(a[1])", 1, true), [1, 6]);
expect("bracket", brackets_at('f(")")', 1, true), [1, 5]);
expect("bracket", brackets_at('f(")")', 4, true), null);
expect("bracket", brackets_at("f(", 2, true), [1, null]);
expect("bracket", brackets_at("(]", 2, true), [1, null]);
expect("bracket", brackets_at("/* ( */ (a)", 4, true), null);
expect("bracket", brackets_at("  lw a0, 4(sp) # (", 14, false), [13, 10]);
expect("bracket", brackets_at("abc", 1, true), null);
expect("words", places_of_words("a.b A.B aXb", "a.b"), [0, 4]);
expect("words", places_of_words("fork Fork", "Fork"), [5]);
expect("words", places_of_words("aaaa", "aa"), [0, 2]);
expect("words", places_of_words("abc", ""), []);
console.log(`page/try/source_edits.mjs: ${tried} cases, ${wrong} are otherwise`);
process.exitCode = wrong ? 1 : 0;
