// writing.mjs PAGE.html FOLDER: writes sources as a student does, by keys: lines begin where the code before them does,
// lines are moved in and out and made comments, brackets are marked with their partners, words are found and replaced, and
// undo takes each back. The status is 1 if something isn't as it should be.
import { mkdirSync } from "node:fs";
import { pathToFileURL } from "node:url";
import { comes, files, source } from "./hand.mjs";
const { open } = await import(process.env.BROWSER === "firefox" ? "./firefox.mjs" : "./browser.mjs");

const [page_file, folder] = process.argv.slice(2);
mkdirSync(folder, { recursive: true });
let bad = 0;
const holds = (is, what) => { console.log(`${is ? "  " : "NOT"} ${what}`); if (!is) bad++; };
const page = await open(pathToFileURL(page_file).href);
const count = (name) => page.eval(`document.querySelectorAll('.marks .${name}').length`);
const SOURCE = "document.getElementById('source')";
const chosen = () => page.eval(`${SOURCE}.value.slice(${SOURCE}.selectionStart, ${SOURCE}.selectionEnd)`);
const stand = (from, to = from) => page.eval(`${SOURCE}.focus(); ${SOURCE}.setSelectionRange(${from}, ${to})`);
const brackets = (number) => comes(page, `document.querySelectorAll('.marks .bracket').length === ${number}`);
const has = async (text, what) => {
  const found = await source(page);
  holds(found === text, what + (found === text ? "" : `: ${JSON.stringify(found)}`));
};
const IN_C = "#include \"user.h\"\nint main(void) {\n    if (1) {\n        exit(0);\n    }\n}\n";
const ASSEMBLER = "_start:\n    li a0, 1\n    lw a1, 4(sp)\n    ecall\n";

async function assembler() {
  await files(page, [{ name: "init.s", text: ASSEMBLER }], "{ boots: false }");
  await page.until(`document.getElementById('source').value === ${JSON.stringify(ASSEMBLER)}`);
  await stand(7);
  await page.type("\nnop");
  await has(ASSEMBLER.replace(":\n", ":\n    nop\n"), "a line after a label begins further in");
  await page.key("z", { control: true });
  await page.key("z", { control: true });
  await has(ASSEMBLER, "undo takes the letters back, then the line");
  const text = await source(page), first = text.indexOf("    li"), third = text.indexOf("    ecall");
  await stand(first, third);
  await page.key("/", { control: true });
  await has("_start:\n    # li a0, 1\n    # lw a1, 4(sp)\n    ecall\n", "lines become comments");
  await page.key("/", { control: true });
  await has(ASSEMBLER, "and code again");
  await page.key("]", { control: true });
  await has("_start:\n        li a0, 1\n        lw a1, 4(sp)\n    ecall\n", "lines go further in");
  await page.key("[", { control: true });
  await has(ASSEMBLER, "and out");
  await stand(ASSEMBLER.indexOf("(sp)"));
  holds(await brackets(2), "a bracket and its partner are marked");
  await page.picture(`${folder}/brackets.png`);
  await stand(2);
  holds(await brackets(0), "and no more once the caret goes on");
}

async function in_c() {
  await files(page, [{ name: "prog.c", text: "#include \"user.h\"\n" }], "{ boots: false }");
  await page.until("document.getElementById('source').value.startsWith('#include')");
  await stand(18);
  await page.type("int main(void) {\nif (1) {\nexit(0);\n}\n}\n");
  await has(IN_C, "C is laid out as it is typed");
  await stand((await source(page)).length - 2);
  holds(await brackets(2), "braces far apart are partners");
  await page.type("]");
  await stand((await source(page)).length - 3);
}

async function search() {
  const text = "fork Fork fork\nwait\nfork\n" + "nop\n".repeat(300) + "fork\n";
  await files(page, [{ name: "notes.txt", text }], "{ boots: false }");
  await page.until("document.getElementById('source').value.startsWith('fork Fork')");
  await stand(1);
  await page.key("f", { control: true });
  await page.type("fork");
  const told = () => page.eval("document.getElementById('search-count').textContent");
  holds(await told() === "2 of 5", `the first that follows is chosen: ${await told()}`);
  await page.picture(`${folder}/search.png`);
  await page.key("Enter");
  holds(await told() === "3 of 5", "Enter goes to the next one");
  await page.key("Enter");
  await page.key("Enter");
  holds(await told() === "5 of 5", "and to one that isn't seen");
  holds(await page.eval("document.getElementById('editor').scrollTop > 1000"), "which is scrolled to");
  await page.key("Enter");
  holds(await told() === "1 of 5", "after the last comes the first");
  await page.key("Enter", { shift: true });
  holds(await told() === "5 of 5", "Shift Enter goes back");
  await page.eval("document.getElementById('search-other').value = 'exec'");
  await page.click("#search-all");
  holds((await source(page)) === text.replace(/fork/gi, "exec"), "all are replaced");
  holds(await told() === "none", "and none is left");
  await page.key("Escape");
  holds(await page.eval("document.activeElement.id === 'source' && document.getElementById('search').hidden"), "Escape leads back to the source");
  await page.key("z", { control: true });
  await has(text, "undo takes all back at once");
  await stand(5, 9);
  await page.key("f", { control: true });
  holds(await told() === "1 of 1", "what is chosen is looked for, and a capital letter tells capitals apart");
  await page.eval("document.getElementById('search-words').value = '('; document.getElementById('search-words').dispatchEvent(new Event('input'))");
  holds(await told() === "none" && await count("found") === 0, "a bracket is no pattern");
  await page.key("Escape");
  holds(await chosen() === "Fork", "what was found last stays chosen");
}

try {
  await assembler();
  await in_c();
  await search();
  holds((await page.eval("page.problems().length")) === 0, "no problem is told");
  for (const it of page.logs) console.log(`    the browser says: ${it}`);
} catch (error) {
  holds(false, error.stack);
  await page.picture(`${folder}/writing-failed.png`);
}
await page.close();
process.exitCode = bad ? 1 : 0;
