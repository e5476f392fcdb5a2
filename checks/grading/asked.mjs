// Does what anywhere/marks.mjs and `xv --check` do, many times in one process: for strange.py beside it. Each line of
// standard input is a value of JSON, the words of a command; for each a line is printed, [STATUS, TEXT]. What isn't
// refused in words has status 125, and its stack.
import { basename, resolve } from "node:path";
import { createInterface } from "node:readline";
import { Refusal } from "../../anywhere/src/grading/words.mjs";
import { look_at, told } from "../../anywhere/src/marking/check.mjs";
import { Stop } from "../../anywhere/src/marking/held.mjs";
import { done } from "../../anywhere/src/marking/main.mjs";
import { read_sheet } from "../../anywhere/src/marking/sheet.mjs";

const check = (sheet, folder) => told(look_at(read_sheet(sheet), folder, basename(resolve(folder))));

/** What a command comes to. */
async function answer([name, ...words]) {
  try {
    return [0, (name === "check" ? check(...words) : await done([name, ...words])) ?? ""];
  } catch (error) {
    const is_told = error instanceof Stop || error instanceof Refusal;
    return is_told ? [error.status, error.message] : [125, error.stack];
  }
}

for await (const line of createInterface({ input: process.stdin })) {
  console.log(JSON.stringify(await answer(JSON.parse(line))));
}
