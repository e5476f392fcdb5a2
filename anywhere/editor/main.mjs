// The adapter on standard input and output.
import { writeSync } from "node:fs";
import { Adapter } from "./adapter.mjs";
import { page_module } from "./page_module.mjs";
import { Reader, Writer } from "./protocol.mjs";

/** Serves one editor until it leaves; the exit status: 1 if what it sends can't be read any more. */
export function main(name) {
  return new Promise((leave) => {
    const say = ({ message }) => writeSync(2, `${name}: ${message}\n`);
    // What was written before is handed over first: pipes of some hosts take it later.
    const leave_with = (status) => process.stdout.write("", () => leave(status));
    const writer = new Writer((text) => process.stdout.write(text));
    const adapter = new Adapter(page_module(), writer, () => leave_with(0));
    const reader = new Reader((message) => adapter.take(message), say);
    process.stdin.on("data", (bytes) => {
      try {
        reader.take(bytes);
      } catch (error) {
        say(error);
        leave_with(1);
      }
    });
    process.stdin.on("end", () => leave_with(0));
    process.stdin.on("error", () => leave_with(0));
    process.stdout.on("error", () => leave(0));
  });
}
