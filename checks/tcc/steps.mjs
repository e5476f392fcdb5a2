#!/usr/bin/env node
// steps.mjs FOLDER: a program that `xv --cc` has made, FOLDER/steps, in an editor: a break point at a line, steps by lines forth and back,
// and the calls that led there. It tells where each step stops, as `main steps.c:12`, with the calls from the inside out.
import { Client } from "../dap/client.mjs";

const [folder] = process.argv.slice(2), client = new Client(process.cwd());
const tell = async (how, { threadId }) => console.log(`${how}: ${(await client.calls(threadId)).join(", ")}`);

await client.ask("initialize", { adapterID: "xv" });
await client.event("initialized");
const programs = ["programs/bin/init", "programs/bin/sh", `${folder}/steps`];
await client.ask("launch", { programs, keys: "steps\n", stopOnEntry: false });
await client.ask("setBreakpoints", { source: { path: `${folder}/steps.c` }, breakpoints: [{ line: 12 }] });
await client.ask("configurationDone");
const stop = await client.event("stopped");
await tell("break", stop);
for (const how of ["stepIn", "next", "stepOut", "next", "stepBack"]) {
  await tell(how, await client.stop_after(how, { threadId: stop.threadId }));
}
await client.ask("disconnect");
await client.ended;
