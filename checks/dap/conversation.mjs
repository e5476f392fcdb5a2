// Conversations of an editor with the debug adapter, told in lines: checks/dap/run.sh compares them with told.txt.
import { copyFileSync, mkdtempSync, readFileSync, rmSync, utimesSync, writeFileSync } from "node:fs";
import { tmpdir } from "node:os";
import { join } from "node:path";
import { pathToFileURL } from "node:url";
import { Client } from "./client.mjs";

const WC = { path: "programs/c/src/wc.c" }, HELLO = { path: "programs/examples/hello/init.s" };
const POINTS = { path: "checks/dap/points.c" };
const LOOP = { path: "programs/examples/fork/init.s" };
const room = mkdtempSync(join(tmpdir(), "dap-")); // for files that the conversations leave
process.on("exit", () => rmSync(room, { recursive: true }));

/** Says words, without the paths of this host. */
function say(...words) {
  console.log(words.join(" ").replaceAll(process.cwd(), ".").replaceAll(room, "ROOM"));
}

async function begun(launch, before = async () => {}, words = { adapterID: "xv" }) {
  const client = new Client(process.cwd());
  await client.ask("initialize", words);
  await client.event("initialized");
  await client.ask("launch", launch);
  await before(client);
  await client.ask("configurationDone");
  return client;
}

async function stopped(client, what, body) {
  say(`${what}: ${body.reason}${body.text ? `, ${body.text}` : ""}`);
  for (const it of await client.calls(body.threadId)) say("   ", it);
  return body.threadId;
}

async function variables(client, threadId, scope, names) {
  const { stackFrames: [{ id }] } = await client.ask("stackTrace", { threadId });
  const { scopes } = await client.ask("scopes", { frameId: id });
  const { variablesReference } = scopes.find((it) => it.name === scope);
  const { variables: all } = await client.ask("variables", { variablesReference });
  for (const { name, value, variablesReference: inner } of all.filter((it) => names.includes(it.name))) {
    say("   ", `${name} = ${value}`);
    const list = inner ? (await client.ask("variables", { variablesReference: inner })).variables : [];
    for (const it of list) say("       ", `${it.name}: ${it.value}`);
  }
}

/** Asks in the debug console, and says what is answered. */
async function evaluated(client, expression, context = "repl") {
  await client.ask("evaluate", { expression, context })
    .then(({ result }) => say(`${expression}:`, result), ({ message }) => say(`${expression}: refused:`, message));
}

/** A request that may be refused, in words. */
async function tried(client, command, args) {
  await client.ask(command, args).then(() => say(command, "is taken"), ({ message }) => say(`${command}:`, message));
}

async function left(client) {
  await client.ask("disconnect");
  say("left with", await client.ended);
}

async function refusals() {
  const client = new Client(process.cwd());
  await client.ask("initialize", {});
  const wrong = [
    {}, { program: 3 }, { program: "programs/examples/hello/nothing.s" }, { program: HELLO.path, frames: 3 },
    { program: HELLO.path, clock: "noon" }, { program: "README.md" }, { program: HELLO.path, quantum: 1.5 },
  ];
  wrong.push({ program: "programs/c/src/wc.c" }, { program: HELLO.path, replay: "VERSION" });
  const all = [...wrong.map((it) => ["launch", it]), ["threads", {}], ["attach", {}], ["sing", {}], ["writeMemory", {}]];
  for (const [command, words] of all) await tried(client, command, words);
  await left(client);
}

async function pipeline() {
  const keys = "echo hello world | wc\nexit\n";
  const client = await begun({ programs: "programs/bin", keys, stopOnEntry: false }, async (it) => {
    const lines = [{ line: 24 }, { line: 1 }, { line: 25, condition: "a0 == 99" }, { line: 26, condition: "b9 == 3" }];
    const { breakpoints } = await it.ask("setBreakpoints", { source: WC, breakpoints: lines });
    for (const { verified, message = "" } of breakpoints) say("break point:", verified ? "stands" : message);
  });
  const pid = await stopped(client, "first", await client.event("stopped"));
  for (const { name } of (await client.ask("threads")).threads) say("   ", name);
  await variables(client, pid, "Kernel", ["state", "program", "parent", "descriptors"]);
  await stopped(client, "a step to a break point", await client.stop_after("stepOut", { threadId: pid }));
  await client.ask("setBreakpoints", { source: WC, breakpoints: [] });
  for (const how of ["stepBack", "next", "stepBack", "stepOut", "stepBack", "stepIn"]) {
    await stopped(client, how, await client.stop_after(how, { threadId: pid }));
  }
  const by_instruction = { threadId: pid, granularity: "instruction" };
  await stopped(client, "one instruction", await client.stop_after("next", by_instruction));
  await variables(client, pid, "Registers", ["pc", "sp", "a0"]);
  await client.ask("setBreakpoints", { source: WC, breakpoints: [{ line: 24 }] });
  await stopped(client, "to the first again", await client.stop_after("continue", { threadId: pid }));
  await stopped(client, "back to the beginning", await client.stop_after("reverseContinue", { threadId: pid }));
  await client.ask("setBreakpoints", { source: WC, breakpoints: [] });
  await client.ask("continue", { threadId: pid });
  say("ended with", (await client.event("exited")).exitCode);
  say(JSON.stringify(client.output));
  await left(client);
}

async function fault() {
  const client = await begun({ programs: "programs/bin", keys: "crash 13\nexit\n", stopOnEntry: false });
  const pid = await stopped(client, "fault", await client.event("stopped"));
  say((await client.ask("exceptionInfo", { threadId: pid })).description.split("\n")[0]);
  await stopped(client, "the line before", await client.stop_after("stepBack", { threadId: pid }));
  await stopped(client, "and again", await client.stop_after("continue", { threadId: pid }));
  await client.ask("continue", { threadId: pid });
  say("ended with", (await client.event("exited")).exitCode);
  await left(client);
}

async function stops() {
  const client = await begun({ program: "programs/examples/fork/init.s", keys: "" });
  await stopped(client, "entry", await client.event("stopped"));
  const filterOptions = [{ filterId: "call", condition: "fork wait" }];
  await client.ask("setExceptionBreakpoints", { filters: ["fault"], filterOptions });
  for (let k = 0; k < 3; k++) await stopped(client, "a call", await client.stop_after("continue", { threadId: 1 }));
  await client.ask("setExceptionBreakpoints", { filters: ["fault"] });
  for (const name of ["sp", "a0", "_start", "nothing", "x 0 8", "at", "goto 2"]) await evaluated(client, name);
  await stopped(client, "event 2", await client.event("stopped"));
  const { dataId } = await client.ask("dataBreakpointInfo", { name: "0x2fd0" });
  const { breakpoints } = await client.ask("setDataBreakpoints", { breakpoints: [{ dataId, accessType: "write" }] });
  say("a byte is watched:", breakpoints[0].verified);
  await client.ask("continue", { threadId: 1 });
  say("ended with", (await client.event("exited")).exitCode);
  await left(client);
}

async function typed() {
  const client = await begun({ programs: "programs/bin", stopOnEntry: false });
  await client.until_output("$ ");
  await client.ask("evaluate", { expression: "type echo typed", context: "repl" });
  await client.until_output("typed\n$ ");
  await client.ask("pause", { threadId: 1 });
  await stopped(client, "paused", await client.event("stopped"));
  await left(client);
}

/** Memory and instructions, and break points of the other kinds. */
async function looked() {
  const client = await begun({ programs: "programs/bin", keys: "echo hi\nexit\n" });
  await client.event("stopped");
  const names = { breakpoints: [{ name: "echo:main" }, { name: "nothing" }] };
  const { breakpoints: told } = await client.ask("setFunctionBreakpoints", names);
  for (const { verified, message } of told) say(verified, message ?? "");
  const pid = await stopped(client, "a function of another program", await client.stop_after("continue"));
  const { stackFrames: [{ instructionPointerReference: at }] } = await client.ask("stackTrace", { threadId: pid });
  const some = { memoryReference: at, instructionOffset: -1, instructionCount: 3 };
  const { instructions } = await client.ask("disassemble", some);
  for (const it of instructions) {
    say("   ", it.address, it.symbol ?? "", it.instruction, it.location?.name ?? "", it.line ?? "");
  }
  const { data, unreadableBytes } = await client.ask("readMemory", { memoryReference: at, count: 8 });
  say("   ", Buffer.from(data, "base64").toString("hex"), unreadableBytes, "can't be read");
  await client.ask("setInstructionBreakpoints", { breakpoints: [{ instructionReference: at, offset: 12 }] });
  await stopped(client, "an instruction", await client.stop_after("continue"));
  await client.ask("setInstructionBreakpoints", { breakpoints: [] });
  const { dataId, description } = await client.ask("dataBreakpointInfo", { name: "sp" });
  say(description);
  await client.ask("setDataBreakpoints", { breakpoints: [{ dataId, condition: "a0 == 99" }] });
  await client.ask("setFunctionBreakpoints", { breakpoints: [] });
  const part = { source: { path: "programs/c/src/echo.c" }, line: 1, endLine: 12 };
  const { breakpoints } = await client.ask("breakpointLocations", part);
  say("lines:", breakpoints.map((it) => it.line).join(" "));
  await evaluated(client, "sp", "hover");
  await evaluated(client, "type x", "hover");
  await client.ask("continue");
  say("ended with", (await client.event("exited")).exitCode);
  await left(client);
}

/** A run that is saved is played again by a launch, and stops at the same places; ways forth and back in it. */
async function recorded() {
  const kept = join(room, "run.txt");
  const wanted = { programs: "programs/bin", keys: "echo one | wc\nexit\n", stopAtEnd: true };
  const first = await begun({ ...wanted, stopOnEntry: false });
  await stopped(first, "the end", await first.event("stopped"));
  await evaluated(first, `save ${kept}`);
  await evaluated(first, `save ${kept}`);
  await left(first);
  const client = await begun({ programs: "programs/bin", replay: kept, clock: "rounds", stopAtEnd: true });
  await stopped(client, "entry", await client.event("stopped"));
  await client.ask("setFunctionBreakpoints", { breakpoints: [{ name: "wc:_start" }, { name: "sh:_start" }] });
  for (const how of ["continue", "continue", "continue", "reverseContinue", "reverseContinue", "continue"]) {
    await stopped(client, how, await client.stop_after(how));
    await evaluated(client, "at");
  }
  for (const way of ["goto nowhere", "goto 99999999", "goto exit.2"]) await evaluated(client, way);
  await stopped(client, "the second end", await client.event("stopped"));
  const { targets } = await client.ask("gotoTargets", { source: WC, line: 24 });
  say(targets.map((it) => it.label).join("; "));
  await stopped(client, "the last time", await client.stop_after("goto", { targetId: targets[1].id }));
  say(client.output.trim());
  await left(client);
  await damaged(kept);
}

/** Records that are cut off, have more behind their end, or are none. */
async function damaged(kept) {
  const text = readFileSync(kept, "utf8"), wanted = { programs: "programs/bin", replay: kept, clock: "rounds" };
  for (const left_out of [text.slice(0, -40), `${text}more`]) {
    writeFileSync(kept, left_out);
    const client = await begun(wanted);
    await stopped(client, "entry", await client.event("stopped"));
    say(client.output.trim());
    await left(client);
  }
  const other = new Client(process.cwd());
  for (const bad of [text.replace(/program [0-9a-f]{4}/, "program 0000"), text.replace("run ", "run 0"), "x"]) {
    writeFileSync(kept, bad);
    await tried(other, "launch", wanted);
  }
  await left(other);
}

/** An editor that sets break points before it launches, counts lines from 0, and names files by addresses. */
async function early() {
  const client = new Client(process.cwd()), source = { path: String(pathToFileURL(LOOP.path)) };
  await client.ask("initialize", { linesStartAt1: false, columnsStartAt1: false, pathFormat: "uri" });
  const { breakpoints: [first] } = await client.ask("setBreakpoints", { source, breakpoints: [{ line: 8 }] });
  say(first.verified, first.message, first.line);
  await client.ask("configurationDone");
  await client.ask("launch", { program: LOOP.path, keys: "", stopOnEntry: false });
  const { reason, breakpoint } = await client.event("breakpoint");
  say(reason, breakpoint.verified, breakpoint.line, breakpoint.id === first.id);
  const body = await client.event("stopped"), { stackFrames: [top] } = await client.ask("stackTrace", body);
  const is_own = [body.hitBreakpointIds[0] === first.id, top.source.path === source.path];
  say(body.reason, ...is_own, "line", top.line, "column", top.column);
  await client.ask("restart");
  await stopped(client, "again", await client.event("stopped"));
  await left(client);
}

/** What is asked while the machine plays, and a run of which nobody looks at anything. */
async function playing() {
  const client = await begun({ programs: "programs/bin", stopOnEntry: false });
  await client.until_output("$ ");
  await tried(client, "next", { threadId: 1 });
  await tried(client, "stackTrace", { threadId: 77 });
  await evaluated(client, "goto 3");
  await evaluated(client, "key echo \\x41é\\n");
  await client.until_output("Aé\n$ ");
  say("letters of two bytes are shown");
  await client.ask("terminate");
  await client.event("terminated");
  await tried(client, "launch", { program: HELLO.path, noDebug: true });
  say("ended with", (await client.event("exited")).exitCode);
  await left(client);
}

/** What a pointer over a word tells in a call. */
async function hovered(client, frameId, expression) {
  const asked = client.ask("evaluate", { expression, frameId, context: "hover" });
  await asked.then(({ result, type }) => say(`    ${expression}: ${type ? `(${type}) ` : ""}${result}`),
    ({ message }) => say(`    ${expression}: refused:`, message.split(":")[0]));
}

/** Variables of C: each call's own, the program's, and parts of them. */
async function of_c() {
  const client = await begun({ program: POINTS.path.slice(0, -2), keys: "", stopOnEntry: false }, async (it) => {
    await it.ask("setBreakpoints", { source: POINTS, breakpoints: [{ line: 20, hitCondition: "2" }] });
  });
  const pid = await stopped(client, "the loop", await client.event("stopped"));
  const { stackFrames } = await client.ask("stackTrace", { threadId: pid });
  for (const { id, name } of stackFrames.slice(0, 2)) {
    const { scopes } = await client.ask("scopes", { frameId: id });
    say(`  ${name}:`, scopes.map((it) => it.name).join(", "));
    for (const { name: scope, variablesReference } of scopes.slice(0, 2)) {
      const { variables: all } = await client.ask("variables", { variablesReference });
      for (const it of all) say(`    ${scope}: ${it.type} ${it.name} = ${it.value}`);
    }
    for (const word of ["total", "shapes[1].corners[0].x", "shapes[0].name", "title", "all", "sp"]) {
      await hovered(client, id, word);
    }
  }
  await client.ask("setBreakpoints", { source: POINTS, breakpoints: [] });
  await client.ask("continue", { threadId: pid });
  say("ended with", (await client.event("exited")).exitCode);
  await left(client);
}

/** Conditions of variables of C: where they hold, and of one that isn't there. */
async function conditions() {
  const stopping = ["k == 1 && part == 7", "shapes[1].side == 1", "nothing == 1"];
  const others = ["letter != 97", "p->x == 1"];
  for (const condition of [...stopping, ...others]) {
    const client = await begun({ program: POINTS.path.slice(0, -2), keys: "", stopOnEntry: false }, async (it) => {
      const wanted = { source: POINTS, breakpoints: [{ line: 20, condition }] };
      const { breakpoints: [told] } = await it.ask("setBreakpoints", wanted);
      say(`${condition}:`, told.verified ? "stands" : told.message);
    });
    if (stopping.includes(condition)) {
      const pid = await stopped(client, "there", await client.event("stopped"));
      await variables(client, pid, "Locals", ["letter", "part", "k"]);
    } else say("ended with", (await client.event("exited")).exitCode);
    say(client.output.trim().split("\n").slice(1).join("\n"));
    await left(client);
  }
}

/** A source that was changed after its program was made. */
async function changed() {
  const program = join(room, "points"), [early, late] = [1000000000, 1000000060]; // seconds
  for (const end of ["", ".c", ".lines"]) {
    copyFileSync(POINTS.path.replace(".c", end), program + end);
    utimesSync(program + end, early, early);
  }
  for (const time of [early, late]) {
    utimesSync(`${program}.c`, time, time);
    const client = await begun({ program: `${program}.c`, keys: "" });
    await stopped(client, "entry", await client.event("stopped"));
    say(client.output.trim());
    await left(client);
  }
}

const CONVERSATIONS = {
  refusals, pipeline, fault, stops, typed, looked, recorded, early, playing, of_c, conditions, changed,
};
for (const [name, plays] of Object.entries(CONVERSATIONS)) {
  say(`== ${name}`);
  await plays();
}
