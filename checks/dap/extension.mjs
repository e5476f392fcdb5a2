// Packs the extension for VS Code, and tries it without VS Code: extension.mjs. A module stands for `vscode` and notes
// what the extension hands over; the adapter that it names runs from the extension's own files, in an empty folder.
// It needs Python 3. The status is 1 if something differs.
import { execFileSync } from "node:child_process";
import { mkdirSync, mkdtempSync, rmSync, writeFileSync } from "node:fs";
import { createRequire } from "node:module";
import { tmpdir } from "node:os";
import { join } from "node:path";
import { fileURLToPath } from "node:url";
import { Client } from "./client.mjs";

const PACK = fileURLToPath(new URL("../../editor/vscode/pack.py", import.meta.url));
const room = mkdtempSync(join(tmpdir(), "vsix-")), at = join(room, "extension"), empty = join(room, "empty");
process.on("exit", () => rmSync(room, { recursive: true }));
let bad = 0;

function same(what, came, wanted) {
  if (came === wanted) return;
  console.log(`${what}: ${JSON.stringify(came)} came, and ${JSON.stringify(wanted)} is wanted`);
  bad++;
}

// The extension as it is installed, with a module in VS Code's place.
const python = (...words) => execFileSync("python3", ["-B", ...words], { cwd: room, encoding: "utf8" });
python(PACK, "one.vsix");
python(PACK, "two.vsix");
same("two packed files", python("-c", "print(open('one.vsix','rb').read() == open('two.vsix','rb').read())").trim(), "True");
python("-m", "zipfile", "-e", "one.vsix", room);
const vscode = join(at, "node_modules/vscode");
mkdirSync(vscode, { recursive: true });
mkdirSync(empty);
writeFileSync(join(vscode, "index.js"), `
  const noted = exports.noted = {};
  exports.workspace = { getConfiguration: () => ({ get: () => "" }) };
  exports.DebugAdapterExecutable = class { constructor(command, words) { Object.assign(this, { command, words }); } };
  exports.debug = {
    registerDebugAdapterDescriptorFactory: (type, it) => Object.assign(noted, it),
    registerDebugConfigurationProvider: (type, it) => Object.assign(noted, it),
  };
`);
const require = createRequire(join(at, "extension.js"));
require("./extension.js").activate({ extensionPath: at, subscriptions: [] });
const { noted } = require("vscode"), { contributes } = require("./package.json"), [debugger_told] = contributes.debuggers;

// F5 without a launch.json, and the configurations for who has none.
same("F5", noted.resolveDebugConfiguration(undefined, {}).program, "${file}");
const [, shell] = debugger_told.initialConfigurations.map((it) => noted.resolveDebugConfiguration(undefined, it));
same("the shell's programs", shell.programs[0], `${join(at, "nektavoly")}/programs/bin`);
for (const { path } of contributes.grammars) for (const { match } of require(path).patterns) {
  if (match && !match.includes("\\K")) new RegExp(match); // \K is of VS Code's own expressions
}

const { command, words } = noted.createDebugAdapterDescriptor({});
same("the command", `${command} ${words[1]}`, "node --dap");
const client = new Client(empty, words[0]);
await client.ask("launch", { ...shell, stopOnEntry: false });
await client.ask("setFunctionBreakpoints", { breakpoints: [{ name: "wc:main" }] });
await client.ask("configurationDone");
const { threadId } = await client.event("stopped"), [top] = await client.calls(threadId);
same("where it stops", top, "main wc.c:38");
await client.ask("continue");
await client.event("exited");
same("what the console shows", /1 1 3/.test(client.output), true);
await client.ask("disconnect");
same("the adapter's status", await client.ended, 0);
console.log(bad ? `${bad} not as they should be` : "the extension for VS Code: its adapter runs from its own files");
process.exit(bad ? 1 : 0);
