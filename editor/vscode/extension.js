// Starts the debug adapter of Nektavoly for VS Code: node FOLDER/xv.mjs --dap. The extension has all that this needs; the
// setting `nektavoly.folder` names another folder, as a clone.
const { existsSync } = require("fs");
const { join } = require("path");
const vscode = require("vscode");

const TYPE = "nektavoly", HERE = "${nektavoly}"; // stands for the folder in a launch configuration

function folder_of(context) {
  return vscode.workspace.getConfiguration(TYPE).get("folder") || join(context.extensionPath, TYPE);
}

/** A value of a configuration, with the folder in the place of its name. */
function with_folder(value, folder) {
  if (typeof value === "string") return value.split(HERE).join(folder);
  return Array.isArray(value) ? value.map((it) => with_folder(it, folder)) : value;
}

exports.activate = (context) => {
  const createDebugAdapterDescriptor = (session) => {
    const adapter = join(folder_of(context), "xv.mjs");
    if (!existsSync(adapter)) throw new Error(`there is no ${adapter}: set nektavoly.folder to a folder of Nektavoly`);
    const cwd = session.workspaceFolder?.uri.fsPath;
    return new vscode.DebugAdapterExecutable("node", [adapter, "--dap"], cwd ? { cwd } : undefined);
  };
  const resolveDebugConfiguration = (_, given) => {
    // Without a launch.json the debug button takes the file that is open.
    const asked = given.type ? given : { type: TYPE, request: "launch", name: "This source", program: "${file}" };
    const folder = folder_of(context), pairs = Object.entries(asked).map(([name, it]) => [name, with_folder(it, folder)]);
    return Object.fromEntries(pairs);
  };
  context.subscriptions.push(
    vscode.debug.registerDebugAdapterDescriptorFactory(TYPE, { createDebugAdapterDescriptor }),
    vscode.debug.registerDebugConfigurationProvider(TYPE, { resolveDebugConfiguration }),
  );
};
