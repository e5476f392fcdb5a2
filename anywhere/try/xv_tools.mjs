// The module of the programs around the machine under its own name, xv_tools: its first word says which of them it is.
import { module_of, run } from "../src/program.mjs";

process.exitCode = run(module_of("xv_tools"), "xv_tools", process.argv.slice(2));
