#!/usr/bin/env node
// Runs programs on the machine, on any host with Node: `node xv.mjs [OPTION..] FILE..` does what ./xv does at a shell. The programs
// of the machine are modules of WebAssembly, in anywhere/; nothing is built.
import { begin } from "./anywhere/src/begin.mjs";

begin("xv", "./modes.mjs");
