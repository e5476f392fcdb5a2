#!/usr/bin/env node
// node anywhere/edit.mjs COMMAND WORD..: runs a command that asks for lines by the debugger's prompt, with Node's line
// editor in front of it. xv begins so at a terminal, if there is Node.
import { begin } from "./src/begin.mjs";
begin("xv", "./editing.mjs");
