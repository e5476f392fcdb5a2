#!/usr/bin/env node
// The program xv_debugger, as a module.
import { begin } from "../src/begin.mjs";
begin("xv_debugger", "./command.mjs");
