#!/usr/bin/env node
// The program xv_gdb, as a module.
import { begin } from "../src/begin.mjs";
begin("xv_gdb", "./command.mjs");
