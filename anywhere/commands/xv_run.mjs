#!/usr/bin/env node
// The program xv_run, as a module.
import { begin } from "../src/begin.mjs";
begin("xv_run", "./command.mjs");
