#!/usr/bin/env node
// The program xv_terminal, as a module.
import { begin } from "../src/begin.mjs";
begin("xv_terminal", "./command.mjs");
