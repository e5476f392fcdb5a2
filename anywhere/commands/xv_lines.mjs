#!/usr/bin/env node
// The program xv_lines, as a module.
import { begin } from "../src/begin.mjs";

begin("xv_lines", "./command.mjs");
