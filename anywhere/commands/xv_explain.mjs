#!/usr/bin/env node
// The program xv_explain, as a module.
import { begin } from "../src/begin.mjs";
begin("xv_explain", "./command.mjs");
