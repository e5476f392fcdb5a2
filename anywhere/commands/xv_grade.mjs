#!/usr/bin/env node
// The program xv_grade, as a module.
import { begin } from "../src/begin.mjs";
begin("xv_grade", "./command.mjs");
