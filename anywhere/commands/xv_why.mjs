#!/usr/bin/env node
// The program xv_why, as a module.
import { begin } from "../src/begin.mjs";
begin("xv_why", "./command.mjs");
